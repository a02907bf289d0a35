/* Prints how many microseconds the loader of libyaml takes for the file that its word names; fails where the file is
   refused. */
#include <stdio.h>
#include <stdlib.h>
#include <time.h>
#include <yaml.h>

static long micros(void) {
    struct timespec now;
    clock_gettime(CLOCK_MONOTONIC, &now);
    return now.tv_sec * 1000000L + now.tv_nsec / 1000;
}

int main(int count, char **words) {
    static unsigned char text[1 << 21];
    FILE *file = count == 2 ? fopen(words[1], "rb") : NULL;
    if (file == NULL)
        return 1;
    size_t length = fread(text, 1, sizeof text, file);
    fclose(file);
    yaml_parser_t parser;
    yaml_document_t document;
    long begun = micros();
    if (!yaml_parser_initialize(&parser))
        return 1;
    yaml_parser_set_input_string(&parser, text, length);
    if (!yaml_parser_load(&parser, &document))
        return 1;
    long took = micros() - begun;
    yaml_document_delete(&document);
    yaml_parser_delete(&parser);
    printf("%ld\n", took);
    return 0;
}
