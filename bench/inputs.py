#!/usr/bin/env python3
"""Writes what works are timed on into a folder: texts, and tables of one case.

usage: inputs.py FOLDER
"""
import json
import os
import sys

FOLDER = sys.argv[1]
KIB = 1024


def write(name, text):
    with open(os.path.join(FOLDER, name), "w", encoding="utf-8") as it:
        it.write(text)


def table(name, given, setting=None):
    lines = [] if setting is None else [json.dumps({"setting": setting})]
    write(f"{name}.cases", "\n".join(lines + [json.dumps({"call": name, "given": given, "gives": ""})]) + "\n")


# --- texts of one form: how each begins, what stands before and behind the number in each part, and how it ends
GROUP = """
  instances: 3
  azs: [z1, z2]
  vm_type: small   # a comment
  jobs:
  - name: web
    release: r1
    properties:
      port: 8080
      url: "https://example.com/"
      enabled: true

      motd: |
        Welcome to the machine
        of the group
"""
FORMS = {
    "manifest": ("---\nname: dep\ninstance_groups:\n", "- name: group-", GROUP, ""),
    "mappings": ("", "instance-", ":\n  zone: 'z1'  # a comment\n", ""),
    "sequences": ("[", '[z1, "z2", ', "], ", "]\n"),
    "literals": ("text: |\n", "  line ", " of the literal\n", ""),
    "quoted": ("", '- "the quoted text of ', "\"\n- 'it''s a text'\n", ""),
    "plain": ("", "- a plain scalar of ", "\n", ""),
    "integers": ("", "- ", "\n", ""),
    "comments": ("a: b\n", "# a line of comment, the one of number ", "\n", ""),
    "blanks": ("a: b\n", "\n" * 47 + "# ", "\n", ""),
    "json": (
        '{"groups": [null',
        ', {"name": "group-',
        '", "instances": 3, "azs": ["z1", "z2"], "enabled": true}',
        "]}\n",
    ),
}


def text_of(form, size):
    begin, before, behind, end = FORMS[form]
    text, length, number = [begin], len(begin), 0
    while length <= size - 512:
        text.append(f"{before}{number}{behind}")
        length += len(text[-1])
        number += 1
    return "".join(text) + end


def texts():
    for size in (64, 256, 1024):
        for form in ("mappings", "sequences", "literals"):
            write(f"{form}.{size}", text_of(form, size * KIB))
    for form in FORMS:
        write(f"{form}.1024", text_of(form, 1024 * KIB))


# --- works: each is numbered by a byte, and needs the one before it, or all before it
def works():
    key = [f"{number:02x} jammy/1" for number in range(256)]
    for count in (64, 128, 256):
        for form, first in (("chain", lambda number: max(number - 1, 0)), ("all", lambda number: 0)):
            table(f"{form}.{count}", [
                {"name": "package", "key": key[number], "deps": key[first(number):number]} for number in range(count)
            ])


# --- the opening of a deploy of 512 instances, all of which change
def entries():
    setting = [
        ["inst", "'d 'g #5"],
        ["make", "'o '1 'z '{} #1 'n 000000000a000005"],
        ["spec", "#1 'j ab*32 #1 'p cd*32 #1 'f 't"],
        ["row", "$inst $make $spec 01 #10 'null 02 #4"],
        ["lists", "#1 'g #1 #2 #3 #1 'd 'g 'q 'l 'd 'g 'j 'l 'k #1 'p ab*32 'o '1 #1 cd*32 'o '1 #1 $make #0"],
    ]
    rows, changed = {"times": 512, "of": " $row"}, {"times": 512, "of": " $inst"}
    table("entry", ["02 04 #1 00 01 'd 01 'd #512", rows, " $lists #512", changed, " #0 #0 01 cd*32"], setting)


# --- a release whose packages each need all before them
def releases():
    for count in (64, 128, 256):
        files = {"config/final.yml": "name: large\n"}
        for number in range(count):
            needs = ", ".join(f"p{other}" for other in range(number))
            files[f"packages/p{number}/spec"] = f"name: p{number}\nfiles: [p{number}/*]\ndependencies: [{needs}]\n"
            files[f"packages/p{number}/packaging"] = "make\n"
            for place in range(1, 14):
                files[f"src/p{number}/{place}.c"] = "int answer() { return 42; }\n"
        table(f"release.{count}", files, "1")


# --- a cloud config of networks of 16 subnets with 32 reserved and 32 static ranges each; addresses of which many are held
def subnet(number, bits):
    ranges = [", ".join(f"10.{number}.{row}.{2 * at}-10.{number}.{row}.{2 * at + 1}" for at in range(32)) for row in (1, 2)]
    return (f"  - range: 10.{number}.0.0/{bits}\n    gateway: 10.{number}.0.1\n"
            f"    reserved: [{ranges[0]}]\n    static: [{ranges[1]}]\n")


def config(networks, subnets, bits):
    text = "azs: [{name: z1}]\nvm_types: [{name: small}]\n"
    text += "compilation: {workers: 1, az: z1, vm_type: small, network: n0}\nnetworks:\n"
    for number in range(networks):
        text += f"- name: n{number}\n  subnets:\n"
        text += "".join(subnet(16 * number + place, bits) for place in range(subnets))
    return text


def configs():
    for count in (8, 16):
        write(f"config.{count}", config(count, 16, 16))
    for count in (0, 4096, 8192):
        first, reserved = 10 << 24, (10 << 24) + 256
        addr = lambda number: ".".join(str(number >> bits & 255) for bits in (24, 16, 8, 0))
        table(f"pool.{count}", {
            "wants": [{"inst": f"dep/web/{index}", "net": "n0", "zone": "z1"} for index in range(512)],
            "taken": [{"owner": f"other/web/{at}", "net": "n0", "addr": addr(first + 1024 + at)} for at in range(count // 2)],
            "kept": [{"owner": f"dep/web/{at % 512}", "net": "n0", "addr": addr(reserved + at % 64)}
                     for at in range(count // 2)],
        }, config(1, 1, 8))


# --- ten calls on each of many machines
def clouds():
    calls = ["create_vm small none", "create_disk 10 @", "attach_disk @ @", "mount_disk @ @", "apply @ s", "start @",
             "drain @", "stop @", "start @", "ping @"]
    for count in (5000, 10000):
        table(f"cloud.{count}", {"machines": count, "calls": calls})


# --- the goals of deploys
CONFIG = """azs: [{name: z1}]
networks:
- name: net
  subnets: [{range: 10.64.0.0/16, gateway: 10.64.0.1, az: z1}]
vm_types: [{name: small}]
compilation: {workers: 4, az: z1, vm_type: small, network: net}
"""
PLACE = "azs: [z1], vm_type: small, stemcell: s, networks: [{name: net}]"


def head(releases, limit):
    return (f"name: gen\nreleases: [{releases}]\nstemcells: [{{alias: s, os: jammy, version: 1}}]\n"
            f"update: {{canaries: 1, max_in_flight: {limit}, canary_watch_time: 1000, update_watch_time: 1000}}\n"
            "instance_groups:\n")


def goal(name, count, jobs, files):
    groups = ""
    for number in range((count + 63) // 64):
        size = min(count - 64 * number, 64)
        groups += f"- {{name: g{number}, instances: {size}, {PLACE}, persistent_disk: 10, jobs: [{jobs}]}}\n"
    for number in range(8):
        needs = f"dependencies: [p{number - 1}]\n" if number else ""
        files[f"packages/p{number}/spec"] = f"name: p{number}\n{needs}"
        files[f"packages/p{number}/packaging"] = ""
    table(name, {"manifest": head("{name: gen, version: 1}", "10%") + groups}, {
        "dep": "gen", "config": CONFIG, "stemcells": [{"os": "jammy", "version": "1"}],
        "releases": [{"version": "1", "files": {"config/final.yml": "name: gen\n", **files}}],
    })


def goals():
    for count in (64, 256, 512):
        spec = "name: w\ntemplates: {w.erb: w.conf}\npackages: [p7]\n"
        goal(f"plain.{count}", count, "{name: w, release: gen}", {
            "jobs/w/spec": spec, "jobs/w/monit": "", "jobs/w/templates/w.erb": "index=<%= spec.index %>\n"})
        files, jobs = {}, []
        for number in range(64):
            listed = "".join(f"  p{at}: {{default: 0}}\n" for at in range(200))
            files[f"jobs/j{number}/spec"] = spec.replace("w\n", f"j{number}\n", 1) + "properties:\n" + listed
            files[f"jobs/j{number}/monit"] = ""
            files[f"jobs/j{number}/templates/w.erb"] = '<%= p("p0") %><%= p("p199") %>\n'
            given = "".join(f"p{at}: 1, " for at in range(200))
            jobs.append(f"{{name: j{number}, release: gen, properties: {{{given}}}}}")
        goal(f"full.{count}", count, ", ".join(jobs), files)


for make in (texts, works, entries, releases, configs, clouds, goals):
    make()
