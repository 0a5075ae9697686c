#!/usr/bin/env python3
"""Proves and builds a program or a static library of this repository, after the crates that it depends on, side by side.

    tools/build.py NAME

Standard error says which crate was proved, how many are left, and how long it took so far. The status is 0 if the
program or the library is built.
"""
import os
import shutil
import subprocess
import sys
import threading
import time
from concurrent.futures import FIRST_COMPLETED, ThreadPoolExecutor, wait
from pathlib import Path

import kit

# About the seconds that one processor takes for a crate, where four are at work. Only their proportions matter, for the order. A crate that isn't
# here takes one for each LINES lines.
SECONDS = {
    "upc_cell": 20, "gen_arena": 30, "leaky": 25, "vc_table": 30, "bpf_code": 45, "bpf_verify": 45, "bpf_interp": 60, "bpf_asm": 115,
    "line_record": 90, "card_core": 120, "port_card": 220, "text_io": 70, "text_words": 20, "text_script": 85, "text_card": 20,
    "text_command_line": 75, "rules_code": 60, "rules_cells": 45, "rules_diagrams": 150, "rules_text": 155, "captures": 95,
    "captures_text": 120, "cmd_programs": 45, "cmd_run": 50, "cmd_ports": 150, "cmd_list": 25, "cmd_rules": 75, "cmd_size": 50,
    "cmd_differ": 65, "cmd_explain_script": 90, "cmd_explain_rules": 95, "cmd_explain": 115, "cmd_fit": 80, "cmd_setups": 125,
    "cmd_police": 130, "cmd_forward": 80, "cmd_options": 110,
}
LINES = 15


def seconds(crate):
    """Returns about how long one processor proves a crate."""
    files = [it for part in ("src", "specs", "proofs") for it in Path(crate.folder, part).rglob("*.*t")]
    return SECONDS.get(crate.name) or sum(it.read_bytes().count(b"\n") for it in files) / LINES


def chains(program):
    """Returns for each crate the seconds of the longest chain from it to the program."""
    longest = {}
    for crate in reversed(program.below()):
        longest[crate.name] = seconds(crate) + max((longest[it.name] for it in program.below() if crate in it.deps), default=0)
    return longest


def is_current(crate):
    """Returns whether the library is built, and no library below it was built later: statements fit only the libraries that they were made over."""
    at = lambda it: os.path.getmtime(f"{os.path.dirname(it.rlib)}/stamp")
    return crate.is_built() and all(it.is_built() and at(it) <= at(crate) for it in crate.below())


def refused(crate, words, output, nice=0):
    """Proves a crate and writes what is built of it. Returns what the prover printed if it refused, or nothing."""
    rtlib = kit.module()
    whole = ["nice", "-n", str(nice), *rtlib.guarded(), rtlib.RATTLE, "build", *words, "-o", output]
    how = {"stdin": subprocess.DEVNULL, "stdout": subprocess.PIPE, "stderr": subprocess.STDOUT, "errors": "replace"}
    ran = subprocess.run(whole, cwd=crate.folder, **how)
    return ran.stdout or f"the status is {ran.returncode}" if ran.returncode else ""


def library_refused(crate, jobs, nice):
    """Proves a library and builds it. Returns what the prover printed if it refused, or nothing."""
    rtlib, stamp = kit.module(), crate.stamp()
    if is_current(crate):
        return ""
    folder = os.path.dirname(crate.rlib)
    shutil.rmtree(folder, ignore_errors=True)
    os.makedirs(folder)
    # What an earlier check kept serves again. Else nothing is kept, which is faster, and the library is written with its statements and without
    # their proofs: the crates above it load a third of the modules.
    keeps = crate.has_kept()
    cuts = ["--statements"] if "--statements" in rtlib.help_of("build") else []
    output = refused(crate, crate.words(["--jobs", str(jobs)], keeps=keeps) + (rtlib.KEPT if keeps else cuts), crate.rlib, nice)
    if not output:
        with open(f"{folder}/stamp", "w", encoding="utf-8") as it:
            it.write(stamp)
    return output


def program_refused(program, jobs, product):
    """Proves a program or a static library, over libraries that are built, and builds it. Returns what was printed if it failed, or nothing."""
    rtlib = kit.module()
    words = [*program.words(["--jobs", str(jobs)], keeps=False), "--toolchain", f"{rtlib.KIT}/toolchain", "--backend", "llvm"]
    os.makedirs(os.path.dirname(product), exist_ok=True)
    if program.is_static:
        return refused(program, words, product)
    output = refused(program, words, f"{product}.o")
    if output:
        return output
    words = ["--target", "x86_64-unknown-linux-gnu", "--toolchain", f"{rtlib.KIT}/toolchain", "-o", product, f"{product}.o"]
    words += [f"{rtlib.KIT}/c/{it}" for it in ("libos_c.a", "liblibc_c.a")]
    ran = subprocess.run([f"{rtlib.KIT}/bin/rattle-link", *words], stdout=subprocess.PIPE, stderr=subprocess.STDOUT, errors="replace")
    return ran.stdout or f"the status is {ran.returncode}" if ran.returncode else ""


def main(name):
    rtlib = kit.module()
    rtlib.guarded()
    begun, printing = time.time(), threading.Lock()
    program = next(it for it in kit.crates() if it.name == name)
    left, ready, running, longest = list(program.below()), set(), {}, chains(program)
    number, lanes = len(left) + 1, rtlib.cores()

    def report(text):
        with printing:
            print(f"{name}: {text}", file=sys.stderr, flush=True)

    report(f"proving and building {number} crates on {lanes} processors; the first time this takes some minutes")
    locks = rtlib.lock([program, *program.below()])
    with ThreadPoolExecutor(lanes) as pool:
        while left or running:
            free = [it for it in left if all(below.name in ready for below in it.below())]
            free.sort(key=lambda it: -longest[it.name])
            while free and len(running) < lanes:
                crate = free.pop(0)
                left.remove(crate)
                # A crate takes the processors that no other one waits for. The crate that the longest chain waits for comes before the
                # others, and takes half of all processors at least: more jobs cost more than they save while others wait.
                leads = all(longest[crate.name] >= longest[it.name] for it, _ in running.values())
                idle = lanes - sum(it for _, it in running.values())
                jobs = max(lanes // 2 if leads else 1, idle // (len(free) + 1), 1)
                running[pool.submit(library_refused, crate, jobs, 0 if leads else 5)] = crate, jobs
            for it in wait(running, return_when=FIRST_COMPLETED).done:
                crate, _ = running.pop(it)
                output = it.result()
                if output:
                    report(f"{crate.name} is not proved\n{output}")
                    return 1
                ready.add(crate.name)
                report(f"{crate.name} is proved, crate {len(ready)} of {number}, {kit.minutes(time.time() - begun)}")
    product = f"{program.folder}/out/" + (f"lib{name}.a" if program.is_static else name)
    if os.path.exists(product):
        os.remove(product)
    output = program_refused(program, lanes, product)
    for it in locks:
        os.close(it)
    if output or not os.path.exists(product):
        report(f"it is not built\n{output}")
        return 1
    report(f"{name} is proved and built, {kit.minutes(time.time() - begun)}")
    return 0


if __name__ == "__main__":
    sys.exit(main(sys.argv[1]))
