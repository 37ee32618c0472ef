#!/usr/bin/env python3
"""Proves a program and what it stands on, as many crates side by side as there are cores, and builds the program.

A crate is proved once those below it are, each in a copy of its own beside the logs, since two checks in one copy wait for
each other. Each has a log, NAME.log, in the folder that is given, and behind its proof a file NAME.done. What is proved is
kept, so a run that was interrupted goes on where it was.

Usage: scripts/prove.py NAME LOGS     proves and builds
       scripts/prove.py NAME --list   prints the crates, lowest first
"""
import os
import shutil
import subprocess
import sys
import time

ROOT = os.path.dirname(os.path.dirname(os.path.abspath(__file__)))
CORES = len(os.sched_getaffinity(0))
TEXTS = ("src", "specs", "proofs")


def below():
    """The repository's crates that each of its crates stands on."""
    with open(f"{ROOT}/crates.txt", encoding="utf-8") as file:
        lines = [line.split(":") for line in file if ":" in line and not line.startswith("#")]
    own = {name for name, _ in lines}
    return {name: [it for it in needs.split() if it in own] for name, needs in lines}


def in_order(needs, top):
    """The top and all that it stands on, lowest first."""
    found = []

    def visit(name):
        if name not in found:
            for it in needs[name]:
                visit(it)
            found.append(name)

    visit(top)
    return found


def copies_of(logs):
    return f"{os.path.dirname(logs)}/copies"


def copied(name, needs, folder):
    """A copy of the crate and of those below it, with what an earlier check of it kept."""
    os.makedirs(f"{folder}/crates", exist_ok=True)
    shutil.copy2(f"{ROOT}/HANDLES", folder)
    crates = in_order(needs, name)
    with open(f"{ROOT}/crates.txt", encoding="utf-8") as file:
        lines = [line for line in file if line.partition(":")[0] in crates]
    with open(f"{folder}/crates.txt", "w", encoding="utf-8") as file:
        file.writelines(lines)
    for crate in crates:
        for part in TEXTS:
            shutil.rmtree(f"{folder}/crates/{crate}/{part}", ignore_errors=True)
            if os.path.isdir(f"{ROOT}/crates/{crate}/{part}"):
                shutil.copytree(f"{ROOT}/crates/{crate}/{part}", f"{folder}/crates/{crate}/{part}")
    return f"{folder}/crates/{name}"


def begun(name, needs, logs, jobs):
    """The check of a crate, which goes on by itself."""
    folder = copied(name, needs, f"{copies_of(logs)}/{name}")
    with open(f"{logs}/{name}.log", "w", encoding="utf-8") as log:
        return subprocess.Popen(["rt", "check", "--jobs", str(jobs)], cwd=folder, stdout=log, stderr=log)


def prove(crates, needs, logs):
    """Whether all crates are proved."""
    done, running = set(), {}
    while len(done) < len(crates):
        for name in crates:
            if len(running) < CORES and name not in done and name not in running and done.issuperset(needs[name]):
                running[name] = begun(name, needs, logs, CORES - len(running))
        time.sleep(0.2)
        for name in [it for it, process in running.items() if process.poll() is not None]:
            if running.pop(name).returncode != 0:
                return False
            open(f"{logs}/{name}.done", "w", encoding="utf-8").close()
            done.add(name)
    return True


def stored_words(name):
    """The words of the program's stored run, with the paths of its files."""
    crate = f"{ROOT}/crates/{name}"
    with open(f"{crate}/args", encoding="utf-8") as file:
        words = file.read().splitlines()
    return [f"data/{word}" if os.path.exists(f"{crate}/data/{word}") else word for word in words]


def main():
    name, folder = sys.argv[1:]
    needs = below()
    crates = in_order(needs, name)
    if folder == "--list":
        print("\n".join(crates))
        return 0
    logs = os.path.abspath(folder)
    if not prove(crates[:-1], needs, logs):
        return 1
    with open(f"{logs}/{name}.log", "w", encoding="utf-8") as log:
        status = subprocess.call(["rt", "run", "--", *stored_words(name)], cwd=f"{ROOT}/crates/{name}", stdout=log, stderr=log)
    if status == 0:
        shutil.rmtree(copies_of(logs), ignore_errors=True)
    return status


sys.exit(main())
