#!/usr/bin/env python3
"""Tells how many chains of libraries crates.txt has, and which libraries a crate lists and doesn't name.

Some kits' gate hashes a library's files once more for each chain from a crate down to it, in two passes: 3 ms a chain and pass,
on one core. So 600,000 chains take it an hour, and their number can double with one needless library of a crate on which many stand.

Usage: scripts/chains.py [MOST]   fails where there are more chains than MOST (600,000), or a library that no file names
"""
import os
import re
import sys

ROOT = os.path.dirname(os.path.dirname(os.path.abspath(__file__)))
TEXTS = ("src", "specs", "proofs")


def lists():
    """The libraries that crates.txt lists for each of the repository's crates."""
    with open(f"{ROOT}/crates.txt", encoding="utf-8") as file:
        lines = [line.split(":") for line in file if ":" in line and not line.startswith("#")]
    return {name: needs.split() for name, needs in lines}


def words(crate):
    """The words of the crate's files."""
    found = set()
    for part in TEXTS:
        for at, _, files in os.walk(f"{ROOT}/crates/{crate}/{part}"):
            for name in files:
                with open(f"{at}/{name}", encoding="utf-8") as file:
                    found.update(re.findall(r"\w+", file.read()))
    return found


def chains(listed):
    """The number of chains that begin at each crate."""
    counts = {}

    def count(name):
        if name not in counts:
            counts[name] = 1 + sum(count(it) for it in listed[name] if it in listed)
        return counts[name]

    for name in listed:
        count(name)
    return counts


def main():
    most = int(sys.argv[1]) if len(sys.argv) > 1 else 600_000
    listed = lists()
    counts = chains(listed)
    all_chains = sum(counts.values())
    longest = sorted(counts, key=counts.get, reverse=True)[:8]
    print(f"{all_chains:,} chains; most from " + ", ".join(f"{name} {counts[name]:,}" for name in longest))
    needless = [(name, it) for name in listed for it in set(listed[name]) & {*listed} - words(name)]
    for name, it in needless:
        print(f"{name} lists {it}, which no file of it names")
    return 1 if all_chains > most or needless else 0


if __name__ == "__main__":
    sys.exit(main())
