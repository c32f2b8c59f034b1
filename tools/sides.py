#!/usr/bin/env python3
"""Prints, old and new side by side, what differs of the public functions, the types, the definitions and the theorems from those of a commit.

    python3 tools/sides.py COMMIT
"""
import io
import re
import subprocess
import sys
import tarfile
from pathlib import Path

KEPT = re.compile(r"crates/(\w+)/(src/.*\.rt|specs/.*\.antt|proofs/\w+\.antt)")


def old_files(commit):
    packed = subprocess.run(["git", "archive", commit, "crates"], check=True, capture_output=True).stdout
    with tarfile.open(fileobj=io.BytesIO(packed)) as archive:
        return {it.name: archive.extractfile(it).read().decode() for it in archive if it.isfile() and KEPT.fullmatch(it.name)}


def new_files():
    names = [it for pattern in ("*/src/**/*.rt", "*/specs/**/*.antt", "*/proofs/*.antt") for it in Path("crates").glob(pattern)]
    return {str(it): it.read_text() for it in names if KEPT.fullmatch(str(it))}


def one_line(text):
    text = re.sub(r"\s+", " ", re.sub(r"(?m)^\s*(--|//).*$", "", text)).strip()
    return re.sub(r"\( ", "(", re.sub(r",? \)", ")", text))


def code_items(text):
    for found in re.finditer(r"^( *)pub (?:extern \"C\" )?fn (\w+)(.*?)\n\1\{", text, re.M | re.S):
        yield "functions", found[2], one_line(found[0].rpartition("\n")[0])
    for found in re.finditer(r"^(pub )?(enum|struct|type) (\w+)(.*?)(^\}|;$)", text, re.M | re.S):
        yield "types", found[3], one_line(found[0])


def spec_items(text):
    for block in re.split(r"\n\s*\n", text):
        lines = [it for it in block.split("\n") if not re.match(r"\s*(--|use |pub use |pub mod |mod |module )", it) and it.strip()]
        while lines:
            found = re.match(r"\s*((?:abbrev |unfoldable )?pub (?:record |data )?|record |data )(\S+)", lines[0])
            if not found:
                break
            whole = re.match(r"\s*(abbrev|unfoldable|pub record|pub data|record|data)\b", lines[0])
            name = found[2]
            if not whole:
                ends = next((k for k, it in enumerate(lines[1:], 1) if re.match(rf"\s*(unfolding |{re.escape(name)}(\s|$))", it)), len(lines))
                lines = lines[:ends]
            yield ("definitions" if whole else "theorems"), name, one_line("\n".join(lines))
            break


def items(files):
    found = {}
    for name, text in files.items():
        crate = name.split("/")[1]
        for kind, item, said in (code_items if name.endswith(".rt") else spec_items)(text):
            place = name.removeprefix(f"crates/{crate}/").removeprefix("specs/").removesuffix(".antt")
            found.setdefault((kind, crate, item), []).append((place if kind in ("definitions", "theorems") else "", said))
    return found


def main():
    old, new = items(old_files(sys.argv[1])), items(new_files())
    order = [it.split("#")[0].partition(":")[0].split()[0] for it in Path("crates.txt").read_text().splitlines() if it.split("#")[0].strip()]
    for kind in ("functions", "types", "definitions", "theorems"):
        print(f"\n### {kind.capitalize()}\n")
        for crate in order:
            for key in sorted({it for it in (*old, *new) if it[0] == kind and it[1] == crate}):
                was, now = old.get(key, []), new.get(key, [])
                gone = [it for it in was if it not in now]
                come = [it for it in now if it not in was]
                for k in range(max(len(gone), len(come))):
                    print(f"- {crate}" + (f"/{(come or gone)[min(k, len(come or gone) - 1)][0]}" if kind in ("definitions", "theorems") else ""))
                    if k < len(gone):
                        print(f"  - old `{gone[k][1]}`")
                    if k < len(come):
                        print(f"  - new `{come[k][1]}`")


main()
