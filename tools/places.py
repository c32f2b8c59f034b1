#!/usr/bin/env python3
"""Counts in src/ the places of the points of docs/DESIGN-PASS.md.

    python3 tools/places.py [--list] [COMMIT]

Without a commit it reads the files as they stand here, else as they stood at that commit. --list prints each place too.
"""
import collections
import io
import re
import subprocess
import sys
import tarfile
from pathlib import Path

FUNCTION = re.compile(r"^( *)(?:pub )?fn (\w+)(?:<[^>]*>)?\s*\(", re.M)


def sources(commit):
    """The crates' .rt files in the order of crates.txt: crate and text."""
    if commit:
        packed = subprocess.run(["git", "archive", commit, "crates.txt", "crates"], check=True, capture_output=True).stdout
        files = {}
        with tarfile.open(fileobj=io.BytesIO(packed)) as archive:
            for member in archive:
                if member.isfile() and (member.name == "crates.txt" or re.fullmatch(r"crates/\w+/src/.*\.rt", member.name)):
                    files[member.name] = archive.extractfile(member).read().decode()
    else:
        names = [Path("crates.txt"), *Path("crates").glob("*/src/**/*.rt")]
        files = {str(name): name.read_text() for name in names}
    for line in files["crates.txt"].splitlines():
        crate = line.split("#")[0].partition(":")[0].split()
        for name in sorted(files) if crate else ():
            if name.startswith(f"crates/{crate[0]}/src/"):
                yield crate[0], files[name]


def closing(text, at):
    """Where the bracket at `at` closes."""
    depth = 0
    for place in range(at, len(text)):
        depth += text[place] in "([{"
        depth -= text[place] in ")]}"
        if depth == 0:
            return place
    raise ValueError("a bracket stays open")


def functions(text):
    """Each function with a body: name, parameters, contract, body."""
    for found in FUNCTION.finditer(text):
        ends = closing(text, found.end() - 1)
        opens = text.find("\n" + found[1] + "{", ends)
        if opens < 0 or "\nfn " in text[ends:opens]:
            continue
        opens += 1 + len(found[1])
        parameters = " ".join(text[found.end() : ends].split())
        yield found[2], parameters, text[ends + 1 : opens], text[opens : closing(text, opens) + 1]


def parts(parameters):
    return [" ".join(it.split()) for it in re.split(r",(?![^<(]*[>)])", parameters) if it.strip()]


def enums(text):
    for found in re.finditer(r"^(?:pub )?enum (\w+) \{\n(.*?)^\}", text, re.M | re.S):
        yield found[1], re.findall(r"^    (\w+)(.*),$", found[2], re.M)


def facts(contract):
    """What a contract asks, conjunct by conjunct."""
    for clause in re.findall(r"^ *requires (?:\w+ )?\{ (.*) \}$", contract, re.M):
        depth, start = 0, 0
        for place, sign in enumerate(clause + "×"):
            depth += sign in "([{"
            depth -= sign in ")]}"
            if sign == "×" and depth == 0:
                yield clause[start:place].strip().removeprefix("(").removesuffix(")")
                start = place + 1


def main():
    arguments = [it for it in sys.argv[1:] if it != "--list"]
    found = collections.defaultdict(list)
    packs, asked, shapes = collections.Counter(), collections.Counter(), collections.defaultdict(list)
    for crate, text in sources(arguments[0] if arguments else None):
        for name, variants in enums(text):
            if len(variants) == 2 and any(rest for _, rest in variants):
                found["1 own enums of two variants, one of which or both carry a value"].append(f"{crate} {name}")
        for name, parameters, contract, body in functions(text):
            place = f"{crate} {name}"
            code = re.sub(r"//.*", "", body)
            for loop in re.finditer(r"while ([^{\n]+) \{", code):
                names = set(re.findall(r"\b[a-z_]\w*\b(?!\()", loop[1]))
                inner = code[loop.end() - 1 : closing(code, loop.end() - 1)]
                if any(re.search(rf"^ *{it} [+-]= 1;|^ *{it} = {it} [+-] 1;", inner, re.M) for it in names):
                    found["3 loops that count by hand: `while` on a name that its body moves by one"].append(place)
            arms = re.findall(r"^ *(\S.*?) => (\w+),$", code, re.M)
            if len(arms) > 1 and all(value in ("true", "false") or value.isdigit() for _, value in arms):
                found["4 values given by hand, arm by arm: a `match` whose arms are constants"].append(place)
            given = parts(parameters)
            for size in (3, 4, 5):
                for start in range(len(given) - size + 1):
                    packs[tuple(given[start : start + size])] += 1
            for fact in set(facts(contract)):
                asked[re.sub(r"\.(now|old|new)\b", "", fact)] += 1
            if any(it.startswith("on: bool") for it in given):
                found["7 steps that a flag switches: a parameter `on`"].append(place)
            lengths = [it for it in given if re.match(r"(n|k|at|count): usize", it)]
            if lengths and any(re.search(r": &(mut )?\[", it) for it in given):
                found["6 a slice with a number of its places beside it"].append(place)
            shape = re.sub(r"\b\d+\w*\b", "0", re.sub(r"\b[A-Za-z_]\w*\b", "a", " ".join(code.split())))
            if len(shape) > 60:
                shapes[shape].append(place)
    for shape, places in shapes.items():
        if len(places) > 1:
            found["2 functions whose bodies differ in names and numbers alone"] += places
    for point in sorted(found):
        print(f"{len(found[point]):5}  {point}")
        if "--list" in sys.argv:
            for place in found[point]:
                print(f"         {place}")
    wide = {pack: n for pack, n in packs.items() if n >= 6}
    kept = [pack for pack in wide if not any(set(pack) < set(more) and wide[more] >= 0.8 * wide[pack] for more in wide)]
    print(f"{len(kept):5}  5 three or more parameters that stand side by side in six functions or more")
    for pack in sorted(kept, key=lambda it: -wide[it]) if "--list" in sys.argv else ():
        print(f"         {wide[pack]:4} {', '.join(pack)}")
    often = {fact: n for fact, n in asked.items() if n >= 3 and " " in fact and not re.fullmatch(r"[\w.]+ [<≤] \S+|\S+ [<≤] [\w.]+", fact)}
    print(f"{sum(often.values()):5}  5 facts that three contracts or more ask, of more than one number's bound: {len(often)} facts, so often")
    for fact in sorted(often, key=lambda it: -often[it]) if "--list" in sys.argv else ():
        print(f"         {often[fact]:4} {fact}")


main()
