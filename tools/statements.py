#!/usr/bin/env python3
"""Compares what specs/ stated at the second commit of docs/PORT.md (the older text in today's spelling) with what specs/ and proofs/ state today.

    python3 tools/statements.py          each item whose statement is gone or differs, and each whose proof or body alone differs
    python3 tools/statements.py moved    the public items that stood in specs/ then and stand in proofs/ now, each statement whole
"""
import os
import re
import subprocess
import sys

HEAD = re.compile(r"^(?:pub |unfoldable |abbrev |opaque )*(data |record )?(?:pub )?([^\s:(){},=]+)(?= |$)")
OTHER = ("use ", "pub use ", "pub mod ", "unfolding ")


def items(text, around=""):
    """Returns, for each top-level name, whether it is public, its statement (a record's or data's whole text) and its whole text."""
    lines, found, at = text.split("\n"), {}, 0
    while at < len(lines):
        line, start = lines[at], at
        at += 1
        if not line or line[0] in " }\t-" or line.startswith(OTHER):
            continue
        while at < len(lines) and lines[at].startswith((" ", "\t", "}")):
            at += 1
        if line.startswith("module "):
            end = start
            while not lines[end].rstrip().endswith("where"):
                end += 1
            while at < len(lines) and (not lines[at].strip() or lines[at].startswith((" ", "--", "}"))):
                at += 1
            inner = lines[end + 1 : at]
            deep = min([len(it) - len(it.lstrip()) for it in inner if it.startswith(" ") and it.strip()] or [0])
            within = "\n".join(it[deep:] if it.startswith(" ") else it for it in inner)
            found.update(items(within, around + "\n".join(lines[start : end + 1]) + "\n"))
            continue
        head = HEAD.match(line)
        if not head:
            continue
        block, name = "\n".join(lines[start:at]), head[2]
        if name in found:
            is_pub, said, whole = found[name]
            found[name] = is_pub, said, whole + "\n" + block
        elif head[1] or re.search(r"\s:(\s|$)", block):
            said = around + "\n".join(("  " if around else "") + it for it in block.split("\n"))
            found[name] = "pub " in line.split(name)[0], said, said
    return found


def plain(text):
    return re.sub(r"\s+", " ", text).strip()


def git(*words):
    return subprocess.run(["git", *words], capture_output=True, text=True, check=True).stdout


def main():
    with open("docs/PORT.md", encoding="utf-8") as page:
        then = page.read().split("\n")[1]
    with open("crates.txt", encoding="utf-8") as page:
        crates = re.findall(r"(?m)^(\w+)(?: staticlib)?:", page.read())
    files = git("ls-tree", "-r", "--name-only", then, "crates").split("\n")
    count, gone, moved = 0, [], []
    for crate in sorted(crates):
        now = {}
        for part in ("specs", "proofs"):
            for at, _, names in os.walk(f"crates/{crate}/{part}"):
                for name in sorted(it for it in names if it.endswith(".antt")):
                    with open(f"{at}/{name}", encoding="utf-8") as text:
                        for item, told in items(text.read()).items():
                            now.setdefault(item, []).append((part, name, told))
        for file in files:
            if not (file.startswith(f"crates/{crate}/specs/") and file.endswith(".antt")):
                continue
            for item, (is_pub, said, whole) in items(git("show", f"{then}:{file}")).items():
                count += 1
                # (seven names had a hyphen left)
                today = now.get(item) or now.get(item.replace("-", "_"), [])
                same = [it for it in today if plain(it[2][1]).replace(item.replace("-", "_"), item) == plain(said).replace(item.replace("-", "_"), item)]
                if not same:
                    gone.append(f"{file}: {item}: {'its statement differs' if today else 'no item has this name'}")
                elif not any(plain(it[2][2]) == plain(whole) for it in same):
                    gone.append(f"{file}: {item}: its proof differs, or a name in it")
                if same and same[0][0] == "proofs" and is_pub:
                    moved.append((crate, same[0][1], same[0][2][1]))
    if sys.argv[1:] == ["moved"]:
        last = None
        for crate, name, said in moved:
            if (crate, name) != last:
                print(f"\n-- {crate}/proofs/{name}")
            last = crate, name
            print(said.replace("pub ", "", 1) if said.startswith("pub ") else said)
        return
    for line in gone:
        print(line)
    print(f"{count} items of specs/ then; {len(moved)} public ones stand in proofs/ now")


main()
