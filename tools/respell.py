#!/usr/bin/env python3
"""Brings the repository's own definitions and lemmas to today's spelling: words in snake case, types in camel case.

usage: python3 tools/respell.py [--list]      at the top, once, right after port.py; --list only says what would change

A name is renamed where it is declared below crates/ (specs/ and proofs/) and wherever a file that does not import the same
name from elsewhere speaks of it: in .antt and .rt files and in the edits of must-fail/. Names of functions of src/, of
modules, strings and comments in backticks of the old spelling follow or stay as SPELLED and KEPT say.
"""

import os
import re
import sys

TOKEN = re.compile(r"[A-Za-zα-ωΑ-Ω_][A-Za-zα-ωΑ-Ω0-9_'₀-₉²-]*")
HEAD = re.compile(r"^((?:(?:abbrev|unfoldable|pub|opaque)\s+)*)(.*)$")
NUMBERED = re.compile(r"-(?=\d)")

# names whose snake case falls together with another name of a file that speaks of them
SPELLED = {"bit-and": "bit_and_at", "bit-or": "bit_or_at"}
KEPT = set()


def files(root):
    for folder, dirs, names in os.walk(os.path.join(root, "crates")):
        dirs[:] = sorted(d for d in dirs if d not in ("out", ".git"))
        for f in sorted(names):
            if f.endswith((".antt", ".rt", ".edit")):
                yield os.path.join(folder, f)


def is_function_proof(path):
    """Proof.antt of a function: what it declares is private to it, but for F-spec, whose name Rattle asks for."""
    return os.path.basename(path) in ("Proof.antt", "Statement.antt", "Tie.antt")


def declared(text):
    """(name, kind) of each declaration of an .antt file: kind is 'type', 'word', 'case' (a constructor) or 'field'."""
    lines = text.split("\n")
    within = None
    for i, line in enumerate(lines):
        if line.startswith("--") or not line.strip():
            continue
        if re.match(r"\S", line):
            within = None
            m = HEAD.match(line)
            rest = m[2]
            k = re.match(r"(data|record|mutual|ruleset|use|mod|infix\w*|syntax|postulate)\b\s*(.*)$", rest)
            if k and k[1] in ("data", "record"):
                within = k[1]
                t = TOKEN.match(k[2])
                if t:
                    yield t[0], "type"
                continue
            if line.startswith("module "):
                within = "module"
                continue
            if k and k[1] == "ruleset":
                t = TOKEN.match(k[2])
                if t:
                    yield t[0], "word"
                continue
            if k:
                continue
            d = re.match(r"((?:[^\s:(){}]+\s+)*[^\s:(){}]+)\s+:\s(.*)$", rest) or re.match(r"((?:[^\s:(){}]+\s+)*[^\s:(){}]+)\s+:()$", rest)
            if d:
                sig = d[2]
                j = i + 1
                while j < len(lines) and re.match(r"\s+\S", lines[j]):
                    sig += " " + lines[j].strip()
                    j += 1
                for n in d[1].split():
                    if TOKEN.fullmatch(n):
                        yield n, ("type" if codomain(sig) else "word")
        elif within == "module":
            d = re.match(r"( {2,4})((?:(?:abbrev|unfoldable|pub)\s+)*)([^\s:(){}|]+)\s+:(?:\s(.*))?$", line)
            if not d:
                d = re.match(r"(\s+)((?:(?:abbrev|unfoldable|pub)\s+)*)([^\s:(){}|]+)\s+:(?:\s(.*))?$", line)
                if d and not any(re.match(r"\s+" + re.escape(d[3]) + r"(\s[^=:]*)?\s=", x) for x in lines[i + 1 : i + 12]):
                    d = None
            if d and TOKEN.fullmatch(d[3]) and d[3] not in ("let", "in", "record"):
                sig = d[4] or ""
                j = i + 1
                while j < len(lines) and re.match(r"\s{%d,}\S" % (len(d[1]) + 2), lines[j]):
                    sig += " " + lines[j].strip()
                    j += 1
                yield d[3], ("type" if codomain(sig) else "word")
        elif within != "record" and within != "data":
            # a lemma of a 'where'
            d = re.match(r"\s+([^\s:(){}|]+)\s+:\s(.*)$", line)
            if d and TOKEN.fullmatch(d[1]) and any(re.match(r"\s+" + re.escape(d[1]) + r"(\s[^=:]*)?\s=", x) for x in lines[i + 1 : i + 12]):
                yield d[1], "word"
        elif within:
            d = re.match(r"\s+(?:pub\s+)?((?:[^\s:(){}|]+\s+)*[^\s:(){}|]+)\s+:\s", line)
            if d:
                for n in d[1].split():
                    if TOKEN.fullmatch(n):
                        yield n, ("field" if within == "record" else "case")


def codomain(sig):
    """Does the signature end in Type?"""
    deep, last = 0, 0
    for k, c in enumerate(sig):
        deep += (c in "({[") - (c in ")}]")
        if c == "→" and not deep:
            last = k + 1
    return re.match(r"\s*Type\b", sig[last:]) is not None


def snake(n):
    n = n.replace("-", "_")
    out = ""
    for k, c in enumerate(n):
        if c.isupper() and c.isascii():
            if k and n[k - 1] != "_" and not (n[k - 1].isupper()):
                out += "_"
            out += c.lower()
        else:
            out += c
    return re.sub(r"__+", "_", out)


def camel(n):
    parts = [p for p in re.split(r"[-_]", n) if p]
    return "".join(p[0].upper() + p[1:] for p in parts)


def spelled(n, kind):
    if n in SPELLED:
        return SPELLED[n]
    if n in KEPT:
        return n
    if kind == "type":
        return camel(n) if (n[0].isupper() or n[0].islower()) else n
    if kind == "case":
        return camel(n) if n[0].isupper() else snake(n)
    if n[0].isupper() and "-" not in n:
        return n
    return snake(n)


def imports(text, own):
    """Names that a file takes from modules that are not the repository's."""
    out = set()
    for m in re.finditer(r"^\s*(?:ghost )?(?:pub )?use ([^\s{;]+?)\.\{([^}]*)\}", text, re.M):
        path = m[1]
        c = re.match(r"Rattle\.(\w+)\.", path + ".")
        if c and c[1] in own:
            continue
        for n in m[2].split(","):
            out.add(n.strip().split(" as ")[-1].strip())
    return out


def spoken(t, p):
    """The names that a file speaks of, but for fields."""
    return {m[0] for m in TOKEN.finditer(t) if not (m.start() and t[m.start() - 1] == ".")}


GHOST = re.compile(r"^[ \t]*ghost use [^;]*;|//[^\n]*|\b(?:requires|ensures)\*?[ \w']*\{|\bghost \w+:\s*\{", re.M)


def clauses(t, turn):
    """Turns the names of a .rt file in its clauses, its ghost imports and its comments; its code stays."""
    out, at = [], 0
    while m := GHOST.search(t, at):
        out.append(t[at:m.start()])
        end = m.end()
        if m[0].endswith("{"):
            deep = 1
            while deep:
                deep += (t[end] == "{") - (t[end] == "}")
                end += 1
        out.append(turned(t, m.start(), end, turn))
        at = end
    out.append(t[at:])
    return "".join(out)


def turned(t, start, end, turn):
    out, at = [], start
    for m in TOKEN.finditer(t, start, end):
        out += [t[at:m.start()], turn(m)]
        at = m.end()
    out.append(t[at:end])
    return "".join(out)


def table(root):
    kinds = {}
    where = {}
    for p in files(root):
        if not p.endswith(".antt"):
            continue
        with open(p, encoding="utf-8") as f:
            t = f.read()
        for n, k in declared(t):
            if is_function_proof(p) and n.endswith("-spec"):
                continue
            kinds.setdefault(n, set()).add(k)
            where.setdefault(n, set()).add(p)
        for m in re.finditer(r"^\s*(?:pub )?use Rattle\.[^{;]*\{([^}]*)\}", t, re.M):
            for n in re.findall(r" as ([\w'-]+)", m[1]):
                kinds.setdefault(n, set()).add("type" if n[0].isupper() else "word")
                where.setdefault(n, set()).add(p)
    return kinds, where


def main(argv):
    root = os.getcwd()
    own = {c for c in os.listdir(os.path.join(root, "crates")) if os.path.isdir(os.path.join(root, "crates", c))}
    kinds, where = table(root)
    names = {}
    for n, ks in sorted(kinds.items()):
        kind = "type" if "type" in ks else sorted(ks)[0]
        if len(ks) > 1 and ("type" in ks):
            print(f"look: {n} is declared as {sorted(ks)}")
        to = spelled(n, kind)
        if to != n:
            names[n] = to
    # where a definition's snake case falls together with a lemma's, the lemma is the law of that name
    words = {to for n, to in names.items() if "-" not in n}
    for n in sorted(kinds):
        to = names.get(n, n)
        if to in words and ("-" in n or n == to):
            names[n] = to + "_law"
        elif "-" in n and to in kinds:
            names[n] = to + "_law"
    back = {}
    for n in kinds:
        back.setdefault(names.get(n, n), set()).add(n)
    for to, froms in sorted(back.items()):
        if len(froms) > 1:
            print(f"together: {sorted(froms)} -> {to}: " + "; ".join(f"{n} in {sorted(os.path.relpath(p, root) for p in where[n])[:3]}" for n in sorted(froms)))
    total = 0
    for p in files(root):
        with open(p, encoding="utf-8") as f:
            t = f.read()
        foreign = imports(t, own)
        tokens = spoken(t, p)
        here = {n: names[n] for n in set(TOKEN.findall(t)) if n in names}
        for n in sorted(here):
            if n in foreign:
                print(f"foreign: {n} in {os.path.relpath(p, root)}")
                del here[n]
        for n, to in sorted(here.items()):
            if n in tokens and to in tokens:
                print(f"clash: {n} -> {to} in {os.path.relpath(p, root)}")

        aliases = set(re.findall(r"^\s*(?:ghost )?(?:pub )?use [^\s{;]+ as ([\w'-]+)", t, re.M)) | set(re.findall(r"^module (\w+)", t, re.M))

        def turn(m):
            n = m[0]
            if m.start() and t[m.start() - 1] == "." and "field" not in kinds.get(n, set()):
                # a word behind a point is a module's, or else a step of a proof, whose name Rattle makes
                before = re.search(r"[\w'-]+\.\Z", t[max(0, m.start() - 60):m.start()])
                if not before or not (before[0][0].isupper() or before[0][:-1] in aliases):
                    return n
            return here.get(n, n)

        new = clauses(t, turn) if p.endswith(".rt") else TOKEN.sub(turn, t)
        if new != t:
            total += 1
            if "--list" not in argv:
                with open(p, "w", encoding="utf-8") as f:
                    f.write(new)
    if "--list" in argv:
        for n, to in sorted(names.items()):
            print(f"{n} -> {to} {sorted(kinds[n])}")
    print(f"{len(names)} names in {total} files")


if __name__ == "__main__":
    main(sys.argv[1:])
