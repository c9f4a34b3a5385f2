#!/usr/bin/env python3
"""Spells the repository's own definitions and lemmas as today's Rattle does.  usage: tools/spell_names.py [--list] [FOLDER]

It runs once, after port.py, at the top of the repository (or in FOLDER). Words get snake case (`registerCount`, `register_count`), a dash stays between two names
of definitions (`byte_bits-length`) and is an underscore before a plain word (`above_all`), and a lemma that would have a definition's name gets `_lem`.
Types, modules, records and Rust's names keep their spelling. Only identifiers of .antt files and of the clauses and ghost imports of .rt files are written
again: strings and comments of .rt files, inputs, outputs and exported names stay. With --list it prints old and new name and changes nothing.
"""
import collections
import pathlib
import re
import subprocess
import sys

# words of the library that a name may be joined to by a dash
LIBRARY = set("length append take drop set map reverse sum get_or replicate add sub mul div mod pow min max eq lt le suc cond".split())
# a field of a record whose name would fall together with a definition's
FIELDS = {"well-formed": "is_well_formed"}
NAME = r"[^\s(){}\[\]:,.;=λ⟨⟩\"`]+"
DECLARED = re.compile(r"\s*((?:(?:abbrev|unfoldable|pub|instance)\s+)*)(%s)\s*(?:[({].*)?:(?=\s|$)" % NAME)
WORD = re.compile(r"(?<![\w'\-◌])[a-z][\w'→₀-₉\-]*")


def snake(part):
    return re.sub(r"(?<=[a-z0-9])([A-Z])", lambda m: "_" + m.group(1).lower(), part)


def declared(top):
    """Each name that a line of an .antt file declares, with where: S for specs/, L for lemma files, P for the proof of a function."""
    names = collections.defaultdict(set)
    for path in sorted(top.glob("crates/*/specs/**/*.antt")) + sorted(top.glob("crates/*/proofs/**/*.antt")):
        kind = "S" if "specs" in path.parts else "L" if path.parent.name == "proofs" else "P"
        for line in path.read_text(encoding="utf-8").splitlines():
            if line.lstrip().startswith("use "):
                for name in re.findall(r" as ([a-z][\w']*)", line):
                    names[name].add("P")
            if line.lstrip().startswith(("--", "use ")):
                continue
            m = DECLARED.match(line)
            if m and re.match(r"[a-z]", m.group(2)):
                names[m.group(2)].add(kind)
    for path in sorted(top.glob("crates/*/src/**/*.rt")):
        for line in path.read_text(encoding="utf-8").splitlines():
            if line.startswith("ghost use "):
                for name in re.findall(r" as ([a-z][\w']*)", line):
                    names[name].add("P")
    return names


def library(top):
    """Each name that is brought in from outside the repository: it keeps its spelling."""
    own = {p.name for p in (top / "crates").iterdir()}
    names = set()
    for path in sorted(top.glob("crates/*/*/**/*.antt")) + sorted(top.glob("crates/*/src/**/*.rt")):
        for m in re.finditer(r"(?m)^(?:ghost )?use ([\w.'+-]+)\.\{(.*)\}", path.read_text(encoding="utf-8")):
            where = m.group(1).split(".")
            if where[0] != "Rattle" or where[1] not in own:
                names |= {n.split(" as ")[0].strip() for n in m.group(2).split(",")}
    return names


def spelled(top):
    names, outside = declared(top), library(top)
    known = {snake(n) for n in names if "S" in names[n] and "-" not in n} | LIBRARY
    new = {}
    for name in sorted(names):
        if name in outside:
            continue
        if names[name] == {"P"} and "-" in name:
            continue
        parts = [snake(p) for p in name.split("-")]
        word = parts[0]
        for before, part in zip(parts, parts[1:]):
            word += ("-" if before in known and part in known and "S" not in names[name] else "_") + part
        if word in outside:
            word += "_lem"
        if word != name:
            new[name] = word
    # a lemma gives way to a definition of the same name
    taken = {new.get(n, n) for n in names if "S" in names[n]}
    for name in sorted(names):
        if "S" not in names[name] and new.get(name, name) in taken:
            new[name] = new.get(name, name) + "_lem"
    # of two that fall together the one that had no capital is the lemma
    seen = {}
    for name in sorted(names, key=lambda n: (not re.search(r"[A-Z]", n), n)):
        word = new.get(name, name)
        if word in seen:
            new[name] = word + "_lem"
        seen[new.get(name, name)] = name
    return {**{a: b for a, b in new.items() if a != b}, **{a: b for a, b in FIELDS.items() if a in names}}


def rewrite_antt(text, new):
    out = []
    for line in text.split("\n"):
        out.append(WORD.sub(lambda m: new.get(m.group(0), m.group(0)), line))
    return "\n".join(out)


def rewrite_rt(text, new):
    """Only words that no Rust name can be (a capital within, or a dash) are written again, outside strings and comments."""
    camel = {a: b for a, b in new.items() if re.search(r"[A-Z]", a) or "-" in a}
    out = []
    for line in text.split("\n"):
        code, mark, comment = line.partition("//")
        code = WORD.sub(lambda m: camel.get(m.group(0), m.group(0)), code)
        out.append(code + mark + comment)
    return "\n".join(out)


def main(argv):
    listing = "--list" in argv
    rest = [a for a in argv if not a.startswith("--")]
    top = pathlib.Path(rest[0] if rest else subprocess.run(["git", "rev-parse", "--show-toplevel"], capture_output=True, text=True).stdout.strip())
    new = spelled(top)
    if listing:
        for a, b in sorted(new.items()):
            print(a, b)
        return
    for path in sorted(top.glob("crates/*/specs/**/*.antt")) + sorted(top.glob("crates/*/proofs/**/*.antt")):
        old = path.read_text(encoding="utf-8")
        text = rewrite_antt(old, new)
        if path.name == "Proof.antt":
            f = path.parent.name
            text = re.sub(r"(?<![\w'\-])%s(?![\w'\-])" % re.escape(f.replace("_", "-") + "-spec"), f + "_spec", text)
        if text != old:
            path.write_text(text, encoding="utf-8")
    for path in sorted(top.glob("crates/*/src/**/*.rt")):
        old = path.read_text(encoding="utf-8")
        text = rewrite_rt(old, new)
        if text != old:
            path.write_text(text, encoding="utf-8")


main(sys.argv[1:])
