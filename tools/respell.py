#!/usr/bin/env python3
"""Brings the repository's own names in specs/, proofs/ and clauses to one spelling: a word is in snake case, and so is a lemma, where a dash joins names
alone. Types, modules, numbers of the code and names of the library keep their spelling, and so does src/ outside of its clauses.

usage: python3 tools/respell.py [FOLDER]     rewrites the files below FOLDER/crates in place, once, after port.py; prints each name and its new one
"""
import glob
import os
import re
import sys

TOKEN = re.compile(r"[^\s(){}\[\],.;:@\"]+")
DECLARED = re.compile(r"^((?:(?:unfoldable|abbrev|pub)\s+)*)([^\s:(){}]+)\s+:\s")
INSIDE = re.compile(r"^ {2,}((?:(?:unfoldable|abbrev|pub)\s+)+)([^\s:(){}]+)\s+:\s|^ {2}()([^\s:(){}]+)\s+:\s")
FIELD = re.compile(r"^\s+(?:pub\s+)?([^\s:(){},.]+)\s*:\s")
BLOCK = re.compile(r"^(?:(?:abbrev|pub)\s+)*(data|record)\s+([^\s:({]+)")
LIBRARY = set(
    """length take drop append reverse map sum set replicate get_or max min zero suc add sub mul div mod eq le lt cond and or not nil cons filter zip concat
    pow slice true false refl sym ap none some fst snd leb eqb ltb count_by index""".split()
)


def texts(root):
    for kind in ("specs", "proofs"):
        yield from sorted(glob.glob(os.path.join(root, "crates", "*", kind, "**", "*.antt"), recursive=True))


def declared(path):
    """The names that a file declares at its top, with those of constructors and fields, and whether each is a definition."""
    block = section = False
    with open(path, encoding="utf-8") as f:
        for line in f:
            if line.startswith(("use ", "pub use ", "--", "mod ", "pub mod ")):
                continue
            if m := BLOCK.match(line):
                block, section = True, False
                yield m[2], False
            elif line[:1].strip():
                block, section = False, line.startswith(("module ", "pub module "))
                if m := DECLARED.match(line):
                    yield m[2], "unfoldable" in m[1] or "abbrev" in m[1]
            elif block and (m := FIELD.match(line)):
                yield m[1], False
            elif section and (m := INSIDE.match(line)):
                yield m[2] or m[4], "unfoldable" in (m[1] or "") or "abbrev" in (m[1] or "")


def snake(word):
    return re.sub(r"(?<=[a-z0-9])([A-Z])", lambda m: "_" + m[1].lower(), word)


def respelled(name, known):
    if not re.fullmatch(r"[a-z][A-Za-z0-9_'-]*\??", name):
        return name
    words = [snake(w) for w in name.split("-")]
    return ("-" if all(w in known for w in words) else "_").join(words)


def main(root):
    mine, kept, defined = set(), set(), set()
    for path in texts(root):
        if os.path.basename(path) not in ("Proof.antt",):
            for name, is_defined in declared(path):
                mine.add(name)
                if is_defined:
                    defined.add(name)
        with open(path, encoding="utf-8") as f:
            for line in f:
                # what stands in the library keeps its name
                m = re.match(r"(?:pub )?use (\S+?)\.\{(.*)\}", line)
                if m and not m[1].startswith("Rattle.") or m and m[1].startswith("Rattle.std"):
                    kept |= {n.strip().split(" as ")[0] for n in m[2].split(",")}
    known = {snake(n) for n in defined if "-" not in n and re.match(r"[a-z]", n)} | LIBRARY
    turned = {}
    for name in sorted(mine - kept):
        new = respelled(name, known)
        if new != name:
            turned[name] = new
    # a lemma that would have the name of a definition is told apart from it
    taken = (mine | kept) - set(turned)
    given = {}
    for name, new in sorted(turned.items(), key=lambda it: "-" in it[0]):
        if "-" in name and (new in taken or new in given):
            print("falls together:", name, "and", given.get(new, new))
            turned[name] = new = new + "_lem"
        given[new] = name
    clause = re.compile(r"^\s*(?:ghost|requires|ensures)\b")
    for path in list(texts(root)) + sorted(glob.glob(os.path.join(root, "crates", "*", "src", "**", "*.rt"), recursive=True)):
        with open(path, encoding="utf-8") as f:
            text = f.read()
        turn = lambda part: TOKEN.sub(lambda m: turned.get(m[0], m[0]), part)
        if path.endswith(".antt"):
            lines = [l if l.lstrip().startswith("-- ") else turn(l) for l in text.split("\n")]
        else:
            lines, open_ = [], False
            for l in text.split("\n"):
                if clause.match(l):
                    open_ = True
                elif l.startswith(("{", "}")) or (open_ and l.strip() in ("{", "}")):
                    open_ = False
                lines.append(turn(l) if open_ and not l.lstrip().startswith("//") else l)
                if l.lstrip().startswith("ghost use") and l.rstrip().endswith(";"):
                    open_ = False
        new = "\n".join(lines)
        if new != text:
            with open(path, "w", encoding="utf-8") as f:
                f.write(new)
    for name, new in sorted(turned.items()):
        print(f"{name} {new}")


if __name__ == "__main__":
    main(sys.argv[1] if len(sys.argv) > 1 else ".")
