#!/usr/bin/env python3
"""Gives the repository's own definitions and lemmas the spelling of today's Rattle: types in upper camel case, all else in snake case.

usage: python3 tools/respell.py [--check]      at the top of the repository, once, after the kit's port.py

Own names are those that a file of specs/ or proofs/ declares: definitions, lemmas, constructors, fields and variables, and other names that
a file gives to what it imports. Names that the check makes (goals, and what stands behind 'c.' or 'l.') and names of other libraries stay. It
turns the code of .antt files, and clauses and ghost items of .rt files; no comment and no line of the program. It says which new names were
taken already. --check writes nothing.
"""
import glob
import re
import sys

WORD = re.compile(r"[^\s(){}.;,@\"«»]+")
USE = re.compile(r"\buse\s+([\w.+'-]+)\.\{([^}]*)\}", re.S)
LOCAL = re.compile(r"^Rattle\.(?!std\b)")


def camel(name):
    return "".join(p[:1].upper() + p[1:] for p in name.split("-"))


def turned(name):
    return camel(name) if name[0].isupper() else name.replace("-", "_")


def code_parts(text):
    """The text in pieces: (is code, piece); comments and quoted text are no code."""
    at = 0
    for m in re.finditer(r"--[^\n]*|\"[^\"\n]*\"", text):
        if m.group(0).startswith("--") and m.start() and not text[m.start() - 1].isspace():
            continue
        yield True, text[at : m.start()]
        yield False, m.group(0)
        at = m.end()
    yield True, text[at:]


def declared(path, text):
    """The names that a file declares, but for answers to goals and for invariants."""
    answers = set(re.findall(r"^(?:abbrev )?(?:pub )?(\S+) : goal\.", text, re.M))
    found = set()
    code = "".join(p if is_code else " " * len(p) for is_code, p in code_parts(text))
    for m in re.finditer(r"^(?:(?:abbrev|unfoldable|pub|data|record|mutual|ruleset)\s+)*([^\s:(){}.;,@\"]+)", code, re.M):
        if m.group(1) not in answers and m.group(1) not in ("use", "mod", "unfolding"):
            found.add(m.group(1))
    for m in re.finditer(r"^\s+(?:pub\s+)?([^\s:(){}.;,@\"]+)\s+:\s", code, re.M):
        if m.group(1) not in answers:
            found.add(m.group(1))
    return {n for n in found if "-" in n and re.fullmatch(r"[\w'-]+", n) and not n.startswith("-")}


def imported(text):
    """The names that a file takes from other libraries, in its spelling here."""
    names = set()
    for module, items in USE.findall(text):
        if not LOCAL.match(module):
            names |= {i.strip() for i in items.replace("\n", " ").split(",") if " as " not in i}
    return names


def aliases(text):
    """The own names that a file gives to what it imports."""
    return {n for _, items in USE.findall(text) for n in re.findall(r"\bas ([\w'-]+)", items) if "-" in n}


def clauses(text):
    """The places of a .rt file that are clauses or ghost items."""
    for m in re.finditer(r"\bghost use [^;]*;|\b(?:requires|ensures|ghost)\b[^{};]*\{", text):
        end = m.end()
        if m.group(0).endswith("{"):
            depth = 1
            while depth and end < len(text):
                depth += {"{": 1, "}": -1}.get(text[end], 0)
                end += 1
        yield m.start(), end


def respelled(text, names, keep):
    def one(m):
        w = m.group(0)
        return turned(w) if w in names and w not in keep else w

    return WORD.sub(one, text)


def main():
    check = "--check" in sys.argv
    antt = sorted(glob.glob("crates/*/specs/**/*.antt", recursive=True) + glob.glob("crates/*/proofs/**/*.antt", recursive=True))
    texts = {p: open(p, encoding="utf-8").read() for p in antt}
    own = set()
    for p, t in texts.items():
        own |= declared(p, t) | aliases(t)
    labels = set()
    for p in glob.glob("crates/*/src/**/*.rt", recursive=True):
        t = open(p, encoding="utf-8").read()
        texts[p] = t
        own |= aliases(t)
        labels |= set(re.findall(r"\b(?:ensures|requires)\s+(\w+)\s*\{", t))
    own |= {l.replace("_", "-") for l in labels if "_" in l}
    spelled = {}
    for n in sorted(own):
        spelled.setdefault(turned(n), []).append(n)
    all_words = set()
    for p in antt:
        all_words |= set(WORD.findall(texts[p]))
    for new, olds in spelled.items():
        if len(olds) > 1:
            print(f"together: {olds} are all {new} now")
    for p, t in sorted(texts.items()):
        keep = imported(t)
        if p.endswith(".antt"):
            words = set(WORD.findall("".join(x for c, x in code_parts(t) if c)))
            for new, olds in spelled.items():
                if new in words and any(o in words for o in olds if o not in keep):
                    print(f"taken: {new} stands in {p} beside {olds}")
            new = "".join(respelled(x, own, keep) if c else x for c, x in code_parts(t))
        else:
            parts, at = [], 0
            for a, b in clauses(t):
                if a < at:
                    continue
                parts += [t[at:a], respelled(t[a:b], own, keep)]
                at = b
            new = "".join(parts) + t[at:]
        if new != t and not check:
            with open(p, "w", encoding="utf-8") as f:
                f.write(new)
    print(f"{len(own)} names")


main()
