#!/usr/bin/env python3
"""Gives the names of goals and of what they know, in proofs/, the spelling of today's Rattle: a name of the source keeps its underscores there.

usage: python3 tools/goals.py      at the top of the repository, after tools/respell.py
"""
import glob
import re

WORD = re.compile(r"[^\s(){}.;,@\"«»]+")
USE = re.compile(r"\buse\s+([\w.+'-]+)\.\{([^}]*)\}", re.S)
MADE = ["in-err", "in-ok", "in-default", "invariant-of", "from-residual", "type-inv", "slice-bounds", "offset-bounds", "nonzero-div", "nonzero-rem"]
MADE += ["overflow-" + w for w in ("add", "sub", "mul", "shl", "shr", "cast", "step")]


def main():
    known = {w: w.replace("-", "_") for w in MADE}
    for p in glob.glob("crates/*/src/**/*.rt", recursive=True):
        for w in re.findall(r"[A-Za-z]\w*", open(p, encoding="utf-8").read()):
            if "_" in w.strip("_"):
                known[w.replace("_", "-")] = w

    def joined(word):
        parts, out = word.replace("·", "-").split("-"), []
        while parts:
            for n in range(len(parts), 0, -1):
                w = "-".join(parts[:n])
                if n == 1 or w in known:
                    out.append(known.get(w, w))
                    parts = parts[n:]
                    break
        return "-".join(out)

    for p in sorted(glob.glob("crates/*/proofs/**/*.antt", recursive=True)):
        text = open(p, encoding="utf-8").read()
        keep = set()
        for module, items in USE.findall(text):
            if not re.match(r"Rattle\.(?!std\b)", module):
                keep |= {i.split(" as ")[-1].strip() for i in items.replace("\n", " ").split(",")}
        lines = []
        for line in text.split("\n"):
            if line.startswith("use ") or line.lstrip().startswith("--"):
                lines.append(line)
                continue
            lines.append(WORD.sub(lambda m: m.group(0) if m.group(0) in keep or "-" not in m.group(0).strip("-") or "◌" in m.group(0) else joined(m.group(0)), line))
        new = "\n".join(lines)
        if new != text:
            with open(p, "w", encoding="utf-8") as f:
                f.write(new)


main()
