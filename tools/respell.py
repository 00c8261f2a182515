#!/usr/bin/env python3
"""Respells the repository's own names of definitions and lemmas as today's Rattle spells them: in snake case (byteAt, or-covers: byte_at,
or_covers). Types and modules have upper camel case already.

usage: tools/respell.py [ROOT]

Run once, behind the toolchain's port.py, on the tree that it leaves. The names are those that crates/*/specs declare: definitions, lemmas,
constructors and fields. Names of src/ are Rust's and stay, and so do the names that Rattle makes in proofs/ (goals, steps). Where two names
would fall together, a lemma gets the ending _law, a computed case of rules the ending _case. In comments and pages a name turns where it
stands in backticks or has a capital inside, since a word with a dash may be English. A second run changes nothing.
"""

import os
import re
import sys

WORD = re.compile(r'[^\s(){}.;,@"«»\[\]]+')
RUST = re.compile(r"[\w'-]+")
DECLARED = re.compile(
    r"^(?P<indent> *)(?:(?:pub|unfoldable|abbrev|opaque|data|record|ruleset)\s+)*(?P<name>[^\s:(){}.,;\"@]+)"
    r"(?P<more>(?:\s+[^\s:(){}.,;\"@]+)*)(?:\s+[({][^(){}]*[)}])*\s+:\s"
)
BLOCK = re.compile(r"^(?:unfoldable |abbrev |pub )*(?:data|record)\s")
KEYWORDS = {"data", "record", "pub", "abbrev", "unfoldable", "mod", "use", "infix", "let", "in", "do", "λ"}
# Names that fell together with another's new spelling and had underscores already: each is a lemma, or a case of rules. A function of src/
# may be called so too.
TAKEN = {"fits_in", "no_bytes", "test_at", "in_place", "places_same", "owned_below", "no_register", "result_fits", "fields_fit", "not_call"}
SPAN = re.compile(r"`[^`\n]*`")
CAMEL = re.compile(r"(?<![\w'-])[a-z]+[a-z0-9]*(?:[A-Z][a-z0-9]*)+(?![\w'-])")


def snake(name):
    words = re.sub(r"(?<=[a-z0-9])[A-Z]", lambda m: "_" + m[0].lower(), name)
    return words.replace("-", "_")


def files(root, ends):
    for folder, dirs, names in os.walk(root):
        dirs[:] = sorted(d for d in dirs if d not in ("out", "target", ".git"))
        for n in sorted(names):
            if n.endswith(ends):
                yield os.path.join(folder, n)


def read(path):
    with open(path, encoding="utf-8") as f:
        return f.read()


def declared(root):
    """The names that specs/ declare, and which of them are fields or constructors."""
    every, inner = set(), set()
    for path in files(os.path.join(root, "crates"), (".antt",)):
        if "/specs/" not in path:
            continue
        inside = False
        lines = read(path).split("\n")
        for at, line in enumerate(lines):
            if line.strip().startswith("--"):
                continue
            if BLOCK.match(line.strip()):
                inside = True
            elif line and not line.startswith(" "):
                inside = False
            m = DECLARED.match(line + " ")
            if m and (not m["indent"] or inside or in_section(lines, at, m)):
                for n in [m["name"], *m["more"].split()]:
                    if n not in KEYWORDS and n[0].islower():
                        every.add(n)
                        if m["indent"] and inside:
                            inner.add(n)
    return every, inner


def in_section(lines, at, m):
    """Whether an indented line declares what stands in a section: it has a mark, or a clause of that name follows."""
    if re.match(r" *(?:pub|abbrev|unfoldable)\s", lines[at]):
        return True
    clause = re.compile(re.escape(m["indent"] + m["name"]) + r"(?:\s|$)")
    return any(clause.match(line) for line in lines[at + 1 : at + 30])


class Rows(dict):
    """Old name to new name; `spelled` are the names that the specs have in either spelling, for pages that port.py leaves."""

    def __init__(self, every):
        super().__init__()
        self.spelled = {snake(n) for n in every}


def table(every):
    """Old name to new name, and the names that get an ending."""
    meets = {}
    for n in every:
        meets.setdefault(snake(n), set()).add(n)
    rows, ended = Rows(every), set()
    for new, olds in meets.items():
        if len(olds) > 1 and any("-" not in n and n not in TAKEN for n in olds):
            for n in olds:
                if "-" in n or n in TAKEN:
                    ended.add(n)
        for n in olds:
            if n != new or n in ended:
                rows[n] = new
    return rows, ended


def turned(name, rows, ended, path):
    if name in ended:
        return rows[name] + ("_case" if "/rules/specs/Cases" in path else "_law")
    return rows[name]


def prose(text, rows, ended, path):
    def one(w):
        if w in rows:
            return turned(w, rows, ended, path)
        return snake(w) if w[:1].islower() and snake(w) in rows.spelled else w

    text = SPAN.sub(lambda s: "`" + WORD.sub(lambda m: one(m[0]), s[0][1:-1]) + "`", text)
    return CAMEL.sub(lambda m: one(m[0]), text)


def code(text, rows, ended, path, inner, word):
    proofs = "/proofs/" in path
    out, at = [], 0
    for m in word.finditer(text):
        w = m[0]
        if w in rows:
            behind_dot = m.start() > 0 and text[m.start() - 1] == "."
            if w in TAKEN and (behind_dot or path.endswith(".rt")):
                continue
            if not (proofs and behind_dot and w not in inner):
                out += [text[at : m.start()], turned(w, rows, ended, path)]
                at = m.end()
    return "".join(out) + text[at:]


def antt(text, rows, ended, path, inner):
    lines = []
    for line in text.split("\n"):
        m = re.search(r"(?:^|\s)--(?:\s|$)", line)
        at = m.start() if m else len(line)
        lines.append(code(line[:at], rows, ended, path, inner, WORD) + prose(line[at:], rows, ended, path))
    return "\n".join(lines)


def rust(text, rows, ended, path):
    lines = []
    for line in text.split("\n"):
        m = re.search(r"(?:^|\s)//", line)
        at = m.start() if m else len(line)
        parts = re.split(r'("(?:[^"\\]|\\.)*")', line[:at])
        for i in range(0, len(parts), 2):
            parts[i] = code(parts[i], rows, ended, path, set(), RUST)
        lines.append("".join(parts) + prose(line[at:], rows, ended, path))
    return "\n".join(lines)


def main(argv):
    root = argv[0] if argv else "."
    every, inner = declared(root)
    rows, ended = table(every)
    changed = 0
    for path in [*files(os.path.join(root, "crates"), (".antt", ".rt")), *files(os.path.join(root, "docs"), (".md",)), os.path.join(root, "README.md")]:
        if not os.path.exists(path):
            continue
        old = read(path)
        if path.endswith(".antt"):
            new = antt(old, rows, ended, path, inner)
        elif path.endswith(".rt"):
            new = rust(old, rows, ended, path)
        else:
            new = prose(old, rows, ended, path)
        if new != old:
            changed += 1
            with open(path, "w", encoding="utf-8") as f:
                f.write(new)
    print(f"respell: {len(rows)} names, {changed} files")
    return 0


if __name__ == "__main__":
    raise SystemExit(main(sys.argv[1:]))
