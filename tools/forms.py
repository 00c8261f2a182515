#!/usr/bin/env python3
"""tools/forms.py [-v]: counts, in the sources of crates/, the places of docs/DESIGN-PASS.md by tokens: comments are left out, a string is one
token, clauses and parameters are found by their brackets, and an arm by a number by the => behind it. With -v each place is printed. Run at the top of the checkout."""
import collections
import glob
import re
import sys

VERBOSE = "-v" in sys.argv
TOKEN = re.compile(r"//[^\n]*|\"(?:\\.|[^\"\\])*\"|b'(?:\\.|[^'\\])'|[A-Za-z_][A-Za-z_0-9]*|[0-9][0-9A-Za-z_]*|\.\.=?|=>|->|::|\S")
PAIRS = {"(": ")", "[": "]", "{": "}"}


def tokens(path):
    """The tokens of a file with their lines."""
    text = open(path, encoding="utf-8").read()
    for m in TOKEN.finditer(text):
        if not m.group().startswith("//"):
            yield m.group(), text.count("\n", 0, m.start()) + 1


def closing(words, i):
    """Where the bracket that opens at i closes."""
    depth = 0
    for j in range(i, len(words)):
        if words[j] in PAIRS:
            depth += 1
        elif words[j] in PAIRS.values():
            depth -= 1
            if depth == 0:
                return j
    raise ValueError("an open bracket")


def parts(words):
    """A bracket's contents, split at its own commas."""
    out, depth, last = [], 0, []
    for w in words:
        if w in PAIRS or w == "<":
            depth += 1
        elif w in PAIRS.values() or w == ">":
            depth -= 1
        if w == "," and depth == 0:
            out.append(last)
            last = []
        else:
            last.append(w)
    return out + [last] if last else out


def main():
    counts = collections.Counter()
    places = collections.defaultdict(list)
    clauses = collections.Counter()
    groups = collections.Counter()
    for path in sorted(glob.glob("crates/*/src/**/*.rt", recursive=True)):
        pairs = list(tokens(path))
        words = [w for w, _ in pairs]

        def found(what, i):
            counts[what] += 1
            places[what].append(f"{path}:{pairs[i][1]}")

        for i, w in enumerate(words):
            if w == "while":
                found("loops by while", i)
            if w == "for" and words[i - 1] != "impl" and "in" in words[i : i + 8]:
                found("loops by for", i)
            if w == "enum":
                found("enums", i)
            if w == "as" and words[i + 1] in ("u8", "u16", "u32", "u64", "usize"):
                found("conversions by as", i)
            if w in ("wide", "wide_word", "whole") and words[i + 1] == "(" and words[i - 1] != "fn":
                found("conversions by a function of the repository's own", i)
            if w == "=>" and re.fullmatch(r"[0-9]+", words[i - 1]):
                found("arms by a literal number", i)
            if re.fullmatch(r"BAD_[A-Z]+|NOT_RUNNING", w) and words[i - 1] in ("(", ":", "=", "+", "return") and words[i - 2] != "const":
                found("numbers of refusals", i)
            if w == "requires":
                j = i + 1 if words[i + 1] == "{" else i + 2
                if words[j] == "{":
                    clauses[" ".join(words[j + 1 : closing(words, j)])] += 1
            if w == "fn":
                j = i + 2
                while words[j] != "(":
                    j += 1
                names = [p for p in parts(words[j + 1 : closing(words, j)])]
                counts["functions"] += 1
                if len(names) >= 6:
                    found("functions with six parameters or more", i)
    for what in sorted(counts):
        print(f"{counts[what]:5} {what}")
        if VERBOSE and what != "functions":
            for p in places[what]:
                print("       ", p)
    often = {c: n for c, n in clauses.items() if n >= 3}
    print(f"{len(often):5} clauses that stand three times or more, {sum(often.values())} times")
    if VERBOSE:
        for c, n in sorted(often.items(), key=lambda x: -x[1]):
            print(f"{n:13} {c}")


main()
