#!/usr/bin/env python3
"""Turns answers to `invariant_of-x` that are nested pairs ended by `tt` into records by the names of the ghost fields,
which it reads from what `rt check` said. Usage, at the top: invariant_records.py CRATE LOG"""
import re
import sys

OPEN, CLOSE = "([{", ")]}"
SAID = re.compile(
    r"^(?:so far: )?\./(\S+?):\d+:\d+: error: `(invariant_of-[^`]+)`: a value of(.*?)not as a tuple(.*?)(?=^(?:so far: )?(?:\./|fn |help|checked|note))",
    re.M | re.S,
)


def parts(text):
    """The items of a parenthesised tuple."""
    deep, items, item = 0, [], ""
    for c in text[1:-1]:
        deep += (c in OPEN) - (c in CLOSE)
        if c == "," and deep == 0:
            items.append(item.strip())
            item = ""
        else:
            item += c
    if item.strip():
        items.append(item.strip())
    return items


def last_group(body):
    """Where the parenthesised group that ends the body begins."""
    deep, i = 0, len(body) - 1
    while True:
        deep += (body[i] in CLOSE) - (body[i] in OPEN)
        if deep == 0:
            return i
        i -= 1


def main():
    crate, log = sys.argv[1:]
    wanted = {}
    for m in SAID.finditer(open(log, encoding="utf-8").read()):
        fields = re.search(r"record \{ (.*?) \}`", m[3], re.S)
        wanted[m[1], m[2]] = [f.split("=")[0].strip() for f in fields[1].split(";")]
    for (path, goal), names in sorted(wanted.items()):
        path = f"crates/{crate}/{path}"
        text = open(path, encoding="utf-8").read()
        m = re.search(r"^" + re.escape(goal) + r" [^=\n]*=(.*?)(?=^[^\s)]|\Z)", text, re.M | re.S)
        body = m[1].rstrip()
        start = last_group(body)
        items, rest = [], body[start:]
        while rest != "tt":
            got = parts(rest)
            if len(got) != 2:
                break
            items.append(got[0])
            rest = got[1]
        if rest != "tt" or len(items) != len(names):
            print("by hand:", path, goal, len(items), names)
            continue
        record = "record { " + " ".join(f"{n} = {e};" for n, e in zip(names, items)) + " }"
        text = text[: m.start(1)] + body[:start] + record + text[m.start(1) + len(body) :]
        open(path, "w", encoding="utf-8").write(text)
        print("turned:", path, goal)


main()
