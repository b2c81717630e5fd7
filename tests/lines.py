#!/usr/bin/env python3
"""Turns outside cases into lines of the program desk, with the answers that are expected.

lines.py stdin | stdout            the selection that the gate runs
lines.py all-stdin | all-stdout    every case that desk knows so far
"""
import json
import pathlib
import sys

HERE = pathlib.Path(__file__).parent


def hold(source, name, out):
    """Lines that put a table or packed bytes under a name, and the words for the source."""
    kind = source[0]
    if kind == "table":
        out.append((f"table {name} {source[1]}", "ok"))
        out.extend((f"event {k} {s} {x} {r}", "ok") for k, s, x, r in source[2])
        return name
    if kind == "packed":
        out.append((f"packed {name} {source[1] or '-'}", "ok"))
        return name
    if kind == "pick":
        return f"pick {source[2]} {hold(source[1], name, out)}"
    if kind == "offset":
        return f"offset {source[2]} {source[3]} {hold(source[1], name, out)}"
    if kind == "join":
        return f"join {hold(source[1], 'a', out)} {hold(source[2], 'b', out)}"
    raise ValueError(kind)


def asked(call, answer):
    """The lines of one call."""
    out = []
    words = hold(call[1], "a", out)
    if call[0] == "questions":
        season, count, event = answer[1:]
        shown = "absent" if event is None else ".".join(map(str, event))
        out.append((f"questions {words} {call[2]}", f"ok {season} {count} {shown}"))
    elif answer[0] == "ok":
        out.append((f"write {words} {call[2]}", f"ok {answer[1]} : {answer[2]}"))
    else:
        out.append((f"write {words} {call[2]}", f"refused {answer[1]} : {answer[3]}"))
    return out


def source_cases():
    for line in (HERE / "calls.jsonl").read_text().splitlines():
        case = json.loads(line)
        for call, answer in zip(case["calls"], case["answers"]):
            if call[0] in ("questions", "write"):
                yield call[1][0], asked(call, answer)


def file_cases():
    for line in (HERE / "reports.jsonl").read_text().splitlines():
        case = json.loads(line)
        words = case["expected_stdout"].split()
        if words[:2] == ["fault", "file"]:
            yield "read", [(f"read {case['hex'] or '-'}", f"refused {words[2]} place {words[4]}")]


def main():
    which = sys.argv[1]
    taken = {}
    for kind, lines in [*source_cases(), *file_cases()]:
        taken[kind] = taken.get(kind, 0) + 1
        if which.startswith("all-") or taken[kind] <= 24:
            for line, answer in lines:
                print(line if which.endswith("stdin") else answer)


main()
