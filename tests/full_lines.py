#!/usr/bin/env python3
"""Turns outside cases into lines of the program full_desk, with the answers that are expected.

lines.py stdin | stdout    the selection that the gate runs
"""
import json
import pathlib
import sys

HERE = pathlib.Path(__file__).parent

# Lines that full_desk does not know: a number that is too large, a word too few, a name that there is not.
UNKNOWN = [
    "stipulate 65536 1",
    "judge 4294967296",
    "forced 1",
    "show by-name 3",
    "open strict c",
    "open loose a",
    "lift 1",
    "",
]


def hold(source, name, held, out):
    """The words for a source; in out, lines that put its tables and bytes under names that do not hold them yet."""
    kind = source[0]
    if kind == "pick":
        return f"pick {source[2]} {hold(source[1], name, held, out)}"
    if kind == "offset":
        return f"offset {source[2]} {source[3]} {hold(source[1], name, held, out)}"
    if kind == "join":
        return f"join {hold(source[1], 'a', held, out)} {hold(source[2], 'b', held, out)}"
    if held.get(name) != source:
        held[name] = source
        if kind == "packed":
            out.append((f"packed {name} {source[1] or '-'}", "ok"))
        else:
            out.append((f"table {name} {source[1]}", "ok"))
            out.extend((f"event {k} {s} {x} {r}", "ok") for k, s, x, r in source[2])
    return name


def dotted(event):
    return "absent" if event is None else ".".join(map(str, event))


def worded(value):
    if value is None:
        return "absent"
    return str(value).lower()


def line_of(call, held, out):
    """The line that makes a call; in out, lines that its source needs before."""
    name = call[0]
    if name == "open":
        return f"open {call[2]} {hold(call[1], 'a', held, out)}"
    if name in ("write", "questions"):
        return f"{name} {hold(call[1], 'a', held, out)} {call[2]}"
    return " ".join(map(str, call))


def answer_of(name, answer):
    """What desk prints for an answer."""
    refused = answer[0] == "refused"
    if name == "open":
        return f"refused {answer[1]} place {answer[2]}" if refused else "ok"
    if name == "write":
        return f"{answer[0]} {answer[1]} : {answer[-1]}"
    if name == "show":
        return f"{answer[0]} {answer[1]} :" + "".join(f" {number}" for number in answer[-1])
    if name == "questions":
        return f"ok {answer[1]} {answer[2]} {dotted(answer[3])}"
    return f"refused {answer[1]}" if refused else " ".join(map(worded, answer))


def made(script):
    """For each call of a script its lines with their answers, the call's own last."""
    held = {}
    for call, answer in script:
        out = []
        line = line_of(call, held, out)
        yield [*out, (line, answer_of(call[0], answer))]


def scripts():
    """Every script of calls: the calls and their answers."""
    for line in (HERE / "calls.jsonl").read_text().splitlines():
        case = json.loads(line)
        yield list(zip(case["calls"], case["answers"], strict=True))


def reads():
    """Lines that read bytes: those with a fault of the file, and those that a table is written to."""
    for line in (HERE / "reports.jsonl").read_text().splitlines():
        case = json.loads(line)
        words = case["expected_stdout"].split()
        if words[:2] == ["fault", "file"]:
            yield f"read {case['hex'] or '-'}", f"refused {words[2]} place {words[4]}"
    for script in scripts():
        for call, answer in script:
            if call[0] == "write" and call[1][0] == "table" and answer[0] == "ok":
                _, season, events = call[1]
                meant = " ".join(["ok", str(season), str(len(events)), *map(dotted, events)])
                yield f"read {answer[2][:2 * answer[1]]}", meant


def traits(script):
    """What a script shows: each call with how it ends, and by its source, rule or preference; how large steps and orders are."""
    for call, answer in script:
        name = call[0]
        end = answer[:2] if answer[0] == "refused" or name in ("judge", "forced") else answer[:1]
        if name == "clash" and answer[0] == "ok":
            end = ["absent" if answer[1] is None else "some"]
        yield (name, *end)
        if name in ("open", "write", "questions"):
            yield (name, call[1][0], *end)
        if name in ("open", "show") and answer[0] == "ok":
            yield (name, call[2] if name == "open" else call[1])
        if name in ("judge", "show") and answer[0] == "ok":
            size = answer[2] if name == "judge" else answer[1]
            yield (name, *end, size.bit_length() // 2)


def settled(script):
    """Whether the answers are the same on a case that is open already: the first call on it that can change it opens it."""
    for call, answer in script:
        if call[0] not in ("open", "write", "questions"):
            return False
        if call[0] == "open" and answer[0] == "ok":
            return True
    return True


def selected():
    """For each trait the shortest script that has it. One script wants a closed case, and goes first."""
    by_length = sorted(scripts(), key=lambda script: sum(map(len, made(script))))
    closed = next(script for script in by_length if any(answer[:2] == ["refused", 20] for _, answer in script))
    taken = [closed]
    seen = set()
    for script in by_length:
        if settled(script) and not seen.issuperset(traits(script)):
            taken.append(script)
            seen.update(traits(script))
    return taken


def gate():
    for number, line in enumerate(UNKNOWN, 1):
        yield line, f"error line {number}"
    for script in selected():
        for lines in made(script):
            yield from lines
    seen = {}
    for line, answer in sorted(reads(), key=lambda pair: len(pair[0])):
        end = answer.split()[1] if answer.startswith("refused") else "ok"
        seen[end] = seen.get(end, 0) + 1
        if seen[end] <= 6:
            yield line, answer


def main():
    which = {"stdin": 0, "stdout": 1}[sys.argv[1]]
    for pair in gate():
        print(pair[which])


if __name__ == "__main__":
    main()
