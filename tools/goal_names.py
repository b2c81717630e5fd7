#!/usr/bin/env python3
"""Brings the names of goals and steps in proofs/ to the spelling of today's Rattle: a name of the source keeps its
underscores, and a word of Rattle's own has one too. To be run once, at the top, after the kit's port script."""
import os
import re

WORDS = [
    "in_err", "in_ok", "in_default", "invariant_of", "type_inv", "slice_bounds", "offset_bounds", "nonzero_div",
    "nonzero_rem", "overflow_add", "overflow_sub", "overflow_mul", "overflow_shl", "overflow_shr", "overflow_cast",
    "overflow_step", "overflow_neg", "from_residual", "x_index",
]  # fmt: skip
TOKEN = re.compile(r"[^\s(){}\[\],;.:+`\"]+")


def merged(token, names):
    parts, out, i = token.split("-"), [], 0
    while i < len(parts):
        for n in range(len(parts), i, -1):
            if n - i == 1 or "_".join(parts[i:n]) in names:
                out.append("_".join(parts[i:n]))
                i = n
                break
    return "-".join(out)


def main():
    for crate in sorted(os.listdir("crates")):
        names, proofs = set(WORDS), []
        for folder, _, files in os.walk(os.path.join("crates", crate)):
            if "/out" in folder:
                continue
            for name in files:
                path = os.path.join(folder, name)
                if name.endswith(".rt"):
                    names.update(re.findall(r"\b[a-z][a-z0-9]*(?:_[a-z0-9]+)+\b", open(path, encoding="utf-8").read()))
                elif name in ("Answers.antt", "Invariants.antt", "Proof.antt"):
                    proofs.append(path)
        for path in proofs:
            text = open(path, encoding="utf-8").read()
            turned = TOKEN.sub(lambda m: merged(m.group(), names) if "-" in m.group() else m.group(), text)
            if turned != text:
                open(path, "w", encoding="utf-8").write(turned)


main()
