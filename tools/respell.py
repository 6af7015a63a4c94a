#!/usr/bin/env python3
"""Brings this repository's own names to the spelling of today's Rattle. Run once, after the kit's port.py, at the top.

  - definitions, lemmas, fields and constructors of antt in snake case (`saveFit` becomes `save_fit`), in .rt, .antt and .edit files
  - an alias `X as X·spec` of a definition that has its function's name goes; the definition is cited by its own name
  - the crate `hex`, whose name is one of the kit's libraries, becomes `hex_text`
  - the texts of must-fail edits get the kit's spelling where it is the same everywhere: tight projections, operators
"""
import glob
import os
import re
import subprocess

WORD = re.compile(r"(?<![\w'])[a-z][a-z0-9]*[A-Z][A-Za-z0-9_']*")
PARAMETERS = {"crates/replay/src/running.rt": ["fresh"], "crates/matcher/src/searching.rt": ["found"]}


def snake(word):
    word = re.sub(r"([a-z0-9])([A-Z])", r"\1_\2", word)
    word = re.sub(r"([A-Z]+)([A-Z][a-z])", r"\1_\2", word)
    return word.lower()


def names(text):
    text = WORD.sub(lambda m: snake(m.group(0)), text)
    text = re.sub(r"\bRattle\.hex\b", "Rattle.hex_text", text)
    return re.sub(r"\bhex::", "hex_text::", text)


def aliases(path, text):
    for word in PARAMETERS.get(path, []):
        text = text.replace(word + "·spec", word + "_def")
    text = re.sub(r"\b(\w+) as \1·spec\b", r"\1", text)
    return re.sub(r"\b(\w+)·spec\b", r"\1", text)


def edit(text):
    lines = []
    for line in text.split("\n"):
        if line.startswith(("old:", "new:")):
            line = re.sub(r"(?<=[\w')]) \.([a-z0-9])", r".\1", line)
            line = re.sub(r"(?<!\w)\((\w[\w']*(?:\.[a-z0-9][\w']*)+)\)", r"\1", line)
            line = re.sub(r"(?<=[{ ,(])_([≡≢<≤+*/%^∷&|]+|\+\+|&&|\|\||else)_", r"◌\1◌", line)
            line = re.sub(r"Rattle·(\w+)·specs\.specs\.", r"Rattle.\1.specs.", line)
            line = re.sub(r"Rattle·(\w+)·proofs\.proofs\.", r"Rattle.\1.proofs.", line)
            line = re.sub(r"Rattle·(\w+)\.", r"Rattle.\1.", line)
            line = line.replace("getD", "get_or").replace("areBytes", "are_bytes").replace("the-variants", "TheVariants")
        lines.append(line)
    return "\n".join(lines)


def main():
    for path in sorted(glob.glob("crates/**/*", recursive=True)):
        if not os.path.isfile(path) or not path.endswith((".rt", ".antt", ".edit")):
            continue
        with open(path, encoding="utf-8") as f:
            text = f.read()
        new = names(edit(text) if path.endswith(".edit") else text)
        if path.endswith(".rt"):
            new = aliases(path, new)
        if new != text:
            with open(path, "w", encoding="utf-8") as f:
                f.write(new)
    with open("crates.txt") as f:
        text = f.read()
    with open("crates.txt", "w") as f:
        f.write(re.sub(r"(?m)(^|\s)hex(?=[:\s]|$)", r"\1hex_text", text))
    subprocess.run(["git", "mv", "crates/hex", "crates/hex_text"], check=True)


if __name__ == "__main__":
    main()
