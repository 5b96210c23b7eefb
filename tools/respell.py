#!/usr/bin/env python3
"""Brings the repository's own names to the spelling of today's Rattle.

usage: python3 tools/respell.py     at the top, once, right after /opt/rattle/port/port.py

Words are in snake case, types and modules in camel case. Names of functions, constants and exported symbols, strings, inputs and
outputs keep their spelling. A lemma whose new name is that of the definition that it speaks of gets `_lem`. The crate `log` is
`budget`, since the toolchain has a library of the first name. Small plain types derive `Clone` and `Copy`.
"""

import os
import re
import subprocess

# Lemmas, fields and local names that would have the name of a definition.
LEMMAS = ["in_rest", "is_block", "is_live", "close_block", "lead_block", "no_room", "no_store", "reads_nothing", "too_long", "at_rest"]
# Names of one letter and a capital, and the words of a lemma's name that the library spells otherwise.
KEPT = {"hB", "hS"}
SPELT = {"getD": "get_or"}
PART = re.compile(r"(?<![\w'])([a-z][a-z0-9]*(?:_[a-z0-9]+)*(?:[A-Z][a-z0-9]*)+(?:_[A-Za-z0-9]+)*)(?![\w])")
STRING = re.compile(r"b?\"(?:[^\"\\]|\\.)*\"|b?'(?:[^'\\\n]|\\.)[^'\n]{0,3}?'(?!\w)|0x[0-9A-Fa-f_]+")


def snake(word):
    if word in KEPT or re.match(r"x[0-9A-F]+$", word):
        return word
    for old, new in SPELT.items():
        word = word.replace(old, new)
    return re.sub(r"(?<=[a-z0-9])(?=[A-Z])", "_", word).lower()


def respelt(text):
    return PART.sub(lambda m: snake(m[1]), text)


def outside_strings(text):
    out, at = [], 0
    for m in STRING.finditer(text):
        out += [respelt(text[at : m.start()]), m[0]]
        at = m.end()
    return "".join(out + [respelt(text[at:])])


def lemmas(path, text):
    """The lemmas first, as their new names would be taken: whole words that are no part of a path."""
    crate = path.split(os.sep)[1]
    for name in LEMMAS:
        if crate == "live" and name == "is_live":
            continue
        new = name + "_lem"
        text = re.sub(r"(?<![\w'«-])(?<!Rattle\.)(?<!proofs\.)(?<!contracts\.)" + name + r"(?![\w'.:»-])", new, text)
    return text


def crate_name(text):
    text = re.sub(r"\bRattle\.log\.", "Rattle.budget.", text)
    text = re.sub(r"(?m)^(\s*(?:pub )?use )log(?=::|;)", r"\1budget", text)
    return re.sub(r"(?<![\w:.])log::", "budget::", text)


def derives(text):
    return text.replace("#[derive(Drop)]", "#[derive(Clone, Copy)]")


def fields(text):
    return re.sub(r"\b(count|sectors|size)-(from|to)\b(?!-)", r"\1_\2", text)


def main():
    subprocess.run(["git", "mv", "crates/log", "crates/budget"], check=True)
    for folder, dirs, files in os.walk("crates"):
        dirs[:] = sorted(d for d in dirs if d != "out")
        for f in sorted(files):
            path = os.path.join(folder, f)
            if not f.endswith((".antt", ".rt", ".edit")):
                continue
            with open(path, encoding="utf-8") as it:
                old = it.read()
            text = crate_name(old)
            if f.endswith(".antt"):
                text = respelt(fields(lemmas(path, text)))
            elif f.endswith(".rt"):
                text = derives(outside_strings(text))
                if f in ("lib.rt", "main.rt") and folder.endswith("src") and "#![tactic(auto)]" not in text:
                    text = "#![tactic(auto)]\n" + text
            else:
                text = outside_strings(text)
            if text != old:
                with open(path, "w", encoding="utf-8") as it:
                    it.write(text)
    with open("crates.txt", encoding="utf-8") as it:
        text = it.read()
    with open("crates.txt", "w", encoding="utf-8") as it:
        it.write(re.sub(r"\blog\b", "budget", text))
    for crate in sorted(os.listdir("crates")):
        subprocess.run(["rt", "fmt"], cwd=os.path.join("crates", crate), check=True, stdout=subprocess.DEVNULL)


main()
