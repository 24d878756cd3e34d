#!/usr/bin/env python3
"""Spells the repository's own definitions and lemmas in snake case, as words are spelled today: lockTaken becomes lock_taken,
lockTaken-stays becomes lock_taken-stays. It goes over specs, proofs, sources and must-fail edits, once, from the top of the repository.

A lemma that would have the name of a word that its file speaks of gets the ending _lem. Functions of src/, exported C names, strings,
inputs and outputs hold no such name and stay.
"""

import os
import re

STRING = re.compile(r'"(?:[^"\\\n]|\\.)*"')

# lemmas whose names fall together with a word's: the name, its file, and the files that import it from there
LEMMAS = {
    "one_table": ["frames/specs/Laws/OneText.antt"],
    "by_answer": ["checker/specs/Demand1.antt"],
    "by_length": ["checker/specs/Laws/Grading.antt"],
    "has_room": ["checker/specs/Laws/Solved.antt"],
    "is_digit": ["session/specs/Laws/Writing.antt"],
    "first_round": ["reasons/specs/Laws/Rises.antt"],
    "goes_on": ["explainer/specs/Laws/Walk.antt"],
    "same_answer": ["meaning/specs/Laws/SameRoots.antt"],
    "first_part": ["reasons/specs/Laws/Picks.antt"],
    "own_turn": ["reasons/specs/Laws/Turns.antt"],
}


def snake(name):
    """A name in snake case: each part that does not begin with a capital."""
    parts = name.replace("getD", "get_or").split("-")
    return "-".join(re.sub(r"(?<=[a-z])([A-Z])", lambda m: "_" + m[1].lower(), p) if p[:1].islower() else p for p in parts)


def module(path):
    crate, rest = path.split("/", 1)
    return "Rattle." + crate + "." + rest[: -len(".antt")].replace("/", ".")


def lemmas_of(path, text):
    """The lemmas that this file declares or imports under a name that a word now has."""
    for lemma, places in LEMMAS.items():
        for place in places:
            if path == place:
                yield lemma
            for line in re.findall(r"^use " + re.escape(module(place)) + r"\.\{([^}]*)\}", text, re.M):
                if lemma in re.split(r",\s*", line):
                    yield lemma


def renamed(path, text):
    for lemma in set(lemmas_of(path, text)):
        text = re.sub(r"(?<![\w'.-])" + lemma + r"(?![\w'-])", lemma + "_lem", text)
    held = []

    def hold(m):
        held.append(m[0])
        return "\0%d\0" % (len(held) - 1)

    if path.endswith(".rt"):
        text = STRING.sub(hold, text)
    text = re.sub(r"(?<![\w'-])([a-z][\w']*(?:-[\w']+)*)", lambda m: snake(m[1]), text)
    text = re.sub(r"(?<![\w'-])([A-Z][\w']*(?:-[\w']+)+)", lambda m: snake(m[1]), text)
    return re.sub(r"\0(\d+)\0", lambda m: held[int(m[1])], text)


def main():
    for folder, inner, files in os.walk("crates"):
        inner[:] = [d for d in inner if d not in ("out", "data")]
        for name in sorted(files):
            if not name.endswith((".rt", ".antt", ".edit")):
                continue
            path = os.path.join(folder, name)
            with open(path, encoding="utf-8") as file:
                text = file.read()
            new = renamed(os.path.relpath(path, "crates"), text)
            if new != text:
                with open(path, "w", encoding="utf-8") as file:
                    file.write(new)


if __name__ == "__main__":
    main()
