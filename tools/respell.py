#!/usr/bin/env python3
"""Respells the definitions, lemmas and made names of this repository to snake case.

usage: python3 tools/respell.py      once, at the top, after /opt/rattle/port/port.py

Definitions and local names in camel case become snake case; own lemmas lose their dashes, but for a dash that joins two
functions; a name that Rattle makes keeps a Rust function's own underscores. Strings, Rust's names and outputs stay.
"""

import os
import re

# lemmas whose dash joins two functions, and lemmas that would fall together with a function
OWN = {
    "length-records": "length-records",
    "length-padded": "length-padded",
    "length-around": "length-around",
    "map-removed": "map-removed",
    "take-set-any": "take-set_any",
    "first-map": "first_from-map",
    "round-map": "first_round-map",
    "concatenated-append": "concatenated-append",
    "behind-append": "behind-append",
    "behind-drop": "behind-drop",
    "behind-set": "behind-set",
    "behind-push": "behind-push",
    "behind-long": "behind_long_lem",
    "put-by": "put_by_lem",
    "is-on": "is_on_lem",
    "on-board": "on_board_lem",
    "if-on": "if_on_lem",
    "next-line": "next_line_lem",
    "same-records": "same_records_lem",
    "by-sign": "by_sign_lem",
    "scenarios-compare": "scenarios_compare_lem",
    "Statements-stand": "StatementsStand",
    "Functions-stand": "FunctionsStand",
    "Stops-stand": "StopsStand",
    "Refusals-stand": "RefusalsStand",
    "Positions-stand": "PositionsStand",
}

# Rust functions of std whose names Rattle puts into the names that it makes
STD = [
    "copy_from_slice", "copy_within", "split_at", "is_ascii_digit", "make_ascii_uppercase", "rotate_left",
    "unsigned_abs", "is_ne", "as_slice", "to_ascii_uppercase", "in_default", "in_ok", "in_err",
    "overflow_add", "overflow_sub", "overflow_mul", "overflow_cast",
]

SIGNATURE = re.compile(r"^\s*(?:abbrev |unfoldable |pub )*([^\s(){}\[\];,.:=λ]+(?:\s+[^\s(){}\[\];,.:=λ]+)*)\s*:(?!=)")
TOKEN = re.compile(r"[A-Za-z_][\w'≢-]*")
STRING = re.compile(r'"(?:[^"\\]|\\.)*"')
CAMEL = re.compile(r"^[a-z][A-Za-z0-9_']*[A-Z]")


def files(kinds):
    for folder, dirs, names in os.walk("crates"):
        dirs[:] = sorted(d for d in dirs if d != "out")
        for name in sorted(names):
            if name.endswith(kinds):
                yield os.path.join(folder, name)


def snake(name):
    return re.sub(r"([a-z0-9])([A-Z])", lambda m: m.group(1) + "_" + m.group(2).lower(), name).replace("-", "_")


def is_answer(path):
    return os.path.basename(path) in ("Answers.antt", "Invariants.antt", "Proof.antt")


def lemmas():
    """The own lemmas that have dashes: those declared in proofs/*.antt."""
    found = {}
    for path in files(".antt"):
        if is_answer(path):
            continue
        for line in open(path, encoding="utf-8"):
            if line.lstrip().startswith(("--", "use ")):
                continue
            m = SIGNATURE.match(line)
            for name in m.group(1).split() if m else []:
                if "-" in name and re.match(r"[A-Za-z]", name):
                    found[name] = OWN.get(name) or snake(name)
    return found


def made(functions):
    """Turns the dashes of Rust functions' names in a name that Rattle makes."""
    parts = sorted((f for f in functions if "_" in f), key=len, reverse=True)
    one = re.compile(r"(?<![A-Za-z0-9_])(" + "|".join(re.escape(p.replace("_", "-")) for p in parts) + r")(?![A-Za-z0-9_])")
    return lambda name: one.sub(lambda m: m.group(1).replace("-", "_"), name)


def rust_functions():
    found = set(STD)
    for path in files(".rt"):
        found.update(re.findall(r"\bfn (\w+)", open(path, encoding="utf-8").read()))
    return found


def outside_strings(text, turn):
    out, at = [], 0
    for m in STRING.finditer(text):
        out += [turn(text[at:m.start()]), m.group(0)]
        at = m.end()
    return "".join(out + [turn(text[at:])])


def main():
    own = lemmas()
    make = made(rust_functions())

    def renamed(name, answer):
        if name in own:
            return own[name]
        if CAMEL.match(name) and "-" not in name and name != "cases_Bool":
            return snake(name)
        if answer and "-" in name:
            return make(name)
        return name

    for path in files((".antt", ".rt", ".edit")):
        text = open(path, encoding="utf-8").read()
        answer = is_answer(path)
        dashes = path.endswith(".antt")

        def turn(piece):
            if dashes:
                return TOKEN.sub(lambda m: renamed(m.group(0), answer), piece)
            return re.sub(r"\b[a-z]\w*[A-Z]\w*\b", lambda m: renamed(m.group(0), False), piece)

        # a Rust comment and a string keep their words
        lines = [outside_strings(line, turn) if not line.lstrip().startswith("//") else line for line in text.split("\n")]
        new = "\n".join(lines)
        if new != text:
            open(path, "w", encoding="utf-8").write(new)

    for path in ["README.md"] + sorted(os.path.join("docs", f) for f in os.listdir("docs") if f.endswith(".md")):
        text = open(path, encoding="utf-8").read()
        new = re.sub(r"`[^`\n]*`", lambda m: TOKEN.sub(lambda t: renamed(t.group(0), False), m.group(0)), text)
        if new != text:
            open(path, "w", encoding="utf-8").write(new)


if __name__ == "__main__":
    main()
