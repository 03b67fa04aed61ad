#!/usr/bin/env python3
"""Brings this repository's own definitions and lemmas to today's spelling, after the kit's own port script has run.

usage: python3 tools/respell.py [--try]      at the top of the repository

Words are in snake case, types and modules in camel case. A dash stays where it joins two definitions, or a type and a word, and becomes an
underscore where it joins plain words. Names of functions of src/, of exported symbols and of what Rattle makes keep their spelling, and so do
strings. With --try it only lists the names that would fall together.
"""

import glob
import re
import sys

CAMEL = re.compile(r"[a-z][a-z0-9]*(?:[A-Z][A-Za-z0-9]*)+$")
TOKEN = re.compile(r"[^\W\d][\w'\u2080-\u2089]*(?:-[\w'\u2080-\u2089]+)*")
STRING = re.compile(r'b?"(?:[^"\\]|\\.)*"', re.S)
DECLARED = re.compile(r"^(\s*)(?:abbrev |unfoldable |pub )*([^\W\d][\w'-]*)((?: [^\W\d][\w'-]*)*)\s+:(?!:)\s", re.M)
# words of std that a lemma's name may join by a dash to another definition
STD = set("length take drop append map reverse get_or set replicate sum".split())
# names that would fall together with another, and what they become
OWN = {
    "is_true": "is_true_lem",
    "is_false": "is_false_lem",
    "in_bounds": "in_bounds_lem",
    "some_right": "some_right_lem",
    "at-character": "at_character_lem",
    "came-back": "came_back_lem",
    "character-event": "character_event_lem",
    "in-mood": "in_mood_lem",
    "leads-well": "leads_well_lem",
    "mood-again": "mood_again_lem",
    "more-digits": "more_digits_lem",
    "all-fits": "all_fits_lem",
    "is-finished": "is_finished_lem",
    "law-line-end": "law_line_end_lem",
    "law-page-end": "law_page_end_lem",
    "line-length": "line_length_lem",
    "most-lines": "most_lines_lem",
    "most-pages": "most_pages_lem",
    "page-good": "page_good_lem",
    "page-here": "page_here_lem",
}


def read(path):
    with open(path, encoding="utf-8") as f:
        return f.read()


def snake(word):
    return re.sub(r"(?<=[a-z0-9])([A-Z])", lambda m: "_" + m.group(1).lower(), word) if CAMEL.match(word) else word


def all_files():
    antt = sorted(glob.glob("crates/*/specs/**/*.antt", recursive=True) + glob.glob("crates/*/proofs/**/*.antt", recursive=True))
    rt = sorted(glob.glob("crates/*/src/**/*.rt", recursive=True))
    edits = sorted(glob.glob("crates/*/must-fail/*.edit"))
    return antt, rt, edits


def of_function(path):
    """Whether a file proves one function, so that what it declares are goals."""
    return "/proofs/" in path and path.split("/proofs/")[1].count("/") > 0


def main():
    trying = "--try" in sys.argv
    antt, rt, edits = all_files()
    texts = {p: read(p) for p in antt + rt + edits}
    # what is declared, and the fields of records
    declared, fields, definitions, foreign = set(), set(), set(STD), set()
    for p in antt:
        if of_function(p):
            continue
        for m in DECLARED.finditer(texts[p]):
            names = [m.group(2)] + m.group(3).split()
            declared.update(names)
            if m.group(1):
                fields.update(names)
            if "/specs/" in p and not m.group(1):
                definitions.update(names)
        for m in re.finditer(r"^(?:pub )?module ([^\W\d][\w'-]*)", texts[p], re.M):
            declared.add(m.group(1))
    ours = {p.split("/")[1] for p in antt + rt}
    for p in antt + rt:
        for m in re.finditer(r"^(?:ghost |pub )*use ([\w.]+)\.\{([^}]*)\}", texts[p], re.M):
            path = m.group(1).split(".")
            if path[0] != "Rattle" or len(path) < 2 or path[1] not in ours:
                foreign.update(x.strip().split(" as ")[0] for x in m.group(2).split(","))
    for name in sorted(foreign & declared):
        print("also a name of the library:", name)
    kept = {"spec", "statement"} | foreign
    taken = set()
    for p in antt + rt:
        taken.update(TOKEN.findall(STRING.sub('""', texts[p])))

    def dashes(name):
        parts = [snake(x) for x in name.split("-")]
        if len(parts) == 1:
            return parts[0]
        out = parts[0]
        for before, after in zip(parts, parts[1:]):
            joined = before[:1].isupper() or after[:1].isupper() or ({before, after} <= plain)
            out += ("-" if joined else "_") + after
        return out

    plain = {snake(x) for x in definitions}
    table = dict(OWN)
    for name in sorted(declared - kept):
        if name not in table and dashes(name) != name:
            table[name] = dashes(name)
    for name in sorted(taken):
        if CAMEL.match(name) and name not in table and name not in foreign:
            table[name] = snake(name)
        elif name not in declared | foreign and "-" in name and any(CAMEL.match(x) for x in name.split("-")):
            table[name] = "-".join(snake(x) for x in name.split("-"))
    # names that fall together, in any file that has both
    clash = {}
    for p in antt + rt:
        here = set(TOKEN.findall(STRING.sub('""', texts[p])))
        new = {}
        for x in here:
            new.setdefault(table.get(x, x), set()).add(x)
        for n, olds in new.items():
            if len(olds) > 1:
                clash.setdefault((n, tuple(sorted(olds))), []).append(p)
    for (n, olds), where in sorted(clash.items()):
        print("together:", n, olds, len(where), where[0])
    declared_new = {}
    for x in declared:
        declared_new.setdefault(table.get(x, x), set()).add(x)
    for n, olds in sorted(declared_new.items()):
        if len(olds) > 1:
            print("declared together:", n, sorted(olds))
    print(len(table), "names")
    if trying:
        return

    def turn(text, path):
        def name(m):
            word = m.group(0)
            if word not in table:
                return word
            before = text[m.start() - 1] if m.start() else ""
            if word in OWN and (not path.endswith(".antt") or before == "."):
                return word
            if word in OWN and of_function(path) and "-" in word:
                return word
            if of_function(path) and "-" in word:
                # steps and goals are named by Rattle
                if before == "." and word not in fields:
                    return word
            return table[word]

        out, at = [], 0
        for s in STRING.finditer(text):
            out.append((text[at:s.start()], True))
            out.append((s.group(0), False))
            at = s.end()
        out.append((text[at:], True))
        done, result = 0, []
        for piece, code in out:
            if code:
                # the text before a token is looked at in the whole file
                result.append(TOKEN.sub(lambda m: name(Shift(m, done, text)), piece))
            else:
                result.append(piece)
            done += len(piece)
        return "".join(result)

    for p in antt + rt + edits:
        new = turn(texts[p], p)
        if new != texts[p]:
            with open(p, "w", encoding="utf-8") as f:
                f.write(new)


class Shift:
    """A match in a piece of a text, seen from the whole."""

    def __init__(self, m, by, text):
        self.m, self.by = m, by

    def group(self, n):
        return self.m.group(n)

    def start(self):
        return self.m.start() + self.by


if __name__ == "__main__":
    main()
