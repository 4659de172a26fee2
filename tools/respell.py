#!/usr/bin/env python3
"""Respells the repository's own definitions and lemmas: functions, lemmas, fields and constructors in snake case, types in camel case.

usage: python3 tools/respell.py, at the top, once, right after the toolchain's own script has turned the older spelling.
tools/respelled.txt lists the names as they were. Comments and strings stay; names after a dot are fields, or steps that the
checker names after functions of src/, and those keep the functions' names.
"""
import os
import re

HERE = os.path.dirname(os.path.realpath(__file__))
TOKEN = re.compile(r"(\.?)(?<![\w'-])([A-Za-z_][\w']*(?:-[\w']+)+)(?![\w'-])")
# names that would fall together with a function of the same file, or with the function that a lemma proves
OTHERWISE = {
    "is-plus": "node_is_plus",
    "ends-in-plus": "newest_is_plus",
    "lift-of": "event_lift",
    "may-precede": "may_come_before",
    "core-is-general": "core_is_general_lem",
    "irrelevant-dropped": "irrelevant_dropped_lem",
    "kept-suffice": "kept_suffice_lem",
    "one-result": "one_result_lem",
    "one-tree": "one_tree_lem",
    "recursion-is-result": "recursion_is_result_lem",
    "results-carried": "results_carried_lem",
}


def spelling(name):
    if name[0].isupper():
        return "".join(p[0].upper() + p[1:] for p in name.split("-"))
    return name.replace("-", "_")


def turned(text, names):
    def one(m):
        dot, name = m.group(1), m.group(2)
        if name not in names:
            return m.group()
        return dot + (spelling(name) if dot else OTHERWISE.get(name, spelling(name)))

    return TOKEN.sub(one, text)


def line(text, comment, names):
    """The line with its names respelled; strings and the comment at its end stay."""
    parts = re.split(comment, text, maxsplit=1)
    code = parts[0]
    pieces = re.split(r'("(?:\\.|[^"\\])*")', code)
    pieces[::2] = [turned(p, names) for p in pieces[::2]]
    return "".join(pieces) + text[len(code):]


def main():
    with open(os.path.join(HERE, "respelled.txt"), encoding="utf-8") as f:
        names = set(f.read().split())
    for folder, dirs, files in os.walk(os.path.join(os.path.dirname(HERE), "crates")):
        dirs[:] = sorted(d for d in dirs if d not in ("out", "target"))
        for name in sorted(files):
            comment = {".rt": r"//", ".antt": r"(?:^|(?<=\s))--(?=\s|$)", ".edit": r"$^"}.get(os.path.splitext(name)[1])
            if not comment:
                continue
            path = os.path.join(folder, name)
            with open(path, encoding="utf-8") as f:
                old = f.read()
            new = "\n".join(line(l, comment, names) for l in old.split("\n"))
            if new != old:
                with open(path, "w", encoding="utf-8") as f:
                    f.write(new)


main()
