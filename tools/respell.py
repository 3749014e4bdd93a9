#!/usr/bin/env python3
"""Spells the names of this repository's definitions, lemmas, fields and variables in snake case, as today's Rattle does.

usage: python3 tools/respell.py [FOLDER]      (at the top of a checkout, after the kit's own port script; FOLDER is crates)

In specs/ and proofs/ a name with a dash gets underscores, and one that names a type gets camel case. A name of the library, which a file
imports from a path that does not begin with Rattle, stays; so do the names that the checker makes (Need-.., returns-2). In src/ the names of
`ghost use` items and of clauses turn; no Rust name has a dash. Of a comment only what stands between backticks turns. A second run changes
nothing. A name that would fall together with another one of its file is printed, and the script ends with status 1.
"""
import os
import re
import sys

WORD = re.compile(r"""[^\s(){}.;,@"«»]+""")
QUIET = re.compile(r'"(?:[^"\\\n]|\\.)*"|(?<![^\s(){}.;,@"«»])--[^\n]*|\{-.*?-\}', re.S)
USE = re.compile(r"\buse ((?:[^\s.{]+\.)*[^\s.{]+)\.\{([^}]*)\}", re.S)
DASHED = re.compile(r"[^\W_][\w'ℕℤ₀-₉]*(?:-[\w'+ℕℤ₀-₉]+)+")
MADE = re.compile(r"Need-.*|returns-\d+")
PATH = re.compile(r"\bRattle\.[^\s{]+")
SPAN = re.compile(r"`[^`\n]*`")
RUST_QUIET = re.compile(r"//[^\n]*|/\*.*?\*/|b?\"(?:\\.|[^\"\\])*\"|b?'(?:\\.|[^'\\])'", re.S)
RUST_WORD = re.compile(r"(?<![\w'-])[A-Za-z][\w']*(?:-[\w']+)+")

# Words of a crate that are types, and had no dash.
TYPES = {"macro_meaning": {"apart": "Apart"}, "board_meaning": {"all_done": "AllDone"}}


def respelled(name):
    if name[:1].isupper():
        return "".join(part[:1].upper() + part[1:] for part in name.split("-"))
    return name.replace("-", "_")


def is_own_path(path):
    return path.split(".")[0] == "Rattle" and not path.startswith("Rattle.std.")


def of_the_library(text):
    """What a file imports from elsewhere than this repository, by the spelling that it has there."""
    names, own = set(), set()
    for m in USE.finditer(QUIET.sub(" ", text)):
        for item in m[2].split(","):
            words = item.split(" as ")
            (own if is_own_path(m[1]) else names).add(words[0].strip())
            if len(words) == 2:
                own.add(words[1].strip())
    return names - own


def turn_code(code, kept, types, clashes):
    """Every dashed name of a stretch of code but those that are kept, and the words that are types."""
    out, at = [], 0
    words = {m[0] for m in WORD.finditer(PATH.sub(" ", code))}
    for m in WORD.finditer(code):
        name = m[0]
        if name in types:
            new = types[name]
        elif not DASHED.fullmatch(name) or name in kept or MADE.fullmatch(name):
            continue
        else:
            new = respelled(name)
        if new in words:
            clashes.append((name, new))
        out += [code[at : m.start()], new]
        at = m.end()
    return "".join(out) + code[at:]


def turn_spans(comment, kept):
    """The names between backticks of a comment."""

    def turn(m):
        name = m[0].strip("`")
        stays = not DASHED.fullmatch(name) or name in kept or MADE.fullmatch(name)
        return m[0] if stays else m[0].replace(name, respelled(name))

    return SPAN.sub(lambda s: WORD.sub(turn, s[0]), comment)


def turn_antt(text, types, clashes):
    kept = of_the_library(text)
    out, at = [], 0
    for m in QUIET.finditer(text):
        out += [turn_code(text[at : m.start()], kept, types, clashes), turn_spans(m[0], kept)]
        at = m.end()
    return "".join(out) + turn_code(text[at:], kept, types, clashes)


def turn_rust(text, _types, _clashes):
    out, at = [], 0
    turn = lambda code: RUST_WORD.sub(lambda m: respelled(m[0]), code)
    for m in RUST_QUIET.finditer(text):
        out.append(turn(text[at : m.start()]))
        quiet = m[0]
        out.append(SPAN.sub(lambda s: turn(s[0]), quiet) if quiet.startswith("/") else quiet)
        at = m.end()
    out.append(turn(text[at:]))
    return "".join(out)


def main(folder):
    clashes = []
    for where, folders, files in os.walk(folder):
        folders[:] = sorted(f for f in folders if f not in ("out", "must-fail"))
        for name in sorted(files):
            turn = {".antt": turn_antt, ".rt": turn_rust}.get(os.path.splitext(name)[1])
            if not turn:
                continue
            path = os.path.join(where, name)
            with open(path, encoding="utf-8") as f:
                text = f.read()
            met = []
            new = turn(text, next((TYPES[part] for part in path.split(os.sep) if part in TYPES), {}), met)
            clashes += [(path, *c) for c in met]
            if new != text:
                with open(path, "w", encoding="utf-8") as f:
                    f.write(new)
    for path, old, new in sorted(set(clashes)):
        print(f"{path}: {old} would meet {new}")
    return 1 if clashes else 0


if __name__ == "__main__":
    sys.exit(main(sys.argv[1] if len(sys.argv) > 1 else "crates"))
