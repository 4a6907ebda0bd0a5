#!/usr/bin/env python3
"""Brings the repository's own definitions and lemmas to the library's spelling: words in snake case, facts in camel case.

usage: python3 tools/respell.py        once, at the top, after the kit's own script and before any edit by hand

In specs/, proofs/, src/ and must-fail/ every part of a name that is written likeThis becomes like_this; a function of
specs/ whose name has a hyphen gets an underscore, and six facts get the capital of a fact. Strings of .rt files stay.
"""
import os
import re

CAMEL = re.compile(r"^(?!xNN)[a-z][a-z0-9]*(?:[A-Z][a-z0-9]*)+'*$")
TOKEN = re.compile(r"(?<![\w'◌+-])[A-Za-z_][\w']*(?:[-+][\w']+)*")
STRING = re.compile(r'b?"(?:\\.|[^"\\])*"' + r"|b?'(?:\\.|[^'\\])'")
FACTS = {"unlessStays": "UnlessStays", "isPart": "IsPart", "isCredit": "IsCredit", "isCommitOf": "IsCommitOf",
         "impossible": "IsImpossible", "ends-word": "ends_word", "after-byte": "after_byte"}
# a name that means this in these files alone
LOCAL = {"crates/model/specs/History.antt": {"idle": "IsIdle"}, "crates/model/proofs/Ran.antt": {"idle": "IsIdle"}}
# the model's test of a part is a Bool, the wire's is a fact
KEEP = {"isPart": ("crates/model", "crates/server", "crates/desk", "crates/client")}


def snake(part):
    return re.sub(r"(?<=[a-zA-Z0-9])([A-Z])", lambda m: "_" + m.group(1).lower(), part)


def named(word, path):
    local = LOCAL.get(path, {})
    if word in local:
        return local[word]
    if word in FACTS and not path.startswith(KEEP.get(word, ())):
        return FACTS[word]
    return re.sub(r"[^+-]+", lambda m: snake(m.group()) if CAMEL.match(m.group()) else m.group(), word)


def turned(text, path):
    def one(m):
        return named(m.group(), path)
    if not path.endswith(".rt"):
        return TOKEN.sub(one, text)
    out, at = [], 0
    for s in STRING.finditer(text):
        out += [TOKEN.sub(one, text[at:s.start()]), s.group()]
        at = s.end()
    return "".join(out) + TOKEN.sub(one, text[at:])


for folder, dirs, files in os.walk("crates"):
    dirs[:] = sorted(d for d in dirs if d != "out")
    for name in sorted(files):
        if name.endswith((".rt", ".antt", ".edit")):
            path = os.path.join(folder, name)
            with open(path, encoding="utf-8") as f:
                old = f.read()
            new = turned(old, path)
            if new != old:
                with open(path, "w", encoding="utf-8") as f:
                    f.write(new)
