#!/usr/bin/env python3
"""Brings the repository's own definitions and lemmas to the spelling of words in snake case.

Run once, at the top, after the kit's port.py. Names of the kit, of src/ and in strings stay. With --look it writes nothing and
lists the new names that stand already in a file where they would come.
"""
import os
import re
import sys

KIT = {"walk_Meets", "uint_Tells", "uint_Makes", "uint_Lawful", "shr_slice_Tells", "shr_slice_Lawful", "is_IsWord"}
# A definition whose result is a fact has a fact's name.
OTHER = {"foundBelow": "IsFoundBelow"}
# Lemmas whose names a definition's new spelling would take.
LEMMAS = {"by_code", "count_at", "count_no", "digits_number", "found_below", "key_in", "keys_in", "no_line", "no_number", "no_sign",
          "no_size", "no_text", "or_right", "record_of", "said_in", "same_place", "too_few"}
TOKEN = re.compile(r"(?<![A-Za-z0-9_'\\-])[a-z][A-Za-z0-9_'-]*")
BARE = re.compile(r"(?<![A-Za-z0-9_'.\\-])[a-z][A-Za-z0-9_'-]*")
STRING = re.compile(r'b?"(?:[^"\\]|\\.)*"')


def snake(name):
    if name in OTHER:
        return OTHER[name]
    return re.sub(r"(?<=[a-z0-9])([A-Z])", lambda m: "_" + m.group(1).lower(), name)


def camel(name):
    return re.search(r"[a-z0-9][A-Z]", name) and name not in KIT


def lemmas_apart(text):
    """Lemmas only, in a file of proofs/: no part of a path, no step of a proof, no comment."""
    def token(m):
        return m.group(0) + "_lem" if m.group(0) in LEMMAS else m.group(0)

    lines = []
    for line in text.split("\n"):
        code, mark, comment = line.partition("-- ")
        lines.append(BARE.sub(token, code) + mark + comment)
    return "\n".join(lines)


def respelled(text, names):
    def token(m):
        return snake(m.group(0)) if m.group(0) in names else m.group(0)

    out, at = [], 0
    for m in STRING.finditer(text):
        out.append(TOKEN.sub(token, text[at:m.start()]))
        out.append(m.group(0))
        at = m.end()
    out.append(TOKEN.sub(token, text[at:]))
    return "".join(out)


def files(ending):
    for folder, folders, names in os.walk("crates"):
        folders[:] = [f for f in folders if f not in ("out", "must-fail", "data")]
        for name in sorted(names):
            if name.endswith(ending):
                yield os.path.join(folder, name)


def plain(text):
    return STRING.sub('""', text)


def main():
    look = "--look" in sys.argv
    texts = {p: open(p, encoding="utf-8").read() for p in list(files(".antt")) + list(files(".rt"))}
    names = set()
    for path, text in texts.items():
        if path.endswith(".antt"):
            names |= {t for t in TOKEN.findall(plain(text)) if camel(t) and not t.startswith("x0")}
    for path, text in sorted(texts.items()):
        if look:
            have = set(TOKEN.findall(plain(text)))
            for t in sorted(have & names):
                if snake(t) in have:
                    print(f"{path}: {t} -> {snake(t)}, which stands there")
            continue
        new = text
        if path.endswith(".antt") and "/proofs/" in path and not path.startswith("crates/file/"):
            new = lemmas_apart(new)
        new = respelled(new, names)
        if new != text:
            open(path, "w", encoding="utf-8").write(new)
    print(len(names), "names")


main()
