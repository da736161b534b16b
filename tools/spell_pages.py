#!/usr/bin/env python3
"""Spells the repository's own names in pages and tools as tools/spell_names.py spelled them in crates/, once, after it.

usage: tools/spell_pages.py FILE..

In a page (.md) only what stands between backquotes turns, in another file each word. A name turns where no crate declares it any more and its spelling of
today is declared; of a lemma that met its definition that is the one that ends in `_lem`. What is left is printed.
"""
import os
import re
import sys

sys.dont_write_bytecode = True
sys.path.insert(0, os.path.dirname(os.path.realpath(__file__)))
import spell_names as names

WORD = re.compile(r"(?<![-\w/])[A-Za-z_\u0370-\u03ff][\w\u2032'\u2080-\u209c-]*")
DECLARED = re.compile(r"(?m)^ *((?:[^\s:(){}]+ )+):(?= |$)|^ *(?:pub |abbrev |unfoldable )*(?:record|data|module) ([^\s:({]+)")
CODE = re.compile(r"\b(?:fn|struct|enum|const|mod|type) ([A-Za-z_]\w*)|^ +(?:pub )?([A-Za-z_]\w*)(?: \{|,|\(|: )", re.M)


def declared():
    found = set()
    for path in names.files("crates", (".antt", ".rt")):
        text = names.read(path)
        for m in (CODE if path.endswith(".rt") else DECLARED).finditer(text):
            found.update(w for group in m.groups() if group for w in group.split())
    return found


def today(word, known):
    if word in known or not names.is_odd(word):
        return word
    spelled = names.OTHERWISE.get(word, names.spelled(word))
    found = [it for it in ([spelled + "_lem"] if "-" in word else []) + [spelled] if it in known]
    return found[0] if found else word


def main():
    known, left = declared(), {}
    for path in sys.argv[1:]:
        text = names.read(path)

        def one(m):
            new = today(m[0], known)
            if new == m[0] and names.is_odd(new) and new not in known:
                left.setdefault(path, set()).add(new)
            return new

        turn = lambda words: WORD.sub(one, words)
        new = names.SPAN.sub(lambda m: "`" + turn(m[1]) + "`", text) if path.endswith(".md") else turn(text)
        if new != text:
            with open(path, "w", encoding="utf-8") as f:
                f.write(new)
    for path, words in left.items():
        print(path, *sorted(words))


if __name__ == "__main__":
    main()
