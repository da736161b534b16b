#!/usr/bin/env python3
"""Spells the repository's own names of definitions and lemmas as today's Rattle does, once, after the kit's port.py.

usage: tools/spell_names.py [--check] [FOLDER]

Words get snake case (`beBytes`, `read-back` become `be_bytes`, `read_back`), types and statements lose their dashes (`Hands-on` becomes `HandsOn`), and
the prime becomes an apostrophe. What the kit's libraries declare keeps its spelling, and so does what a check generates in a Proof.antt.
Of a .rt file only what is no string turns; of a comment only what stands between backquotes. In a must-fail edit the lines of an .antt file turn, and of
an .rt file as the file does. A line 'meets:' names two names of one file that would fall together; then nothing is written.
"""
import os
import re
import subprocess
import sys

NAME = re.compile(r"[A-Za-z_\u0370-\u03ff\u2090-\u209c][\w\u2032'\u2080-\u209c-]*")
STRING = r'b?"(?:\\.|[^"\\\n])*"'
ANTT = re.compile(rf"({STRING})|(--[^\n]*|\{{-.*?-\}})|([^\s(){{}};.,@\"«»|`\[\]]+)", re.S)
RT = re.compile(rf"({STRING}|b?'(?:\\.[^']*|[^'\\\n])')|(//[^\n]*)|(?<!\w)([A-Za-z_][\w'\u2032\u2080-\u209c-]*[\w'\u2032\u2080-\u209c]|[A-Za-z_])", re.S)
SPAN = re.compile(r"`([^`\n]+)`")
MADE = re.compile(
    r"(?:returns|loop|invariant|decreases|overflow|bounds|slice|nonzero|variant|same|enum|match|in|then|else|known|shared|type|offset|prove)(?:[-_].*)?-?\d*$|"
    r".*-(?:spec|requires|ensures)(?:-\d+)?$|(?:Need|After|In|At|Then|Else|Both|Join|Start)(?:-.*)?\d*$")


# Definitions whose plain spelling is the name of a lemma beside them.
OTHERWISE = {
    "copyDone": "copy_done_message",
    "stallCount": "stall_count_of",
    "firstBy": "first_offer_by",
    "byParts": "position_by_parts",
    "isWithin": "is_within_windows",
    "hasRoom": "has_room_for",
    "readLeft": "read_leaves",
    "Nothing-lost": "NothingIsLost",
}


def kit():
    page = subprocess.run(["rt", "doc"], capture_output=True, text=True, check=True).stdout.strip()
    return os.path.join(os.path.dirname(page), "rattle")


def files(root, endings):
    for folder, folders, names in os.walk(root):
        folders[:] = sorted(f for f in folders if f not in ("out", ".git", "target", "target-rust"))
        for name in sorted(names):
            if name.endswith(endings):
                yield os.path.join(folder, name)


def read(path):
    with open(path, encoding="utf-8", errors="replace") as f:
        return f.read()


def is_odd(word):
    if word[:1].isdigit():
        return False
    return bool(re.search(r"[A-Za-z0-9_]-[A-Za-z0-9_]|\u2032", word)) or (not word[:1].isupper() and bool(re.search(r"[a-z0-9][A-Z]", word)))


def spelled(word):
    word = word.replace("\u2032", "'")
    if word[:1].isupper():
        return re.sub(r"-(\w)", lambda m: m[1].upper(), word)
    word = re.sub(r"(?<=[a-z0-9])[A-Z]", lambda m: "_" + m[0].lower(), word)
    return word.replace("-", "_").lower() if word.isascii() else word.replace("-", "_")


def kit_names():
    found = set()
    for path in files(kit(), (".antt", ".rt")):
        text = re.sub(r"--[^\n]*", "", read(path)) if path.endswith(".antt") else read(path)
        if path.endswith(".rt"):
            text = " ".join(re.findall(r"ghost use[^;]*;", text))
        found.update(w for w in re.findall(r"[^\s(){};.,@\"«»|`]+", text) if is_odd(w))
    return found


def brought(sources):
    """What the repository's files import from the kit."""
    found = set()
    for text in sources.values():
        for path, names in re.findall(r"\buse ([^\s;{]+)\.\{([^}]*)\}", text):
            own = re.match(r"Rattle\.(\w+)", path)
            if not own or own[1] in ("std", "core", "io", "os", "libc"):
                found.update(re.split(r"[\s,]+", names))
    return found


def proof_of_code(path):
    return path.endswith("/Proof.antt")


def words_of(path, text):
    pattern = ANTT if path.endswith(".antt") else RT
    return {m[3] for m in pattern.finditer(text) if m[3]}


def names_of(path, text):
    """The words that can mean a definition: of a .rt file those of clauses, and none behind a dot or in a path."""
    if path.endswith(".rt"):
        text = "\n".join(re.findall(r"ghost use[^;]*;|(?m:^ *(?:requires|ensures|ghost)\b[^\n]*(?:\n +[^\n]*)*?\} *$)", text))
    text = re.sub(r"(?m)^( *(?:ghost )?use )[\w.'-]+", r"\1", text)
    text = re.sub(rf"{STRING}|--[^\n]*|//[^\n]*", " ", text)
    text = re.sub(r"\.[^\s(){};,@\"«»|`\[\]]+", " ", text)
    return set(re.findall(r"[^\s(){};.,@\"«»|`\[\]]+", text))


def turn(path, text, table):
    pattern = ANTT if path.endswith(".antt") else RT

    def one(m):
        if m[1]:
            return m[1]
        if m[2]:
            return SPAN.sub(lambda s: "`" + re.sub(r"[^\s(){};.,@\"«»|`]+", lambda w: table.get(w[0], w[0]), s[1]) + "`", m[2])
        return table.get(m[3], m[3])

    return pattern.sub(one, text)


def meeting(sources, table):
    """The pairs of names of a file that fall together. A function of Rust may be called as the definition that it computes."""
    found = []
    for path, text in sources.items():
        seen = {}
        for w in sorted(names_of(path, text)):
            new = table.get(w, w)
            if new in seen and not (path.endswith(".rt") and new in (w, seen[new])):
                found.append((path, (seen[new], w), new))
            seen[new] = w
    return found


def turn_edit(text, table):
    """The lines of a must-fail edit turn as the file that they are of."""
    of = re.search(r"(?m)^file: *(\S+)", text)
    ending = of[1] if of else ".antt"
    return "".join(re.sub(r"^((?:old|new): ?)(.*)", lambda m: m[1] + turn(ending, m[2], table), line, flags=re.S) for line in text.splitlines(keepends=True))


def main():
    words = [w for w in sys.argv[1:] if w != "--check"]
    root = os.path.join(words[0] if words else ".", "crates")
    kept = kit_names()
    sources = {p: read(p) for p in files(root, (".antt", ".rt"))}
    declared = {w for p, t in sources.items() if not proof_of_code(p) for w in re.findall(r"(?m)^ *(?:[a-z]+ )*([^\s:]+)(?: \{[^{}\n]*\})* :", t)}
    kept -= declared - brought(sources)
    own = set()
    for path, text in sources.items():
        if not proof_of_code(path):
            own |= {w for w in words_of(path, text) if is_odd(w) and w not in kept}
    table = {w: OTHERWISE.get(w, spelled(w)) for w in own if spelled(w) != w}
    # What is written in a proof that walks code and nowhere else: its own lemmas turn, what the check generates stays.
    for path, text in sources.items():
        if proof_of_code(path):
            for m in re.finditer(r"(?m)^(?:abbrev |unfoldable |pub )*([^\s:]+) :", text):
                if is_odd(m[1]) and m[1] not in kept and not MADE.match(m[1]):
                    table.setdefault(m[1], spelled(m[1]))
    for w in [w for w in table if MADE.match(w) and not any(w in words_of(p, t) for p, t in sources.items() if not proof_of_code(p))]:
        del table[w]
    meets = meeting(sources, table)
    for _, words, _ in meets:
        # A lemma that would have its definition's name gets another ending.
        lemmas = [w for w in words if "-" in w]
        if lemmas:
            table[lemmas[0]] = spelled(lemmas[0]) + "_lem"
    meets = [f"meets: {path}: {words[0]} and {words[1]} are {new}" for path, words, new in meeting(sources, table)]
    print("\n".join(meets[:200]))
    print(f"{len(table)} names, {len(meets)} meet", file=sys.stderr)
    if "--check" in sys.argv or meets:
        return 1 if meets else 0
    for path, text in sources.items():
        new = turn(path, text, table)
        if new != text:
            with open(path, "w", encoding="utf-8") as f:
                f.write(new)
    for path in files(root, (".edit",)):
        text = read(path)
        new = turn_edit(text, table)
        if new != text:
            with open(path, "w", encoding="utf-8") as f:
                f.write(new)
    return 0


if __name__ == "__main__":
    sys.exit(main())
