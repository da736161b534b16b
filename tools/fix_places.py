#!/usr/bin/env python3
"""After turn_proofs.py: sets how many `.before` lead to the place that a helper of an Answers.antt wants, and gives a place's type its claims.

usage: tools/fix_places.py NAMES.json CRATE
"""
import json
import os
import re
import sys

sys.dont_write_bytecode = True
sys.argv, argv = [sys.argv[0]], sys.argv
data, crate = json.load(open(argv[1])), argv[2].rstrip("/")
name = os.path.basename(crate)
for folder, _, files in sorted(os.walk(os.path.join(crate, "proofs"))):
    if "Answers.antt" not in files:
        continue
    file = os.path.join(folder, "Answers.antt")
    text = open(file, encoding="utf-8").read()
    if ".Lts as places" not in text:
        continue
    path = os.path.relpath(folder, os.path.join(crate, "proofs")).replace("/", ".")
    fn = data[f"Rattle-{name}-proofs.{path}.Lts"]
    up = {p[0]: p[1] for p in fn["places"]}
    goal_at = {n[1]: a[0] for n, a in zip(fn["needs"], fn["asked_at"])}
    if fn["params"] and "the-claims" not in text:
        text = text.replace(" Pre Post", " the-claims Pre Post")
        text = re.sub(r"(?m)^use (\S+)\.Lts as places$", r"use \1.Tie.{the-claims}\nuse \1.Lts as places", text)
    helpers = dict(re.findall(r"(?m)^([^\s:]+) : \(\w+ : places\.([\w'-]+)", text))
    helpers.update(re.findall(r"(?m)^(?:abbrev )?([^\s:]+) : places\.([\w'-]+)", text))
    out = []
    for block in re.split(r"(?<=\n)\n", text):
        m = re.search(r"(?m)^pub ([^\s:]+) : goal\.", block)
        if m and m[1] in goal_at:
            for helper, want in helpers.items():
                k, at = 0, goal_at[m[1]]
                while at is not None and at != want:
                    at, k = up.get(at), k + 1
                if at == want:
                    block = re.sub(rf"(?<![\w.'-])({re.escape(helper)}) c(?:\.before)*(?![\w.'-])", lambda q: f"{q[1]} c" + ".before" * k, block)
                else:
                    if re.search(rf"(?<![\w.'-]){re.escape(helper)}(?![\w'-])", block):
                        print(f"look: {name} {path}: {m[1]} does not lead to {want}")
        out.append(block)
    new = "\n".join(out)
    if new != open(file, encoding="utf-8").read():
        open(file, "w", encoding="utf-8").write(new)
        print(f"{name} {path}")
