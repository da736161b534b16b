#!/usr/bin/env python3
"""Turns the Proof.antt of a crate's functions, which walked the code, into Invariants.antt and Answers.antt.

usage: tools/turn_proofs.py NAMES.json CRATE [FUNCTION..]

NAMES.json is what `rattle check --generated DIR --old-names` writes for the crate: each goal, step and place, with its older name. A line 'look:' names what
is left to do by hand.
"""
import json
import os
import re
import sys

STEP = r"(?:[A-Za-z_ₐ-ₜ][\w'₀-₉-]*|\d+)"
PATH = re.compile(rf"(?<![\w.'-])([A-Za-z_][\w'₀-₉-]*|\([A-Za-z_][\w'-]* [A-Za-z_][\w'-]*\))((?:\.{STEP})*)")


def norm(name):
    name = re.sub(r"_lem$", "", name)
    return name.replace("-", "_")


class Fn:
    def __init__(self, data):
        self.places = {}
        self.arms = {}
        self.order = []
        for i, (old, parent, step, called, extra) in enumerate(data["places"]):
            new_name = data["places_by_name"][i]
            self.places[new_name] = dict(old=old, parent=None, parent_old=parent, step=step, called=called, arm=data["arms"][i], i=i)
            self.order.append(new_name)
        by_old = {}
        for name in self.order:
            p = self.places[name]
            if p["parent_old"] is not None:
                p["parent"] = by_old.get(p["parent_old"])
            by_old[p["old"]] = name
        self.by_old = by_old
        self.needs = data["needs"]
        self.asked = data["asked_at"]
        self.loops = data["loops"]
        self.changed = data["changed"]
        self.params = data["params"]

    def place_of(self, old):
        for o, n in self.by_old.items():
            if norm(o) == norm(old):
                return n
        return None

    def up(self, place):
        return self.places[place]["parent"]

    def chain(self, place):
        while place is not None:
            yield place
            place = self.up(place)

    def field(self, place, name, rest):
        """The new path of a step's field, seen from a place. None: not found."""
        if name in ("args", "requires", "ranges", "well_formed", "lifetimes", "utf8", "type_inv"):
            return [name] + rest
        for at in self.chain(place):
            p = self.places[at]
            old, new = p["step"]
            if old and norm(old) == norm(name):
                arm = p["arm"]
                if arm:
                    best = None
                    for new_field, step, path in arm[2]:
                        if norm(step) == norm(name) and rest[: len(path)] == path and (best is None or len(path) > len(best[1])):
                            best = (new_field, path)
                    if best is not None and best[1]:
                        return [arm[0], best[0]] + rest[len(best[1]):]
                    if name.startswith("match") or norm(step_of(arm)) == norm(name):
                        pass
                if rest[:1] == ["new"] and len(rest) > 1 and rest[1].isdigit() and p["called"] in self.params:
                    names = self.params[p["called"]]
                    k = int(rest[1])
                    if k < len(names):
                        return [new, "new", names[k]] + rest[2:]
                return [new] + rest
        return None


def step_of(arm):
    return arm[2][0][1] if arm[2] else ""


def split_decls(text):
    """Header (comments and use lines) and declarations, each a block of lines from a signature on."""
    lines = text.split("\n")
    i = 0
    header = []
    while i < len(lines) and (lines[i].startswith(("use ", "--")) or not lines[i].strip()):
        header.append(lines[i])
        i += 1
    blocks, current = [], []
    for line in lines[i:]:
        if not line.strip() and current:
            blocks.append("\n".join(current))
            current = []
        elif line.strip():
            current.append(line)
    if current:
        blocks.append("\n".join(current))
    return header, blocks


SIG = re.compile(r"^((?:--[^\n]*\n)*)((?:abbrev |unfoldable |pub )*)([^\s:]+) :((?:.|\n)*)$")


def words(spec):
    """The arguments of tie.spec: names, or terms in brackets."""
    out, depth, cur = [], 0, ""
    for ch in spec:
        if ch in "([{":
            depth += 1
        if ch in ")]}":
            depth -= 1
        if ch.isspace() and depth == 0:
            if cur:
                out.append(cur)
            cur = ""
        else:
            cur += ch
    if cur:
        out.append(cur)
    return out


def turn_body(fn, place, text, aliases, said):
    """Turns the paths of a body. aliases: a variable's place, or None for a variable that is none."""
    aliases = dict(aliases)
    first = next(iter(aliases))

    # let X = PLACE in
    def resolve(base, fields):
        """(place, rest) after the `before`s."""
        if base.startswith("("):
            inner = base[1:-1].split()
            helper = said["helpers"].get(inner[0])
            if helper is None:
                return None
            at = helper
            shown = f"({inner[0]} {inner[1]})"
        elif base in aliases:
            at, shown = aliases[base]
        else:
            return None
        k = 0
        while k < len(fields) and fields[k] == "before":
            up = fn.up(at)
            if up is None:
                said["look"].append(f"no place above {at} in {base}.{'.'.join(fields)}")
                return None
            at = up
            k += 1
        return at, shown, fields[k:], k

    out = []
    pos = 0
    let = re.compile(rf"let ([A-Za-z_][\w'-]*) = ((?:[A-Za-z_][\w'₀-₉-]*|\([A-Za-z_][\w'-]* [A-Za-z_][\w'-]*\))(?:\.before)*) in\s*")
    # place aliases, in order
    while True:
        m = let.search(text, pos)
        if not m:
            break
        base = re.match(r"\([^)]*\)|[^.]+", m[2])[0]
        fields = [f for f in m[2][len(base):].split(".") if f]
        got = resolve(base, fields)
        if got is None:
            pos = m.end()
            continue
        at, shown, rest, k = got
        bare = re.search(rf"(?<![\w.'-]){re.escape(m[1])}(?![\w'.-])", text[m.end():])
        if bare:
            aliases[m[1]] = (at, m[1])
            pos = m.end()
        else:
            aliases[m[1]] = (at, shown)
            text = text[: m.start()] + text[m.end():]
            pos = m.start()

    def one(m):
        base, fields = m[1], [f for f in m[2].split(".") if f]
        if not fields:
            return m[0]
        got = resolve(base, fields)
        if got is None:
            return m[0]
        at, shown, rest, k = got
        if not rest:
            return m[0] if base == shown or base.startswith("(") else shown + ".before" * 0 + m[2]
        new = fn.field(at, rest[0], rest[1:])
        if new is None:
            new, shown = fn.field(place, rest[0], rest[1:]), first
        if new is None:
            said["look"].append(f"no step {rest[0]} at {at}: {m[0]}")
            return m[0]
        return shown + "." + ".".join(new)

    text = PATH.sub(one, text)
    # a variable that is a call: what its &mut arguments hold afterwards goes by the argument's name
    for m in list(re.finditer(r"let ([A-Za-z_][\w'-]*) = [\w'-]+\.([^\s.]+) in", text)):
        for at in fn.order:
            p = fn.places[at]
            if p["step"][1] == m[2] and p["called"] in fn.params:
                names = fn.params[p["called"]]
                text = re.sub(rf"(?<![\w.'-]){re.escape(m[1])}\.new\.(\d+)", lambda q: f"{m[1]}.new.{names[int(q[1])]}" if int(q[1]) < len(names) else q[0], text)
    return text


def turn(fn, text, crate, path, look):
    header, blocks = split_decls(text)
    said = {"look": [], "helpers": {}}
    spec = None
    decls = []
    for b in blocks:
        m = SIG.match(b)
        if not m:
            look.append(f"no declaration: {b[:60]!r}")
            decls.append((None, b))
            continue
        comment, mods, name, rest = m.groups()
        if re.search(r"tie\.spec", rest):
            spec = rest
        else:
            decls.append((name, (comment, mods, rest)))
    if spec is None:
        look.append("no tie.spec")
        return None, None
    s = re.search(r"tie\.spec((?:.|\n)*)", spec)[1].strip()
    depth = 0
    for k, ch in enumerate(s):
        depth += ch in "([{"
        depth -= ch in ")]}"
        if depth < 0:
            s = s[:k]
            break
    args = words(s)
    n_inv = 2 * len(fn.loops)
    invs, goals = args[:n_inv], args[n_inv:]
    if len(goals) != len(fn.needs):
        look.append(f"tie.spec has {len(goals)} goals, today there are {len(fn.needs)}")
    names = {}
    inline = []
    old_of = {}
    by_type = {}
    for name, d in decls:
        if name and d[2]:
            t = re.match(r"\s*tie\.Need-([^\s]+)", d[2])
            if t:
                by_type[name] = t[1]
    matched = len(goals) == len(fn.needs)
    if matched:
        for k, a in enumerate(goals):
            if re.fullmatch(r"\((?:λ [\w']+(?: κs)?\. )?search rules\)|search rules", " ".join(a.split())):
                continue
            if re.fullmatch(r"[^\s()]+", a):
                names.setdefault(a, []).append(k)
            else:
                inline.append((k, a))
    else:
        # by name
        def key(x):
            return re.sub(r"^(overflow_|slice_aggregate_)", "", norm(x))
        for name, t in by_type.items():
            for k, (old, new) in enumerate(fn.needs):
                if key(old) == key(t):
                    names.setdefault(name, []).append(k)
                    break
            else:
                look.append(f"no goal for {name} : Need-{t}")
    # helpers that have places as arguments
    for name, d in decls:
        if name and name not in names:
            t = d[2]
            r = re.match(r"\s*tie\.([\w'-]+) → tie\.([\w'-]+)\s*(?:\n|$)", t)
            if r:
                got = fn.place_of(r[2])
                if got:
                    said["helpers"][name] = got
    rename = {}
    for name, ks in names.items():
        rename[name] = fn.needs[ks[0]][1]
    answers, invariants = [], []
    loop_at = {}
    for k, a in enumerate(invs):
        loop = fn.loops[k // 2]
        loop_at[a] = (k % 2, loop, fn.changed[k // 2])

    def named(t):
        return re.sub(r"(?<![\w.'-])([A-Za-z_][\w'-]*)(?![\w'-])", lambda m: rename.get(m[1], m[1]) if m[1] in rename and m[1] != rename[m[1]] else m[1], t)

    def types(t):
        def one(m):
            if m[1].startswith("Need-"):
                return m[0]
            got = fn.place_of(m[1])
            if got is None:
                said["look"].append(f"no place {m[1]}")
                return m[0]
            said["tie"] = True
            shown = "places." + fn.places[got]["old"] + " Pre Post"
            return shown if m.string[: m.start()].rstrip().endswith((":", "→")) and re.match(r"\)|\s*→|\s*$|\s*\n", m.string[m.end():]) else f"({shown})"
        return re.sub(r"tie\.([\w'-]+)", one, t)

    for name, d in decls:
        if name is None:
            answers.append(d)
            continue
        comment, mods, rest = d
        if name in loop_at:
            kind, (loop, variables), changed = loop_at[name]
            m = re.search(rf"(?m)^{re.escape(name)}((?: [^\s=]+)*) =((?:.|\n)*)$", rest)
            if not m:
                look.append(f"no equation of {name}")
                continue
            params = m[1].split()
            body = m[2]
            want = variables + [v for v, c in zip(variables, changed) if c]
            if len(params) != len(want):
                look.append(f"{name} has {len(params)} parameters, {len(want)} wanted: {params} {want}")
            table = {}
            for j, p in enumerate(params):
                if j < len(variables):
                    v = variables[j]
                    table[p] = f"l.initial.{v}" if changed[j] else f"l.{v}"
                elif j < len(want):
                    table[p] = f"l.{want[j]}"
            body = re.sub(r"(?<![\w.'₀-₉-])([A-Za-z_][\w'₀-₉-]*)(?![\w'₀-₉-])", lambda q: table.get(q[1], q[1]), body)
            new = ("invariant-" if kind == 0 else "decreases-") + loop[1]
            unf = "".join(l + "\n" for l in rest.split("\n") if l.startswith("unfolding"))
            invariants.append(f"{comment}abbrev pub {new} : goal.{new}\n{unf}{new} l ={body}")
            continue
        if name in names:
            for k in names[name]:
                new = fn.needs[k][1]
                place = fn.asked[k][1]
                m = re.search(r"\n", rest)
                eq = rest[m.end():] if m else ""
                eq = re.sub(rf"(?m)^{re.escape(name)}(?![\w'-])", "\0", eq)
                firsts = re.findall(r"(?m)^\0((?: [^\s=]+)*) =", eq)
                var = firsts[0].split()[0] if firsts and firsts[0].split() else "c"
                if new.split("-")[-1] == "requires" or "-requires-" in new:
                    eq = re.sub(r"(?m)^(\0 [\w']+) κs =", r"\1 =", eq)
                    eq = re.sub(r"(?m)^(\0 [\w']+ =\s*)λ κs\.\s*", r"\1", eq)
                eq = turn_body(fn, place, eq, {var: (place, var)}, said)
                eq = named(eq).replace("\0", new)
                answers.append(f"{comment}pub {new} : goal.{new}\n{eq}")
            continue
        # a helper: its own place, where its type says so
        t = re.search(r"\(([\w']+) : tie\.([\w'-]+)\)", rest)
        sig = rest
        whole = rest
        if t and fn.place_of(t[2]):
            place = fn.place_of(t[2])
            al = {t[1]: (place, t[1])}
            m = re.search(rf"(?m)^{re.escape(name)} ([\w']+)", rest)
            if m:
                al[m[1]] = (place, m[1])
            whole = turn_body(fn, place, rest, al, said)
        else:
            r = re.match(r"\s*tie\.([\w'-]+) →", rest)
            m = re.search(rf"(?m)^{re.escape(name)} ([\w']+)", rest)
            if r and m and fn.place_of(r[1]):
                place = fn.place_of(r[1])
                # what gives a place keeps its path
                if name not in said["helpers"]:
                    whole = turn_body(fn, place, rest, {m[1]: (place, m[1])}, said)
        answers.append(f"{comment}{mods}{name} :{named(types(whole))}")
    for k, a in inline:
        new, place = fn.needs[k][1], fn.asked[k][1]
        body = a.strip()
        if body.startswith("(") and body.endswith(")"):
            body = body[1:-1]
        body = re.sub(r"^λ ([\w']+) κs\.", r"λ \1.", body)
        m = re.match(r"λ ([\w']+)\.\s*((?:.|\n)*)", body)
        if m:
            b = turn_body(fn, place, m[2], {m[1]: (place, m[1])}, said)
            answers.append(f"pub {new} : goal.{new}\n{new} {m[1]} = {named(b)}")
        else:
            answers.append(f"pub {new} : goal.{new}\n{new} = {named(body)}")
    look += said["look"]
    uses = [h for h in header if not re.search(r"\.Statement\.\{statement\}|\.Tie as tie", h)]
    while uses and not uses[-1].strip():
        uses.pop()
    at = f"Rattle.{crate}.proofs.{path}"
    inv = ans = None
    if invariants:
        inv = "\n".join(uses + [f"use {at}.Given as goal", ""]) + "\n" + "\n\n".join(invariants) + "\n"
    if answers:
        lines = list(uses) + [f"use {at}.Goals as goal"]
        if said.get("tie"):
            lines += [f"use {at}.Lts as places", f"use {at}.Reads.{{Pre, Post}}"]
        ans = "\n".join(lines + [""]) + "\n" + "\n\n".join(a.rstrip() for a in answers) + "\n"
    return inv, ans


def main():
    data = json.load(open(sys.argv[1]))
    crate = sys.argv[2].rstrip("/")
    name = os.path.basename(crate)
    only = sys.argv[3:]
    done = 0
    for folder, _, files in sorted(os.walk(os.path.join(crate, "proofs"))):
        if "Proof.antt" not in files:
            continue
        rel = os.path.relpath(folder, os.path.join(crate, "proofs"))
        path = rel.replace("/", ".")
        if only and path not in only:
            continue
        key = f"Rattle-{name}-proofs.{path}.Lts"
        if key not in data:
            print(f"look: {name} {path}: no names")
            continue
        file = os.path.join(folder, "Proof.antt")
        text = open(file, encoding="utf-8").read()
        look = []
        try:
            inv, ans = turn(Fn(data[key]), text, name, path, look)
        except Exception as e:  # what it cannot read is left to do by hand
            print(f"look: {name} {path}: {type(e).__name__} {e}")
            continue
        for l in look:
            print(f"look: {name} {path}: {l}")
        if inv is None and ans is None and any("tie.spec" in l for l in look):
            continue
        if inv:
            open(os.path.join(folder, "Invariants.antt"), "w", encoding="utf-8").write(inv)
        if ans:
            open(os.path.join(folder, "Answers.antt"), "w", encoding="utf-8").write(ans)
        os.remove(file)
        done += 1
    print(f"{name}: {done} turned")


main()
