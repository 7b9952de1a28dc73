#!/usr/bin/env python3
"""Turns walks of an older kit (proofs/F/Proof.antt over `tie`) into today's Invariants.antt and Answers.antt.

usage: python3 tools/port/answers.py CRATE [OLD]   OLD: the commit before the kit's port.py (its goals have their old names)

The check's own table of names (`rt check --generated DIR --old-names`) says which goal and which step had which name. An answer that
is `search rules` is left out: the check tries that itself. What cannot be turned is marked FIXME.
"""
import collections
import json
import os
import re
import subprocess
import sys
import tempfile

ROOT = os.path.normpath(os.path.join(os.path.dirname(os.path.realpath(__file__)), "..", ".."))
WORD = r"[A-Za-z_\u0370-\u03ff𝓤-𝔃¬∙‵⋆][\w'·₀-₉-]*"


def norm(s):
    return s.replace("_", "-").replace("«", "").replace("»", "")


def read(p):
    with open(p, encoding="utf-8") as f:
        return f.read()


# ---------------------------------------------------------------- contracts


def clause_names(root):
    """Of each function its clauses' names: {crate::path::f: (requires, ensures)}; a lone clause has the name None."""
    table = {}
    base = os.path.join(root, "crates")
    for crate in os.listdir(base):
        src = os.path.join(base, crate, "src")
        for folder, _, names in os.walk(src):
            for n in names:
                if not n.endswith(".rt"):
                    continue
                rel = os.path.relpath(os.path.join(folder, n), src)[:-3]
                mods = [] if rel in ("lib", "main") else rel.split("/")
                inside = []
                current = None
                for line in read(os.path.join(folder, n)).splitlines():
                    m = re.match(r"impl(?:<[^>]*>)? (\w+)", line)
                    if m:
                        inside = [m.group(1)]
                    elif line.startswith("}"):
                        inside = []
                    m = re.match(r"\s*(?:#\[[^\]]*\] )?(?:pub(?:\(\w+\))? )?(?:unsafe )?(?:extern \"C\" )?fn (\w+)", line)
                    if m:
                        current = "::".join([crate] + mods + (inside if line.startswith(" ") else []) + [m.group(1)])
                        table[current] = ([], [])
                    m = re.match(r"\s*(requires|ensures)(\*?)\s*(\w+)?\s*\{", line)
                    if m and current:
                        table[current][0 if m.group(1) == "requires" else 1].append(m.group(3))
    return table


def by_clause(names, segs, stem):
    """A path into nested pairs of clauses, as a path by names. `segs` are the numbers behind `.ensures` or `.requires`."""
    if len(names) <= 1:
        return "".join("." + s for s in [stem] + segs)
    at = 0
    segs = list(segs)
    while True:
        if at == len(names) - 1:
            break
        if not segs:
            whole = "c_" + stem
            parts = [stem + "." + n for n in names[at:]]
            return ("TUPLE", parts)
        s = segs.pop(0)
        if s == "0":
            break
        if s != "1":
            return None
        at += 1
    return "." + stem + "." + names[at] + "".join("." + s for s in segs)


# ---------------------------------------------------------------- one function


class Function:
    def __init__(self, key, data, contracts):
        self.key, self.d, self.contracts = key, data, contracts
        self.places = {p[0]: p for p in data["places"]}
        self.parent = {p[0]: p[1] for p in data["places"]}
        self.order = {p[0]: i for i, p in enumerate(data["places"])}
        self.needs = {norm(a): (b, data["asked_at"][i] if i < len(data["asked_at"]) else None) for i, (a, b) in enumerate(data["needs"])}
        self.name = None
        self.helpers = {}
        self.stem = ''
        self.cycle = False
        self.fixmes = 0

    def clauses(self, callee, which):
        c = self.contracts.get(callee)
        return c[which] if c else [None]

    def step(self, place):
        return self.places[place][2]

    def ancestors(self, place):
        while place is not None:
            yield place
            place = self.parent.get(place)

    def render(self, place, segs):
        """The path `segs` from the record at `place`, in today's names; ('place', P) where it is a place itself. A step is found by
        its name among those above, since the places between two steps are others than they were."""
        segs = list(segs)
        while segs and segs[0] == "before":
            segs = segs[1:]
        if not segs:
            return ("place", place)
        head, rest = {"pre": "requires"}.get(segs[0], segs[0]), segs[1:]
        if head == "requires" and self.cycle:
            if rest[:1] == ["0"]:
                return ".".join(["c", "decreases"] + rest[1:])
            if rest[:1] != ["1"]:
                return "FIXME_requires_" + "_".join(rest)
            rest = rest[1:]
        if head == "requires":
            return self.clause_path(self.clauses(self.name, 0), rest, "requires", "c")
        if head in ("args", "ranges", "type_inv"):
            return "c." + ".".join(segs)
        if rest:
            if re.match(r"if\d*$|loop\d*-test|.*-test\d*$", norm(head)):
                rest = [{"taken": "true", "left": "false"}.get(rest[0], rest[0])] + rest[1:]
            rest = [{"inv": "invariant", "kept": "auto", "last": "new"}.get(rest[0], rest[0])] + rest[1:]
        short = lambda s: re.sub(r"-(\d+)$", r"\1", re.sub(r"-lem$", "", norm(s).lower()))
        for up in self.ancestors(place):
            arm = self.d["arms"][self.order[up]] if self.order[up] < len(self.d["arms"]) else None
            hits = [(len(fs), n, fs) for n, st, fs in (arm[2] if arm else []) if short(st) == short(head) and rest[: len(fs)] == fs]
            if hits:
                n, name, _ = max(hits)
                more = rest[n:]
                if n == 0:
                    renamed = next((dict(self.places[u][4]) for u in self.ancestors(up) if short(self.step(u)[0]) == short(head) and self.places[u][4]), {})
                    more = [renamed.get(more[0], more[0])] + more[1:] if more else more
                return ".".join(["c", arm[0], name] + more)
        for up in self.ancestors(place):
            if short(self.step(up)[0]) == short(head):
                return self.at_step(up, rest)
        return "FIXME_" + place + "_" + "_".join(segs)

    def at_step(self, place, rest):
        old, new = self.step(place)
        callee = self.places[place][3]
        base = "c." + new
        if not rest:
            return ("step", place, base)
        renamed = dict(self.places[place][4]) if self.places[place][4] else {}
        rest = [renamed.get(rest[0], rest[0]).replace("type-inv", "type_inv")] + rest[1:]
        kind, more = rest[0], rest[1:]
        if kind in ("ensures", "requires") and callee:
            return self.clause_path(self.clauses(callee, 1 if kind == "ensures" else 0), more, kind, base)
        params = self.d["params"].get(callee, []) if callee else []
        if kind in ("auto", "new") and callee and more:
            k, more = 0, list(more)
            while more and more[0] == "1":
                k, more = k + 1, more[1:]
            if more and more[0] == "0" and k < len(params):
                return ".".join([base, kind, params[k]] + more[1:])
            return "FIXME_" + ".".join([base] + rest)
        return ".".join([base] + rest)

    def clause_path(self, names, segs, kind, base):
        # only leading numbers choose a clause
        lead = []
        segs = list(segs)
        r = by_clause(names, segs, kind)
        if r is None:
            return "FIXME_" + base + "." + kind + "." + ".".join(segs)
        if isinstance(r, tuple):
            parts = [base + "." + p for p in r[1]]
            text = parts[-1]
            for p in reversed(parts[:-1]):
                text = f"({p}, {text})"
            return text
        return base + r


PATH = re.compile(r"(?<![\w'·.-])(" + WORD + r")((?:\.(?:«[\w-]+»|[\w'·₀-₉-]+))+)")
BARE = re.compile(r"(?<![\w'·.-])(" + WORD + r")(?![\w'·-]|\.[\w«])")


def inline_helpers(text, helpers):
    """Helpers over a place (their names are not in today's kit) are put in where they are called."""
    for _ in range(40):
        best = None
        for name in helpers:
            for m in re.finditer(r"(?<![\w'·.-])" + re.escape(name) + r"(?![\w'·-])", text):
                if best is None or m.start() < best[0].start():
                    best = (m, name)
        if not best:
            return text
        m, name = best
        binders, body, sort = helpers[name]
        at, args = m.end(), []
        for _ in binders:
            a = re.match(r"\s*(\(|" + WORD + r"(?:\.[\w'·₀-₉«»-]+)*)", text[at:])
            if not a:
                break
            if a.group(1) == "(":
                start = at + a.end() - 1
                depth, i = 0, start
                while True:
                    depth += {"(": 1, ")": -1}.get(text[i], 0)
                    i += 1
                    if depth == 0:
                        break
                args.append(text[start:i])
                at = i
            else:
                args.append(a.group(1))
                at += a.end()
        table = dict(zip(binders, args))

        def put(k):
            v = table.get(k.group(1))
            return k.group(0) if v is None else v

        if sort and re.match(r"record\b|\(", body.strip()) and len(args) == len(binders):
            body = f"let it : {sort.strip()} = {body.strip()} in it"
        code = re.sub(r"(?<![\w'·.-])(" + WORD + r")(?![\w'·-])", put, body.strip())
        rest = binders[len(args):]
        if rest:
            code = f"λ {' '.join(rest)}. {code}"
        simple = re.fullmatch(WORD + r"(?:\.[\w'·₀-₉«»-]+)*", code)
        follows = text[at:]
        if not simple:
            code = "(" + code + ")"
        before = text[: m.start()]
        # `(start_of m).args` is `m.args`
        if simple and before.endswith("(") and follows.startswith(").") :
            before, follows = before[:-1], follows[1:]
        text = before + code + follows
    return text


def split_let(text):
    """`let X = E in REST` at the front: (X, E, REST), else None."""
    m = re.match(r"\s*let\s+(\S+)\s*(:[^=]*)?=\s*", text)
    if not m:
        return None
    depth, lets, i = 0, 0, m.end()
    for t in re.finditer(r"[()\[\]{}]|(?<![\w'·.-])(?:let|in)(?![\w'·-])", text[m.end():]):
        w = t.group(0)
        if w in "([{":
            depth += 1
        elif w in ")]}":
            depth -= 1
        elif depth == 0 and w == "let":
            lets += 1
        elif depth == 0 and w == "in":
            if lets == 0:
                return m.group(1), m.group(2), text[m.end(): m.end() + t.start()].strip(), text[m.end() + t.end():]
            lets -= 1
    return None


def tuple_parts(text):
    """The parts of `(a, b, c)` where that is the whole text, else None."""
    text = text.strip()
    if not (text.startswith("(") and text.endswith(")")):
        return None
    depth, parts, start = 0, [], 1
    for i, ch in enumerate(text):
        if ch in "([{":
            depth += 1
        elif ch in ")]}":
            depth -= 1
            if depth == 0 and i != len(text) - 1:
                return None
        elif ch == "," and depth == 1:
            parts.append(text[start:i].strip())
            start = i + 1
    last = text[start:-1].strip()
    if last:
        parts.append(last)
    if len(parts) == 1 and not text[1:-1].rstrip().endswith(","):
        return tuple_parts(parts[0])
    return parts if len(parts) > 1 else None


def turn_body(fn, place, text, var="c"):
    alias = {var: (place, [])}
    lets = []
    text = inline_helpers(text, fn.helpers)
    while True:
        tup = INNER_TUPLE.match(text.lstrip())
        if tup:
            text = text.lstrip()
        if tup and tup.group(3).split(".")[0] in alias:
            for n in tup.group(1).split(","):
                if n.strip() not in ("", "_"):
                    alias[n.strip()] = (place, [])
            text = text[tup.end():]
            continue
        s = split_let(text)
        if not s:
            break
        name, sort, value, rest = s
        m = PATH.fullmatch(value.strip("() ")) or re.fullmatch("(" + WORD + ")()", value.strip("() "))
        if m and m.group(1) in alias and not sort:
            p, segs = alias[m.group(1)]
            segs = segs + [x for x in m.group(2).split(".") if x]
            alias[name] = (p, segs)
            text = rest
            continue
        lets.append((name, sort, value))
        if name in alias:
            del alias[name]
        text = rest
    out = ""
    for name, sort, value in lets:
        out += f"let {name} {turn_text(fn, alias, sort or '')}= {turn_text(fn, alias, value)} in\n    "
    return out, turn_text(fn, alias, text.strip()), alias


INNER_TUPLE = re.compile(r"let\s+\(?([^()=]*?)\)?\s*=\s*((?:\S*-)?before[-_]\S+)\s+(?:t\s+)?\(?([^\s()]+)\)?\s+in\s+")
INNER = re.compile(r"let\s+(" + WORD + r")\s*=\s*(" + WORD + r")((?:\.(?:«[\w-]+»|[\w'·₀-₉-]+))*)\s+in\s+")


def turn_text(fn, alias, text):
    alias = dict(alias)
    text = re.sub(r"\((?:\S*-)?before[-_]\S+\s+(?:t\s+)?(" + WORD + r"(?:\.[\w'·₀-₉«»-]+)*)\)", lambda m: m.group(1), text)
    some = next(iter(alias.values()))[0]
    while True:
        tup = next((m for m in INNER_TUPLE.finditer(text) if m.group(3).split(".")[0] in alias), None)
        if tup:
            for n in tup.group(1).split(","):
                if n.strip() not in ("", "_"):
                    alias[n.strip()] = (some, [])
            text = text[: tup.start()] + text[tup.end():]
            continue
        m = next((m for m in INNER.finditer(text) if m.group(2) in alias), None)
        if not m:
            break
        p, segs = alias[m.group(2)]
        alias[m.group(1)] = (p, segs + [x for x in m.group(3).split(".") if x])
        text = text[: m.start()] + text[m.end():]
    # `(m.before.x).y` is `m.before.x.y`
    text = re.sub(r"\((" + WORD + r"(?:\.[\w'·₀-₉«»-]+)*)\)(?=\.\w)", lambda m: m.group(1) if m.group(1).split(".")[0] in alias else m.group(0), text)
    def path(m):
        name, segs = m.group(1), [x for x in m.group(2).split(".") if x]
        if name not in alias:
            return m.group(0)
        p, before = alias[name]
        r = fn.render(p, before + segs)
        if isinstance(r, tuple):
            return r[2] if r[0] == "step" else "FIXME_place_" + r[1]
        return r

    def bare(m):
        name = m.group(1)
        if name not in alias or name in ("κs",):
            return m.group(0)
        p, before = alias[name]
        r = fn.render(p, before)
        if isinstance(r, tuple):
            return r[2] if r[0] == "step" else "FIXME_place_" + r[1]
        return r

    marked = PATH.sub(lambda m: path(m) if m.group(1) in alias else m.group(0), text)
    # bare names: not the `c` of a path that was just written
    return BARE.sub(lambda m: bare(m) if m.group(1) in alias and m.group(1) != "c" else m.group(0), marked)


def declarations(text):
    """The file's imports and its declarations: (lines of use, [(signature, name, unfolding, head, body)], other text)."""
    uses, blocks = [], []
    current = []
    # an import over several lines stands on one
    text = re.sub(r"^((?:pub )?use [^{\n]*\{)([^}]*)\}", lambda m: m.group(1) + " ".join(m.group(2).split()).rstrip(",") + "}", text, flags=re.M)
    for line in text.split("\n"):
        if re.match(r"(pub )?use ", line):
            uses.append(line)
            continue
        if line.strip() == "" and current and not current[-1].startswith(" --"):
            blocks.append(current)
            current = []
        elif line.strip():
            current.append(line)
    if current:
        blocks.append(current)
    return uses, blocks


def helper(block):
    """(name, binders, body) of a declaration over a place of the walk."""
    b = [l for l in block if not l.startswith("--")]
    m = re.match(r"(?:pub )?(?:abbrev )?(?:pub )?(\S+) :", b[0]) if b else None
    if not m or m.group(1).endswith(("-spec", "_spec")):
        return None
    name = m.group(1)
    at = next((i for i, l in enumerate(b) if i and l.startswith(name + " ") and "=" in l), None)
    if at is None:
        return None
    sig = "\n".join(b[:at])
    if not re.search(r"(tie|lts)\.(Start|After|At|In|Then|Else)[\w-]*", sig) or re.search(r"(tie|lts)\.Need-", sig):
        return None
    text = "\n".join(b[at:])
    m = re.match(re.escape(name) + r"((?: \S+)*?) =(?=\s)", text)
    return name, m.group(1).split(), text[m.end():], result_type(sig)


def result_type(sig):
    """The type behind a helper's argument that is a place, where it is no function."""
    depth, after, start = 0, False, None
    for m in re.finditer(r"[()\[\]{}]|→|\b(?:tie|lts)\.(?:Start|After|At|In|Then|Else)", sig):
        w = m.group(0)
        if w in "([{":
            depth += 1
        elif w in ")]}":
            depth -= 1
        elif w == "→":
            if depth == 0 and after and start is None:
                start = m.end()
            elif depth == 0 and start is not None:
                return None
        else:
            after = True
    return sig[start:] if start is not None else None


def need_names(text):
    return re.findall(r"^(?:pub )?\S+ : tie\.Need-(\S+)", text, re.M)


def convert(crate, rel, old_text, new_text, fn, module):
    olds = need_names(old_text)
    uses, blocks = declarations(new_text)
    answers, invariants, other = [], [], []
    k = 0
    for b in list(blocks):
        h = helper(b)
        if h:
            fn.helpers[h[0]] = h[1:]
            blocks.remove(b)
    for b in blocks:
        i = 0
        while i < len(b) and b[i].startswith("--"):
            i += 1
        comments, b = b[:i], b[i:]
        if not b:
            other.append(comments)
            continue
        sig = b[0]
        m = re.match(r"(?:abbrev )?(?:pub )?(\S+) : tie\.(\S+)", sig)
        if re.match(r"(pub )?\S+[-_]spec :", sig):
            continue
        if not m:
            other.append(comments + b)
            continue
        name, sort = m.group(1), m.group(2)
        if not sort.startswith("Need-"):
            invariants.append((comments, name, sort, b[1:]))
            continue
        old = norm(olds[k]) if k < len(olds) else "?"
        k += 1
        old = {"loop-holds": "loop-init", "loop-less": "loop-smaller", "loop-again": "loop-preserved"}.get(old, old)
        old = re.sub(r"^(loop\d*)-holds$", r"\1-init", re.sub(r"^(loop\d*)-less$", r"\1-smaller", re.sub(r"^(loop\d*)-again$", r"\1-preserved", old)))
        unfolding = [l for l in b[1:] if l.startswith("unfolding")]
        code = [l for l in b[1:] if not l.startswith("unfolding")]
        text = "\n".join(code)
        m = re.match(re.escape(name) + r"((?: \S+)*?) =(?=\s)", text)
        if not m:
            other.append(comments + b + ["-- FIXME form"])
            continue
        args, body = m.group(1).split(), text[m.end():]
        if old not in fn.needs:
            if body.strip() != "search rules":
                answers.append((comments, "FIXME_goal_" + old, unfolding, "", body))
            continue
        if re.match(r"enum-(known|told)", old) and re.fullmatch(r"\s*c(\.before)*\.match\d*\.keys\d+\s*", body):
            continue
        new, at = fn.needs[old]
        place = at[0] if at else "Start"
        lets, final, alias = turn_body(fn, place, body, args[0] if args else "c")
        if final.strip() == "search rules" and not lets and not unfolding:
            continue
        answers.append((comments, new, unfolding, lets, final, args, old))
    return uses, answers, invariants, other


def wanted_clauses(fn, new, old):
    """The names of the clauses that a goal has: of a callee's requires, or the function's own ensures."""
    asked = {norm(k): v for k, v in fn.d["asked"].items()}
    if old in asked or fn.cycle:
        return asked.get(old, [None])
    if re.fullmatch(r"returns(-\d+)?", old):
        return fn.clauses(fn.name, 1)
    m = re.fullmatch(r"(.+)-requires(-\d+)?", old)
    if m:
        count = int((m.group(2) or "-1")[1:])
        hits = [p for p in fn.d["places"] if p[3] and norm(p[2][0]) == m.group(1) + (str(count) if count > 1 else "")]
        hits = hits or [p for p in fn.d["places"] if p[3] and re.sub(r"\d+$", "", norm(p[2][0])) == m.group(1)]
        hits = hits or [p for p in fn.d["places"] if p[3] and norm(p[3].split("::")[-1]) == m.group(1)]
        if hits:
            return fn.clauses(hits[0][3], 0)
        return ["?"]
    return [None]


def clause_items(names, new, final):
    """An answer clause by clause."""
    items = [(new, final)]
    if len(names) > 1:
        items, rest = [], final
        for i, n in enumerate(names):
            if i == len(names) - 1:
                items.append((f"{new}-clause-{n}", rest))
                break
            parts = tuple_parts(rest)
            rewritten = re.match(r"(rw (?:[^\s()]+|\([^()]*\))\s+)(\(.*\))$", rest.strip(), re.S)
            if parts is None and rewritten and tuple_parts(rewritten.group(2)):
                parts = [rewritten.group(1) + ("(" + x + ")" if " " in x else x) for x in tuple_parts(rewritten.group(2))]
            if parts is None and re.match(r"(omega|search|simp|grind|cc)\b", rest.strip()):
                items += [(f"{new}-clause-{n2}", rest) for n2 in names[i:]]
                break
            if parts is None:
                if i == 0:
                    fields, path = [], "p"
                    for j, n2 in enumerate(names):
                        fields.append(f"{n2} = {path}.0" if j < len(names) - 1 else f"{n2} = {path}")
                        path += ".1"
                    items = [(new, f"let p = {rest} in record {{ {'; '.join(fields)} }}")]
                else:
                    one = rest.strip() if re.fullmatch(WORD + r"(?:\.[\w'·₀-₉«»-]+)*", rest.strip()) else f"({rest.strip()})"
                    for j, n2 in enumerate(names[i:]):
                        last = j == len(names) - i - 1
                        items.append((f"{new}-clause-{n2}", one + ".1" * j + ("" if last else ".0")))
                break
            items.append((f"{new}-clause-{n}", parts[0]))
            rest = parts[1] if len(parts) == 2 else "(" + ", ".join(parts[1:]) + ")"
    return items


def write_answers(fn, uses, answers, other, module, crate_folder):
    lines = list(uses)
    for o in other:
        lines += [""] + o
    for a in answers:
        comments, new, unfolding, lets, final = a[:5]
        old = a[6] if len(a) > 6 else ""
        names = wanted_clauses(fn, new, old) if old else [None]
        items = clause_items(names, new, final)
        for n, text in items:
            if text.strip() == "search rules" and len(names) > 1 and not unfolding:
                continue
            lines += [""] + comments + [f"pub {n} : goal.{n}"] + unfolding + [f"{n} c =\n    {lets}{text.strip()}"]
    return "\n".join(lines) + "\n"


def turn_invariants(fn, invariants, module):
    lines = []
    loops = {norm(l[0][0]): (l, fn.d["changed"][i]) for i, l in enumerate(fn.d["loops"])}
    for comments, name, sort, code in invariants:
        text = "\n".join(l for l in code if not l.startswith("unfolding"))
        unfolding = [l for l in code if l.startswith("unfolding")]
        m = re.match(re.escape(name) + r"((?: \S+)*?) =(?=\s)", text)
        loop = norm(re.sub(r"^(invariant|decreases|Inv|μ|InvT|MeasureT)-", "", sort))
        if not m or loop not in loops:
            lines += ["", f"-- FIXME {name} : {sort}", text]
            continue
        ((_, new), names), changed = loops[loop]
        args, body = m.group(1).split(), text[m.end():].strip()
        n, now = len(names), [v for v, c in zip(names, changed) if c]
        table = {}
        extra = args[: len(args) - n - len(now)]
        for a, v, c in zip(args[len(extra): len(extra) + n], names, changed):
            table[a] = ("l.initial." if c else "l.") + v
        for a, v in zip(args[len(extra) + n:], now):
            table[a] = "l." + v
        for e in extra:
            table[e] = "FIXME_extra_" + e
        table.pop("_", None)

        def turn(m):
            return table.get(m.group(0), m.group(0))

        body = re.sub(r"(?<![\w'·.₀-₉-])" + WORD + r"(?![\w'·₀-₉-])", turn, body)
        kind = "invariant" if ("nv" in sort.split("-")[0]) else "decreases"
        full = f"{kind}-{new}"
        lines += [""] + comments + [f"abbrev pub {full} : goal.{full}"] + unfolding + [f"{full} l = {body}"]
    return "\n".join(lines) + "\n"


def old_cycle_files(crate, old, folder, names):
    """Before the kit's port.py the folder of a cycle had another name: the files with the same basenames and as many goals."""
    at = os.path.dirname(os.path.relpath(folder, ROOT))
    listed = subprocess.run(["git", "ls-tree", "-r", "--name-only", old, at + "/"], cwd=ROOT, capture_output=True, text=True).stdout.split("\n")
    texts = {}
    for p in listed:
        rel = p[len(at) + 1:]
        if rel.startswith("+") and p.endswith(".antt"):
            texts.setdefault(rel.split("/")[0], {})["/".join(rel.split("/")[1:])] = p
    good = [v for k, v in texts.items() if set(v) == set(names)]
    if len(good) != 1:
        same = "+" + os.path.basename(folder)[1:]
        good = [v for k, v in texts.items() if k == same or k == os.path.basename(folder)] or good
    return {k: subprocess.run(["git", "show", f"{old}:{p}"], cwd=ROOT, capture_output=True, text=True).stdout for k, p in good[0].items()}


def merged(uses):
    """One line an imported module."""
    items, order = {}, []
    for u in uses:
        m = re.match(r"use ([^{}\s]+)\.\{([^}]*)\}$", u)
        if not m:
            order.append(u)
            continue
        if m.group(1) not in items:
            items[m.group(1)] = []
            order.append(m.group(1))
        items[m.group(1)] += [x.strip() for x in m.group(2).split(",") if x.strip() not in items[m.group(1)]]
    return [f"use {o}.{{{', '.join(items[o])}}}" if o in items else o for o in order]


def parameters_of(name):
    crate, *mods, f = name.split("::")
    src = os.path.join(ROOT, "crates", crate, "src")
    for top, _, files_ in os.walk(src):
        for n in files_:
            m = re.search(r"fn " + f + r"(?:<[^>]*>)?\(([^)]*)\)", read(os.path.join(top, n)))
            if m:
                return [a.split(":")[0].strip().replace("mut ", "").lstrip("&") for a in m.group(1).split(",") if a.strip()]
    return []


def convert_cycle(crate, rel, folder, functions, old):
    """A cycle's folder: its walks become one Invariants.antt and one Answers.antt. `functions`: {name: Function}."""
    paths = {}
    for top, _, names in os.walk(folder):
        for n in sorted(names):
            p = os.path.join(top, n)
            paths[os.path.relpath(p, folder)] = p
    olds = old_cycle_files(crate, old, folder, paths)
    module = f"Rattle.{crate}.proofs." + rel.replace("/", ".")
    uses, answers, invariants, others = [], [], [], []
    helpers, left = {}, 0
    parsed = []
    for name in sorted(paths, key=lambda n: (n != "Proof/Claims.antt", n)):
        new_text = read(paths[name])
        ali = {m.group(2): m.group(1) for m in re.finditer(r"^use \S+\.Lts-([\w-]+) as (\S+)$", new_text, re.M)}
        file_uses, blocks = declarations(new_text)
        old_names = re.findall(r"^\s*(?:pub )?\S+\s+: (?:\(t : ℕ\)\s+→ )?[^\s()]+?\.Need-(\S+)", olds[name], re.M)
        uses += file_uses
        k = 0
        for b in blocks:
            head = [l for l in b if not re.match(r"\s*--", l)]
            if head and re.match(r"\s*module ", head[0]):
                b = [l for l in b if l != head[0]]
                head = head[1:]
            if not head:
                continue
            pad = len(head[0]) - len(head[0].lstrip())
            b = [l[pad:] if l[:pad].strip() == "" else l for l in b]
            comments = [l for l in b if l.startswith("--")]
            head = [l for l in b if not l.startswith("--")]
            m = re.match(r"(?:pub )?(?:abbrev )?(?:pub )?(\S+)\s+:(.*)", "\n".join(head))
            if not m:
                others.append(b)
                continue
            dname = m.group(1)
            at = next((i for i, l in enumerate(head) if i and (l.startswith(dname + " ") or l.startswith(dname + " ="))), None)
            if at is None:
                others.append(b)
                continue
            sig = "\n".join(head[:at])
            text = "\n".join(head[at:])
            unfolding = [l for l in head[:at] if l.startswith("unfolding")]
            eq = re.match(re.escape(dname) + r"((?: \S+)*?) =(?=\s)", text)
            if not eq:
                others.append(b)
                continue
            args, body = eq.group(1).split(), text[eq.end():]
            need = re.search(r"([^\s()]+?)\.Need-(\S+)", sig)
            if need:
                parsed.append((comments, ali.get(need.group(1), need.group(1)), old_names[k] if k < len(old_names) else "?", unfolding, args, body))
                k += 1
            elif re.search(r"lts\.(invariant|decreases)|Measures ", sig):
                invariants.append((comments, dname, sig, args, body, ali))
            elif re.match(r"(\S*-)?before[-_]", dname) or (re.search(r": Type 0$|: ℕ → Type 0$", sig) and re.search(r"\blts\.|-lts\.", body)):
                continue
            elif re.search(r"-(at|below|uses)$|_(at|below|uses)$", dname) and re.search(r"In \d+ |Claims", sig) or "statement" in sig:
                continue
            elif re.search(r"lts\.(Start|After|At|In|Then|Else)", sig):
                helpers[dname] = (args, body, result_type(sig))
            else:
                others.append(b)
    for fn in functions.values():
        fn.helpers = helpers
    lines = []
    for comments, f, old_need, unfolding, args, body in parsed:
        fn = functions.get(f)
        key = norm(old_need)
        key = re.sub(r"^(loop\d*)-holds", r"\1-init", re.sub(r"^(loop\d*)-less", r"\1-smaller", re.sub(r"^(loop\d*)-again", r"\1-preserved", key)))
        if re.match(r"enum-(known|told)", key) and re.fullmatch(r"\s*c(\.before)*\.match\d*\.keys\d+\s*", body):
            continue
        if not fn or key not in fn.needs:
            if body.strip() != "search rules":
                lines += ["", f"-- FIXME goal {f} {key}"] + body.split("\n")
            continue
        new, at = fn.needs[key]
        place = at[0] if at else "Start"
        var = next((a for a in args if a not in ("t", "κs")), "c")
        lets, final, _ = turn_body(fn, place, body, var)
        if final.strip() == "search rules" and not lets and not unfolding:
            continue
        answers.append((fn, comments, fn.stem + new, unfolding, lets, final, key))
    for fn, comments, new, unfolding, lets, final, key in answers:
        for n, text in clause_items(wanted_clauses(fn, new, key), new, final):
            if text.strip() == "search rules" and n != new and not unfolding:
                continue
            lines += [""] + comments + [f"pub {n} : goal.{n}"] + unfolding + [f"{n} t c =\n    {lets}{text.strip()}"]
    keep = []
    for u in uses:
        if re.search(r"\.Lts-|\.Kinds as |\.Reads as |PlainCycle|Fn\.Kinds|^use cycle\.|\.Proof\.Claims|\{statement\}|\{close\}|\.Tie|" + re.escape(os.path.basename(folder)) + r"(\.| as )", u):
            continue
        if u not in keep:
            keep.append(u)
    keep = merged(keep)
    others = [o for o in ([l for l in o if not re.match(r"mod |-- The functions meet", l)] for o in others) if o]
    inv = invariants_of_cycle(functions, invariants)
    for p in paths.values():
        os.remove(p)
    if os.path.isdir(os.path.join(folder, "Proof")):
        os.rmdir(os.path.join(folder, "Proof"))
    for o in others:
        lines = [""] + o + lines
    with open(os.path.join(folder, "Invariants.antt"), "w") as f:
        f.write("\n".join(keep + [f"use {module}.Given as goal"]) + "\n" + inv)
    with open(os.path.join(folder, "Answers.antt"), "w") as f:
        f.write("\n".join(keep + [f"use {module}.Goals as goal"]) + "\n" + "\n".join(lines) + "\n")
    return ("\n".join(lines) + inv).count("FIXME")


def invariants_of_cycle(functions, invariants):
    lines = []
    for comments, dname, sig, args, body, ali in invariants:
        body = body.strip()
        if "Measures " in sig:
            m = re.search(r"Measures \d+ (\S+?)[-_]kinds\.ps", sig)
            f = next((g for g in functions if norm(g) == norm(m.group(1))), None) if m else None
            f = f or next((g for g in functions if m and norm(g).split("-", 1)[-1] == norm(m.group(1))), None)
            f = list(functions)[0] if len(functions) == 1 else f
            if not f:
                lines += ["", f"-- FIXME {dname} {sig}", body]
                continue
            fn = functions[f]
            params = fn.parameters

            def turn(m):
                segs = m.group(1).split(".")[1:]
                k = 0
                while segs and segs[0] == "1":
                    k, segs = k + 1, segs[1:]
                if segs and segs[0] == "0":
                    segs = segs[1:]
                return ".".join(["l", params[k]] + segs)

            body = re.sub(r"(?<![\w'.])" + re.escape(args[-1]) + r"((?:\.[\w'-]+)+)", turn, body)
            name = f.replace("-", "::")
            lines += [""] + comments + [f"abbrev pub decreases-{name} : goal.decreases-{name}", f"decreases-{name} l = {body}"]
            continue
        m = re.search(r"(\S+?)\.(invariant|decreases)-(\S+)", sig)
        f = ali.get(m.group(1), m.group(1))
        fn = functions[f]
        t = turn_invariants(fn, [(comments, dname, m.group(2) + "-" + m.group(3), [f"{dname} {' '.join(args)} = {body}"])], None)
        t = re.sub(r"(invariant|decreases)-(loop)", lambda k: k.group(1) + "-" + fn.stem + k.group(2), t) if fn.stem else t
        lines += t.rstrip().split("\n")
    return "\n".join(lines) + "\n"


def main(argv):
    crate, old = argv[0], (argv[1] if len(argv) > 1 else "0b30729")
    folder = os.path.join(ROOT, "crates", crate)
    with tempfile.TemporaryDirectory() as d:
        said = subprocess.run(["rt", "check", "--generated", d, "--old-names"], cwd=folder, capture_output=True, text=True)
        try:
            names = json.load(open(os.path.join(d, "names.json")))
        except OSError:
            print(said.stdout[-2000:])
            return 1
    contracts = clause_names(ROOT)
    left = 0
    for key, data in sorted(names.items()):
        parts = key[: -len(".Lts")].split(".") if key.endswith(".Lts") else None
        if not parts:
            continue
        module = ".".join(parts).replace(f"Rattle-{crate}-proofs", f"Rattle.{crate}.proofs")
        rel = "/".join(parts[1:])
        path = os.path.join(folder, "proofs", rel, "Proof.antt")
        if not os.path.exists(path) or "+" in rel:
            continue
        text = read(path)
        if "+" in rel:
            continue
        if not re.search(r"\.Tie as tie$", text, re.M):
            continue
        fn = Function(key, data, contracts)
        fn.name = "::".join([crate] + parts[1:])
        if fn.name not in contracts:
            print("no contract of", fn.name)
        old_text = subprocess.run(["git", "show", f"{old}:crates/{crate}/proofs/{rel}/Proof.antt"], cwd=ROOT, capture_output=True, text=True).stdout
        uses, answers, invariants, other = convert(crate, rel, old_text, text, fn, module)
        uses = [u for u in uses if not re.search(r"\.Statement\.\{statement\}|\.Tie as tie", u)]
        os.remove(path)
        if invariants:
            t = turn_invariants(fn, invariants, module)
            with open(os.path.join(os.path.dirname(path), "Invariants.antt"), "w") as f:
                f.write("\n".join(uses + [f"use {module}.Given as goal"]) + "\n" + t)
            left += t.count("FIXME")
        if answers or other:
            t = write_answers(fn, uses + [f"use {module}.Goals as goal"], answers, other, module, folder)
            left += t.count("FIXME")
            with open(os.path.join(os.path.dirname(path), "Answers.antt"), "w") as f:
                f.write(t)
    cycles = collections.defaultdict(dict)
    for key, data in names.items():
        m = re.match(r"Rattle-\w+-proofs\.(.*\+[^.]*)\.Lts-([\w-]+)$", key)
        if m:
            fn = Function(key, data, contracts)
            fn.cycle = True
            rel = m.group(1).replace(".", "/")
            last = m.group(2).split("-")
            hits = [c for c in contracts if c.split("::")[0] == crate and c.split("::")[-len(last):] == last]
            inside = "::".join([crate] + rel.split("/")[:-1] + last)
            fn.name = inside if inside in contracts else hits[0]
            fn.parameters = data["params"].get(fn.name) or parameters_of(fn.name)
            fn.stem = data.get("stem") or ""
            cycles[rel][m.group(2)] = fn
    for rel, functions in cycles.items():
        folder_of = os.path.join(folder, "proofs", rel)
        if os.path.exists(os.path.join(folder_of, "Proof.antt")):
            left += convert_cycle(crate, rel, folder_of, functions, old)
    print(crate, "FIXMEs", left)


sys.exit(main(sys.argv[1:]))
