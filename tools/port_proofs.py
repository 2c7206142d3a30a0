#!/usr/bin/env python3
"""Turns a crate's proofs over `tie` into Invariants.antt and Answers.antt, by the names that `rt check --generated DIR --old-names` lists.

usage: tools/port_proofs.py NAMES.json CRATE_FOLDER [FUNCTION ..]

Each proofs/F/Proof.antt that ties its goals one by one is replaced; one that walks the code by hand stays. Answers that the check finds
alone (omega arith, search rules) are left out. What it cannot follow it says, a line each.
"""

import json
import os
import re
import sys

NAME = r'[^\s(){}.;,@"«»\[\]]+'
TOKEN = re.compile(r'"(?:\\.|[^"\\\n])*"|--[^\n]*|' + NAME + r"|[.]|\s+|.", re.S)
TRIVIAL = re.compile(r"omega arith|search rules|omega \(arith\)|search \(rules\)|refl")


def norm(name):
    return re.sub(r"^(overflow|nonzero)-", "", name.replace("_", "-"))


def blocks(text):
    """Top-level items: each a list of lines, comments above them included."""
    out, hold = [], []
    for line in text.split("\n"):
        if line and not line[0].isspace() and not line.startswith("--") and line[0] not in ")]}":
            out.append(hold + [line])
            hold = []
        elif line.startswith("--"):
            hold.append(line)
        elif out and (line.strip() or True) and not hold:
            out[-1].append(line)
    return out


def items(text):
    """Groups the lines of one declaration: its comment, its signature, its unfolding, its equations."""
    got, current, name = [], None, None
    for block in blocks(text):
        head = [it for it in block if not it.startswith("--")]
        first = head[0]
        m = re.match(r"(?:(?:pub|abbrev|unfoldable) )*(" + NAME + r")((?: [({].*?[)}])*) : ", first + " ")
        if first.startswith("use ") or first.startswith("open "):
            got.append(("use", None, block))
            current = None
        elif m and not first.startswith("unfolding"):
            current = m[1]
            got.append(("decl", current, block))
        elif current:
            got[-1][2].extend(block)
        else:
            got.append(("other", None, block))
    return got


CLAUSE = re.compile(r"\b(requires|ensures)\s+(?:(\w+)\s+)?\{")
FN = re.compile(r"(?m)^\s*(?:pub )?(?:extern \"C\" )?fn (\w+)")


def clauses_below(top):
    """The names of each function's clauses, by crate::function, where they have names."""
    out = {}
    for crate in os.listdir(top):
        src = os.path.join(top, crate, "src")
        for folder, _, files in os.walk(src):
            for it in files:
                if not it.endswith(".rt"):
                    continue
                with open(os.path.join(folder, it), encoding="utf-8") as f:
                    text = f.read()
                heads = list(FN.finditer(text))
                for m, after in zip(heads, heads[1:] + [None]):
                    part = text[m.end(): after.start() if after else len(text)]
                    part = part.split("\n{")[0]
                    got = {"requires": [], "ensures": []}
                    for kind, name in CLAUSE.findall(part):
                        got[kind].append(name)
                    out[f"{crate}::{m[1]}"] = {k: v for k, v in got.items() if len(v) > 1}
                    lent = re.findall(r"(\w+): &(?:'\w+ )?mut\b", text[m.end():].split(")", 1)[0])
                    out[f"{crate}::{m[1]}"]["lent"] = lent
    return out


def apart(body, names):
    """A product as a record of the clauses' names, unless a tactic finds it."""
    text = body.strip()
    if text.startswith("let "):
        at = [m.end() for m in re.finditer(r"(?<=\s)in(?=\s)", text) if text[: m.start()].count("(") == text[: m.start()].count(")")]
        tail = text[at[-1]:].strip() if at else ""
        if tail and not re.match(r"(rw|simp|omega|search|grind|cc|refl|elim|λ|record|subst\S*|\()(?![\w-])", tail):
            return "\n    " + text[: at[-1]] + "\n    let it = " + tail + " in\n    record { " + "; ".join(f"{n} = it.{k}" for k, n in enumerate(names)) + " }"
    if re.match(r"(rw|simp|omega|search|grind|cc|refl|let|elim|λ|record|subst\S*|\()(?![\w-])", text):
        return body
    return " record { " + "; ".join(f"{n} = ({text}).{k}" for k, n in enumerate(names)) + " }"


def as_record(body, names):
    """A tuple at the end of an answer as a record of the clauses' names."""
    text = body.rstrip()
    if not text.endswith(")"):
        return apart(body, names)
    depth, at = 0, len(text)
    while at > 0:
        at -= 1
        if text[at] in ")]}":
            depth += 1
        elif text[at] in "([{":
            depth -= 1
            if depth == 0:
                break
    before = text[:at].rstrip()
    if before and not re.search(r"(\bin|=|\.)$", before):
        return apart(body, names)
    parts, depth, start = [], 0, at + 1
    for i in range(at + 1, len(text) - 1):
        if text[i] in "([{":
            depth += 1
        elif text[i] in ")]}":
            depth -= 1
        elif text[i] == "," and depth == 0:
            parts.append(text[start:i].strip())
            start = i + 1
    last = text[start: len(text) - 1].strip()
    if last:
        parts.append(last)
    if len(parts) != len(names):
        return apart(body, names)
    return text[:at] + "record { " + "; ".join(f"{n} = {v}" for n, v in zip(names, parts)) + " }"


class Function:
    def __init__(self, of, clauses, own):
        self.clauses, self.own = clauses, clauses.get(own, {})
        self.places = {it[0]: it for it in of["places"]}
        self.needs = []
        for (old, new), (place, _) in zip(of["needs"], of["asked_at"]):
            self.needs.append((norm(old), new, place))
        self.loops = [(names, vars_, changed) for (names, vars_), changed in zip(of["loops"], of["changed"])]
        self.of = of
        self.renamed = dict(zip(self.places, of["places_by_name"]))
        self.by_norm = {norm(it): it for it in self.places}

    def need(self, name):
        for old, new, place in self.needs:
            if old in (norm(name), norm(name).replace("slice-bounds-", "part-")):
                return new, place
        for old, new, place in self.needs:
            if norm(new) == norm(name):
                return new, place
        kind = re.match(r"nonzero-(?:div|rem)", name.replace("_", "-"))
        rest = [(new, place) for old, new, place in self.needs if kind and new.replace("_", "-").startswith(kind[0])]
        return rest[0] if len(rest) == 1 else None

    def arm(self, chain, name, after, order):
        """A field of a match's arm, and how much of the text after the step it takes."""
        by = dict(zip([it[0] for it in self.of["places"]], self.of["arms"]))
        for k in order:
            found = by.get(chain[k][0])
            if not found:
                continue
            label, _, fields = found
            best = None
            for new, old, path in fields:
                lead = "." + ".".join(path)
                if norm(old) == norm(name) and path and after.startswith(lead) and not after[len(lead): len(lead) + 1].isdigit():
                    if best is None or len(lead) > best[1]:
                        best = (f"{label}.{new}", len(lead))
            if best:
                return best
        return None

    def typed(self, chain, name):
        by = dict(zip([it[0] for it in self.of["places"]], self.of["typed"]))
        for it in chain:
            for var, old in by.get(it[0], []):
                if norm(old) == norm(name):
                    return var
        return None

    def chain(self, place):
        out = []
        while place is not None:
            out.append(self.places[place])
            place = self.places[place][1]
        return out


def rewrite(body, chain, said, what, fn, at_places=None):
    """The paths into `c` as today's context has them, let-bound contexts followed."""
    depth = {"c": 0}
    text = body
    # let k = c.before.before in
    while True:
        m = re.search(r"\blet (" + NAME + r") = (" + "|".join(re.escape(it) for it in depth) + r")((?:\.before)+|) in\s+", text)
        if not m:
            break
        depth[m[1]] = depth[m[2]] + m[3].count(".before")
        text = text[: m.start()] + text[m.end():]
    out, at = [], 0
    pattern = re.compile(r"(?<![^\s(){};,\[\]])(" + "|".join(re.escape(it) for it in depth) + r")((?:\.before)*)(?:\.(" + NAME + r"))?(?![^\s(){}.;,\[\]])")
    for m in pattern.finditer(text):
        n = depth[m[1]] + m[2].count(".before")
        if m[3] is None and re.search(r"[{;]\s*$", text[: m.start()]) and re.match(r"\s+=\s", text[m.end():]):
            continue  # a field's name in a record
        if m[3] is None:
            lead = re.search(r"(?<![^\s(){};,\[\]])(" + NAME + r") $", text[: m.start()])
            if (n or m[1] != "c") and not (lead and at_places and lead[1] in at_places):
                said.append(f"{what}: the context {m[0]} as a whole")
            out += [text[at: m.start()], "c"]
            at = m.end()
            continue
        rest = m[3]
        # the place that has the step, the nearest to where it was counted
        having = [(abs(k - n), k) for k, it in enumerate(chain) if it[2][0] and norm(it[2][0]) == norm(rest)]
        given = re.match(r"shared-slice-known|slice-known|shared_slice_known", rest) and text[m.end():].startswith(".given")
        if given:
            var = fn.typed(chain, rest)
            if var:
                out += [text[at: m.start()], "c.type_inv." + var]
                at = m.end() + len(".given")
                continue
        arm = fn.arm(chain, rest, text[m.end():], [k for _, k in sorted(having)])
        if arm:
            out += [text[at: m.start()], "c." + arm[0]]
            at = m.end() + arm[1]
            continue
        if having:
            place = chain[min(having)[1]]
            step = place[2]
            new = step[1]
        else:
            place, step, new = chain[min(n, len(chain) - 1)], ("", ""), rest
        out += [text[at: m.start()], "c." + new]
        at = m.end()
        names = fn.clauses.get(place[3] or "", {}).get("ensures") if new == step[1] else None
        clause = re.match(r"\.ensures\.(\d+)", text[at:])
        if names and clause and int(clause[1]) < len(names):
            out.append(".ensures." + names[int(clause[1])])
            at += clause.end()
        if new == step[1] and re.match(r"(core|std)::", place[3] or "") and re.match(r"\.ensures(?!\.[a-z])", text[at:]):
            out.append(".ensures.value")
            at += len(".ensures")
        lent = fn.of["params"].get(place[3] or "") if new == step[1] else None
        clause = re.match(r"\.new((?:\.1)*)(\.0)?(?![\w.])", text[at:])
        if lent and clause and (clause[1] or clause[2]) and clause[1].count("1") < len(lent):
            out.append(".new." + lent[clause[1].count("1")])
            at += clause.end()
        clause = re.match(r"\.(\d+)", text[at:])
        if new == "requires" and fn.own.get("requires") and clause and int(clause[1]) < len(fn.own["requires"]):
            out.append("." + fn.own["requires"][int(clause[1])])
            at += clause.end()
    text = "".join(out + [text[at:]])
    for name, inner in (at_places or {}).items():
        text = re.sub(r"(?<![^\s(){};,\[\]])" + re.escape(name) + r" c(?: κs)?(?![^\s(){};,\[\]])", lambda m: inner[0], text)
    # a step's clauses by name, where the step has a name of its own here
    callees = {it[2][1]: it[3] for it in fn.of["places"] if it[3]}
    for it in re.finditer(r"\blet (" + NAME + r") = c\.([^\s.]+)\.ensures in\b", text):
        names = fn.clauses.get(callees.get(it[2]) or "", {}).get("ensures")
        for k, name in enumerate(names or []):
            text = re.sub(r"(?<![^\s(){};,\[\]])" + re.escape(it[1]) + r"\." + str(k) + r"(?!\d)", it[1] + "." + name, text)
    for it in re.finditer(r"\blet (" + NAME + r") = c\.([^\s.]+) in\b", text):
        names = fn.clauses.get(callees.get(it[2]) or "", {}).get("ensures")
        for k, name in enumerate(names or []):
            text = re.sub(r"(?<![^\s(){};,\[\]])" + re.escape(it[1]) + r"\.ensures\." + str(k) + r"(?!\d)", it[1] + ".ensures." + name, text)
    # an array's own name
    for old, new in fn.of["args"]:
        m = re.fullmatch(r"\.args \.(\S+)", old)
        if m:
            text = re.sub(r"\." + re.escape(m[1]) + r"(?![\w-])", "." + new.split(" .")[-1], text)
    text = text.replace("in_default.rest", "in_default.in_default-own.rest")
    # a test of `!x` says what x is
    return re.sub(r"\bnot-(?:true|false) _ (c\.if-not-[^\s(){};,]*\.(?:true|false))", r"\1", text)


def substitute(text, by):
    out, before = [], ""
    for m in TOKEN.finditer(text):
        word = m[0]
        if word in by and before != ".":
            word = by[word]
        out.append(word)
        before = m[0]
    return "".join(out)


def split_args(text):
    """The arguments of tie.spec."""
    args, at, depth, start = [], 0, 0, None
    while at < len(text):
        ch = text[at]
        if depth == 0 and start is None and not ch.isspace():
            start = at
        if ch in "([{":
            depth += 1
        elif ch in ")]}":
            depth -= 1
            if depth < 0:
                break
        if depth == 0 and start is not None and (ch.isspace() or at + 1 == len(text)):
            args.append(text[start: at + 1].strip())
            start = None
        at += 1
    if start is not None:
        args.append(text[start:at].strip())
    return args


def turn(path, crate, function, of, clauses):
    said = []
    with open(path, encoding="utf-8") as f:
        text = f.read()
    if "tie." not in text or not re.search(r"tie\.(close|spec)", text):
        return [f"{path}: no tie"]
    fn = Function(of, clauses, f"{crate}::{function.split('.')[-1]}")
    shapes = {}
    for it in fn.of["places"]:
        if it[3] and clauses.get(it[3], {}).get("requires"):
            shapes[it[3].split("::")[-1]] = clauses[it[3]]["requires"]

    def shaped(new, body):
        names = None
        if new == "returns" or new.startswith("returns-"):
            names = fn.own.get("ensures")
        m = re.match(r"(\w+?)(?:-.*)?-requires(?:-.*)?$", new)
        if m and m[1] in shapes:
            names = shapes[m[1]]
        return as_record(body, names) if names else body
    uses, locals_, invariants, answers, at_places = [], [], [], {}, {}
    named = {}
    spec = None
    for kind, name, lines in items(text):
        block = "\n".join(lines).rstrip()
        if kind == "use":
            if not re.search(r"\.(Statement\.\{statement\}|Tie as tie)$", block):
                uses.append(block)
            continue
        if kind == "other" and [it for it in lines if not it.startswith("--")][0].startswith("module _"):
            if "tie." in block:
                said.append(f"{path}: {lines[0]}: speaks of tie")
            locals_.append(block)
            continue
        if kind == "other":
            said.append(f"{path}: a line that is no item: {lines[0]}")
            continue
        code = [it for it in lines if not it.startswith("--")]
        comments = [it for it in lines if it.startswith("--")]
        sig = code[0]
        m = re.match(r"(?:(?:pub|abbrev|unfoldable) )*" + NAME + r" : tie\.(Need-|)(" + NAME + r")", sig)
        if name.endswith("-spec") or name.endswith("_spec"):
            spec = block
            continue
        at_place = re.match(r"(?:(?:pub|abbrev|unfoldable) )*" + NAME + r" : (?:\((" + NAME + r") : tie\.(" + NAME + r")[^()→]*\)|tie\.(" + NAME + r")) →", sig)
        where = norm(at_place[2] or at_place[3]) if at_place else None
        if where in fn.by_norm:
            place = fn.by_norm[where]
            unfolded = [it for it in code[1:] if it.startswith("unfolding")]
            eq = re.search(r"(?m)^" + re.escape(name) + r" (" + NAME + r")((?: [^\n=]*?)?) =\s", block)
            if eq:
                body = re.sub(r"(?<![^\s(){};,\[\]])" + re.escape(eq[1]) + r"(?![^\s(){}.;,\[\]])", "c", block[eq.end():].strip())
                inner = rewrite(body, fn.chain(place), said, f"{path}: {name}", fn, at_places)
                uses_ = [it[1] for it in at_places.values() if it[0] in inner]
                if eq[2].strip():
                    inner = f"λ {eq[2].strip()}. {inner}"
                typed = re.match(r"(?:.|\n)*?→((?:.|\n)*?)\n(?:unfolding|" + re.escape(name) + r" )", block)
                if typed and at_place[1] and not eq[2].strip():
                    kind = re.sub(r"(?<![^\s(){};,\[\]])" + re.escape(eq[1]) + r"(?![^\s(){}.;,\[\]])", "c", typed[1].strip())
                    inner = f"let it : {rewrite(kind, fn.chain(place), said, path, fn, at_places)} = {inner} in it"
                at_places[name] = ("(" + inner + ")", "\n".join(unfolded + [it for it in uses_ if it]))
                continue
        if not m:
            if "tie." in block:
                said.append(f"{path}: {name}: speaks of tie")
            locals_.append(block)
            continue
        rest = "\n".join(code[1:])
        unfolding = "\n".join(it for it in code[1:] if it.startswith("unfolding"))
        eq = re.search(r"(?m)^" + re.escape(name) + r"((?: [^\n=]*?)?) =(?:\s)", rest)
        if not eq:
            said.append(f"{path}: {name}: no equation")
            continue
        params, body = eq[1].split(), rest[eq.end():].rstrip("\n")
        lead = rest[eq.end() - 1: eq.end()]
        if m[1]:
            named[name] = m[2]
            found = fn.need(m[2])
            if not found:
                answers[name] = None
                said.append(f"{path}: {m[2]}: no such goal now")
                continue
            new, place = found
            if not params or params[0] != "c":
                said.append(f"{path}: {name}: takes {params}")
            out = shaped(new, rewrite(body, fn.chain(place), said, f"{path}: {new}", fn, at_places))
            more = {it[1] for it in at_places.values() if it[1] and it[0] in out}
            unfolding = "\n".join(([unfolding] if unfolding else []) + sorted(more))
            answers[new] = (comments, unfolding, params[:1] or ["c"], lead + out, body)
            if not unfolding:
                at_places[name] = ("(" + out.strip() + ")", "")
        else:
            loop = re.match(r"(invariant|decreases)-(.+)$", m[2])
            rows = [it for it in fn.loops if loop and norm(it[0][0]) == norm(loop[2])]
            if not rows:
                said.append(f"{path}: {m[2]}: no such loop; params {params}")
                invariants.append(block)
                continue
            (old, new), vars_, changed = rows[0]
            by = {}
            places = ["l.initial." + v if c else "l." + v for v, c in zip(vars_, changed)] + ["l." + v for v, c in zip(vars_, changed) if c]
            if len(places) != len(params):
                said.append(f"{path}: {m[2]}: {len(params)} parameters, wanted {places}")
            for p, v in zip(params, places):
                by[p] = v
            label = f"{loop[1]}-{new}"
            invariants.append("\n".join(comments + [f"abbrev pub {label} : goal.{label}"] + ([unfolding] if unfolding else []) + [f"{label} l = " + substitute(body, by).strip()]))
    if spec:
        m = re.search(r"tie\.spec\b", spec)
        args = split_args(spec[m.end():])
        # the ones written in place, between the ones that have names
        order = [it[0] for it in fn.needs]
        runs, run, at = [], [], 0
        for arg in args + [None]:
            key = norm(named[arg]) if arg in named else None
            if arg is not None and key is None and arg not in [it for it in args if re.match(r"(invariant|decreases)", it)]:
                run.append(arg)
            elif arg is None or key in order:
                to = order.index(key) if key else len(order)
                runs.append((run, fn.needs[at:to]))
                run, at = [], to + 1
        for run, needs in runs:
            if len(run) != len(needs):
                run = [it for it in run if not re.match(r"\(λ c κs\. ?search rules\)$", it)]
            if len(run) != len(needs) and any(not TRIVIAL.fullmatch(re.sub(r"^\(λ [^.]*\. ?|\)$", "", it)) for it in run):
                said.append(f"{path}: {len(run)} in place for {[it[1] for it in needs]}: {[it for it in run if not TRIVIAL.fullmatch(re.sub(r'^.λ [^.]*[.] ?|.$', '', it))]}")
                continue
            for arg, (old, new, place) in zip(run, needs):
                lam = re.match(r"\(λ ([^\s.]+)((?: [^\s.]+)*)\. ?(.*)\)$", arg, re.S)
                if not lam or TRIVIAL.fullmatch(lam[3].strip()) or len(run) != len(needs):
                    continue
                body = lam[3]
                if lam[1] != "c":
                    said.append(f"{path}: {new}: takes {lam[1]}")
                answers[new] = ([], "\n".join(it for it in spec.split("\n") if it.startswith("unfolding")), ["c"], " " + shaped(new, rewrite(body, fn.chain(place), said, f"{path}: {new}", fn, at_places)), body)
    folder = os.path.dirname(path)
    head = "\n".join(uses)
    dotted = function
    if invariants:
        with open(os.path.join(folder, "Invariants.antt"), "w", encoding="utf-8") as f:
            f.write(head + f"\nuse Rattle.{crate}.proofs.{dotted}.Given as goal\n\n" + "\n\n".join(invariants) + "\n")
    kept = []
    for new, it in answers.items():
        if it is None:
            continue
        comments, unfolding, params, body, old = it
        if TRIVIAL.fullmatch(old.strip()) and not unfolding:
            continue
        kept.append("\n".join(comments + [f"pub {new} : goal.{new}"] + ([unfolding] if unfolding else []) + [f"{new} {' '.join(params)} =" + body]))
    if kept:
        with open(os.path.join(folder, "Answers.antt"), "w", encoding="utf-8") as f:
            f.write(head + f"\nuse Rattle.{crate}.proofs.{dotted}.Goals as goal\n\n" + "\n\n".join(locals_ + kept) + "\n")
    os.remove(path)
    if not os.listdir(folder):
        os.rmdir(folder)
    return said


def main():
    with open(sys.argv[1], encoding="utf-8") as f:
        names = json.load(f)
    top = sys.argv[2].rstrip("/")
    crate = os.path.basename(os.path.realpath(top))
    only = sys.argv[3:]
    clauses = clauses_below(os.path.join(os.path.realpath(top), ".."))
    for key, of in names.items():
        if not key.endswith(".Lts") or not key.startswith(f"Rattle-{crate}-proofs."):
            continue
        function = key[len(f"Rattle-{crate}-proofs."): -len(".Lts")]
        if only and function not in only:
            continue
        path = os.path.join(top, "proofs", *function.split("."), "Proof.antt")
        if os.path.isfile(path):
            for it in turn(path, crate, function, of, clauses):
                print(it)


if __name__ == "__main__":
    main()
