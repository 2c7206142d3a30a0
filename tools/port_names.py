#!/usr/bin/env python3
"""Brings the repository's own definitions and lemmas to today's spelling: words in snake case, types in camel case.

usage: tools/port_names.py [--check] [FOLDER]

Run once, right after the kit's port.py. What the crates' specs/ and proofs/ declare with a lower first letter gets underscores for
dashes and for capitals; functions of src/, their fields, strings and the names that the prover makes keep theirs. Must-fail edits go along.
Of two names that would fall together the definition gets the underscores, the lemma a dash. --check prints the table and changes nothing.
"""

import os
import re
import sys
import collections

NAME = r'[^\s(){}.;,@"«»\[\]\x60]+'
TOKEN = re.compile(r'"(?:\\.|[^"\\\n])*"|' + NAME)
DECL = re.compile(r"(?m)^((?:(?:pub|abbrev|unfoldable|opaque|irreducible|instance) )*)(" + NAME + r")((?: [({][^\n]*?[)}])*) : ")
RECORD = re.compile(r"(?m)^(?:pub )?record (?:pub )?\S+[^\n]*where\n((?:  [^\n]*\n|\n)+)")
FIELD = re.compile(r"(?m)^  (?:pub )?([a-z]\S*) :")
INNER = re.compile(r"(?m)^ +(?:(?:pub|abbrev|unfoldable) )*(" + NAME + r")((?: [({][^\n]*?[)}])*) : ")
MUTUAL = re.compile(r"(?m)^(?:\w+ )*mutual\n((?:  [^\n]*\n|\n)+)")
# Words with a capital inside: no name of src/ is so spelled but units and the hex of examples.
INSIDE = re.compile(r"[a-z][a-z0-9]*(?:[A-Z][a-z0-9]*)+[\w'-]*")
STAY = re.compile(r"m(?:A|V|W|Ah|Wh|Ms)s?|x[0-9A-F]+(?:u8)?|[a-z][A-Z]'*")
ALIAS = re.compile(r"(?m)^use [^\n{]* as ([a-z][\w-]*)$")
MADE = re.compile(r"/proofs/(?:.*/)?(?:\+?\w+)/(?:Proof|Answers|Invariants)\.antt$")
def snake(name):
    name = re.sub(r"^getD(?=-|$)", "get_or", name)
    name = re.sub(r"(?<=[a-z0-9])[A-Z]", lambda m: "_" + m[0].lower(), name)
    return name.replace("-", "_")


def texts(top, endings):
    for folder, dirs, files in os.walk(os.path.join(top, "crates")):
        dirs[:] = sorted(it for it in dirs if it not in ("out", ".git"))
        for it in sorted(files):
            if it.endswith(endings):
                yield os.path.join(folder, it)


def read(path):
    with open(path, encoding="utf-8") as f:
        return f.read()


def table_of(top):
    """The new spelling of each name and of each field; a lemma that would meet a definition of its own words keeps its dash, or gets it back."""
    declared, fields, aliases = collections.defaultdict(set), set(), set()
    for path in texts(top, ".antt"):
        text = re.sub(r"(?m)^\s*--.*$", "", read(path))
        aliases.update(it for it in ALIAS.findall(text) if "-" in it)
        if MADE.search(path):
            continue
        for m in list(DECL.finditer(text)) + [d for it in MUTUAL.findall(text) for d in DECL.finditer(re.sub(r"(?m)^  ", "", it))]:
            if m[2][0].islower() and "\u25cc" not in m[2]:
                declared[snake(m[2])].add(m[2])
        for m in RECORD.finditer(text):
            fields.update(FIELD.findall(m[1]))
    names = {it: snake(it) for it in aliases}
    for new, olds in declared.items():
        definitions = [it for it in olds if it != it.lower()] or [it for it in olds if "-" not in it]
        for it in olds:
            if len(olds) == 1 or it == definitions[0]:
                names[it] = new
            else:
                names[it] = new.replace("_", "-")
    # A field would hide a definition of its name from the fields below it.
    for it in fields:
        names.setdefault(it, it if snake(it) in declared else snake(it))
    names = {old: new for old, new in names.items() if old != new}
    return names, {it: names[it] for it in fields if it in names}


def turn(text, names, fields):
    inner = set(it[0] for it in INNER.findall(RECORD.sub("", text))) - set(names)
    meets = {names[it] for it in TOKEN.findall(text) if it in names} & inner
    names = {**{it: it.replace("_", "-") for it in meets}, **names}
    out, at = [], 0
    for m in TOKEN.finditer(text):
        word = m[0]
        if word[0] == '"':
            continue
        after_dot = m.start() > 0 and text[m.start() - 1] == "."
        new = (fields if after_dot else names).get(word)
        if not new and INSIDE.fullmatch(word) and not STAY.fullmatch(word):
            new = snake(word)
        if new:
            out += [text[at: m.start()], new]
            at = m.end()
    return "".join(out + [text[at:]])


# What holds antt in a source.
RUST = re.compile(r"ghost\s+use\b[^;]*;|(?:requires|ensures)\s*\*?\s*(?:\w+\s*)?\{|ghost\s*(?:\w+\s*(?::\s*)?)?\{|//[^\n]*|\"(?:\\.|[^\"\\])*\"")


def closing(text, at):
    depth = 1
    while at < len(text) and depth:
        depth += {"{": 1, "}": -1}.get(text[at], 0)
        at += 1
    return at


def turn_rt(text, names, fields):
    out, at = [], 0
    while True:
        m = RUST.search(text, at)
        if not m:
            return "".join(out + [text[at:]])
        end = m.end()
        if m[0].endswith("{"):
            end = closing(text, m.end())
        out.append(text[at: m.start()])
        piece = text[m.start(): end]
        out.append(piece if piece[0] in '/"' else turn(piece, names, fields))
        at = end


def main():
    check = "--check" in sys.argv
    rest = [it for it in sys.argv[1:] if it != "--check"]
    top = rest[0] if rest else "."
    names, fields = table_of(top)
    if check:
        for old in sorted(names):
            print(old, names[old], sep="\t")
        return
    for path in texts(top, (".antt", ".rt", ".edit")):
        text = read(path)
        new = (turn_rt if path.endswith(".rt") else turn)(text, names, fields)
        if new != text:
            with open(path, "w", encoding="utf-8") as f:
                f.write(new)


if __name__ == "__main__":
    main()
