#!/usr/bin/env python3
"""tools/respell.py [--check]: brings the project's own names in antt to today's spelling, everywhere at once.

A function, a lemma and a field are words in snake case: `nameOf` becomes `name_of`. A dash joins the names of two definitions, as in `floor-suc`; between
plain words it is a `_`. Types, facts and modules keep their camel case, and so does what comes from src/: functions, fields, variants and constants.

It turns .antt files, the clauses and ghost lines of .rt files (whose other words have no such spelling), must-fail edits, and the code spans of pages.
Comments and texts in quotes stay, but for code spans. It says which names would fall together, and turns none of those. --check writes nothing.
A second run changes nothing.
"""

import collections
import re
import sys
from pathlib import Path

ROOT = Path(__file__).resolve().parent.parent

WORD = re.compile(r"[^\s(){}.;,@\"«»`]+")
QUIET = re.compile(r'"(?:[^"\\\n]|\\.)*"|(?<![^\s(){}.;,@"«»])--[^\n]*|\{-.*?-\}', re.S)
RUST_QUIET = re.compile(r"""//[^\n]*|b?"(?:[^"\\]|\\.)*"|b?'(?:\\u\{[0-9a-fA-F_]+\}|\\x..|\\.|[^'\\])'""", re.S)
SPAN = re.compile(r"`[^`\n]+`")
HEAD = re.compile(r"^(?:(?:abbrev|unfoldable|pub|open|package|axiom) )*([^\s(){}.;,@\":]+)(?: \{[^}]*\})* :(?= |$)", re.M)
RECORD = re.compile(r"^(?:pub )?(?:record|data) ([^\s(){}.;,@\":]+).*(?:\n(?:[ \t].*)?)*", re.M)
FIELD = re.compile(r"^ +(?:pub )?([^\s(){}.;,@\":]+) :(?= |$)", re.M)
RUN = re.compile(r"[A-Za-z0-9_']+")

# The library's functions, of which lemmas speak.
OF_LIBRARY = {"suc", "zero", "pos", "negsuc", "length", "take", "drop", "map", "set", "div", "mod", "append", "abs", "and", "or", "not"}

# Files whose names are those of goals, which Rattle gives.
OF_RATTLE = {"Proof.antt", "Answers.antt", "Invariants.antt"}

# A name that would be the same as another that is seen beside it.
APART = {"noRoom": "without_room"}


def snake(run):
    """A run of letters that begins small and has a capital later, in snake case."""
    if not re.match(r"[a-z]", run) or not re.search(r"[A-Z]", run):
        return run
    return re.sub(r"(?<=.)_?([A-Z])", lambda m: "_" + m[1].lower(), run)


def in_snake(word):
    return RUN.sub(lambda m: snake(m[0]) if m.start() == 0 or word[m.start() - 1] != "_" else m[0], word)


def of_crates(pattern):
    """The files of the crates that are so named, and none that a check made."""
    return sorted(p for p in (ROOT / "crates").rglob(pattern) if "out" not in p.relative_to(ROOT).parts)


def declared():
    """The project's own definitions, lemmas and fields, with the files that declare each; and which are fields."""
    names, fields = collections.defaultdict(set), set()
    for file in of_crates("*.antt"):
        if file.name in OF_RATTLE:
            continue
        text = QUIET.sub(lambda m: " " * len(m[0]), file.read_text(encoding="utf-8"))
        for found in HEAD.finditer(text):
            names[found[1]].add(file)
        for record in RECORD.finditer(text):
            for found in FIELD.finditer(record[0]):
                names[found[1]].add(file)
                fields.add(found[1])
    return names, fields


def table():
    """Old spelling to new, for names that are not in today's."""
    names, fields = declared()
    functions = {in_snake(name) for name in names if re.match(r"[a-z]", name) and any("specs" in file.parts for file in names[name])} | OF_LIBRARY
    known = functions | {name for name in names if re.match(r"[A-Z]", name)}
    turned = {}
    for name in names:
        word = APART.get(name, in_snake(name))
        if "-" in word and re.match(r"[a-zA-Z]", word):
            parts = word.split("-")
            if all(re.fullmatch(r"[A-Za-z0-9_']+", part) for part in parts):
                joins = len(parts) == 2 and name not in fields and parts[0] in functions and parts[1] in known
                new = ("-" if joins else "_").join(parts)
                word = new
        if word != name:
            turned[name] = word
    together = collections.defaultdict(set)
    for name in names:
        together[turned.get(name, name)].add(name)
    for new, olds in sorted(together.items()):
        if len(olds) > 1:
            shared = set.intersection(*(names[old] for old in olds))
            print(f"look: {', '.join(sorted(olds))} would be {new}" + (", in one file" if shared else ""), file=sys.stderr)
            for old in olds:
                if old in turned and "-" in old:
                    turned[old] = in_snake(old)
                    if turned[old] == old:
                        del turned[old]
    return turned


def turn(text, quiet, turned):
    """Words outside of comments and texts, and in the code spans of comments."""

    def word(m):
        w = m[0]
        if w in turned:
            return turned[w]
        return in_snake(w)

    out, at = [], 0
    for q in quiet.finditer(text):
        out.append(WORD.sub(word, text[at : q.start()]))
        if q[0].startswith(("//", "--", "{-")):
            out.append(SPAN.sub(lambda m: WORD.sub(word, m[0]), q[0]))
        else:
            out.append(q[0])
        at = q.end()
    out.append(WORD.sub(word, text[at:]))
    return "".join(out)


# The library has a choice of its own, of values alone and with another precedence. The project's, which statements are written by too, is a word of its own.
CHOICE = ("if◌then◌else◌", "if◌then◌otherwise◌")
CLAUSE = re.compile(r"\b(?:requires|ensures)\b\s*\w*\s*\{")


def chosen(text):
    """Antt with the project's choice."""
    return WORD.sub(lambda m: CHOICE[1] if m[0] == CHOICE[0] else "otherwise" if m[0] == "else" else m[0], text)


def chosen_antt(text):
    out, at = [], 0
    for q in QUIET.finditer(text):
        out += [chosen(text[at : q.start()]), q[0]]
        at = q.end()
    return "".join([*out, chosen(text[at:])])


def chosen_rust(text):
    """The same of the clauses and ghost lines of Rust."""
    text = re.sub(r"^(?:(?:old|new): )?ghost use .*$", lambda m: chosen(m[0]), text, flags=re.M)
    out, at = [], 0
    while found := CLAUSE.search(text, at):
        end, depth = found.end(), 1
        while depth:
            depth += {"{": 1, "}": -1}.get(text[end], 0)
            end += 1
        out += [text[at : found.end()], chosen(text[found.end() : end])]
        at = end
    return "".join([*out, text[at:]])


def chosen_edit(text):
    specs = re.search(r"^file: .*\.antt$", text, re.M)
    turned = chosen if specs else chosen_rust
    return "\n".join(turned(line) if line.startswith(("old:", "new:")) else line for line in text.split("\n"))


NOTHING = re.compile(r"(?!x)x")


def turned_page(text, turned):
    def span(m):
        inside = m[0][1:-1]
        if re.match(r"[a-z]+/[A-Za-z_]+\.edit|\./|crates/|second/|docs/", inside):
            return m[0]
        return "`" + re.sub(r"[^\s(){}.;,@\"«»`:/]+", lambda w: turned.get(w[0], in_snake(w[0])), inside) + "`"

    return SPAN.sub(span, text)


def turned_edit(text, turned):
    return "\n".join(line if line.startswith(("#", "file:")) else turn(line, NOTHING, turned) for line in text.split("\n"))


def main(words):
    check = words == ["--check"]
    turned = table()
    changed = 0
    files = [(p, lambda t: chosen_antt(turn(t, QUIET, turned))) for p in of_crates("*.antt")]
    files += [(p, lambda t: chosen_rust(turn(t, RUST_QUIET, turned))) for p in of_crates("*.rt")]
    files += [(p, lambda t: chosen_edit(turned_edit(t, turned))) for p in of_crates("*.edit")]
    files += [(p, lambda t: turned_page(t, turned)) for p in [ROOT / "README.md", *sorted((ROOT / "docs").glob("*.md"))] if p.name != "PORT.md"]
    for file, of in files:
        text = file.read_text(encoding="utf-8")
        new = of(text)
        if new != text:
            changed += 1
            if not check:
                file.write_text(new, encoding="utf-8")
    for old, new in sorted(turned.items()):
        print(f"{old}\t{new}")
    print(f"respell: {changed} files {'would change' if check else 'changed'}, {len(turned)} names", file=sys.stderr)


if __name__ == "__main__":
    main(sys.argv[1:])
