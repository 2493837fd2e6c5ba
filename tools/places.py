#!/usr/bin/env python3
"""tools/places.py POINT [TREE]: the places of one point of the design pass (docs/DESIGN-PASS.md), or of all of them.

    places.py 1          own enums like Option or Result, flags and numbers beside values, numbers for kinds and refusals
    places.py 2          twins: functions and types that differ only in a type, a size or a constant
    places.py 3          loops that go by `while`
    places.py 4          equality, order, copying, conversion and printing by hand
    places.py 5          facts that stand in three or more contracts, and parameters that travel together
    places.py 6          buffers with a length, parallel arrays, searches by hand, arenas of indices
    places.py 7          switches on which step to run, tables of functions
    places.py 8          proofs: answers, invariants and lemma files
    places.py all        the counts alone, of every point

TREE is the project's folder, and else the current one. Each place is a line `CRATE/src/FILE:LINE name: what`. Then come the counts by kind, and the last
line is the point's count. What is marked [listed] stands by name in LISTED below, since no pattern decides it; all else is found by pattern. What a pattern
finds and is no place stands in LEFT_OUT. A listed name counts as long as the tree declares it: take it out of LISTED where it is rewritten and keeps its name.
"""

import collections
import itertools
import re
import signal
import sys
from pathlib import Path

# Places that no pattern decides: for each point, the file and the name, the kind of place, and why it is one.
LISTED = {
    1: [
        ("reference/src/inverse.rt", "Inverse", "own Result", "a step, or the side on which there is none"),
        ("certificate/src/record.rt", "Record", "a value that stands for none", "ratio 0 is a cell not measured"),
        ("certificate/src/resistances.rt", "Pair", "a value that stands for none", "0 and 0 are a cell not measured"),
        ("entry/src/entry.rt", "Thermometer", "a value that stands for none", "number 0 names none"),
        ("entry/src/entry.rt", "Entry", "a value that stands for none", "number 0 is a free place"),
        ("register/src/table.rt", "lookup", "a value that stands for none", "a free entry where the table has none"),
        ("deviation/src/places.rt", "Places", "a value that stands for none", "an unused place holds 0"),
        ("text/src/columns.rt", "first_broken", "a value that stands for none", "one past the last column where none is broken"),
        ("text/src/field.rt", "no_field", "a value that stands for none", "an offset past the end where a field breaks its rule"),
        ("text/src/name.rt", "after_id", "a value that stands for none", "an offset past the end where there is no id"),
        ("text/src/name.rt", "id_at", "a value that stands for none", "an offset past the end where there is no id"),
        ("text/src/name.rt", "id_ended", "a value that stands for none", "an offset past the end where there is no id"),
        ("lines/src/lib.rt", "byte_before", "a value that stands for none", "last byte 0 where no byte came before"),
        ("turns/src/rows.rt", "last_held", "a value that stands for none", "0 where no byte is held"),
        ("turns/src/kept.rt", "at", "a value that stands for none", "0 where no byte is kept"),
        ("turns/src/fields.rt", "field_start", "a value that stands for none", "the line's end where it has not so many fields"),
        ("certificate/src/record.rt", "aluminium_ratio", "a value that stands for none", "ratio 0 where the certificate holds none"),
        ("certificate/src/resistances.rt", "ratio", "a value that stands for none", "ratio 0 is a cell not measured"),
        ("law/src/name.rt", "Name", "a number for a kind or a refusal", "a law's name as a number, 0 for none"),
        ("law/src/laws.rt", "CURVE", "a number for a kind or a refusal", "the curve's name as a number"),
        ("register_cases/src/main.rt", "which_certificate", "a number for a kind or a refusal", "answers which certificate as a number"),
    ],
    2: [
        ("row/src/readings.rt", "parse_reading", "twin function", "the five parsers differ in their columns"),
        ("row/src/records.rt", "parse_record", "twin function", "the five parsers differ in their columns"),
        ("row/src/resistances.rt", "parse_resistances", "twin function", "the five parsers differ in their columns"),
        ("row/src/forward.rt", "parse_forward", "twin function", "the five parsers differ in their columns"),
        ("row/src/tolerances.rt", "parse_tolerance", "twin function", "the five parsers differ in their columns"),
        ("row/src/readings.rt", "ReadingRow", "twin type", "names, and what the columns say"),
        ("row/src/forward.rt", "ForwardRow", "twin type", "names, and what the columns say"),
        ("row/src/tolerances.rt", "ToleranceRow", "twin type", "names, and what the columns say"),
        ("reading/src/from_step.rt", "least_ratio", "twin function", "a search by halving, as in reference and curve"),
        ("tables/src/iec.rt", "largest_error", "twin function", "a search by halving, as in reference and curve"),
        ("line/src/readings.rt", "answer_row", "twin function", "as bench's three, with its own refusal columns"),
        ("bench/src/tolerances.rt", "answer_row", "twin function", "as the others, with its own refusal columns"),
        ("line/src/readings.rt", "put_step", "twin function", "a sign and a number, as text::add_signed and evidence's two"),
        ("text/src/writing.rt", "add_signed", "twin function", "a sign and a number, as line's put_step and evidence's two"),
        ("evidence/src/printing.rt", "signed", "twin function", "a sign and a number, as say_signed but into a buffer"),
        ("evidence/src/figure.rt", "say_signed", "twin function", "a sign and a number, as signed but to an output"),
        ("evidence/src/printing.rt", "refused", "twin function", "as say_refused but into a buffer"),
        ("evidence/src/figure.rt", "say_refused", "twin function", "as refused but to an output"),
        ("reference/src/search.rt", "search", "twin function", "a search by halving, as in curve and reading"),
        ("curve/src/search.rt", "search", "twin function", "a search by halving, as in reference and reading"),
        ("bench/src/forward.rt", "ratio_text", "twin function", "as result_text, with its own columns"),
        ("certificate/src/fault.rt", "at_fault", "twin function", "the tests in their order, as in tested, for the cell"),
        ("certificate/src/record.rt", "tested", "twin function", "the tests in their order, as in at_fault, for the refusal"),
        ("certificate/src/record.rt", "cell_missing", "twin function", "any cell that fails a test, as ratio_above"),
        ("certificate/src/fault.rt", "first_above", "twin function", "the first cell that fails a test, as the other four"),
        ("certificate/src/fault.rt", "first_deviating", "twin function", "the first cell that fails a test, as first_above"),
        ("certificate/src/fault.rt", "first_outside", "twin function", "the first cell that fails a test, as first_above"),
        ("line/src/readings.rt", "answer_reading", "twin function", "place_reading without whether it fitted, as bench's four"),
        ("bench/src/certificates.rt", "answer_record", "twin function", "place_record without whether it fitted, as the others"),
        ("bench/src/certificates.rt", "answer_resistances", "twin function", "place_resistances without whether it fitted, as the others"),
        ("bench/src/forward.rt", "answer_forward", "twin function", "place_forward without whether it fitted, as the others"),
        ("bench/src/tolerances.rt", "answer_tolerance", "twin function", "place_tolerance without whether it fitted, as the others"),
        ("row/src/resistances.rt", "resistances_columns", "twin function", "what the columns hold, as the other four"),
        ("turns/src/header.rt", "header_of", "twin constant", "the five headers once more, as in list's kinds"),
        ("certificate/src/fault.rt", "first_missing", "twin function", "the first cell that fails a test, as first_above"),
        ("certificate/src/fault.rt", "first_impure", "twin function", "the first cell that fails a test, as first_above"),
        ("certificate/src/record.rt", "ratio_above", "twin function", "any cell that fails a test, as deviates and outside"),
        ("certificate/src/record.rt", "deviates", "twin function", "any cell that fails a test, as ratio_above"),
        ("certificate/src/resistances.rt", "outside", "twin function", "any cell that fails a test, as ratio_above"),
        ("quantity/src/resistance.rt", "within", "twin function", "between two ends, as text::between for bytes"),
        ("text/src/field.rt", "between", "twin function", "between two ends, as quantity's within"),
        ("text/src/field.rt", "wide", "twin function", "a widening cast, as in tables"),
        ("tables/src/iec.rt", "wide", "twin function", "a widening cast, as in text"),
        ("turns/src/reasons.rt", "is_digit", "twin function", "as text's is_digit"),
        ("text/src/number.rt", "is_digit", "twin function", "as turns' is_digit"),
        ("turns/src/reasons.rt", "is_letter", "twin function", "as text's letter"),
        ("text/src/name.rt", "letter", "twin function", "as turns' is_letter"),
        ("text/src/writing.rt", "put", "twin function", "bytes into a buffer, as evidence's text"),
        ("evidence/src/printing.rt", "text", "twin function", "bytes into a buffer, as text::put"),
        ("list/src/kinds.rt", "launch_header", "twin function", "a header to a kind, as bench_header"),
        ("list/src/kinds.rt", "bench_header", "twin function", "a header to a kind, as launch_header"),
        ("launchlist/src/page.rt", "PARTS", "twin constant", "a page, in as many parts as it has"),
        ("benchlist/src/page.rt", "PARTS", "twin constant", "a page, in as many parts as it has"),
        ("cards/src/main.rt", "reading_said", "twin function", "a reading in words, as in register_story"),
        ("register_story/src/main.rt", "reading_said", "twin function", "a reading in words, as in cards"),
        ("register_cases/src/main.rt", "reading_text", "twin function", "a reading in words, but into a buffer"),
        ("register_story/src/main.rt", "change_said", "twin function", "a change in words, as in register_cases"),
        ("register_cases/src/main.rt", "change_text", "twin function", "a change in words, but into a buffer"),
    ],
    4: [
        ("entry/src/entry.rt", "alike", "equality or order by hand", "equality of two signed numbers"),
        ("entry/src/entry.rt", "same_places", "equality or order by hand", "equality field by field"),
        ("entry/src/entry.rt", "same", "equality or order by hand", "equality field by field"),
        ("tables/src/its90.rt", "is_cell", "equality or order by hand", "equality field by field"),
        ("text/src/field.rt", "between", "equality or order by hand", "a range test"),
        ("text/src/number.rt", "is_digit", "equality or order by hand", "a range test"),
        ("quantity/src/resistance.rt", "within", "equality or order by hand", "a range test"),
        ("evidence/src/printing.rt", "text", "copying by hand", "a slice copied byte by byte"),
        ("entry/src/entry.rt", "merged", "copying by hand", "an entry written anew, field by field"),
        ("entry/src/entry.rt", "raised", "copying by hand", "an entry written anew for one field"),
        ("quantity/src/temperature.rt", "to_kelvin", "conversion by hand", "a signed number to a natural one, by its sign"),
        ("line/src/readings.rt", "put_read", "printing by hand", "a number's digits at an offset"),
        ("line/src/readings.rt", "put_step", "printing by hand", "a signed number, by its sign"),
        ("line/src/lent.rt", "place_refused", "printing by hand", "a number's digits at an offset"),
        ("line/src/lent.rt", "place_broken", "printing by hand", "a field's number into a buffer"),
        ("bench/src/certificates.rt", "add_places", "printing by hand", "five numbers with commas"),
        ("bench/src/certificates.rt", "certificate_text", "printing by hand", "an answer put together part by part"),
        ("bench/src/forward.rt", "ratio_text", "printing by hand", "an answer put together part by part"),
        ("bench/src/tolerances.rt", "result_text", "printing by hand", "an answer put together part by part"),
        ("bench/src/tolerances.rt", "add_result", "printing by hand", "a bool in words"),
        ("text/src/decimal.rt", "width_to_seven", "printing by hand", "how many digits"),
        ("text/src/decimal.rt", "width", "printing by hand", "how many digits"),
        ("text/src/decimal.rt", "put_digits", "printing by hand", "digits, the last first"),
        ("text/src/decimal.rt", "digit", "printing by hand", "a digit"),
        ("text/src/writing.rt", "add", "printing by hand", "a text into a buffer"),
        ("text/src/writing.rt", "add_number", "printing by hand", "a number into a buffer"),
        ("text/src/writing.rt", "add_signed", "printing by hand", "a signed number, by its sign"),
        ("turns/src/header.rt", "begins_by_mark", "equality or order by hand", "three bytes compared one by one"),
        ("turns/src/header.rt", "is_wide", "equality or order by hand", "two bytes compared one by one"),
        ("tables/src/iec.rt", "limits", "printing by hand", "a letter and three figures"),
        ("evidence/src/certificates.rt", "law_text", "printing by hand", "a law in words"),
        ("evidence/src/printing.rt", "put", "printing by hand", "a byte into a buffer"),
        ("register_cases/src/main.rt", "change_text", "printing by hand", "a change in words"),
        ("register_cases/src/main.rt", "name_text", "printing by hand", "a law's name in words"),
        ("register_story/src/main.rt", "change_said", "printing by hand", "a change in words"),
        ("evidence/src/printing.rt", "number", "printing by hand", "digits, the first first"),
        ("evidence/src/printing.rt", "leading_power", "printing by hand", "where the digits begin"),
        ("evidence/src/printing.rt", "natural", "printing by hand", "a number into a buffer"),
        ("evidence/src/printing.rt", "signed", "printing by hand", "a signed number, by its sign"),
        ("evidence/src/printing.rt", "refused", "printing by hand", "a refusal's number into a buffer"),
        ("evidence/src/figure.rt", "whole_digits", "printing by hand", "digits to an output"),
        ("evidence/src/figure.rt", "digits", "printing by hand", "decimals to an output"),
        ("evidence/src/figure.rt", "say_natural", "printing by hand", "a number to an output"),
        ("evidence/src/figure.rt", "say_difference", "printing by hand", "a difference, by its sign"),
        ("evidence/src/figure.rt", "say_signed", "printing by hand", "a signed number, by its sign"),
        ("evidence/src/figure.rt", "say_refused", "printing by hand", "a refusal's number to an output"),
        ("evidence/src/certificates.rt", "places_text", "printing by hand", "five numbers into a buffer"),
        ("evidence/src/certificates.rt", "say_law", "printing by hand", "a law in words"),
        ("evidence/src/report.rt", "print_digest", "printing by hand", "a line put together part by part"),
        ("register_cases/src/main.rt", "reading_text", "printing by hand", "a reading in words"),
        ("register_cases/src/main.rt", "certificate_text", "printing by hand", "a certificate in words"),
        ("register_cases/src/main.rt", "entry_text", "printing by hand", "an entry in words"),
        ("register_cases/src/main.rt", "table_text", "printing by hand", "a table in words, its four entries by hand"),
        ("register_story/src/main.rt", "reading_said", "printing by hand", "a reading in words"),
        ("cards/src/main.rt", "reading_said", "printing by hand", "a reading in words"),
        ("cards/src/main.rt", "places", "printing by hand", "a certificate in words"),
        ("cards/src/main.rt", "certificate_said", "printing by hand", "a certificate in words"),
        ("cards/src/main.rt", "result_said", "printing by hand", "a result in words"),
        ("cards/src/main.rt", "passes_said", "printing by hand", "a bool in words"),
    ],
    6: [
        ("certificate/src/record.rt", "Record", "parallel fields or arrays", "seven fields, one for each cell, where an array by cell would do"),
        ("certificate/src/resistances.rt", "Resistances", "parallel fields or arrays", "seven fields, one for each cell, where an array by cell would do"),
        ("law/src/subrange.rt", "Cells", "parallel fields or arrays", "up to four cells as cases in place of a list"),
        ("list/src/feeding.rt", "feed_held", "a buffer with a length beside it", "the first `begun` bytes of what is held"),
        ("list/src/feeding.rt", "held_count", "a buffer with a length beside it", "a count brought under the array's length"),
        ("list/src/feeding.rt", "Fed", "a buffer with a length beside it", "how much of two lent buffers is used and written"),
        ("list/src/feeding.rt", "Place", "a buffer with a length beside it", "how much of two lent buffers is used and written"),
        ("line/src/lent.rt", "LineAnswer", "a buffer with a length beside it", "how much of the lent buffer is written"),
        ("evidence/src/report.rt", "Written", "a buffer with a length beside it", "how much of the lent line is written"),
        ("register_cases/src/main.rt", "Done", "a buffer with a length beside it", "how much of the lent line is written"),
        ("row/src/readings.rt", "ReadingRow", "a buffer with a length beside it", "`names`: so many first bytes of the line"),
        ("row/src/records.rt", "RecordRow", "a buffer with a length beside it", "`names`: so many first bytes of the line"),
        ("row/src/resistances.rt", "ResistancesRow", "a buffer with a length beside it", "`names`: so many first bytes of the line"),
        ("row/src/forward.rt", "ForwardRow", "a buffer with a length beside it", "`names`: so many first bytes of the line"),
        ("row/src/tolerances.rt", "ToleranceRow", "a buffer with a length beside it", "`names`: so many first bytes of the line"),
        ("turns/src/faults.rt", "count_of", "parallel fields or arrays", "the columns' number beside columns_of"),
        ("tables/src/iec.rt", "LIMITS", "parallel fields or arrays", "limits beside class_of and bath by one index"),
        ("tables/src/iec.rt", "OHMS", "parallel fields or arrays", "resistances beside step_of by one index"),
        ("register_cases/src/main.rt", "table_at", "parallel fields or arrays", "four entries drawn one by one into an array"),
        ("register_cases/src/main.rt", "drawn_list", "parallel fields or arrays", "four entries drawn one by one into an array"),
    ],
    7: [
        ("turns/src/turns.rt", "take_turn", "a step that says which comes next", "answers the next step as a Next"),
        ("turns/src/turns.rt", "after", "a step that says which comes next", "the state with the next step beside it"),
        ("list/src/state.rt", "Stage", "a step that says which comes next", "what is due to the next line"),
        ("turns/src/turns.rt", "Next", "a step that says which comes next", "what comes after a turn"),
        ("evidence/src/report.rt", "case", "a step that says which comes next", "a digest at the end of each block, by a count"),
        ("register_cases/src/main.rt", "table_at", "a step that says which comes next", "draws at the begin of each sequence, by a count"),
    ],
}

# What a pattern finds and is no place: the point, the name, and why.
LEFT_OUT = {
    (1, "ToleranceResult"): "`passes` is a part of the answer; the error holds either way",
    (1, "Law"): "the curve is a law as the others are",
    (1, "Fault"): "it is itself the refusal that a Result would carry",
    (2, "Law"): "the curve is a law as the others are",
    (2, "say_more"): "sentences are no twins",
    (2, "say_counts"): "sentences are no twins",
    (6, "Done"): "the length is that of a line, which is lent",
}

CODE_NAMES = {"code", "class", "letter", "which", "kind", "way", "law", "subrange", "name"}
INTEGERS = {"u8", "u16", "u32", "u64", "usize", "i8", "i16", "i32", "i64", "isize"}
NONE_CASE = re.compile(r"^(No|None|Nothing|Nowhere|Unknown|Refused|Failed|Missing|Absent|Made|No[A-Z]\w*)$")
KEYWORDS = {"if", "else", "while", "for", "in", "match", "return", "let", "mut", "as", "loop", "true", "false", "self", "fn", "const", "pub"}
CLAUSES = {"requires", "ensures", "decreases", "invariant"}
WRAPPERS = ("sum", "difference", "product", "at_most", "less", "natural", "signed", "magnitude")

TOKEN = re.compile(
    r"""(?P<comment>//[^\n]*|/\*.*?\*/)|(?P<str>b?"(?:[^"\\]|\\.)*"|b?'(?:\\x..|\\u\{[^}]*\}|\\.|[^'\\])')|(?P<num>\d[\w]*)|(?P<id>[^\W\d]\w*)"""
    r"""|(?P<op>::|->|=>|\.\.=|\.\.|==|!=|<=|>=|<<=|>>=|<<|>>|&&|\|\||[-+*/%&|^]=|\S)""",
    re.S,
)

Token = collections.namedtuple("Token", "kind text line at")
Place = collections.namedtuple("Place", "file line name what kind")


class Function:
    """A function: where it is, its type if it is a method, its parameters, its result, its clauses and its body."""

    def __init__(self, file, line, name, owner):
        self.file, self.line, self.name, self.owner = file, line, name, owner
        self.params, self.result, self.requires, self.ensures, self.body, self.note = [], "", [], [], [], ""

    @property
    def shown(self):
        return f"{self.owner}::{self.name}" if self.owner else self.name


class Type:
    """An enum or a struct: its cases or fields, each a name with its types."""

    def __init__(self, file, line, name, sort, parts, note):
        self.file, self.line, self.name, self.sort, self.parts, self.note = file, line, name, sort, parts, note


def tokens_of(text):
    made = []
    for m in TOKEN.finditer(text):
        if m.lastgroup != "comment":
            made.append(Token(m.lastgroup, m[0], text.count("\n", 0, m.start()) + 1, m.start()))
    return made


def closing(tokens, i):
    """The place of the bracket that closes the one at i."""
    pairs = {"(": ")", "{": "}", "[": "]"}
    depth = 0
    for k in range(i, len(tokens)):
        if tokens[k].kind == "op":
            if tokens[k].text in pairs:
                depth += 1
            elif tokens[k].text in pairs.values():
                depth -= 1
                if depth == 0:
                    return k
    return len(tokens) - 1


def parted(tokens, at=","):
    """Tokens in parts, parted at a sign that stands in no brackets."""
    parts, part, depth = [], [], 0
    for t in tokens:
        if t.kind == "op" and t.text in "([{":
            depth += 1
        elif t.kind == "op" and t.text in ")]}":
            depth -= 1
        if depth == 0 and t.text == at:
            parts.append(part)
            part = []
        else:
            part.append(t)
    return parts + [part] if part else parts


def said(tokens):
    """Tokens as a text."""
    text = re.sub(r" ?(::|\.|[()\[\],;]) ?", r"\1", " ".join(t.text for t in tokens)).replace("& ", "&").replace("mut[", "mut [")
    return re.sub(r"([,;])(?=.)", r"\1 ", re.sub(r"([)\]])(?=[-+*/<>=&|%!])", r"\1 ", text))


def without_marks(part):
    """A field, a case or a parameter without its `pub`, attributes and ghosts."""
    part = list(part)
    while part and part[0].text in {"pub", "#", "mut"}:
        word = part.pop(0)
        if part and part[0].text in {"(", "["} and word.text in {"pub", "#"}:
            del part[: closing(part, 0) + 1]
    return part


class Tree:
    """What the sources of a tree declare."""

    def __init__(self, root):
        self.root = Path(root)
        self.functions, self.types, self.consts = [], [], []
        for path in sorted(self.root.glob("crates/*/src/**/*.rt")):
            if "out" in path.relative_to(self.root).parts:
                continue
            text = path.read_text(encoding="utf-8").split("#[cfg(test)]")[0]
            self.file, self.text = str(path.relative_to(self.root / "crates")), text
            self.lines = text.split("\n")
            self.read(tokens_of(text), "")

    def note(self, line):
        """The comment above a line."""
        made, k = [], line - 2
        while k >= 0 and re.match(r"\s*(//|#\[)", self.lines[k]):
            made.insert(0, self.lines[k].strip().lstrip("/ "))
            k -= 1
        return " ".join(made)

    def read(self, tokens, owner):
        i = 0
        while i < len(tokens):
            word = tokens[i].text
            if word == "ghost" or word == "use":
                while i < len(tokens) and tokens[i].text != ";":
                    i = closing(tokens, i) + 1 if tokens[i].text == "{" else i + 1
            elif word in {"enum", "struct"}:
                i = self.read_type(tokens, i)
            elif word in {"impl", "trait", "mod"}:
                k = i + 1
                while k < len(tokens) and tokens[k].text not in {"{", ";"}:
                    k += 1
                if k < len(tokens) and tokens[k].text == "{":
                    names = [t.text for t in tokens[i + 1 : k]]
                    names = names[names.index("for") + 1 :] if "for" in names else names
                    kept = [n for n in names if re.match(r"[A-Z]\w", n)]
                    end = closing(tokens, k)
                    self.read(tokens[k + 1 : end], kept[0] if kept and word != "mod" else owner)
                    k = end
                i = k
            elif word == "fn" and i + 1 < len(tokens):
                i = self.read_function(tokens, i, owner)
            elif word == "const" and tokens[i + 1].text != "fn":
                k = i
                while k < len(tokens) and tokens[k].text != ";":
                    k = closing(tokens, k) + 1 if tokens[k].text in {"[", "{", "("} else k + 1
                self.consts.append(Type(self.file, tokens[i].line, tokens[i + 1].text, "const", tokens[i + 2 : k], self.note(tokens[i].line)))
                i = k
            i += 1

    def read_type(self, tokens, i):
        sort, name = tokens[i].text, tokens[i + 1]
        k = i + 2
        while k < len(tokens) - 1 and tokens[k].text not in {"{", "(", ";"}:
            k += 1
        parts = []
        if tokens[k].text != ";":
            end = closing(tokens, k)
            for n, part in enumerate(parted(tokens[k + 1 : end])):
                part = without_marks(part)
                if not part:
                    continue
                if sort == "enum":
                    inner = part[2 : closing(part, 1)] if len(part) > 1 and part[1].text in {"(", "{"} else []
                    parts.append((part[0].text, [said(p) for p in parted(inner)]))
                elif tokens[k].text == "(":
                    parts.append((str(n), [said(part)]))
                else:
                    parts.append((part[0].text, [said(part[2:])]))
            k = end
        self.types.append(Type(self.file, name.line, name.text, sort, parts, self.note(tokens[i].line)))
        return k

    def read_function(self, tokens, i, owner):
        made = Function(self.file, tokens[i].line, tokens[i + 1].text, owner)
        made.note = self.note(tokens[i].line)
        k, depth = i + 2, 0
        while tokens[k].text != "(" or depth > 0:
            depth += {"<": 1, ">": -1, ">>": -2}.get(tokens[k].text, 0)
            k += 1
        end = closing(tokens, k)
        for part in parted(tokens[k + 1 : end]):
            part = without_marks(part)
            words = [t.text for t in part]
            if ":" in words:
                made.params.append((words[0], said(part[words.index(":") + 1 :])))
            elif words:
                made.params.append(("self", said(part)))
        k = end + 1
        result, in_clauses = [], False
        while k < len(tokens):
            word = tokens[k].text
            if word in CLAUSES:
                in_clauses = True
                open_at = k + 1 if tokens[k + 1].text == "{" else k + 2
                end = closing(tokens, open_at)
                clause = " ".join(self.text[tokens[open_at].at + 1 : tokens[end].at].split())
                {"requires": made.requires, "ensures": made.ensures}.get(word, []).append(clause)
                k = end + 1
                continue
            if word in {"{", ";"}:
                break
            end = closing(tokens, k) if word in {"[", "("} else k
            if not in_clauses:
                result += tokens[k : end + 1]
            k = end + 1
        made.result = said(result[1:])
        if k < len(tokens) and tokens[k].text == "{":
            end = closing(tokens, k)
            made.body = tokens[k + 1 : end]
            k = end
        self.functions.append(made)
        return k

    def named(self, file, name):
        """The lines on which a file declares a name."""
        every = itertools.chain(self.functions, self.types, self.consts)
        return [(x.line, x.shown if isinstance(x, Function) else x.name) for x in every if x.file == file and x.name == name]


# ---- parts of bodies


def texts(tokens):
    return [t.text for t in tokens]


def flat(tokens):
    """A body as one text, each token after a blank and before one."""
    return " " + " ".join(t.text for t in tokens) + " "


def whiles(f):
    """The `while` loops of a function: the line, the head and the body."""
    for i, t in enumerate(f.body):
        if t.text == "while":
            k = i
            while k < len(f.body) - 1 and f.body[k].text != "{":
                k += 1
            yield t.line, f.body[i + 1 : k], f.body[k + 1 : closing(f.body, k)]


def matches(f):
    """The `match`es of a function: the line, what is matched, and the arms, each a pattern and an expression."""
    for i, t in enumerate(f.body):
        if t.text != "match":
            continue
        k = i + 1
        while k < len(f.body) - 1 and f.body[k].text != "{":
            k = closing(f.body, k) + 1 if f.body[k].text in {"(", "["} else k + 1
        inner = f.body[k + 1 : closing(f.body, k)]
        arms, j = [], 0
        while j < len(inner):
            a = j
            while j < len(inner) and inner[j].text != "=>":
                j += 1
            pattern = inner[a:j]
            j += 1
            b = j
            if j < len(inner) and inner[j].text == "{":
                j = closing(inner, j) + 1
                value = inner[b + 1 : j - 1]
            else:
                while j < len(inner) and inner[j].text != ",":
                    j = closing(inner, j) + 1 if inner[j].text in {"(", "[", "{"} else j + 1
                value = inner[b:j]
            if j < len(inner) and inner[j].text == ",":
                j += 1
            if pattern:
                arms.append((pattern, value))
        yield t.line, f.body[i + 1 : k], arms


def is_path(pattern):
    words = texts(pattern)
    return len(words) >= 3 and words[1] == "::" and words[0][0].isupper()


def callee(value):
    """What a value calls, where it is one call and nothing else."""
    words = texts(value)
    i = 0
    while i < len(words) and (re.match(r"\w", words[i]) or words[i] in {"::", "."}):
        i += 1
    if 0 < i < len(words) and words[i] == "(" and closing(value, i) == len(words) - 1 and not words[i - 1][0].isupper():
        return "".join(words[:i])
    return None


def is_constant(value):
    """A literal, a constant, a case or a literal in a constructor or a call."""
    words = texts(value)
    if not words:
        return False
    if callee(value) and (words[-2] == "(" or any(t.kind == "str" for t in value)):
        return True
    return all(
        t.kind in {"num", "str"} or t.text in {"-", "::", "(", ")", "true", "false", ",", "[", "]"} or t.text[0].isupper() for t in value
    )


def chains(f):
    """Runs of `if TEST { return VALUE; }` one after the other: the line, the tests and the values."""
    i, run = 0, []
    body = f.body
    while i <= len(body):
        step = None
        if i < len(body) and body[i].text == "if":
            k = i
            while k < len(body) - 1 and body[k].text != "{":
                k += 1
            end = closing(body, k)
            inner = body[k + 1 : end]
            if texts(inner[:1]) == ["return"] and texts(inner[-1:]) == [";"] and ";" not in texts(inner[1:-1]):
                step = (body[i].line, body[i + 1 : k], inner[1:-1])
                i = end + 1
        if step:
            run.append(step)
            continue
        if run:
            yield run, body[i:]
            run = []
        i += 1


# ---- the points


def like_option_or_result(tree):
    """1: own enums of the shape of Option or Result; flags and numbers beside values; numbers for kinds and refusals."""
    for t in tree.types:
        if (1, t.name) in LEFT_OUT:
            continue
        if t.sort == "enum":
            none = [c for c, types in t.parts if NONE_CASE.match(c)]
            bare = [c for c, types in t.parts if c in none and not types]
            carried = [c for c, types in t.parts if types]
            refusing = [c for c, types in t.parts if types and NONE_CASE.match(c) or types in (["Refusal"], ["Fault"])]
            if len(t.parts) == 2 and none and carried:
                sort = "own Result" if refusing and t.parts[1][1] else "own Option"
                yield Place(t.file, t.line, t.name, f"{t.parts[0][0]} or {t.parts[1][0]}", sort)
            elif bare:
                yield Place(t.file, t.line, t.name, f"{len(t.parts)} cases, {', '.join(bare)} for none", "own Option")
            counts = [len(types) for c, types in t.parts]
            carries = {x for _, types in t.parts for x in types}
            if len(t.parts) > 2 and all(counts) and len(set(counts)) == len(counts) and len(carries) == 1:
                yield Place(t.file, t.line, t.name, f"a list of up to {max(counts)} as {len(counts)} cases", "own list")
        if t.sort == "struct":
            flags = [n for n, types in t.parts if types == ["bool"]]
            rest = [n for n, types in t.parts if types != ["bool"]]
            if flags and rest:
                yield Place(t.file, t.line, t.name, f"{', '.join(flags)} beside {', '.join(rest)}", "a flag with a value beside it")
            if len(t.parts) > 1 and ("next", ["usize"]) in t.parts:
                yield Place(t.file, t.line, t.name, "`next` past the end where there is no value", "a value that stands for none")
            coded = [n for n, types in t.parts if n in CODE_NAMES and types[0] in INTEGERS]
            if coded:
                yield Place(t.file, t.line, t.name, f"field {', '.join(coded)}", "a number for a kind or a refusal")
    for c in tree.consts:
        if c.name == "NAME" and not re.search(r": Name\b", flat(c.parts)):
            yield Place(c.file, c.line, c.name, "a law's name as a number", "a number for a kind or a refusal")
    for f in tree.functions:
        refusals = {("number", "u8")} | ({("number", "u64")} if "refus" in f.name else set())
        coded = [f"{n}: {t}" for n, t in f.params if t in INTEGERS and (n in CODE_NAMES or (n, t) in refusals)]
        if coded:
            yield Place(f.file, f.line, f.shown, f"parameter {', '.join(coded)}", "a number for a kind or a refusal")
        if f.result in INTEGERS and f.owner == "Refusal":
            yield Place(f.file, f.line, f.shown, "a refusal to its number", "a number for a kind or a refusal")
        prints = any("impl Print" in t for n, t in f.params)
        if f.result == "bool" and prints:
            yield Place(f.file, f.line, f.shown, "answers whether writing went well", "a bool for a Result")
        last = f.body[-1].text if f.body else ""
        if f.result == "usize" and re.fullmatch(r"[a-z]\w*", last) and any(f" return {last} ;" in flat(body) for _, _, body in whiles(f)):
            yield Place(f.file, f.line, f.shown, "an offset, and the end where there is none", "a value that stands for none")
        for line, _, arms in matches(f):
            for pattern, value in arms:
                if texts(value) == ["0"] and re.search(r":: (Refused|Unknown|Below|Past|NoRow) (\( _ \) )?$", flat(pattern)):
                    yield Place(f.file, pattern[0].line, f.shown, f"{said(pattern)} becomes {value[0].text}", "a value that stands for none")


def normal(tokens):
    """A body without its names of kinds: types, constants, literals, locals and paths are marks; what repeats stands once."""
    made = []
    for i, t in enumerate(tokens):
        after = tokens[i + 1].text if i + 1 < len(tokens) else ""
        before = tokens[i - 1].text if i else ""
        if t.kind == "str":
            made.append("S")
        elif t.kind == "num":
            made.append("N")
        elif t.kind == "id" and t.text in KEYWORDS:
            made.append(t.text)
        elif t.kind == "id" and re.fullmatch(r"[A-Z][A-Z0-9_]+", t.text):
            made.append("N")
        elif t.kind == "id" and t.text[0].isupper():
            made.append("T")
        elif t.kind == "id" and after == "::":
            continue
        elif t.text == "::" and made and (before[:1].islower() or before[:1] == "_"):
            continue
        elif t.kind == "id" and after == "(":
            made.append("f")
        elif t.kind == "id":
            made.append("m" if before == "." else "v")
        else:
            made.append(t.text)
    text = " ".join(made) + " "
    text = re.sub(r", (?=[)\]}])", "", text)
    text = text.replace("T :: T ", "T ").replace("T :: N ", "N ").replace("- N ", "N ")
    while True:
        less = re.sub(r"((?:\S+ ){2,40}?)\1+", r"\1", text)
        if less == text:
            return text
        text = less


def twins(tree):
    """2: functions and types that are equal but for the names of kinds, constants and literals."""
    groups = collections.defaultdict(list)
    alike = [t for t in tree.types if t.sort == "struct" and not t.parts]
    units = {t.name for t in alike}
    for f in tree.functions:
        if not f.body or (2, f.name) in LEFT_OUT:
            continue
        shape = normal(f.body)
        lines = f.body[-1].line - f.body[0].line + 1
        size = len(shape.split())
        if f.owner in units and f.result:
            groups["of a unit type " + f.name].append(f)
        elif lines >= 3 and size >= 10 and not re.fullmatch(r"T \{ (v : N ,? ?)+\} ", shape):
            of_cases = f"of {f.file} {f.owner} " if shape.startswith("match") and len(list(matches(f))[0][2]) > 2 else ""
            groups[f"body {of_cases}{shape}"].append(f)
        elif size >= 5:
            groups[f"short {f.name} {shape}"].append(f)
    for t in tree.types:
        if (2, t.name) in LEFT_OUT:
            continue
        if t.sort == "enum" and len(t.parts) == 2 and any(types for _, types in t.parts):
            groups["enum " + " ".join(sorted(str(len(types)) for _, types in t.parts))].append(t)
        elif t.sort == "struct" and len(t.parts) > 1:
            groups["struct " + " ".join(n for n, _ in t.parts)].append(t)
    for shape, group in groups.items():
        if len(group) < 2:
            continue
        sort = "twin type" if shape.startswith(("enum", "struct")) else "twin function"
        names = [f"{x.file.split('/')[0]}'s {x.shown if isinstance(x, Function) else x.name}" for x in group]
        for x, own in zip(group, names):
            others = [n for n in names if n != own] or [f"{len(group) - 1} of the same name"]
            shown = ", ".join(others[:3]) + (f" and {len(others) - 3} more" if len(others) > 3 else "")
            yield Place(x.file, x.line, x.shown if isinstance(x, Function) else x.name, f"as {shown}", sort)
    for t in alike:
        if len(alike) > 1:
            yield Place(t.file, t.line, t.name, f"one of {len(alike)} types without fields, with the same constants and functions", "twin type")


def loops(tree):
    """3: every `while`, by what it does with its index."""
    for f in tree.functions:
        for line, head, body in whiles(f):
            words = flat(body)
            if re.search(r"/ 2 ;|/= 2 ;", words):
                sort = "halves"
            elif re.search(r" (\w+) \+= 1 ; $", words):
                sort = "counts an index up"
            elif re.search(r"^ (\w+) -= 1 ;", words):
                sort = "counts down"
            else:
                sort = "another step"
            yield Place(f.file, line, f.shown, f"while {said(head)}", sort)


def by_hand(tree):
    """4: equality, order, copying, conversion and printing by hand, and the calls of whole's wrappers."""
    for f in tree.functions:
        body = flat(f.body)
        for i, t in enumerate(f.body):
            if t.text in WRAPPERS and f.body[i + 1 : i + 2] and f.body[i + 1].text == "(":
                outside = texts(f.body[max(0, i - 2) : i]) == ["whole", "::"]
                if outside or f.file.startswith("whole/") and (i == 0 or f.body[i - 1].text not in {".", "::"}):
                    yield Place(f.file, t.line, f.shown, f"calls {'whole::' if outside else ''}{t.text}", f"call of whole's {t.text}")
        if re.fullmatch(r" (\w+) ([-+*]|<=|<) (\w+) | (\w+) as \w+ ", body):
            yield Place(f.file, f.line, f.shown, f"one operator: {said(f.body)}", "wrapper of an operator")
        for line, head, inner in whiles(f):
            words = flat(inner)
            if re.search(r" if \w+ \[ \w+ \] != \w+ \[ \w+ \] \{ return false ; \}", words):
                yield Place(f.file, line, f.shown, "two slices compared byte by byte", "equality or order by hand")
            if re.search(r"\] = \w+ \[ \w+ \] ;", words):
                yield Place(f.file, line, f.shown, "a slice copied byte by byte", "copying by hand")
        for line, head, arms in matches(f):
            values = [texts(v) for _, v in arms]
            if f.result == "bool" and len(arms) > 1 and all(v in (["true"], ["false"]) for v in values):
                yield Place(f.file, line, f.shown, "whether it is a case", "equality or order by hand")
            elif len(arms) > 1 and sum(any(t.text.startswith('b"') for t in v) for _, v in arms) * 2 > len(arms) and callee(arms[0][1]):
                yield Place(f.file, line, f.shown, f"{len(arms)} cases to texts", "printing by hand")
            elif len(arms) > 2 and all(is_path(p) and is_constant(v) for p, v in arms):
                yield Place(f.file, line, f.shown, f"{len(arms)} cases to values", "conversion by hand")
            for pattern, value in arms:
                p, v = texts(pattern), texts(value)
                if len(v) > 2 and len(p) == len(v) and p[1:3] == v[1:3] == ["::", p[2]] and p[3:] == v[3:] and p[-1] != "_":
                    yield Place(f.file, pattern[0].line, f.shown, f"{said(pattern)} to {said(value)}", "a refusal handed on by hand")
                elif len(v) == 6 and len(p) == 6 and p[4] == v[4] and p[4].islower() and p[2] == v[2]:
                    yield Place(f.file, pattern[0].line, f.shown, f"{said(pattern)} to {said(value)}", "a refusal handed on by hand")
        for run, rest in chains(f):
            tests, values = [texts(t) for _, t, _ in run], [v for _, _, v in run]
            if len(run) > 1 and len({t[0] for t in tests}) == 1 and all(is_constant(v) and "::" in texts(v) for v in values) and all(
                "==" in t or any(w.startswith('b"') for w in t) for t in tests
            ):
                yield Place(f.file, run[0][0], f.shown, f"{len(run)} tests one by one to cases", "conversion by hand")
            elif len(run) == 1 and len(rest) and ";" not in texts(rest) and not whiles_in(rest):
                test, value, end = (said(x).replace(".0", "") for x in (run[0][1], values[0], rest))
                sides = re.split(r" (?:<=|>=|<|>) ", test)
                if len(sides) == 2 and {value, end} == set(sides):
                    which = "lower" if (value == sides[0]) == ("<" in test) else "higher"
                    yield Place(f.file, run[0][0], f.shown, f"the {which} of two", "equality or order by hand")
                elif value == "0" and re.fullmatch(r"\w+ - \w+", end):
                    yield Place(f.file, run[0][0], f.shown, "a difference that stops at 0", "equality or order by hand")
        for m in re.finditer(r" let (\w+) = ((?:\w+ \. )+[a-z]\w*) ;", body):
            i = len(body[: m.start()].split())
            yield Place(f.file, f.body[i].line, f.shown, f"{m[2].replace(' ', '')} into a local", "a field copied before it is used")
        for i, t in enumerate(f.body):
            if t.text == "{" and i and f.body[i - 1].kind == "id" and f.body[i - 1].text[0].isupper():
                fields = [flat(p) for p in parted(f.body[i + 1 : closing(f.body, i)])]
                found = [re.fullmatch(r" (\w+) : (\w+) \. \1 ", p) for p in fields]
                kept = collections.Counter(m[2] for m in found if m)
                if kept and max(kept.values()) >= 2:
                    who, n = kept.most_common(1)[0]
                    yield Place(f.file, f.body[i - 1].line, f.shown, f"{f.body[i - 1].text} anew, {n} fields of {who} as they were", "copying by hand")


def whiles_in(tokens):
    return "while" in texts(tokens)


def atoms(clause):
    """The facts of a clause, parted at its outer ×, without their outer brackets."""
    parts, part, depth = [], "", 0
    for c in clause:
        depth += c in "([{"
        depth -= c in ")]}"
        if c == "×" and depth == 0:
            parts.append(part)
            part = ""
        else:
            part += c
    for p in parts + [part]:
        p = p.strip()
        while p.startswith("(") and p.endswith(")") and p.count("(") == p.count(")") and "(" not in p[1 : p.find(")")]:
            p = p[1:-1].strip()
        yield p


def of_types(atom, f):
    """A fact with a parameter's type in place of its name."""
    for name, sort in f.params:
        if name != "self":
            atom = re.sub(rf"(?<![\w.]){re.escape(name)}(?![\w])", f"‹{sort}›", atom)
    return atom


def shared_facts(tree):
    """5: facts that stand in the contracts of three or more functions, and parameters that travel together.

    A fact is a part of a clause between two ×, with its parameters' types in place of their names. Parameters travel together where three or more functions
    have them all, and these are nine in ten or more of the functions that have the rarest of them. A function stands once, with the largest set that it has.
    """
    facts = collections.defaultdict(dict)
    for f in tree.functions:
        for sort, clauses in (("requires", f.requires), ("ensures", f.ensures)):
            for clause in clauses:
                for atom in atoms(clause):
                    if sort == "requires" or "≡" not in atom or "‹" not in of_types(atom, f):
                        facts[(sort, of_types(atom, f))].setdefault((f.file, f.line), (f, atom))
    for (sort, shape), found in facts.items():
        if len(found) >= 3:
            for f, atom in found.values():
                yield Place(f.file, f.line, f.shown, f"{sort} {atom} ({len(found)} functions have: {shape})", "fact of three or more contracts")
    sets = [(f, frozenset(n for n, _ in f.params if n != "self")) for f in tree.functions]
    sets = [(f, s) for f, s in sets if len(s) > 1]
    alone = collections.Counter(p for _, s in sets for p in s)
    closed = {a & b for (_, a), (_, b) in itertools.combinations(sets, 2) if len(a & b) > 1}
    support = {c: sum(c <= s for _, s in sets) for c in closed}
    often = [c for c in closed if support[c] >= 3 and support[c] * 10 >= 9 * min(alone[p] for p in c)]
    for f, s in sets:
        fitting = sorted((c for c in often if c <= s), key=lambda c: (-len(c), -support[c], sorted(c)))
        if fitting:
            best = fitting[0]
            names = ", ".join(sorted(best, key=lambda n: (-alone[n], n)))
            yield Place(f.file, f.line, f.shown, f"({names}) together in {support[best]} functions", "parameters that travel together")


def buffers(tree):
    """6: buffers with a length beside them, parallel arrays, searches by hand, arenas of indices."""
    for t in tree.types:
        arrays = [n for n, types in t.parts if t.sort == "struct" and types[0].startswith("[")]
        counts = [n for n, types in t.parts if t.sort == "struct" and n in {"count", "len", "length", "size", "used"} and types[0] in INTEGERS]
        if arrays and counts and (6, t.name) not in LEFT_OUT:
            yield Place(t.file, t.line, t.name, f"{arrays[0]} with {counts[0]}", "a buffer with a length beside it")
        index = [n for n, types in t.parts if t.sort == "struct" and n in {"parent", "left_child", "right_child", "link"} and types[0] in INTEGERS]
        if index:
            yield Place(t.file, t.line, t.name, f"field {', '.join(index)}", "an arena of indices")
    for f in tree.functions:
        lists = [n for n, t in f.params if "[" in t]
        counts = [n for n, t in f.params if n in {"count", "len", "length", "end"} and t == "usize"]
        order = [n for n, _ in f.params]
        before = [n for n in lists if counts and order.index(n) < order.index(counts[0])]
        if before:
            yield Place(f.file, f.line, f.shown, f"({before[-1]}, {counts[0]})", "a buffer with a length beside it")
        elif counts and any(t == "Kept" for _, t in f.params):
            yield Place(f.file, f.line, f.shown, f"(a Kept, {counts[0]})", "a buffer with a length beside it")
        places = [n for n, t in f.params if n in {"at", "from", "i"} and t == "usize"]
        written = [n for n, t in f.params if t == "&mut [u8]"]
        read = [n for n, t in f.params if t == "&[u8]" and n not in {"bytes"}]
        if places and written:
            yield Place(f.file, f.line, f.shown, f"({written[0]}, {places[0]}): where it is written on", "a buffer with an offset beside it")
        elif places and read:
            yield Place(f.file, f.line, f.shown, f"({read[0]}, {places[0]}): where it is read on", "a buffer with an offset beside it")
        if re.match(r"\[\w+; MOST_COLUMNS\]", f.result):
            yield Place(f.file, f.line, f.shown, "an array of the most columns, its number beside it", "a buffer with a length beside it")
        for m in re.finditer(r" let mut (\w+) = (?:\[ 0\w* ; (?!0 )\w+ \]|(?:\w+ :: )?(?:scratch|empty_line) \( \)) ;", flat(f.body)):
            i = len(flat(f.body)[: m.start()].split())
            yield Place(f.file, f.body[i].line, f.shown, f"local {m[1]}, filled up to a length", "a buffer with a length beside it")
        for line, head, inner in whiles(f):
            words = flat(inner)
            if re.search(r"/ 2 ;|/= 2 ;", words):
                yield Place(f.file, line, f.shown, "a search by halving", "a search by hand")
            elif re.search(r" if [^{]*(==|takes|id_byte|starts_with)[^{]*\{ (if [^{]*\{ )*return (\w+|true|false)( - 1)? ;", words):
                yield Place(f.file, line, f.shown, "a search one by one", "a search by hand")


def switches(tree):
    """7: switches on which step to run, and tables of functions."""
    for f in tree.functions:
        for line, head, arms in matches(f):
            called = []
            for _, value in arms:
                inner = texts(value)
                called += re.findall(r"(?:^| )((?:[a-z]\w* (?:::|\.) )*[a-z]\w*) \(", " ".join(inner))[:1]
            on_path = sum(is_path(p) for p, _ in arms)
            carried = [p for p, _ in arms if "Ok" in texts(p) or "Err" in texts(p)]
            results = [p for p, _ in arms if re.search(r":: (Refused|NoRow|Unknown|Nowhere|No) ", flat(p))]
            worded = any(t.text.startswith('b"') for _, v in arms for t in v)
            kinds = {m for p, _ in arms for m in re.findall(r" (Stage|Next|Asked|Desk|Kind) ::", flat(p))}
            if on_path > 1 and not carried and not results and not worded and len(set(called)) > 1:
                yield Place(f.file, line, f.shown, f"match {said(head)}: {len(arms)} ways, {len(set(called))} functions", "a switch on which function to run")
            elif on_path > 1 and (kinds & {"Stage", "Next", "Asked"} or kinds and not worded):
                yield Place(f.file, line, f.shown, f"match {said(head)}: {len(arms)} ways", "a switch on a step or a kind")
        for run, rest in chains(f):
            names = [callee(v) for _, _, v in run] + ([callee(rest)] if rest and ";" not in texts(rest) else [])
            heads = {re.split(r" (?:<|<=|==|>|>=) ", said(t))[0] for _, t, _ in run}
            if len(run) > 1 and len(heads) == 1 and len({n for n in names if n}) == len(names) and all(names):
                yield Place(f.file, run[0][0], f.shown, f"by a number: {len(names)} ways", "a switch on which function to run")
    for c in tree.consts:
        if re.search(r" : \[ (& )?(fn|extern)\b", flat(c.parts)):
            yield Place(c.file, c.line, c.name, "a table of functions", "a table of functions")


def proofs(tree):
    """8: proof files, by what they prove."""
    for path in sorted(tree.root.glob("crates/*/proofs/**/*.antt")):
        if "out" in path.relative_to(tree.root).parts:
            continue
        lines = path.read_text(encoding="utf-8").count("\n")
        sort = {"Answers.antt": "answers", "Invariants.antt": "invariants"}.get(path.name, "lemmas")
        inner = path.relative_to(tree.root / "crates")
        if sort == "answers" and len(inner.parts) == 3:
            sort = "lemmas"
        if path.name == "Lib.antt":
            sort = "lists of a crate's proofs (Lib)"
        name = "/".join(inner.parts[2:-1]) if sort in {"answers", "invariants"} else path.stem
        yield Place(str(inner), 1, name, f"{lines} lines", sort)


POINTS = {1: like_option_or_result, 2: twins, 3: loops, 4: by_hand, 5: shared_facts, 6: buffers, 7: switches, 8: proofs}


def listed(tree, point):
    """The places that LISTED has of a point and the tree still declares."""
    for file, name, kind, why in LISTED.get(point, []):
        for line, shown in tree.named(file, name):
            yield Place(file, line, shown, f"{why} [listed]", kind)


def places(tree, point):
    """All places of a point, each once: where a pattern and the list have the same, the pattern's stands."""
    found = list(POINTS[point](tree))
    seen = {(p.file, p.name, p.kind) for p in found}
    found += [p for p in listed(tree, point) if (p.file, p.name, p.kind) not in seen]
    return sorted(found, key=lambda p: (p.file, p.line, p.name, p.kind, p.what))


def by_crate(found):
    """The crates of some places, with how many each has."""
    crates = collections.Counter(p.file.split("/")[0] for p in found)
    return ", ".join(f"{crate} {n}" for crate, n in sorted(crates.items(), key=lambda x: (-x[1], x[0])))


def counts(found, point):
    """The lines that end a point: the count of each kind, and of all."""
    kinds = collections.Counter(p.kind for p in found)
    lines = []
    for kind, n in sorted(kinds.items(), key=lambda x: (-x[1], x[0])):
        more = ""
        if point == 8:
            more = f", {sum(int(p.what.split()[0]) for p in found if p.kind == kind):,} lines"
        by_list = sum(p.kind == kind and p.what.endswith("[listed]") for p in found)
        lines.append(f"  {kind}: {n}{more}" + (f" ({by_list} listed)" if by_list else "") + f" - {by_crate([p for p in found if p.kind == kind])}")
    if point == 5:
        facts = {p.what.split(" functions have: ")[1] for p in found if p.kind.startswith("fact")}
        sets = {p.what for p in found if not p.kind.startswith("fact")}
        lines.append(f"  (different facts: {len(facts)}; different sets of parameters: {len(sets)})")
    lines.append(f"  by crate: {by_crate(found)}")
    lines.append(f"point {point}: {len(found)} places in {len({p.file for p in found})} files")
    return lines


def main(words):
    if len(words) not in {1, 2} or words[0] not in {*map(str, POINTS), "all"}:
        print(__doc__, end="", file=sys.stdout if words == ["--help"] else sys.stderr)
        return 0 if words == ["--help"] else 2
    root = Path(words[1] if len(words) == 2 else ".")
    if not (root / "crates").is_dir():
        print(f"places: {root} has no folder crates", file=sys.stderr)
        return 1
    tree = Tree(root)
    if words[0] == "all":
        for point in POINTS:
            print("\n".join(counts(places(tree, point), point)[-1:]))
        return 0
    point = int(words[0])
    found = places(tree, point)
    for p in found:
        print(f"{p.file}:{p.line} {p.name}: {p.what}")
    print("\n".join(counts(found, point)))
    return 0


if __name__ == "__main__":
    signal.signal(signal.SIGPIPE, signal.SIG_DFL)
    sys.exit(main(sys.argv[1:]))
