#!/usr/bin/env python3
"""Brings this repository's own definitions and lemmas to today's spelling: words in snake case, a dash only between two names.

usage: python3 tools/respell.py        at the top of the repository, once, right after port.py

It reads which names the .antt files declare, and turns each as a whole word: in .antt files, in the clauses, imports and code spans of
.rt files, in must-fail edits, and in the code spans of pages. Functions of src/ keep their names, and so does what Rattle itself makes.
"""
import glob
import re

# names that would fall together with a field, a parameter or another word
OTHER = {
    "noCells": "cells_of_none",
    "noTable": "empty_table",
    "noSwitch": "no_switches",
    "sameBytes": "equal_bytes",
    "readBack": "read_back_call",
    "layOut": "lay_out_call",
    "addEdge": "edge_added",
    "removeEdge": "edge_removed",
    "in_order": "played_in_order",
    "text_in": "written_text_in",
    "is-valid": "is_valid",
    "lay-out": "lay_out",
    "graph6-read": "graph6_read",
    "graph6-write": "graph6_write",
    "survey-written": "survey_written",
    "complete-written": "complete_written",
    "no-log": "no_log",
    "no-substitute": "no_substitute",
    "no-swap": "no_swap",
    "adds-nothing": "adds_nothing",
    "length-0": "length_0",
    "complete-already": "complete_already",
    "accepted-held": "accepted_held",
    "blocks-byte": "blocks_byte",
    "degree-41": "degree_41",
    "graph-of-text": "graph_of_text",
    "held-accepted": "held_accepted",
    "no-ab": "no_ab",
    "no-ad": "no_ad",
    "no-bc": "no_bc",
    "no-cd": "no_cd",
    "no-counts": "no_counts",
    "no-degrees": "no_degrees",
    "not-empty": "not_empty",
    "phase-byte": "phase_byte",
    "records-fit": "records_fit",
    "refused-as-survey": "refused_as_survey",
    "survey-as-refused": "survey_as_refused",
    "swap-keeps": "swap_keeps",
    "swap-undone": "swap_undone",
    "undo-keeps": "undo_keeps",
    "valid-by-clauses": "valid_by_clauses",
    "vertices-most": "vertices_most",
    "written-short": "written_short",
}
# names that no line declares in the form that is read here: constructors, laws with their arguments on several lines
MORE = {
    "unlessStopped": "unless_stopped",
    "unlessTooShort": "unless_too_short",
    "toldTake": "told_take",
    "toldAdd": "told_add",
    "toldRemove": "told_remove",
    "toldComplete": "told_complete",
    "toldElse": "told_else",
    "toldLayOut": "told_lay_out",
    "writeGraph6": "write_graph6",
    "readGraph6": "read_graph6",
    "valueTo": "value_to",
    "digitAt": "digit_at",
    "nextV": "next_v",
    "completedLoan": "completed_loan",
    "laysOutNow": "lays_out_now",
    "endW-right": "end_w-right",
    "endW-left": "end_w-left",
    "endV-right": "end_v-right",
    "endV-left": "end_v-left",
    "slotLength-new": "slot_length-new",
    "slotLength-laid": "slot_length-laid",
    "slotRest-laid": "slot_rest-laid",
    "slotOk-laid": "slot_ok-laid",
    "blockCell-none": "block_cell-none",
    "addRecord-outside": "add_record-outside",
    "addRecord-inside": "add_record-inside",
    "addRecord-beside": "add_record-beside",
    "matrix-countCell": "matrix-count_cell",
    "matrix-addRecord": "matrix-add_record",
    "since-layOut": "since-lay_out",
    "after-layOut": "after-lay_out",
    "degreesWithin-same": "degrees_within-same",
    "cellsWithin-same": "cells_within-same",
    "adjacencyOk-same": "adjacency_ok-same",
}
# words of the library that lemmas are named after
LIBRARY = set(
    "length take drop set sets get get_or get_elem append replicate reverse map sum add mul sub div mod pow suc min max cond leb eqb "
    "ltb and or not elim δ count all any zeros iterate slice_index slice_set".split()
)
LEFT = re.compile(r"(invariant|decreases)-loop\d*$|.*-spec$")
WORD = re.compile(r"[^\s(){}\[\].;,@\"«»:=→×λ`/|]+")
CAMEL = re.compile(r"(?<![A-Za-z])([a-z][a-z0-9]*(?:[A-Z][a-z0-9]*)+)")
TOP = re.compile(
    r"^(?:unfoldable |abbrev |open )*(?:pub )?(?:unfoldable |abbrev )*(?:pub )?(?:data |record )?([^\s:(){}]+) *"
    r"(?:\([^\n]*?\) *|\{[^\n]*?\} *)*:(?= |\n)",
    re.M,
)
FIELD = re.compile(r"^\s+pub ([^\s:(){}]+) :", re.M)


def snake(word):
    word = re.sub(r"^getD(?=-)", "get_or", word)
    return CAMEL.sub(lambda m: re.sub(r"[A-Z]", lambda k: "_" + k.group(0).lower(), m.group(1)), word)


def files(pattern):
    return [p for p in sorted(glob.glob(pattern, recursive=True)) if "/out/" not in p]


def table():
    antt = files("crates/**/*.antt")
    declared, definitions = set(), set()
    for p in antt:
        if p.endswith("/Proof.antt"):
            continue
        with open(p, encoding="utf-8") as f:
            text = f.read()
        for m in TOP.finditer(text):
            declared.add(m.group(1))
            if "abbrev" in m.group(0) or "unfoldable" in m.group(0) or "/specs/" in p:
                definitions.add(m.group(1))
        declared |= set(FIELD.findall(text))
    turned = {}
    for n in declared:
        if LEFT.match(n) or not re.match(r"[a-zα-ω]", n):
            continue
        turned[n] = OTHER.get(n) or snake(n)
    heads = LIBRARY | {turned.get(d, d) for d in definitions if "-" not in d}
    for n, new in turned.items():
        parts = new.split("-")
        if len(parts) == 1:
            continue
        cut = max((i for i in range(1, len(parts)) if "_".join(parts[:i]) in heads), default=0)
        new = "_".join(parts[:cut]) + "-" + "_".join(parts[cut:]) if cut else "_".join(parts)
        turned[n] = new
    # names that fall together keep their dashes
    all_words = set()
    for p in antt:
        with open(p, encoding="utf-8") as f:
            all_words |= set(WORD.findall(f.read()))
    src = set()
    for p in files("crates/**/*.rt"):
        with open(p, encoding="utf-8") as f:
            src |= set(re.findall(r"\w+", f.read()))
    by = {}
    for n, new in turned.items():
        by.setdefault(new, []).append(n)
    for new, ns in sorted(by.items()):
        if len(ns) > 1:
            print("fall together:", new, ns)
            for n in ns:
                if n != new and n not in OTHER:
                    turned[n] = snake(n)
    for n, new in list(turned.items()):
        if "-" in n and n not in OTHER and new != n and new not in declared and (new in all_words or new in src):
            print("stands elsewhere:", n, "->", new, "; keeps its dash as", snake(n))
            turned[n] = snake(n)
    return {n: new for n, new in turned.items() if n != new} | MORE


def words(text, names):
    return WORD.sub(lambda m: names.get(m.group(0), m.group(0)), text)


def spans(text, names):
    return re.sub(r"`[^`\n]*`", lambda m: words(m.group(0), names), text)


def antt(text, names):
    out = []
    for line in text.split("\n"):
        cut = re.search(r"(?:^|\s)--(?=\s|$)", line)
        at = cut.start() if cut else len(line)
        # a comment's plain words turn only where they could be nothing else
        camel = {n: new for n, new in names.items() if CAMEL.search(n)}
        out.append(words(line[:at], names) + words(spans(line[at:], names), camel))
    return "\n".join(out)


def source(text, names):
    out, depth, ghost = [], 0, False
    for line in text.split("\n"):
        code = line.split("//")[0]
        comment = line[len(code):]
        clause = depth > 0 or re.match(r"\s*(ghost\b|requires\b|ensures\b)", code) or ghost
        if clause:
            if re.match(r"\s*ghost use", code):
                ghost = True
            elif not ghost:
                depth += code.count("{") - code.count("}")
            code = words(code, names)
            if ghost and ";" in code:
                ghost = False
        out.append(code + spans(comment, names))
    return "\n".join(out)


def main():
    names = table()
    for p in files("crates/**/*.antt"):
        turn(p, antt, names)
    for p in files("crates/**/*.rt"):
        turn(p, source, names)
    for p in files("crates/*/must-fail/*.edit"):
        turn(p, edit, names)
    for p in files("*.md") + files("docs/**/*.md") + files("tests/**/*.md") + files("bindings/**/*.md") + files("bench/**/*.md"):
        turn(p, spans, names)
    print(len(names), "names turned")


def edit(text, names):
    clause = re.search(r"^file: .*\.antt", text, re.M)
    out = []
    for line in text.split("\n"):
        inside = clause or re.search(r"\b(ensures|requires|ghost)\b", line)
        out.append(words(line, names) if inside and not line.startswith("file:") else line)
    return "\n".join(out)


def turn(path, how, names):
    with open(path, encoding="utf-8") as f:
        text = f.read()
    new = how(text, names)
    if path.endswith("/Proof.antt"):
        new = re.sub(r"(?<![\w.-])([\w+-]+)-spec(?![\w-])", lambda m: m.group(1).replace("-", "_") + "_spec", new)
    if new != text:
        with open(path, "w", encoding="utf-8") as f:
            f.write(new)


main()
