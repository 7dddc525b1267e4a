#!/usr/bin/env python3
"""Spells the definitions and the lemmas of this repository as the library spells its own.

usage: python3 tools/respell.py        once, at the top, after the kit's port script

A name that the files of specs/ and proofs/ declare loses its dashes and humps: a type or a fact becomes UpperCamelCase, everything else
snake_case. The name of a goal, which the kit makes, stays. Cycles of calls get a name instead of the list of their members. Functions of
src/, exported names, strings, inputs and outputs are not touched. Names that would fall together in a file are printed, and nothing is written.
"""

import collections
import os
import re
import sys

ROOT = os.getcwd()
TOKEN = re.compile(r"[^\s(){}\[\],;.:\"`]+")
DECLARED = re.compile(r"^(\s*)(?:(?:pub|abbrev|unfoldable|data|record)\s+)*([^\s:(){}\[\],;.\"]+(?:\s+[^\s:(){}\[\],;.\"]+)*)\s*(?:[({].*)?:\s*(.*)$")
STARTS = ("--", "use ", "let ", "rw ", "elim ", "unfolding ", "|", "λ")
CYCLES = {
    "skip_expr_skip_exprs_skip_statement_skip_statements": "skipping",
    "enter_eval_eval_args_eval_block_eval_call_eval_display_eval_if_eval_operator_eval_when_finish_step_walk": "evaluating",
    "arguments_block_call_choice_display_guarded_invoke_kind_of_operator_statements": "walking",
    "count_expr_count_exprs_count_if": "counting",
}
# Names that would have fallen together with another.
OTHERS = {
    "number_of": "fault_number",
    "Rule-place": "RulePlaced",
    "Method-place": "MethodPlaced",
    "methodOf": "method_with",
    "ruleOf": "rule_with",
}
# A module and a fact of it, a function and what it answers: these live side by side.
BESIDE = {"NeverStuck", "call_head", "earlier_ports", "inside_ports", "method_part", "rule_part"}
KEYWORDS = {"pub", "abbrev", "unfoldable", "data", "record", "where", "let", "in", "mutual", "as"}


def tree(folder, ending):
    for at, folders, files in os.walk(os.path.join(ROOT, folder)):
        folders[:] = sorted(d for d in folders if d not in ("out", "target", ".git"))
        for f in sorted(files):
            if f.endswith(ending):
                yield os.path.join(at, f)


def read(path):
    with open(path, encoding="utf-8") as f:
        return f.read()


def respelled(name):
    parts = [p for p in name.split("-") if p]
    if name.startswith("-") or not parts:
        return name
    if name[0].isupper():
        return "".join(p[0].upper() + p[1:] for p in parts)
    words = []
    for p in parts:
        words += re.sub(r"(?<=[a-z0-9])(?=[A-Zℕℤ])", "-", p).split("-")
    return "_".join(w if w in ("ℕ", "ℤ") else w.lower() for w in words)


def declared(path):
    for line in read(path).split("\n"):
        if line.lstrip().startswith(STARTS):
            continue
        m = DECLARED.match(line)
        if not m or m.group(3).startswith(("tie.", "goal.")):
            continue
        for name in m.group(2).split():
            if name not in KEYWORDS:
                yield name


def main():
    files = list(tree("crates", ".antt"))
    names = collections.Counter(n for p in files for n in declared(p))
    to = {n: OTHERS.get(n, respelled(n)) for n in names}
    to = {n: t for n, t in to.items() if n != t}
    out, clash = {}, []
    for p in files + list(tree("crates", ".rt")) + list(tree("crates", ".edit")):
        text = read(p)
        tokens = set(TOKEN.findall(text))
        came = collections.defaultdict(set)
        for t in tokens:
            came[to.get(t, t)].add(t)
        clash += [(os.path.relpath(p, ROOT), new, sorted(olds)) for new, olds in came.items() if len(olds) > 1 and new not in BESIDE]
        pieces = re.split(r'("(?:[^"\\\n]|\\.)*")', text) if p.endswith(".rt") else [text]
        pieces = [s if s.startswith('"') else TOKEN.sub(lambda m: to.get(m.group(0), m.group(0)), s) for s in pieces]
        new = "".join(pieces)
        for old, cycle in CYCLES.items():
            new = new.replace("+" + old, "+" + cycle).replace("#[cycle(" + old + ")]", "#[cycle(" + cycle + ")]")
        out[p] = (text, new)
    for p, new, olds in clash:
        print(f"falls together: {p}: {new}: {', '.join(olds)}")
    if clash:
        return 1
    pages = [os.path.join(ROOT, "README.md")] + [p for p in tree("docs", ".md")]
    for p in pages:
        text = read(p)
        out[p] = (text, re.sub(r"`[^`\n]+`", lambda m: TOKEN.sub(lambda t: to.get(t.group(0), t.group(0)), m.group(0)), text))
    for p, (old, new) in out.items():
        if old != new:
            with open(p, "w", encoding="utf-8") as f:
                f.write(new)
    for at, folders, _ in list(os.walk(os.path.join(ROOT, "crates"), topdown=False)):
        for d in folders:
            if d[:1] == "+" and d[1:] in CYCLES:
                os.rename(os.path.join(at, d), os.path.join(at, "+" + CYCLES[d[1:]]))
    print(f"{len(to)} names, {sum(old != new for old, new in out.values())} files")
    return 0


if __name__ == "__main__":
    sys.exit(main())
