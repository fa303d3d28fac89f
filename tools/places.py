#!/usr/bin/env python3
"""Counts the places of docs/DESIGN-PASS.md in crates/*/src: tools/places.py [COMMIT] [-v].
Without COMMIT it reads the working tree; -v prints each place."""
import re
import subprocess
import sys
from collections import defaultdict

# Patterns over single lines, by point.
LINES = {
    1: [
        ("own enum", r"^\s*(pub )?enum "),
        ("flag as parameter or field", r"\b[a-z_]+: bool\b"),
        ("0 or nothing in place of none", r"unwrap_or\(0\)|=> 0,$|=> NO_VALUES|None => (Path|CellSet)::new|return 0;"),
        ("number for a kind or a wire", r"fn kind_place|place: usize|ROWS\[|number: u32"),
        ("two flags as a pair, or a number that says nothing", r"\(bool, bool\)|fn cases_hold\(\) -> u8"),
        ("Option or Result taken apart by hand", r"is_ok\(\) \{|None => None|Some\(\w+\) => if|match self\.timing|match table\.values|match home_of|match first_(failure|pair)|match self\.lowest_\w+|match gates\b"),
    ],
    2: [
        ("test of places as a type", r"impl PairTest for"),
        ("its search and refusal", r"match first_failure"),
        ("free twin of a method", r"fn (has_bit|with_bit|bits_of|have_common_bit|have_common_cell|check_placement|is_less)\b"),
        ("accessors that differ in a field", r"pub fn (start|choice|from|to)\(self\)"),
        ("distance or between, written again", r"fn (distance|is_next_to|is_amid|is_from_one)\b"),
        ("two functions for one value", r"fn (values_of|only|only_home|bent_path_cells|path_cell_set|verdict_on)\b"),
        ("two conversions", r"^impl.* From<Alloc"),
    ],
    3: [
        ("for over a range of numbers", r"^\s*for .* in .*\.\."),
        ("while", r"^\s*while "),
    ],
    4: [
        ("comparison by hand", r"^impl(<.*>)? (PartialEq|Eq|PartialOrd|Ord) for|fn compare\w*\("),
        ("conversion by hand", r"^impl.* From<|fn (from_letter|letter|shown|kind_place)\b"),
        ("printing by hand", r"^impl (fmt::Display|fmt::Debug|Error) for|fn print_\w+"),
        ("value type without Debug, PartialEq, Eq", r"^#\[derive\(Clone, Copy\)\]"),
    ],
    6: [
        ("array", r"^(?!\s*//).*\[[^\]\[#]+; \d+\]"),
        ("length or place beside", r"\blen: usize|^    at: usize,"),
    ],
    7: [
        ("strategy as a trait with one test", r"pub trait PairTest|impl PairTest for"),
        ("table of functions", r"\[fn\(|: fn\(|\bdyn\b"),
    ],
}

# Parameters that travel together (point 5), by the words that a signature has.
TOGETHER = [
    ("table, homes", [r"table: &CalibrationTable", r"homes: &\[Option<u8>\]"]),
    ("rule with a table or a layout", [r"rule: &R\b", r"table: &CalibrationTable|layout: &Layout"]),
    ("machine, cell", [r"machine: Machine", r"cell: u8"]),
    ("a writer or a buffer, table", [r"&mut self|out: &mut", r"table: &CalibrationTable"]),
    ("machine, homes", [r"machine: Machine", r"homes: &\[Option<u8>\]"]),
    ("out, cursor, gate", [r"out: &mut \[Operation\]", r"Cursor", r"gate: u16"]),
    ("ends, p, q or row_first, p, q", [r"p: \(u8, u8\)", r"q: \(u8, u8\)"]),
]


def files(commit):
    if commit:
        names = subprocess.check_output(["git", "ls-tree", "-r", "--name-only", commit], text=True).split()
    else:
        names = subprocess.check_output(["git", "ls-files", "-co", "--exclude-standard"], text=True).split()
    for name in sorted(names):
        if re.fullmatch(r"crates/[^/]+/src/.*\.rt", name):
            if commit:
                yield name, subprocess.check_output(["git", "show", f"{commit}:{name}"], text=True)
            else:
                yield name, open(name, encoding="utf-8").read()


def signatures(text):
    """Each function: its line, its parameters and its clauses."""
    for m in re.finditer(r"^\s*(?:pub(?:\([a-z]+\))? )?fn \w+", text, re.M):
        end = re.search(r"^\s*\{$|\{$|;$", text[m.start():], re.M)
        yield text.count("\n", 0, m.start()) + 1, text[m.start():m.start() + (end.end() if end else 0)]


def clauses(text):
    for m in re.finditer(r"^\s*(?:requires|ensures)(?: \w+)? \{ (.*) \}$", text, re.M):
        yield text.count("\n", 0, m.start()) + 1, m.group(1)


def main():
    args = [a for a in sys.argv[1:] if a != "-v"]
    verbose = "-v" in sys.argv
    all_files = list(files(args[0] if args else None))
    for point in sorted(set(LINES) | {5}):
        total = 0
        rows = []
        for what, pattern in LINES.get(point, []):
            found = [(n, i, line.strip()) for n, t in all_files for i, line in enumerate(t.split("\n"), 1) if re.search(pattern, line) and not line.strip().startswith("//")]
            rows.append((what, found))
        if point == 5:
            for what, words in TOGETHER:
                found = [(n, i, " ".join(s.split())[:80]) for n, t in all_files for i, s in signatures(t) if all(re.search(w, s) for w in words)]
                rows.append((f"parameters together: {what}", found))
            for crate in sorted({n.split("/")[1] for n, _ in all_files}):
                same = defaultdict(list)
                for n, t in all_files:
                    if n.split("/")[1] == crate:
                        for i, c in clauses(t):
                            same[c].append((n, i, c[:80]))
                for c, where in same.items():
                    if len(where) >= 3:
                        rows.append((f"one clause three times or more, in {crate}", where))
        print(f"point {point}: {sum(len(f) for _, f in rows)}")
        for what, found in rows:
            print(f"  {len(found):3}  {what}")
            if verbose:
                for n, i, line in found:
                    print(f"         {n}:{i}: {line}")


main()
