#!/usr/bin/env python3
"""Counts the places in src/ that the design pass looks at, and lists them with --list.

usage: python3 tools/places.py [--list] [POINT ..]     at the top of a checkout

Each point has patterns, matched line by line in crates/*/src; comments are left out, and clauses too unless a pattern asks
for them. A loop over numbers counts where its body reaches into something by that number. docs/DESIGN-PASS.md says of what
is still found why it stays.
"""
import glob
import os
import re
import sys

CLAUSE = re.compile(r"^\s*(ghost|requires|ensures)\b")
LOOP = re.compile(r"^(\s*)for (\w+) in [^{]*\.\.")

# what is looked for, the pattern, and whether clauses are looked at
POINTS = {
    "1": [
        ("a case for success among cases of an own enum", r"^\s+(End \{ place: usize \}|Denied\(\w+\)|Fault\(Fault\)),$", False),
        ("a kind or a state kept as a number", r"^\s+(pub(\(crate\))? )?(code|kind|depth): u8,$", False),
        ("a choice by the number of a kind", r"\bmatch (\*?kind|byte|self\.kind) \{", False),
        ("a result taken apart by hand", r"let (Ok|Some)\(\w+\) = .* else|\.is_(err|none)\(\)|^\s+Err\((_|why)\) =>|^\s+None =>", False),
    ],
    "2": [
        ("a record's body taken apart, once for each kind", r"fn (enrol|amount|remark)_in\(", False),
        ("a table of entries, with a count and a push of its own", r"^\s+entries: \[\w+; 1024", False),
        ("a theorem as a function with a dummy answer", r"^pub fn \w+\(\) -> u8$", False),
        ("rounds and a work area tested", r"(> ROUNDS|< AREA) \{", False),
        ("a slot's number tested", r">= self\.slots\(\)|< self\.count\b|< self\.slots\(\)", False),
        ("a number for each case, by a match", r"^\s+\w+::\w+( \{ \.\. \})? => \d+,$", False),
    ],
    "3": [
        ("a loop that reaches by the number it counts", LOOP, False),
        ("a loop for what a library method does", r"^\s+return (true|false|msgs\[.*\]);|^\s+\*number = 0;|^\s+replies\[place\] =", False),
        ("a loop with no bound, or while", r"^\s*(while .*|loop) \{", False),
    ],
    "4": [
        ("a public type of values without equality or printing", r"^#\[derive\(Clone, Copy\)\]\npub (enum|struct) ", False),
        ("a conversion by a function of its own", r"fn (from_slice|to_array|taken|told|flaw)\(", False),
        ("by hand what a derive writes", r"^impl\S* (PartialEq|Eq|PartialOrd|Ord|Clone|Default|Debug|Hash) for ", False),
        ("a value made field by field where a derive makes it", r"fn new\(\) -> Counts", False),
        ("records and results compared part by part", r"_ => return Err\(Fail::new|Ok\(_\) => (return )?Err\(Fail::new", False),
    ],
    "5": [
        ("a length of lent memory asked for", r"requires( \w+)? \{.*length \w+\.(now|old) ≡ \d+ \}", True),
        ("small messages asked for", r"requires( \w+)? \{ Small", True),
        ("an index in range asked for", r"requires( \w+)? \{ [ij] < 1024 \}", True),
        ("depth or weight of a layer as a premise", r"Deep self\.(now|old)", True),
        ("claimants and spans side by side", r"^\s+spans: &Spans,$", False),
        ("messages and tables of both kinds of rounds side by side", r"^\s+evens: &mut \[u64\],$", False),
        ("a kind byte's place and a body side by side", r"place: usize, body: &\[u8\]", False),
    ],
    "6": [
        ("a count beside its tables", r"^\s+(pub(\(crate\))? )?count: (usize|u16),$", False),
        ("a table of 1,024 in a struct", r"^\s+(pub(\(crate\))? )?\w+: \[[A-Za-z\[][^;()]*; .*(1024|SLOTS)\],$", False),
        ("vectors that belong together", r"^\s+pub (rows|totals): Vec", False),
        ("a place worked out in flat memory", r"PLACES \* [ij]|base \+ place", False),
    ],
    "7": [
        ("a step chosen by a flag", r"\bif up \{", False),
        ("a step chosen by a case", r"\bmatch \*?call \{", False),
        ("a function as a value", r"\bdyn |: fn\(|impl Fn", False),
    ],
}


def reaches(name, number, lines):
    """Whether the loop that begins in this line uses its number to reach into something."""
    start = LOOP.match(lines[number])
    inner, var = [], start.group(2)
    for line in lines[number + 1:]:
        if line.startswith(start.group(1) + "}"):
            break
        inner.append(line)
    body = re.sub(r"\b(Ok|Err|Some|from)\([^()]*\)", "", "\n".join(inner))
    return var == "_t" or var != "_" and re.search(r"\[[^\]]*\b%s\b[^\]]*\]|\((&?[\w.]+, )*%s\b" % (var, var), body)


def places(pattern, clauses):
    found = []
    for name in sorted(glob.glob("crates/*/src/**/*.rt", recursive=True)):
        with open(name, encoding="utf-8") as text:
            lines = text.read().split("\n")
        for number, line in enumerate(lines):
            two = "\n".join(lines[number:number + 2]) if "\\n" in str(getattr(pattern, "pattern", pattern)) else line
            if re.match(r"^\s*//", line) or (CLAUSE.match(line) and not clauses) or not re.search(pattern, two):
                continue
            if pattern is LOOP and not reaches(name, number, lines):
                continue
            found.append((name, number + 1, line.strip()))
    return found


def proofs():
    answers = lines = 0
    for name in glob.glob("crates/*/proofs/**/*.antt", recursive=True):
        with open(name, encoding="utf-8") as text:
            for line in text:
                lines += 1
                answers += os.path.basename(name) == "Answers.antt" and bool(re.match(r"(pub )?\S+ : goal\.", line))
    return answers, lines


def main():
    listed = "--list" in sys.argv[1:]
    wanted = [a for a in sys.argv[1:] if a != "--list"] or [*POINTS, "8"]
    for point in wanted:
        if point == "8":
            print("point 8: %d answers, %d lines in proofs/" % proofs())
            continue
        found = [(what, places(pattern, clauses)) for what, pattern, clauses in POINTS[point]]
        print(f"point {point}: {sum(len(here) for _, here in found)}")
        for what, here in found:
            print(f"    {len(here):3}  {what}")
            for name, number, line in here if listed else []:
                print(f"         {name}:{number}: {line}")


if __name__ == "__main__":
    main()
