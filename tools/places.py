#!/usr/bin/env python3
"""places.py [FOLDER]: counts in the crates' src/ the places that docs/DESIGN-PASS.md speaks of, one row a point, and lists each with --list.

It goes by patterns on the text, so a row is a place to look at and no verdict:
1 enums of the shape of Option or Result, structs that hand an answer back beside a value, numbers that stand for "none"
2 functions of one name or one shape that differ in a type, a size or a constant (the names are listed below)
3 loops that step a number by hand
4 conversions, comparisons and casts written as functions
5 requires clauses that stand in three or more functions, and parameters that always travel together
6 a buffer with a length beside it
7 a switch on a letter or a kind that says which step to run
"""
import collections
import glob
import re
import sys

args = [a for a in sys.argv[1:] if not a.startswith("--")]
root = args[0] if args else "."
found = collections.defaultdict(list)

EMPTY = r"(Refused|Nothing|Missing|Damaged|Stop|Root|Success|Done|End)"
TWINS = (
    r"fn (wide|least|same_run|same_word|count_words|count_bytes|count_bits|follow|pass_others|pass_unlike|pass_files|cells|chain|"
    r"is_dir|is_file|create_file_path|create_dir_path|delete_path|open_path|info_path|list_path|refused_open|refused_info|starts_slash|"
    r"name_array|both_bytes|run_of)\("
)
BY_HAND = r"fn (wide|least|is_file|is_dir|number|of|byte|letter|digit|hex_digit|hex_letter|flag|inside|position|differ|both_bytes|negative|signed)\("
LENGTHS = r"(full: &\[u8\], len: usize|name: \[u8; 255\]|name: &\[u8; 255\]|, name: &\[u8\], len: usize|text: &\[u8\], n: usize|s: &\[u8\], n: usize)"

clauses = collections.Counter()
where = collections.defaultdict(list)
for path in sorted(glob.glob(root + "/crates/*/src/**/*.rt", recursive=True)):
    text = open(path).read()
    lines = text.split("\n")
    short = path[len(root) + 1:]
    for m in re.finditer(r"^(?:pub )?enum (\w+) \{(.*?)^\}", text, re.S | re.M):
        variants = re.findall(r"^    (\w+)", m.group(2), re.M)
        if any(re.fullmatch(EMPTY, v) for v in variants):
            found[1].append((short, text[: m.start()].count("\n") + 1, "enum " + m.group(1)))
    for n, line in enumerate(lines, 1):
        code = line.split("//")[0]
        put = lambda p, what=code: found[p].append((short, n, what.strip()))
        if re.match(r"    pub answer: ", code) or re.match(r"    (pub )?(enough|minus|quoted): bool", code) or re.match(r"    next: usize", code):
            put(1)
        if re.search(TWINS, code):
            put(2)
        if re.match(r"\s*while .*(<|<=|!=) ", code) and "let" not in code:
            put(3)
        if re.search(BY_HAND, code):
            put(4)
        if re.search(LENGTHS, code):
            put(6)
        if re.match(r"\s*match (letter|b) \{", code):
            put(7)
        m = re.match(r"\s*requires (?:\w+ )?\{ (.*) \}", code)
        if m:
            clauses[m.group(1)] += 1
            where[m.group(1)].append((short, n, m.group(1)))
        if re.search(r"(img: &(mut )?\[u8\], s: SuperBlock|k: u32, code: u32|e: DirEntry, p: Place|img: &(mut )?\[u8\], size: u32|img: &\[u8\],$)", code):
            put(5)
for c, k in clauses.items():
    if 3 <= k:
        found[5] += where[c]

for p in range(1, 8):
    print(p, len(found[p]))
    if "--list" in sys.argv:
        for f, n, what in found[p]:
            print("   %s:%d: %s" % (f, n, what))
