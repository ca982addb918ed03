#!/usr/bin/env python3
"""Lists what the design pass changed, old and new one after the other: public signatures with their clauses, types with their fields, definitions of specs/,
and theorems that a page names.

usage: tools/changed_words.py [--lemmas | --callers]     at the top of the repository

Old is the commit that docs/DESIGN-PASS.md begins with. What it prints is the last part of that page. With --lemmas it lists instead the names of functions,
definitions and public lemmas that are gone, file by file. With --callers it lists where each value is built whose type has an invariant, and for each public
function that takes one which functions call it.
"""
import glob
import os
import re
import subprocess
import sys

os.chdir(os.path.join(os.path.dirname(os.path.abspath(__file__)), ".."))
BEGAN = open("docs/DESIGN-PASS.md", encoding="utf-8").readline().strip()


def git(*words):
    return subprocess.run(["git", *words], capture_output=True, text=True, check=True).stdout


def files_then():
    return {p: git("show", BEGAN + ":" + p) for p in git("ls-tree", "-r", "--name-only", BEGAN, "crates").split("\n") if p.endswith((".rt", ".antt"))}


def files_now():
    return {p: open(p, encoding="utf-8").read() for p in glob.glob("crates/*/**/*", recursive=True)
            if p.endswith((".rt", ".antt")) and "/out/" not in p and os.path.isfile(p)}


def plain(text):
    text = re.sub(r"//[^\n]*", "", text)
    text = re.sub(r"(?m)(^|\s)--( [^\n]*)?$", "", text)
    return " ".join(text.split())


def functions(text):
    """Public functions and methods: the name, and its signature with all clauses."""
    impl = ""
    for m in re.finditer(r"^(?:impl(?:<[^>]*>)? ([^\n{]*)\{|( *)pub (?:extern \"C\" )?fn (\w+)(.*?)^\2\{)", re.sub(r"//[^\n]*", "", text), re.S | re.M):
        if m.group(1) is not None:
            impl = m.group(1).split(" for ")[-1].strip()
        else:
            name = (impl.split("<")[0] + "::" if m.group(2) else "") + m.group(3)
            yield name, "fn " + m.group(3) + " ".join(m.group(4).split())


def types(text):
    text = re.sub(r"//[^\n]*", "", text)
    for m in re.finditer(r"^pub (struct|enum) (\w+)([^\n;{]*)(?:\{(.*?)^\}|\(([^)]*)\);|;)", text, re.S | re.M):
        yield m.group(2), " ".join(m.group(0).split())


def definitions(text):
    """Each definition of a file of specs/: its name, and its text to the next."""
    lines, found, name = text.split("\n"), [], None
    for line in lines:
        if re.match(r"\s*(use |pub mod |--)", line) or not line.strip():
            continue
        m = re.match(r"\s*(?:abbrev |unfoldable )?(?:abbrev |unfoldable |pub )*(?:record |data )?([^\s:(){}]+)\s*(?:[({:].*)$", line)
        starts = re.match(r"\s*((abbrev|unfoldable) pub|pub (record|data|abbrev|unfoldable)|pub \S+ :|abbrev \S+ :|unfoldable \S+ :)", line)
        if starts and m and not re.match(r"\s+pub \S+ : ", line):
            name = m.group(1)
            found.append([name, line.strip()])
        elif name and not re.match(r"module ", line.strip()):
            found[-1][1] += " " + line.strip()
    return [(n, " ".join(t.split())) for n, t in found]


def lemmas(text):
    lines = [re.split(r"(?:^|\s)--(?:\s|$)", x, maxsplit=1)[0] for x in text.split("\n")]
    for i, line in enumerate(lines):
        m = re.match(r"( *)pub ([^\s:(){}]+) : ?(.*)", line)
        if not m:
            continue
        parts, j = [m.group(3)], i + 1
        while j < len(lines) and lines[j].strip() and len(lines[j]) - len(lines[j].lstrip()) > len(m.group(1)):
            parts.append(lines[j])
            j += 1
        yield m.group(2), " ".join(" ".join(parts).split())


def pairs(then, now, of, keep):
    old, new = {}, {}
    for src, out in ((then, old), (now, new)):
        for path, text in src.items():
            if keep(path):
                for n, t in of(text):
                    out.setdefault((path.split("/")[1], n), []).append(t)
    return old, new


def show(title, old, new, only=None):
    rows = [k for k in sorted(set(old) | set(new)) if old.get(k) != new.get(k) and (only is None or k[1] in only)]
    print("\n### %s (%d)\n" % (title, len(rows)))
    for k in rows:
        print("- `%s` `%s`" % k)
        for word, side in (("old", old), ("new", new)):
            for t in side.get(k, ["(none)"]):
                print("  - %s: `%s`" % (word, t.replace("`", "'")))


# The types whose ghost field is a fact that was a clause, and how a value of each is built.
BEARERS = {"Volume": r"Volume \{", "VolumeBlock": r"VolumeBlock(::new\(|(?: |Self) \{ size)|\.block\(", "Name": r"(?<!\w)Name \{", "Filter": r"Filter::new\(",
           "Known": r"Known \{", "Part": r"(?<!\w)Part \{"}


def bodies(now):
    """Each function of src/: crate, type of its impl or none, name, whether it is public, signature, body."""
    for path, text in now.items():
        if "/src/" not in path or not path.endswith(".rt"):
            continue
        impl = ""
        for m in re.finditer(r"^(?:impl(?:<[^>]*>)? ([^\n{]*)\{|( *)((?:pub(?:\([a-z]+\))? )?)(?:extern \"C\" )?fn (\w+)(.*?)(?:^\2\{| \{$)(.*?)^\2\})",
                             re.sub(r"//[^\n]*", "", text), re.S | re.M):
            if m.group(1) is not None:
                impl = re.split(r"[< ]", m.group(1).split(" for ")[-1].strip())[0]
            else:
                yield path.split("/")[1], impl if m.group(2) else "", m.group(4), m.group(3) == "pub ", " ".join(m.group(5).split()), m.group(6)


def calls(crate, kind, name):
    """How a function of a crate is called: by its crate's name, in the crate itself by its own, and a method by a value or its type."""
    if (kind, name) == ("Name", "len"):
        return re.compile(r"\bname\.len\(\)"), None
    if kind in ("VolumeBlock", "Volume") and name == "next_addr":
        return re.compile(r"(VolumeBlock::new\([^)]*\)|\bblock(\([^)]*\))?|known\(\))\.next_addr\(" if kind == "VolumeBlock" else r"(\bv|\}|self)\.next_addr\("), None
    if kind:
        return re.compile(r"%s::%s\(|\.%s\(" % (kind, name, name)), None
    return re.compile(r"(?<!\w)%s::%s\(" % (crate, name)), re.compile(r"(?<![\w.:])%s\(" % name)


def callers(now):
    found = list(bodies(now))
    said = lambda c, k, f: "`%s::%s`" % (c, "%s::%s" % (k, f) if k else f)
    print("| type | built in |\n|---|---|")
    for name, built in BEARERS.items():
        print("| `%s` | %s |" % (name, ", ".join(sorted({said(c, k, f) for c, k, f, _, _, body in found if re.search(built, body)}))))
    print("\n| function | takes | called by |\n|---|---|---|")
    for crate, kind, name, public, signature, _ in sorted(found):
        ground = re.split(r" requires | ensures |->", signature)[0]
        takes = [b for b in BEARERS if re.search(r"[:( ](&mut |&)?%s\b" % b, ground) or (kind == b and "self" in ground)]
        if public and takes:
            far, near = calls(crate, kind, name)
            # `name.len()` is a call of it only where the name is one of the type, and not bytes.
            mine = lambda s: (kind, name) != ("Name", "len") or re.search(r"\bname: Name\b", s)
            who = {said(c, k, f) for c, k, f, _, s, body in found
                   if (c, k, f) != (crate, kind, name) and mine(s) and (far.search(body) or (near and c == crate and near.search(body)))}
            print("| %s | %s | %s |" % (said(crate, kind, name), ", ".join("`%s`" % x for x in takes), ", ".join(sorted(who)) or "itself alone"))


def main():
    then, now = files_then(), files_now()
    source = lambda p: "/src/" in p
    specs = lambda p: "/specs/" in p
    proofs = lambda p: "/proofs/" in p and len(p.split("/")) == 4
    named = set()
    for page in glob.glob("docs/*.md") + ["README.md"]:
        if not page.endswith(("PORT.md", "DESIGN-PASS.md")):
            named |= set(re.findall(r"`([^`\s]+)`", open(page, encoding="utf-8").read()))
    if "--callers" in sys.argv:
        return callers(now)
    if "--lemmas" in sys.argv:
        for word, of, keep in (("function", functions, source), ("definition", definitions, specs), ("lemma", lemmas, proofs)):
            old, new = pairs(then, now, of, keep)
            anywhere = {n for _, n in new}
            for k in sorted(old):
                if k not in new:
                    print("%s %s/%s%s" % (word, k[0], k[1], " (stands in another crate)" if k[1] in anywhere else ""))
        return
    show("Public types", *pairs(then, now, types, source))
    show("Public signatures and clauses", *pairs(then, now, functions, source))
    show("Definitions", *pairs(then, now, definitions, specs))
    old, new = pairs(then, now, lemmas, proofs)
    show("Theorems that a page names", old, new, named)


if __name__ == "__main__":
    main()
