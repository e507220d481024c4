#!/usr/bin/env python3
"""Brings the repository's own definitions, lemmas, fields and constructors to one spelling.

usage: tools/respell_names.py [--list]        at the top of the repository; --list prints the table and writes nothing

Types, and functions into types, are in upper camel case; all else is in snake case. A dash stays where it joins two
names that stand by themselves, as in `length-shown`; a plain word hangs on by `_`, as in `shown_unmarked`. Names of
src/, strings, comments, and names that the prover makes keep their spelling. Ends with status 1, and writes
nothing, where two names would fall together.
"""
import collections
import os
import re
import sys

SEPARATORS = r"\s(){}\[\];,.\"`«»@|⌜⌝"
TOKEN = re.compile(rf"[^{SEPARATORS}]+")
SIGNATURE = re.compile(r"^(\s*)((?:(?:pub|abbrev|unfoldable|axiom|pattern) )*)([^\s(){};,.]+)\s+:\s+(\S.*)$")
HEAD = re.compile(r"^(\s*)((?:pub )?)(data|record|ruleset) ([^\s(){};,:=]+)")

# words of the library that a lemma's name may join by a dash
LIBRARY = set("length take drop append map get_or slice_get slice_set slice_range replicate lookup cond suc add sub mul div mod pow min max le lt eq set ++ + * reverse sum fold".split())

# names whose spelling no rule gives: older words of the library in them, and names that would fall together
BY_HAND = {
    "inSeries": "series_text",
    "inBranches": "branches_text",
    "byte-bits": "byte_bits_lem",
    "area-code": "area_code_lem",
    "action-code": "action_code_lem",
    "line-led": "line_led_lem",
    "is_true": "is_true_lem",
    "isTrue": "is_true",
}


def files():
    for folder, dirs, names in os.walk("crates"):
        dirs[:] = sorted(d for d in dirs if d != "out")
        for name in sorted(names):
            if name.endswith((".antt", ".rt")):
                yield os.path.join(folder, name)


def read(path):
    with open(path, encoding="utf-8") as f:
        return f.read()


def declared():
    """Each name that a file of specs/ or proofs/ declares: its kind, and whether it is a function into types."""
    found = collections.defaultdict(set)
    for path in files():
        if not path.endswith(".antt"):
            continue
        text = "\n".join(l.split("-- ")[0] if l.lstrip().startswith("-- ") else l for l in read(path).split("\n"))
        head = None
        for line in text.split("\n"):
            h = HEAD.match(line)
            if h:
                found[h[4]].add("type" if h[3] != "ruleset" else "word")
                head = len(h[1]) if h[3] != "ruleset" else None
                continue
            s = SIGNATURE.match(line)
            if s and not re.match(r"(goal|need)\.", s[4]):
                if head is not None and len(s[1]) > head:
                    found[s[3]].add("part")
                    continue
                head = None
                into = bool(re.search(r"(^|→ |\) )Type( 0|\b)[^→]*$", s[4]))
                found[s[3]].add("type" if into else "word")
    return found


def snake(word):
    word = re.sub(r"(?<=[a-z0-9])(?=[A-Z])", "_", word)
    return word.lower()


def respelled(name, kinds, bases):
    if name in BY_HAND:
        return BY_HAND[name]
    name = name.replace("′", "'")
    if re.search(r"[^A-Za-z0-9_'\-+*]", name):
        return name
    if "type" in kinds:
        return "".join(part[:1].upper() + part[1:] for part in name.split("-"))
    name = re.sub(r"^getD-", "get_or-", name)
    name = re.sub(r"^nth-", "slice_get-", name)
    parts = name.split("-")
    # join what stands by itself by a dash, the rest by an underscore
    out = snake_part(parts[0], bases)
    for k in range(1, len(parts)):
        left, right = "-".join(parts[:k]), "-".join(parts[k:])
        stands = left in bases and right in bases
        out += ("-" if stands else "_") + snake_part(parts[k], bases)
    return out


def snake_part(part, bases):
    # a type keeps its capital in a lemma's name
    return part if part[:1].isupper() and part in bases else snake(part)


def table():
    found = declared()
    bases = LIBRARY | {n for n, kinds in found.items() if "-" not in n and kinds & {"word", "type"} and n in SPECS}
    return {n: respelled(n, kinds, bases) for n, kinds in found.items()}, found


def specs_words():
    out = set()
    for path in files():
        if path.endswith(".antt") and "/specs/" in path:
            for line in read(path).split("\n"):
                h, s = HEAD.match(line), SIGNATURE.match(line)
                if h:
                    out.add(h[4])
                elif s:
                    out.add(s[3])
    return out


SPECS = specs_words()


def code_spans(line, rt):
    """The parts of a line that may be respelled: no comment, no string."""
    mark = "//" if rt else "--"
    at = 0
    spans, start, quoted = [], 0, False
    while at < len(line):
        if line[at] == '"':
            if quoted:
                start = at + 1
            else:
                spans.append((start, at))
            quoted = not quoted
        elif not quoted and line.startswith(mark, at) and (rt or re.match(r"--(\s|$)", line[at:])) and (at == 0 or line[at - 1] in " \t"):
            spans.append((start, at))
            return spans
        at += 1
    if not quoted:
        spans.append((start, len(line)))
    return spans


def turn(text, path, names, parts, made):
    rt = path.endswith(".rt")
    out, ghost, deep = [], False, 0
    for line in text.split("\n"):
        bare = line.strip()
        if rt:
            # in source files only clauses and ghost items speak of definitions
            if not ghost and re.match(r"(pub )?(ghost|requires|ensures)\b", bare):
                ghost, deep = True, 0
            if not ghost:
                out.append(line)
                continue
        new, last = "", 0
        for a, b in code_spans(line, rt):
            new += line[last:a]
            piece = line[a:b]

            def change(m):
                t = m[0]
                before = piece[: m.start()]
                if t not in names or names[t] == t:
                    return t
                if before.endswith("."):
                    root = re.search(r"([^\s(){};,]+)\.$", before)
                    head = root[1].split(".")[0] if root else ""
                    if head in ("Rattle", "goal"):
                        return t
                    if t not in parts:
                        made[t].add(path)
                        return t
                    if re.match(r"(c|w|l|g|m)$", head):
                        made[t].add(path + ": ." + t)
                return names[t]

            new += TOKEN.sub(change, piece)
            last = b
        new += line[last:]
        out.append(new)
        if rt:
            deep += bare.count("{") - bare.count("}")
            if deep <= 0 and (bare.endswith((";", "}", ",")) or re.match(r"ensures|requires", bare) and deep == 0):
                ghost = False
    return "\n".join(out)


def main():
    names, found = table()
    changed = {a: b for a, b in names.items() if a != b}
    back = collections.defaultdict(set)
    for a, b in names.items():
        back[b].add(a)
    together = {b: sorted(a) for b, a in back.items() if len(a) > 1}
    if "--list" in sys.argv:
        for a, b in sorted(changed.items()):
            print(a, b, ",".join(sorted(found[a])))
    for b, a in sorted(together.items()):
        print("fall together:", b, a, file=sys.stderr)
    if "--list" in sys.argv:
        return 0
    if together:
        return 1
    parts = {n for n, kinds in found.items() if "part" in kinds}
    made = collections.defaultdict(set)
    count = 0
    for path in files():
        text = read(path)
        new = turn(text, path, names, parts, made)
        if new != text:
            count += 1
            with open(path, "w", encoding="utf-8") as f:
                f.write(new)
    for t, where in sorted(made.items()):
        print("look:", t, sorted(where)[:4])
    print(f"{len(changed)} names, {count} files")
    return 0


if __name__ == "__main__":
    sys.exit(main())
