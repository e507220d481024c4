#!/usr/bin/env python3
"""Lists the places in crates/*/src that a newer form of the language might serve better.

usage: tools/count_places.py [POINT ...]      points 1 to 8, all without an argument

It goes by the text alone, so what it lists is read by a person: docs/DESIGN-PASS.md says which of it are places.
"""
import collections
import glob
import os
import re
import sys

ROOT = os.path.join(os.path.dirname(os.path.abspath(__file__)), "..")


def sources():
    for path in sorted(glob.glob(os.path.join(ROOT, "crates/*/src/**/*.rt"), recursive=True)):
        yield os.path.relpath(path, os.path.join(ROOT, "crates")), open(path, encoding="utf-8").read()


def bare(text):
    """The text without comments."""
    return re.sub(r"//[^\n]*", "", text)


def closing(text, start):
    """Where the brace that opens at `start` closes."""
    depth = 0
    for at in range(start, len(text)):
        depth += {"{": 1, "}": -1}.get(text[at], 0)
        if depth == 0:
            return at
    return len(text)


Function = collections.namedtuple("Function", "crate path name parameters answer clauses body tested")


def functions():
    head = re.compile(r"\bfn (\w+)(<[^(]*>)?\(")
    for path, text in sources():
        text = bare(text)
        tests = text.find("#[cfg(test)]")
        for found in head.finditer(text):
            depth, at = 1, found.end()
            while depth:
                depth += {"(": 1, ")": -1}.get(text[at], 0)
                at += 1
            parameters = " ".join(text[found.end():at - 1].split())
            answer = re.match(r"\s*(->\s*[^{;]*?)?(?=\s*(requires|ensures|where|ghost|\{|;))", text[at:])
            clauses, rest = [], at + (answer.end() if answer else 0)
            while True:
                clause = re.match(r"\s*(requires\*?|ensures\*?)\s*(\w*)\s*\{|\s*where[^{;]*?(?=\{|requires|ensures|;)", text[rest:])
                if not clause:
                    break
                if clause.group(1):
                    end = closing(text, rest + clause.end() - 1)
                    clauses.append((clause.group(1), " ".join(text[rest + clause.end():end].split())))
                    rest = end + 1
                else:
                    rest += clause.end()
            body = re.match(r"\s*\{", text[rest:])
            inside = text[rest + body.end():closing(text, rest + body.end() - 1)] if body else None
            yield Function(path.split("/")[0], path, found.group(1), parameters,
                           (answer.group(1) or "").strip() if answer else "", clauses, inside,
                           0 <= tests < found.start() or path.split("/")[1:] == ["src", "tests.rt"])


def structs(word):
    head = re.compile(r"\b%s (\w+)(<[^{;(]*>)?\s*\{" % word)
    for path, text in sources():
        text = bare(text)
        for found in head.finditer(text):
            yield path, found.group(1), text[found.end():closing(text, found.end() - 1)]


def cases(body):
    depth, parts, part = 0, [], ""
    for letter in re.sub(r'"[^"]*"', '""', body).replace("=>", "\0"):
        depth += {"(": 1, "{": 1, "<": 1, ")": -1, "}": -1, ">": -1}.get(letter, 0)
        if letter == "," and depth == 0:
            parts.append(part.strip())
            part = ""
        else:
            part += letter
    return [p.replace("\0", "=>") for p in parts + [part.strip()] if p]


def point_1():
    """Enums of the shape of Option or Result, cases that are numbers, and sentinels."""
    for path, name, body in structs("enum"):
        all_cases = cases(body)
        plain = [c for c in all_cases if "(" not in c]
        names = [re.match(r"\w+", c).group() for c in all_cases if re.match(r"\w+", c)]
        if len(all_cases) == 2 and len(plain) == 1:
            yield path, f"enum {name} {{ {', '.join(all_cases)} }}: one bare case, one with a value"
        for case in names:
            if case.startswith("Not") and case[3:] in names or case in ("Unknown", "Nothing", "Refused"):
                yield path, f"enum {name}: the case {case}"
    for f in functions():
        if f.body and re.search(r"=>\s*(0x[0-9a-f]+|\d+)\s*,", f.body) and f.answer.split()[-1:] in (["u8"], ["u16"]):
            yield f.path, f"fn {f.name} gives numbers for cases"
        if f.body and re.search(r"\(0(, 0)+\)", f.body) and f.answer.startswith("-> (") and "match" in f.body:
            yield f.path, f"fn {f.name} answers zeros for a case"
        if f.body and re.search(r"return \w+;\s*\}\s*\}\s*\w+\.len\(\)\s*$", f.body):
            yield f.path, f"fn {f.name} answers the length for 'not there'"


def skeleton(text):
    return re.sub(r"[A-Za-z_]\w*|\d\w*|b?\"[^\"]*\"|b?'[^']*'", "x", " ".join(text.split()))


def point_2():
    """Functions of one crate, or types, whose bodies differ in nothing but names, types and constants."""
    groups = collections.defaultdict(list)
    for f in functions():
        if f.body and not f.tested and len(re.findall(r"\w+", f.body)) >= 6:
            groups[f.crate, skeleton(f.body)].append(f)
    for path, name, body in structs("struct"):
        kept = re.sub(r"ghost \w+: \{[^}]*\},?|pub(\(\w+\))? ", "", body)
        groups["struct", skeleton(kept)].append(
            Function(path.split("/")[0], path, "struct " + name, "", "", [], kept, False))
    for (_, _), group in sorted(groups.items(), key=lambda item: item[1][0].path):
        if len(group) > 1 and (group[0].name[:6] != "struct" or "[" in group[0].body):
            yield group[0].path, "alike: " + ", ".join(
                f.name + ("" if f.path == group[0].path else f" ({f.path})") for f in group)


def point_3():
    """Loops over a range of numbers, and loops with a test."""
    for path, text in sources():
        for number, line in enumerate(text.split("\n"), 1):
            if re.search(r"\bfor \w+ in [^{]*\.\.|\bwhile ", bare(line)):
                yield path, f"{number}: {line.strip()}"


def point_4():
    """Functions of one value whose body is one match from cases to values: conversions by hand; and comparisons."""
    for f in functions():
        if f.body is None or f.tested:
            continue
        one = "," not in re.sub(r"<[^>]*>", "", f.parameters)
        body = " ".join(f.body.split())
        if one and re.match(r"match [\w.]+ \{.*\}$", body) and f.answer and "(" not in f.parameters:
            arms = cases(body[body.index("{") + 1:-1])
            if len(arms) > 1 and all(re.search(r"=> (Some\(|Ok\()?(&?[\w:]+|b?\"[^\"]*\"|b?'[^']*'|0x\w+ \+ .*|.*code\(\).*)\)?$", arm)
                                     for arm in arms):
                yield f.path, f"fn {f.name}({f.parameters}) {f.answer}"
        if re.match(r"^\w+ == \w+$", body):
            yield f.path, f"fn {f.name}: {body}"


def point_5():
    """Clauses that stand in three or more functions of a crate, and parameters that travel together through as many."""
    said = collections.defaultdict(list)
    pairs = collections.defaultdict(list)
    for f in functions():
        for kind, clause in set(f.clauses):
            said[f.crate, clause].append(f.name)
        names = sorted(set(re.findall(r"(\w+): (?:&|\w)", f.parameters)))
        for one in range(len(names)):
            for other in names[one + 1:]:
                pairs[f.crate, names[one], other].append(f.name)
    for (crate, clause), where in sorted(said.items()):
        if len(where) >= 3 and not clause.startswith("result"):
            yield crate, f"{len(where)} times `{clause}`: {', '.join(where)}"
    for (crate, one, other), where in sorted(pairs.items()):
        if len(where) >= 3:
            yield crate, f"{len(where)} times ({one}, {other}): {', '.join(where)}"


def point_6():
    """Structs with an array and a count, and chains of tests that search by hand."""
    for path, name, body in structs("struct"):
        arrays = re.findall(r"(\w+): \[[^\]]*; \d+\]", body)
        counts = re.findall(r"(\w+): (?:usize|u8|u32)\b", body)
        if arrays and counts:
            yield path, f"struct {name}: {', '.join(arrays)} beside {', '.join(counts)}"
        elif re.search(r"&'a (mut )?\[", body) and counts:
            yield path, f"struct {name}: a slice beside {', '.join(counts)}"
    for f in functions():
        if f.body and len(re.findall(r"\bif \w+\(\w+, b?\"", f.body)) >= 3:
            yield f.path, f"fn {f.name} tries one text after the other"


def point_7():
    """Matches whose arms do no more than call another function with the same arguments."""
    for f in functions():
        if f.body is None or f.tested:
            continue
        for found in re.finditer(r"\bmatch ([^{]+?) \{", f.body):
            inside = f.body[found.end():closing(f.body, found.end() - 1)]
            calls = [re.search(r"=> ([\w:]+(?:\.[\w.]+)?)\(([^()]*(?:\([^()]*\))?[^()]*)\)\??$", arm) for arm in cases(" ".join(inside.split()))]
            calls = [c for c in calls if c]
            if len(calls) >= 2 and len({c.group(2) for c in calls}) == 1 and calls[0].group(2):
                yield f.path, f"fn {f.name}: match {found.group(1)} calls {', '.join(c.group(1) for c in calls)}"


def point_8():
    """Files of answers, and lemmas, a crate."""
    for crate in sorted(os.listdir(os.path.join(ROOT, "crates"))):
        answers = goals = lemmas = 0
        for path in glob.glob(os.path.join(ROOT, "crates", crate, "proofs/**/*.antt"), recursive=True):
            signatures = re.findall(r"^(?:abbrev |unfoldable )*(?:pub )?[\w«][^\s=]* :", open(path, encoding="utf-8").read(), re.M)
            if path.endswith("Answers.antt"):
                answers += 1
                goals += len(signatures)
            elif not path.endswith(("Invariants.antt", "Lib.antt")):
                lemmas += len(signatures)
        if answers or lemmas:
            yield crate, f"{answers} files of answers with {goals} signatures, {lemmas} lemmas"


def main(chosen):
    points = [point_1, point_2, point_3, point_4, point_5, point_6, point_7, point_8]
    for number, point in enumerate(points, 1):
        if chosen and str(number) not in chosen:
            continue
        found = list(point())
        print(f"point {number}: {len(found)} listed. {point.__doc__}")
        for path, text in found:
            print(f"    {path}: {text}")


if __name__ == "__main__":
    main(sys.argv[1:])
