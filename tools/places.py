#!/usr/bin/env python3
"""Lists the places in crates/*/src that read like an older language, by point.

    tools/places.py [POINT ..]

Text alone decides, so a place that is listed may be right as it is: docs/DESIGN-PASS.md says which are, and why.
"""
import collections
import glob
import os
import re
import sys

os.chdir(os.path.join(os.path.dirname(os.path.abspath(__file__)), ".."))

FILES = {path: open(path).read().split("\n") for path in sorted(glob.glob("crates/*/src/*.rt"))}


def code(path):
    """The lines before the tests, with their numbers."""
    for number, line in enumerate(FILES[path], 1):
        if line.startswith("#[cfg(test)]"):
            return
        yield number, line


def lines(pattern, skip=None):
    found = []
    for path in FILES:
        for number, line in code(path):
            if re.search(pattern, line) and not line.lstrip().startswith("//") and not (skip and re.search(skip, line)):
                found.append((path, number, line.strip()))
    return found


def loops_that_test():
    return [(path, number, "only tests: " + line.strip()) for path in FILES for number, line in code(path)
            if re.match(r"\s*for .* in .*\{$", line) and re.match(r"\s*if ", FILES[path][number])
            and re.match(r"\s*return (true|false);", FILES[path][number + 1])]


def signatures():
    """Each function with its parameters and its result."""
    for path in FILES:
        text = "\n".join(line for _, line in code(path))
        for match in re.finditer(r"\bfn (\w+)(?:<[^(]*>)?\(([^)]*)\)([^\n]*)", text):
            number = text[: match.start()].count("\n") + 1
            yield path, number, match.group(1), match.group(2), match.group(3).strip()


def clauses_said_often():
    said = collections.defaultdict(list)
    for path in FILES:
        crate = path.split("/")[1]
        for number, line in code(path):
            match = re.match(r"\s*(?:requires|ensures)(?: \w+)? \{ (.*) \}$", line)
            if match:
                said[crate, match.group(1)].append((path, number))
    return [(path, number, f"{len(at)} times in {crate}: {fact}")
            for (crate, fact), at in said.items() if len(at) >= 3 for path, number in at[:1]]


def parameters_together():
    pairs = collections.defaultdict(list)
    for path, number, _, parameters, _ in signatures():
        names = [" ".join(p.split()) for p in parameters.split(",") if ":" in p]
        for i, first in enumerate(names):
            for second in names[i + 1:]:
                pairs[path.split("/")[1], first, second].append((path, number))
    return [(at[0][0], at[0][1], f"{len(at)} times in {crate}: {first}, {second}")
            for (crate, first, second), at in pairs.items() if len(at) >= 3]


def same_shape():
    """Functions whose text is the same once names and numbers are left out."""
    shapes = collections.defaultdict(list)
    for path in FILES:
        text = "\n".join(line for _, line in code(path) if not line.lstrip().startswith("//"))
        for match in re.finditer(r"^( *)(?:pub(?:\(crate\))? )?fn (\w+).*?^\1\{\n(.*?)^\1\}", text, re.S | re.M):
            body = re.sub(r"\w+", "_", re.sub(r"\s+", " ", match.group(3)))
            if len(body) > 24:
                number = text[: match.start()].count("\n") + 1
                shapes[body].append((path, match.group(2)))
    return [(at[0][0], 0, ", ".join(f"{p.split('/')[1]}::{n}" for p, n in at)) for at in shapes.values() if len(at) > 1]


def functions(parameter, result):
    return [(path, number, f"fn {name} {answer}") for path, number, name, parameters, answer in signatures()
            if re.search(parameter, parameters) and re.search(result, answer)]


POINTS = {
    1: ("enums, refusals by bool, numbers for kinds", lambda:
        lines(r"^\s*(pub(\(crate\))? )?enum ")
        + functions(r"&mut \[u64\]", r"-> bool")
        + lines(r"No\(u64\)|Refused\(u64\)|Refused\(\d|No\(\d|kind: u64|phase: u64|^const (IDLE|FIRST|SEEK|TRIAL|UNCLEAR|FAILS)\b"
                r"|\{ 1 \} else|\{ 2 \} else|== 1 \{|fault != 0")),
    2: ("functions of one shape", same_shape),
    3: ("loops by hand", lambda:
        lines(r"\bfor \w+ in [\w.]*\d*\.\.|\bwhile |\+= 1;") + loops_that_test()),
    4: ("equality, conversion and printing by hand", lambda:
        lines(r"\bfn (equal|from_\w+|number|words|letter|push_\w+|\w+_line|by|ended)\b", skip="next_line")),
    5: ("facts in three or more contracts, parameters in three or more functions", lambda:
        clauses_said_often() + parameters_together()),
    6: ("rows with a length beside them", lambda:
        functions(r"&mut \[u64\]", r"-> (Result<)?(u64|usize|Option<u64>|Option<usize>|Told|Ended|Recorded|Reply)")
        + lines(r"^\s*(pub )?(used|left): (usize|u64),|^\s*pub (exchanges|sets): &")),
    7: ("switches on what to do next", lambda:
        lines(r"phase ==|kind ==|kind >|match self\.(phase|asked)|\bdyn\b|: fn\(")),
}


def main():
    for point in map(int, sys.argv[1:]) if len(sys.argv) > 1 else POINTS:
        title, find = POINTS[point]
        found = find()
        print(f"{point} {title}: {len(found)}")
        for path, number, text in found:
            print(f"  {path}:{number}: {text}")
    proofs = glob.glob("crates/*/proofs/**/*.antt", recursive=True)
    print(f"8 proofs: {len(proofs)} files, {sum(open(path).read().count(chr(10)) for path in proofs)} lines")


main()
