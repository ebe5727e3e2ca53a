#!/usr/bin/env python3
"""Writes docs/PLANTED.md: planted bugs, and what refuses each.

    rt must-fail --anew | tools/planted.py
    tools/planted.py LOG ..

The first table has every edit of crates/*/must-fail, with the first error that a log tells of it; the last log counts.
The second has the bugs of tools/planted.json, with what was seen when each was tried.
"""
import fileinput
import glob
import json
import os
import re
import sys

LOGS = [os.path.abspath(log) for log in sys.argv[1:]]
os.chdir(os.path.join(os.path.dirname(os.path.abspath(__file__)), ".."))

NAMED = re.compile(r"must-fail (\w+)/([\w.-]+): refused, as it must be(.*)")

GOALS = [
    (r"returns", "what it ensures when it returns"),
    (r"loop-.*-init", "the invariant of its loop at the start"),
    (r"loop-.*-preserved", "the invariant of its loop after a round"),
    (r"loop-", "its loop"),
    (r"invariant_of", "the invariant of what it makes"),
    (r"overflow_add", "that a sum fits its type"),
    (r"overflow_sub", "that a difference isn't below 0"),
    (r"overflow_mul", "that a product fits its type"),
    (r"index|bounds", "that an index is within the row"),
    (r"unwrap", "that a value is there"),
    (r"precondition|requires|call", "what a function that it calls requires"),
]

HOWS = [
    (r"allow values at which", "a counterexample is known"),
    (r"`omega`: the goal does not follow", "an omega counterexample"),
    (r"`search` gave up", "no proof was found within the limits"),
    (r"`search`: no proof", "no proof was found"),
    (r"types (first )?differ", "the two sides differ"),
    (r"only where one has", "the two sides differ"),
    (r"expected type", "the proof that stood there is of another type"),
]


def first(pairs, text, default):
    return next((words for pattern, words in pairs if re.search(pattern, text)), default)


def function(crate, place, line):
    """The function that an error stands in, by a proof's folder or a line of the source."""
    proof = re.match(r"(?:\./)?proofs/(.*)/\w+\.antt", place)
    if proof:
        return proof[1].replace("/", "::")
    path = f"crates/{crate}/{place}"
    if not os.path.exists(path):
        return place
    name = ""
    for text in reversed(open(path).read().split("\n")[:line]):
        found = re.match(r"(\s*)(?:pub(?:\(crate\))? )?fn (\w+)", text)
        if found and not name:
            name = found[2]
            if not found[1]:
                return name
        found = re.match(r"impl\b.*?(\w+)(?:<[^<>]*>)? \{", text)
        if found and name:
            return f"{found[1]}::{name}"
    return name or place


def plain(crate, error):
    """A first error in plain words."""
    found = re.search(r"(\S+?):(\d+):\d+: (?:error: )?(.*)", error)
    if not found:
        return error.strip(" :")
    place, line, text = found[1], int(found[2]), found[3]
    goal = re.search(r"\(`([\w-]+)`\)|^`([\w-]+)`", text)
    name = (goal[1] or goal[2]) if goal else ""
    need = next((words for pattern, words in GOALS if re.match(pattern, name)), "") if name else ""
    said = re.match(r"it is not proved that (.*?) \(`", text)
    if said and not name.startswith("returns"):
        need = "that " + re.sub(r" ?\(.*", "", said[1])
    need = need or ("a lemma of its proof" if name else "its proof")
    clause = re.search(r"-clause-([\w]+)$", name)
    parts = [f"`{function(crate, place, line)}`: {need}" + (f", clause {clause[1]}" if clause else "") + (f" (`{name}`)" if name else "")]
    how = first(HOWS, text, "")
    return "; ".join(parts + [how] if how else parts)


def code(text):
    text = re.sub(r"\s+", " ", text.strip())
    if not text:
        return "nothing"
    mark = "``" if "`" in text else "`"
    return mark + text.replace("|", "\\|") + mark


def row(*cells):
    return "| " + " | ".join(cells) + " |\n"


def edit(path):
    lines = open(path).read().split("\n")
    of = {word: [line[5:].strip() for line in lines if line.startswith(f"{word}:")] for word in ("file", "old", "new")}
    bugs = "; ".join(f"{code(old)} → {code(new)}" for old, new in zip(of["old"], of["new"]))
    return of["file"][0], bugs


def tried():
    """The first error of each edit, as the last log has it."""
    errors = {}
    for line in fileinput.input(LOGS or ["-"], errors="replace"):
        found = NAMED.search(line)
        if found:
            errors[found[1], found[2]] = found[3]
    return errors


def edits(errors):
    for crate in sorted({path.split("/")[1] for path in glob.glob("crates/*/must-fail/*.edit")}):
        yield f"\n### {crate}\n\n" + row("edit", "bug", "refused by") + row("---", "---", "---")
        for path in sorted(glob.glob(f"crates/{crate}/must-fail/*.edit")):
            name = os.path.basename(path)
            file, bugs = edit(path)
            error = errors.get((crate, name))
            yield row(name[:-5], f"{file}: {bugs}", "no run of it was read" if error is None else plain(crate, error))


def bugs():
    kept = json.load(open("tools/planted.json"))
    for crate in sorted({it["crate"] for it in kept}):
        yield f"\n### {crate}\n\n" + row("bug", "in words", "result") + row("---", "---", "---")
        for it in kept:
            if it["crate"] == crate:
                by = plain(crate, it["error"]) if it["error"] else ""
                stood = f" (as the proof stood, {by})" if it["result"].startswith("proved") else f": {by}"
                result = it["result"] + (stood if by else "") + (f". {it['by_hand']}" if it.get("by_hand") else "")
                yield row(f"{it['file']}: {code(it['old'])} → {code(it['new'])}", it["what"], result.replace("|", "\\|"))


HEAD = """# Planted bugs, and what refuses each

A contract says as much as it refuses. Each row is a wrong change to the code, tried alone: the crate is checked with it,
and the row tells the first error: the function, what is not proved there, and in brackets the name of that goal.
Made by `rt must-fail --anew | tools/planted.py`, which writes this file anew.
"""

EDITS = """
## The edits of the gate

Every edit of `crates/*/must-fail`. The gate tries each again where what it stands on has changed.
"""

BUGS = """
## Further bugs

Kept in `tools/planted.json`, with what was seen when each was tried; the gate doesn't try them again. Bugs in different
functions of a crate were tried together, since the proof of one function reads only the contracts of the others; the
first error in the function of each counts, and each that proved was tried again with no other that is refused. "Proved"
is a change that the contracts let through. Where the first error was only that a proof file no longer fitted, the proof
was mended by hand as far as it went, and the row says so.
"""

with open("docs/PLANTED.md", "w") as out:
    out.write(HEAD + EDITS + "".join(edits(tried())) + BUGS + "".join(bugs()))
