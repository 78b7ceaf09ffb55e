#!/usr/bin/env python3
"""must_fail.py CI-LOG: by what rt ci printed, each must-fail edit was refused, and because a fact fails and not because a proof file no longer fits.

For each edit rt prints one line, with the first message of the prover that speaks of something else than a missing name. Refused here are
  an edit that was not tried, was not refused, or is a BAD EDIT: one that cannot be applied, compiled or read;
  a refusal of which rt says that it comes only from a proof file that names what the edit took away, or only from a limit of the prover;
  a refusal whose message is that an answer or an invariant has too many arguments, or that gives no message at all.
In these nothing was said about the edit. What is left are a goal that is not proved, at its place in src/, and a term of a proof file
that does not prove its goal. The line is all that there is to read: rt keeps no other output of an edit.
"""
import re
import sys

from repository import ROOT, Report

UNFIT = ("this pattern needs a function", "binders, but its type has room for only", "has no field", "is not in scope")

report = Report()


def told_of(log):
    """What rt said of each edit, by its path: all that it said, since it ought to be one line."""
    told = {}
    for line in log:
        found = re.match(r"rt: must-fail (\w+)/(\S+\.edit): (.*)", line)
        if found:
            told.setdefault(f"crates/{found.group(1)}/must-fail/{found.group(2)}", []).append(found.group(3))
    return told


def check_edit(edit, said):
    if len(said) != 1:
        report.fail(f"{edit}: it was not tried: rt ci has no line of it" if not said else f"{edit}: rt ci has {len(said)} lines of it")
        return
    refused = re.fullmatch(r"refused, as it must be( \(only .*?\))?(?:: (.*))?", said[0])
    if not refused:
        report.fail(f"{edit}: {said[0]}")
        return
    only, message = refused.groups()
    if only or not message or any(words in message for words in UNFIT):
        report.fail(f"{edit}: its refusal says nothing of a fact: {said[0]}")
        return
    place = re.match(r"(?:note: )?(?:\./)?(\S+?:\d+:\d+): ", message)
    print(f"{edit}: {place.group(1) if place else message}")


def main():
    with open(sys.argv[1], errors="replace") as file:
        told = told_of(file.read().splitlines())
    edits = sorted(str(edit.relative_to(ROOT)) for edit in ROOT.glob("crates/*/must-fail/*.edit"))
    for edit in edits:
        check_edit(edit, told.get(edit, []))
    for edit in sorted(set(told) - set(edits)):
        report.fail(f"{edit}: rt ci tried it, and it is not there")
    report.end(f"{len(edits)} edits, {report.failures} failures")


main()
