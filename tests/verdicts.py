#!/usr/bin/env python3
"""verdicts.py CI-LOG: by what rt ci printed, each listed crate has the verdict 'proved', and each library without an axiom.

A crate that was proved in this run has a part of the log that begins with '== NAME', in which the prover gives one verdict, a line
'logic=..', and after which rt says that NAME is proved. A crate whose files and libraries an earlier rt ci proved on this machine has no
such part: rt says that it is kept. A verdict may take the kit's own logic and libraries as built, and nothing else from elsewhere: a word
as cache=trusted or incremental=trusted is none of a proof from nothing.

The kit's axioms are the contracts of C functions, which its libraries libc and os declare, and std in part. The verdict on a program or on
an archive for C counts those that it rests on (axioms=N). That on another library does not; so crates.txt may name neither library, and a
library's proof may load no statement of them (lines 'statements libc: modules loaded=N').
"""
import re
import sys

from repository import ROOT, Report, crates, dependencies, is_library

OVER_C = {"libc", "io", "os"}  # io stood on the other two
WITH_AXIOMS = ("libc", "os")
BUILT = {"logic-built", "libraries-built", "statements"}  # what the kit brings along, as in 'logic-built=trusted'
KEPT = "is kept: an earlier run on this machine proved the same files over the same libraries"

report = Report()


def parts_of(log):
    """The lines of each part '== WHAT', which is a crate's name or 'NAME: its tests'; of a crate that was tried twice the last."""
    parts, inside = {}, None
    for line in log:
        begins = re.fullmatch(r"== (.+)", line)
        if begins:
            inside = parts[begins.group(1)] = []
        elif re.fullmatch(r"rt: \w+(: its tests are)? (NOT PROVED|proved)|rt: \w+ is kept: .*", line):
            inside = None
        elif inside is not None:
            inside.append(line)
    return parts


def check_trust(log):
    """A verdict that leans on an earlier run is none."""
    for number, line in enumerate(log, 1):
        for word in re.findall(r" ([\w-]+)=trusted", line) if line.startswith("logic=") else []:
            if word not in BUILT:
                report.fail(f"{sys.argv[1]}:{number}: a verdict with {word}=trusted: {line}")


def check_dependencies(crate):
    over_c = OVER_C & set(dependencies()[crate])
    if over_c:
        report.fail(f"{crate}: by crates.txt it rests on {', '.join(sorted(over_c))}, whose C functions nothing proves")


def check_axioms(crate, part, count):
    if count:
        report.fail(f"{crate}: a library, and its verdict counts {count} axioms")
    for name in WITH_AXIOMS:
        loaded = [int(number) for line in part for number in re.findall(rf"^statements {name}: modules loaded=(\d+) ", line)]
        if len(loaded) != 1 or loaded[0]:
            report.fail(f"{crate}: a library, and of {name}, which declares C functions, its proof loads {loaded or 'what is not said'}")


def check_crate(crate, log, part):
    kind = "library" if is_library(crate) else "program"
    check_dependencies(crate)
    if part is None:
        if f"rt: {crate} {KEPT}" in log:
            print(f"{crate}: {kind}, proved by an earlier rt ci")
        else:
            report.fail(f"{crate}: rt ci did not come to it")
        return
    verdicts = [line for line in part if line.startswith("logic=")]
    if len(verdicts) != 1 or not verdicts[0].startswith("logic=proved "):
        report.fail(f"{crate}: not one verdict 'logic=proved' but {verdicts}")
        return
    if f"rt: {crate} proved" not in log:
        report.fail(f"{crate}: rt does not say that it is proved")
    axioms = re.search(r" axioms=(\d+)", verdicts[0])
    count = int(axioms.group(1)) if axioms else 0
    if is_library(crate):
        check_axioms(crate, part, count)
    functions = re.search(r" functions=(\d+)", verdicts[0])
    print(f"{crate}: {kind}, {functions.group(1) if functions else 0} functions, {count} axioms")


def main():
    with open(sys.argv[1], errors="replace") as file:
        log = file.read().splitlines()
    check_trust(log)
    parts, listed = parts_of(log), crates()
    for crate in listed:
        check_crate(crate, log, parts.get(crate))
    if not listed:
        report.fail("crates.txt lists no crate")
    report.end(f"{len(listed)} crates, {report.failures} failures")


main()
