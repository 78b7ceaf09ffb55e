#!/usr/bin/env python3
"""calls.py ARCHIVE FROM TO: in the archive's machine code, TO is called from FROM or from a function that FROM reaches."""
import re
import shutil
import subprocess
import sys

from repository import Report

report = Report()


def calls_of(disassembly):
    """For each function the names that its calls and jumps go to, as objdump -dr prints them."""
    calls = {}
    here = None
    for line in disassembly.splitlines():
        function = re.match(r"[0-9a-f]+ <(.+)>:$", line)
        relocation = re.search(r"\bR_X86_64_(?:PLT32|PC32|GOTPCRELX?)\s+(\S+?)(?:[-+]0x[0-9a-f]+)?$", line)
        direct = re.search(r"\b(?:call|jmp)q?\s+[0-9a-f]+ <([^>+]+)>", line)
        if function:
            here = calls.setdefault(function.group(1), set())
        elif here is not None and relocation:
            here.add(relocation.group(1).removeprefix(".text."))
        elif here is not None and direct:
            here.add(direct.group(1))
    return calls


def reached_from(start, calls):
    reached, todo = set(), [start]
    while todo:
        name = todo.pop()
        if name not in reached:
            reached.add(name)
            todo.extend(calls.get(name, ()))
    return reached


def main():
    archive, start, wanted = sys.argv[1:]
    if shutil.which("objdump") is None:
        report.fail("objdump is not on PATH (it is part of binutils), so the machine code was not looked at")
        report.end("nothing checked")
    run = subprocess.run(["objdump", "-dr", archive], capture_output=True, text=True)
    if run.returncode:
        report.fail(f"objdump cannot read {archive}: {run.stderr.strip()}")
        report.end("nothing checked")
    calls = calls_of(run.stdout)
    reached = reached_from(start, calls)
    if start not in calls:
        report.fail(f"{archive} has no function {start}")
    elif wanted not in reached:
        report.fail(f"{start} reaches no call of {wanted}, only {', '.join(sorted(reached - {start})) or 'itself'}")
    callers = sorted(name for name in reached if wanted in calls.get(name, ()))
    report.end(f"{start} calls {wanted} in {', '.join(callers) or 'no function'}")


main()
