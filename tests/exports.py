#!/usr/bin/env python3
"""exports.py: what C links is what is proved of the library: svga_c exports each public function of svga, under its name, with the same parameters,
result and clauses, word for word. The theorems about hosts speak of svga; the archive is made of svga_c."""
import re

from repository import ROOT, Report

report = Report()

PUBLIC = re.compile(r"^pub (?:extern \"C\" )?fn (\w+)(.*?)^\{", re.M | re.S)


def functions(crate):
    """Each public function's name, and all that stands between that and its body, in one spelling of white space and commas."""
    text = re.sub(r"^\s*//.*\n", "", (ROOT / "crates" / crate / "src" / "lib.rt").read_text(), flags=re.M)
    return {name: re.sub(r",\s*\)", ")", re.sub(r"\(\s+", "(", re.sub(r"\s+", " ", rest))).strip() for name, rest in PUBLIC.findall(text)}


def exported():
    text = (ROOT / "crates" / "svga_c" / "src" / "lib.rt").read_text()
    return set(re.findall(r"^#\[unsafe\(no_mangle\)\]\npub extern \"C\" fn (\w+)", text, re.M))


def main():
    library, archive, names = functions("svga"), functions("svga_c"), exported()
    for name in sorted(library.keys() | archive.keys() | names):
        if name not in library:
            report.fail(f"svga_c::{name}: svga has no such function")
        elif name not in archive or name not in names:
            report.fail(f"svga::{name}: svga_c does not export it")
        elif library[name] != archive[name]:
            report.fail(f"svga_c::{name} is not what svga::{name} is:\n  {archive[name]}\n  {library[name]}")
    if len(library) < 10:
        report.fail(f"svga has {len(library)} public functions, and include/svga.h has ten calls")
    report.end(f"{len(library)} calls, {report.failures} failures")


main()
