#!/usr/bin/env python3
"""names.py: what the documents name in backticks is there, and their links lead somewhere.

In docs/PROMISES.md, docs/ARCHITECTURE.md, docs/DECISIONS.md and CONTRIBUTING.md:
  `crate::name`       a function, struct, enum or trait of crates/CRATE/src, or what it passes on of another crate by 'pub use';
                      `crate::Type::name` a method of it
  `crate/File.name`   a declaration of crates/CRATE/specs/File.antt or crates/CRATE/proofs/File.antt
  `any/path`          a file or folder of the repository (target/ and a crate's out/ are made, and passed over), as crates/raster/proofs/fill;
                      NAME and LABEL in it stand for any name, of which there must be one
Other words in backticks mean nothing here. In README.md, CONTRIBUTING.md and docs/*.md each link to a local file must
lead to one.
"""
import functools
import re

from repository import ROOT, Report, crates
import antt

KIT = {"std"}

report = Report()


def lines_of(document):
    """The lines of a document with their numbers, without its code blocks."""
    fenced = False
    for number, line in enumerate(document.read_text().splitlines(), 1):
        if line.lstrip().startswith("```"):
            fenced = not fenced
        elif not fenced:
            yield number, line


def declared_in_source(crate):
    names = set()
    for source in (ROOT / "crates" / crate / "src").rglob("*.rt"):
        text = source.read_text()
        names.update(re.findall(r"^\s*(?:pub )?(?:extern \"C\" )?(?:const )?(?:fn|struct|enum|trait)\s+(\w+)", text, re.M))
        for passed_on in re.findall(r"^pub use ([^;]*);", text, re.M):
            names.update(re.findall(r"(\w+)\s*(?=[,}]|\Z)", passed_on))
    return names


@functools.cache
def declared_in_antt(file):
    return antt.File(str(file.relative_to(ROOT)), file.read_text()).declarations


def check_function(where, crate, name):
    if crate in KIT:
        return
    if crate not in crates():
        report.fail(f"{where}: `{crate}::{name}`: crates.txt lists no crate {crate}")
    for part in name.split("::") if crate in crates() else ():
        if part not in declared_in_source(crate):
            report.fail(f"{where}: `{crate}::{name}`: crates/{crate}/src has no function, struct, enum or trait {part}")


def check_declaration(where, crate, file, name):
    reference = f"`{crate}/{file}.{name}`"
    if crate not in crates():
        report.fail(f"{where}: {reference}: crates.txt lists no crate {crate}")
        return
    found = [f for f in (ROOT / "crates" / crate / part / f"{file}.antt" for part in ("specs", "proofs")) if f.is_file()]
    if not found:
        report.fail(f"{where}: {reference}: neither crates/{crate}/specs nor crates/{crate}/proofs has a file {file}.antt")
        return
    try:
        if not any(name in declared_in_antt(f) for f in found):
            report.fail(f"{where}: {reference}: {' and '.join(str(f.relative_to(ROOT)) for f in found)} declare no {name}")
    except antt.Unreadable as error:
        report.fail(f"{where}: {reference}: {error}")


def check_path(where, path):
    if path.startswith("target/") or re.match(r"crates/\w+/out(/|$)", path) or "://" in path:
        return
    pattern = re.sub(r"\b(?:NAME|LABEL)\b", "*", path)
    there = any(ROOT.glob(pattern.strip("/"))) if "*" in pattern else (ROOT / path.lstrip("/")).exists()
    if not there:
        report.fail(f"{where}: `{path}`: there is no such file or folder")


def check_word(where, word):
    """Whether the word was a reference."""
    function = re.fullmatch(r"([a-z]\w*)::(\w+(?:::\w+)*)(?:\(.*\))?", word)
    declaration = re.fullmatch(r"([a-z]\w*)/([A-Z]\w*)\.([^\s/]+)", word)
    if function:
        check_function(where, *function.groups())
    elif declaration and declaration.group(3) not in ("antt", "md"):
        check_declaration(where, *declaration.groups())
    elif "/" in word and not re.search(r"\s", word) and word.strip("/"):
        check_path(where, word)
    else:
        return False
    return True


def check_references(document):
    count = 0
    for number, line in lines_of(document):
        for word in re.findall(r"`([^`]+)`", line):
            count += check_word(f"{document.relative_to(ROOT)}:{number}", word)
    return count


def check_links(document):
    count = 0
    for number, line in lines_of(document):
        for link in re.findall(r"\]\(([^)\s]+)\)", re.sub(r"`[^`]*`", "", line)):
            path = link.split("#")[0]
            if not path or re.match(r"[a-z]+:", link):
                continue
            count += 1
            if not (document.parent / path).exists():
                report.fail(f"{document.relative_to(ROOT)}:{number}: the link ({link}) leads nowhere")
    return count


def main():
    references = links = 0
    for name in "docs/PROMISES.md", "docs/ARCHITECTURE.md", "docs/DECISIONS.md", "CONTRIBUTING.md":
        if (ROOT / name).is_file():
            references += check_references(ROOT / name)
        else:
            report.fail(f"{name} is missing")
    for document in [ROOT / "README.md", ROOT / "CONTRIBUTING.md", *sorted((ROOT / "docs").glob("*.md"))]:
        if document.is_file():
            links += check_links(document)
        else:
            report.fail(f"{document.relative_to(ROOT)} is missing")
    report.end(f"{references} references, {links} links, {report.failures} failures")


main()
