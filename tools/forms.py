#!/usr/bin/env python3
"""forms.py [FOLDER]: counts in FOLDER/crates/*/src the forms that docs/DESIGN-PASS.md speaks of, and the lines of proofs.

FOLDER is a checkout of this repository, by default the one that this file stands in. What only a reader can tell (whether an enum is an
Option by another name, whether two functions are twins) is told there; here is what a pattern finds.
"""
import collections
import pathlib
import re
import sys

ROOT = pathlib.Path(sys.argv[1] if len(sys.argv) > 1 else pathlib.Path(__file__).resolve().parent.parent)
FORMS = [
    ("1", "own enums", r"^\s*(?:pub )?enum \w+"),
    ("1", "functions that give an enum's number", r"\bfn (?:write|read|run|picture|append|writer|cause|end)_number\b"),
    ("1", "Option and Result in signatures and fields", r"\b(?:Option|Result)<"),
    ("1", "`?`", r"\?[;.)]"),
    ("2", "functions", r"\bfn \w+"),
    ("2", "own traits", r"^\s*(?:pub )?trait \w+"),
    ("3", "while", r"\bwhile\b"),
    ("3", "for", r"\bfor \w+ in\b"),
    ("4", "From impls", r"^impl From<"),
    ("4", "derives of PartialEq", r"\bPartialEq\b"),
    ("style", "a test bound by let, then tested", r"let (\w+) = [^;]*;\n\s*if !?\1 \{"),
    ("style", "return", r"\breturn\b"),
]
GROUPS = [
    ("ring", "framebuffer", "screen", "cursor"), ("posts", "framebuffer", "frame"), ("width", "rows"), ("sx", "sy"),
    ("lo", "hi"), ("from", "to", "n"), ("line", "out"),
]


def sources():
    """The source of each crate, without its comments."""
    texts = collections.defaultdict(str)
    for file in sorted((ROOT / "crates").glob("*/src/*.rt")):
        texts[file.parts[-3]] += re.sub(r"//[^\n]*", "", file.read_text())
    return texts


def parameters(texts):
    for text in texts.values():
        for names in re.findall(r"\bfn \w+(?:<[^>]*>)?\(([^)]*)\)", text):
            yield {part.split(":")[0].strip() for part in names.split(",")}


def facts(texts):
    """Each part of a requires, what it says of a slice's length being said of S."""
    for text in texts.values():
        for clause in re.findall(r"requires(?: \w+)? \{([^}]*)\}", text):
            for part in clause.split("×"):
                part = " ".join(re.sub(r"[()]", " ", part).split())
                yield re.sub(r"\b(screen|ring|row|memory|picture|framebuffer|to|line|image)\.(old|now)\b", "S", part)


def lines(pattern):
    files = list((ROOT / "crates").glob(pattern))
    return len(files), sum(len(file.read_text().splitlines()) for file in files)


def main():
    texts = sources()
    for point, name, pattern in FORMS:
        found = {crate: len(re.findall(pattern, text, re.M)) for crate, text in texts.items()}
        print(f"{point}: {name}: {sum(found.values())}", {crate: n for crate, n in found.items() if n})
    groups = list(parameters(texts))
    for group in GROUPS:
        print(f"5: functions with the parameters {', '.join(group)}: {sum(set(group) <= names for names in groups)}")
    for fact, n in collections.Counter(facts(texts)).most_common():
        if n > 2:
            print(f"5: a fact in {n} clauses: {fact}")
    for name, pattern in (("answers", "*/proofs/**/Answers.antt"), ("invariants", "*/proofs/**/Invariants.antt"), ("lemma files", "*/proofs/*.antt")):
        print("8: {}: {} files, {} lines".format(name, *lines(pattern)))
    print("source: {} files, {} lines".format(*lines("*/src/*.rt")))


main()
