#!/usr/bin/env python3
"""respell.py [--list]: brings the repository's own definitions and lemmas to Rattle's spelling.

Run once, at the top, right after the kit's port.py. Types and modules keep their camel case. Every other name of specs/ and
proofs/ becomes snake case: 'spanBelow' is span_below, 'row-of-place' is row_of_place. A dash stays where it joins a word of std
to the name of a definition, as in 'length-painted_if', since that is how Rattle names a law by its left side. Where a
definition and a law would get one name, the law's ends in _lem.
Names of src/ (functions, fields, parameters, constants), strings, inputs and outputs keep their spelling.
--list prints the old and new names and changes nothing.
"""
import pathlib
import re
import sys

ROOT = pathlib.Path(__file__).resolve().parent.parent
TOKEN = re.compile(r"[^\s(){}.;,:|\"`\[\]⌜⌝⟦⟧]+")
# What the laws' names call words of std.
WORDS = {"getD": "get_or"}
# Laws on such a word that port.py respelled otherwise, and members of specs/ that would fall together with a definition.
ON_WORDS = {
    "ops-of": "ops_in",
    "fault-stands": "fault_stands",
    "is-command": "is_a_command",
    "get_d_words": "get_or-words",
    "get_d_tabulate": "get_or-tabulate",
    "get_d_front": "get_or-front",
    "get_d_past": "get_or_past",
}
STD = set("length append get_or take drop map replicate sum min max".split())
# Laws that have a definition's new name after port.py.
LAWS = set("held_in left_by lent_length one_more read_back rows_fit run_in set_reads too_large turned_by written_out".split())
# What port.py itself respelled in code, definitions and proofs, and not in edits and pages.
PORTED = """allOf answerIn answerOf atOf bitAnd bitOr bitXor byteOf callOf countOf cutOf cutTo dataOf effectOf endOf frameOf hasKey headOf
idOf inArea inRange inWords kindOf knownOf leftOf lentBy lineOf linesOf machineOf madeOf maxOf midOf nextOf numberOf opOf opsOf
pairOf passedBy placeOf postOf putAt putIn putMid readBy readOf rowIn rowOf rowsOf runBy runOf sceneFor shapeAt sizeOf stateOf stopAt
tagOf textOf turnOf viewOf walkOf widthOf wordsIn writtenBy writtenOf""".split()
OUTSIDE = {"getD": "get_or", "the-variants": "TheVariants", "the-constants": "TheConstants"}


def sources():
    for crate in sorted((ROOT / "crates").iterdir()):
        yield from sorted((crate / "specs").glob("*.antt"))
        yield from sorted((crate / "proofs").rglob("*.antt"))


def declared(text):
    """The names that a file declares at its top level, and whether each is a definition (or a type); fields and constructors."""
    inside = None
    for line in text.splitlines():
        if re.match(r"\s*--|\s*use ", line) or not line.strip():
            continue
        kind = re.match(r"(?:abbrev |unfoldable )*(?:pub )?(?:abbrev |unfoldable )*(data|record)\s+([^\s:(){}]+)", line)
        if kind:
            inside = kind.group(1)
            yield kind.group(2), True
            continue
        if not line.startswith(" "):
            inside = None
        top = re.match(r"((?:abbrev |unfoldable |pub )*)([^\s:(){}=]+)\s+:(?:\s|$)", line)
        if top and not line.startswith(" "):
            yield top.group(2), "abbrev" in top.group(1) or "unfoldable" in top.group(1)
            continue
        member = re.match(r"\s+(?:pub )?([^:(){}=λ]+?)\s+:\s", line)
        if member and inside:
            for name in member.group(1).split():
                yield name, False
        nested = re.match(r" +((?:abbrev |unfoldable |pub )*)([^\s:(){}=]+)\s+:(?:\s|$)", line)
        if nested and not inside:
            yield nested.group(2), False


def snake(piece):
    piece = WORDS.get(piece, piece)
    if piece[:1].isupper():
        return piece
    return re.sub(r"(?<=[a-z0-9ℕℤ])([A-Z])", lambda m: "_" + m.group(1).lower(), re.sub(r"^[A-Z]", lambda m: m.group(0).lower(), piece))


def joined(name, definitions):
    """A dashed name: a dash stays behind a word of std, as in 'length-painted_if', if the rest is a definition's name."""
    first, *rest = [snake(it) for it in name.split("-")]
    last = "_".join(rest)
    return f"{first}{'-' if first in STD and last in definitions else '_'}{last}"


def renamed():
    names, definitions = {}, set(STD)
    for file in sources():
        # a function's own folder: Rattle makes its goals' names, and its proof is written anew
        by_hand = file.parent.name != "proofs" and file.parent.name != "specs"
        for name, is_definition in declared(file.read_text()):
            if by_hand:
                continue
            names.setdefault(name, set()).add(str(file.relative_to(ROOT)))
            if is_definition and "-" not in name:
                definitions.add(snake(name))
    spelled = {**ON_WORDS, **{it: f"{it}_lem" for it in LAWS}}
    camel = {snake(it) for it in names if "-" not in it}
    for name in names:
        if "◌" in name or name.startswith("+") or name in LAWS or name in ON_WORDS:
            continue
        new = joined(name, definitions) if "-" in name else snake(name)
        if "-" in name and new in camel:
            new += "_lem"
        if new != name:
            spelled[name] = new
    return spelled, names


def respell(text, spelled):
    return TOKEN.sub(lambda m: spelled.get(m.group(0), m.group(0)), text)


def in_antt(text, spelled):
    out = []
    for line in text.split("\n"):
        code, mark, comment = line.partition("--") if line.lstrip().startswith("--") else (line, "", "")
        out.append(respell(code, spelled) + mark + in_prose(comment, spelled))
    return "\n".join(out)


def in_prose(text, spelled):
    return re.sub(r"`([^`\n]+)`", lambda m: "`" + re.sub(r"[^\s(){}.;,:|\"`\[\]/]+", lambda t: spelled.get(t.group(0), t.group(0)), m.group(1)) + "`", text)


def in_source(text, spelled):
    """Clauses, ghost items and what comments name; code keeps its names, which are in snake case and have no dash."""
    camel = {old: new for old, new in spelled.items() if "-" not in old and old not in LAWS}
    out = []
    for line in text.split("\n"):
        if line.lstrip().startswith("//"):
            out.append(in_prose(line, spelled))
        elif re.match(r"\s*(ghost|requires|ensures)\b", line):
            out.append(respell(line, {**spelled, **camel, **{it: it for it in LAWS}}))
        else:
            out.append(respell(line, camel))
    return "\n".join(out)


def in_edit(text, spelled):
    out = []
    is_antt = re.search(r"^file: (?:specs|proofs)/", text, re.M)
    for line in text.split("\n"):
        if re.match(r"(old|new):", line):
            out.append(in_antt(line, spelled) if is_antt else in_source(line, spelled))
        else:
            out.append(in_prose(line, spelled))
    return "\n".join(out)


def main():
    spelled, names = renamed()
    if "--list" in sys.argv[1:]:
        for old in sorted(spelled):
            print(old, spelled[old])
        return
    changed = 0
    outside = {**{it: snake(it) for it in PORTED}, **OUTSIDE, **spelled}
    turns = [
        *((it, in_antt) for it in sources()),
        *((it, in_source) for it in sorted((ROOT / "crates").glob("*/src/**/*.rt"))),
        *((it, in_edit) for it in sorted((ROOT / "crates").glob("*/must-fail/*.edit"))),
        *((it, in_prose) for it in [ROOT / "README.md", ROOT / "CONTRIBUTING.md", *sorted((ROOT / "docs").rglob("*.md"))]),
    ]
    for file, turn in turns:
        old = file.read_text()
        new = turn(old, outside if turn in (in_edit, in_prose) else spelled)
        if new != old:
            file.write_text(new)
            changed += 1
    print(f"respell: {len(spelled)} names, {changed} files")


if __name__ == "__main__":
    main()
