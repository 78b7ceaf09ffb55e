#!/usr/bin/env python3
"""believed.py [--list | --why NAME | --sections | --self-test]: what a reader must believe, computed and held against the map.

Who takes the prover's word for the proofs still has to read what is claimed:
  the contract of every public function of crates/*/src, and of each function that docs/PROMISES.md names;
  the statement of each theorem that it names, by itself (`crate/File.name`) or with its file (`crates/CRATE/proofs/File.antt`);
  and the definitions that these name, those that they name in turn, and so on: by type and clauses, a theorem by its type alone.
The walk ends at types of the source and at the kit's library. A file proofs/Refuted.antt has examples of what a definition refuses, on
which nothing rests: a theorem of it that the promises name is no beginning of the walk, and what it defines for itself is not counted.
The rules:
  a file of crates/*/specs has definitions that must be believed, or others, and not both;
  what must be believed stands in specs/, and in no file that says 'Nothing here has to be believed';
  docs/ARCHITECTURE.md lists the files of either kind, and those that it bids to read first are among the first kind.
--list prints the definitions by file, --why from where NAME is reached, --sections the two lists for docs/ARCHITECTURE.md, and
--self-test runs the tests of this file alone, which come first in any case.
"""
import re
import sys
import textwrap

from repository import ROOT, Report, crates
import antt
from antt import Unreadable

PROMISES, MAP = "docs/PROMISES.md", "docs/ARCHITECTURE.md"
FIRST, BELIEVED, OTHERS = "## Read these first", "## What a reader must believe", "## What need not be believed"
DENIAL = "Nothing here has to be believed"
EXAMPLES = "Refuted"  # the name of the files of examples
PRELUDE = set("Unit tt ⊥ absurd ¬".split())  # what no use line has to bring


def closing(text, at):
    """The place of the bracket that closes the one there."""
    depth = 0
    for place in range(at, len(text)):
        depth += {"(": 1, "{": 1, ")": -1, "}": -1}.get(text[place], 0)
        if depth == 0:
            return place
    raise Unreadable("a bracket stays open")


class Source:
    """A file of crates/CRATE/src: its functions, and the names that their contracts cite."""

    def __init__(self, path, text):
        self.crate = path.split("/")[1]
        text = re.sub(r"//.*", "", text)
        self.header = antt.File(f"crates/{self.crate}/specs/Lib.antt", "\n".join(re.findall(r"^ghost (use [^;]*);", text, re.M)))
        self.header.path = path
        self.functions = []  # name, whether it is public, names in its contract
        for function in re.finditer(r"^\s*(pub )?(?:extern \"C\" )?fn (\w+)", text, re.M):
            start = text.index("(", function.end())
            at = closing(text, start)
            parameters = {"self", "result", *re.findall(r"(\w+)\s*:", text[start:at])}
            found = antt.Names(lambda name: False)
            while clause := re.compile(r"(?:(?!\bfn\b)[^{])*?\b(?:requires|ensures)(?:\s+\w+)?\s*(?=\{)").match(text, at):
                at = closing(text, clause.end())
                found.expression(antt.tree(text[clause.end() + 1:at]), parameters)
            self.functions.append((function.group(2), bool(function.group(1)), list(found.found)))


class Tree:
    """The repository's texts by their paths, and what of them must be believed."""

    def __init__(self, texts):
        self.texts = texts
        self.files = {path: antt.File(path, text) for path, text in texts.items() if re.fullmatch(r"crates/\w+/(specs|proofs)/\w+\.antt", path)}
        self.sources = [Source(path, text) for path, text in texts.items() if re.fullmatch(r"crates/\w+/src/.*\.rt", path)]
        self.crates = {path.split("/")[1] for path in texts if path.startswith("crates/")}
        self.reached = {}  # a declaration: what it is reached from, another one or a root's name
        self.theorems = set()
        self.walk()
        self.believed = {one for one in self.reached if one not in self.theorems}

    # ---- what a name means

    def named(self, file, module, name):
        """A module's declaration; None for the kit's, for a type of the source, and for what is generated for a function."""
        path = re.fullmatch(r"Rattle\.(\w+)\.(specs|proofs)\.(.+)", module)
        if not path or path.group(1) not in self.crates or re.match(r"declared\b|\w+\.", path.group(3)):
            return None
        there = self.files.get("crates/{}/{}/{}.antt".format(*path.groups()))
        if there is None or name not in there.scope:
            raise Unreadable(f"{file.path}: {module} declares no {name}")
        return there.scope[name]

    def meaning(self, file, token):
        """The declaration that a token of a file names, if it is one of the repository's; a constructor's is its data type."""
        head, _, rest = token.partition(".")
        if token.startswith("Rattle."):
            return self.named(file, *token.rsplit(".", 1))
        if head in file.scope:
            return file.scope[head]
        if head in file.names:
            return self.named(file, *file.names[head])
        if rest and head in file.modules:
            return self.named(file, file.modules[head], rest.split(".")[0])
        return None

    def is_constructor(self, file, token):
        found, name = self.meaning(file, token), token.split(".")[-1]
        return found is not None and file.names.get(token, ("", name))[1] in found.constructors

    def meanings(self, file, tokens):
        """The declarations that free names of a file mean. Each has to come from somewhere, or this file misreads the text."""
        for token in tokens:
            head = token.split(".")[0]
            brought = head in file.scope or head in file.names or head in file.modules or head == "Rattle"
            if not brought and head not in PRELUDE and not head[0].isdigit():
                raise Unreadable(f"{file.path}: nothing brings the name {token}")
        return [found for found in (self.meaning(file, token) for token in tokens) if found]

    def taken(self, declaration):
        """The other declarations that one names."""
        file = declaration.file
        names = declaration.names(lambda token: self.is_constructor(file, token), statement=declaration in self.theorems)
        return [found for found in self.meanings(file, names) if found is not declaration]

    # ---- the walk

    def promised(self):
        """What the promises name: functions, and declarations of specs/ and proofs/, examples aside."""
        functions, declarations = set(), []
        for word in re.findall(r"`([^`\s]+)`", self.texts[PROMISES]):
            function = re.fullmatch(r"(\w+)::(\w+)", word)
            one = re.fullmatch(r"(\w+)/(\w+)\.(\S+)", word)
            if function:
                functions.add(function.groups())
            elif one:
                files = [self.files.get(f"crates/{one.group(1)}/{part}/{one.group(2)}.antt") for part in ("specs", "proofs")]
                declarations += [file.declarations[one.group(3)] for file in files if file and one.group(3) in file.declarations]
            elif word in self.files and self.files[word].part == "proofs":
                declarations += [one for one in self.files[word].declarations.values() if "pub" in one.marks]
        return functions, [one for one in declarations if not one.file.label.endswith(f"/{EXAMPLES}")]

    def walk(self):
        functions, declarations = self.promised()
        self.theorems = {one for one in declarations if not one.is_definition}
        todo = []

        def reach(found, origin):
            if found not in self.reached:
                self.reached[found] = origin
                todo.append(found)

        for source in self.sources:
            for name, public, cited in source.functions:
                if public or (source.crate, name) in functions:
                    for found in self.meanings(source.header, cited):
                        reach(found, f"the contract of {source.crate}::{name}")
        for found in declarations:
            reach(found, PROMISES)
        for declaration in todo:
            for found in self.taken(declaration):
                reach(found, declaration)

    def way(self, declaration):
        """From it back to a contract or the promises."""
        way = [declaration]
        while not isinstance(way[-1], str):
            way.append(self.reached[way[-1]])
        return [step if isinstance(step, str) else full(step) for step in way]

    # ---- by files

    def split(self, file):
        """A file's declarations that must be believed, and its others."""
        declared = file.declarations.values()
        return [one for one in declared if one in self.believed], [one for one in declared if one not in self.believed]

    def specs(self):
        return [file for file in self.files.values() if file.part == "specs" and file.declarations]

    def listed(self, heading):
        """The files that a section of the map names, a folder for all in it; None where there is no such section."""
        section = re.search(rf"^{re.escape(heading)}$(.*?)(?=^## |\Z)", self.texts[MAP], re.M | re.S)
        if not section:
            return None
        paths = re.findall(r"`(crates/\w+/specs(?:/\w+\.antt)?)`", section.group(1))
        return {found for path in paths for found in [file.path for file in self.specs() if file.path.startswith(f"{path}/")] or [path]}


def full(declaration):
    return f"{declaration.file.label}.{declaration.name}"


def named(declarations):
    return ", ".join(one.name for one in declarations)


def lines_of(declarations):
    return sum(one.length() for one in declarations)


# ---- the rules

def check(tree, fail):
    """Gives how much must be believed."""
    believed_files = {file.path for file in tree.specs() if tree.split(file)[0]}
    other_files = {file.path for file in tree.specs()} - believed_files
    for file in tree.files.values():
        believed, others = tree.split(file)
        if file.part == "proofs":
            for one in believed:
                fail(f"{file.path}: {one.name} must be believed and stands in proofs/: {' < '.join(tree.way(one))}")
            continue
        if believed and others:
            few = f"{named(believed)} must be believed, the other {len(others)} not" if len(believed) < len(others) else \
                f"{named(others)} need not be believed, the other {len(believed)} must"
            fail(f"{file.path}: it has both kinds: {few}")
        if believed and any(DENIAL in line for line in file.lines):
            fail(f"{file.path}: it says '{DENIAL}', and {named(believed)} must")
    for heading, computed, other in (BELIEVED, believed_files, "nothing that must be believed"), (OTHERS, other_files, "what must be believed"):
        listed = tree.listed(heading)
        if listed is None:
            fail(f"{MAP}: it has no section '{heading}'")
            continue
        for path in sorted(listed - computed):
            fail(f"{MAP}: '{heading}' has {path}, {f'which holds {other}' if path in tree.files else 'a file without definitions'}")
        for path in sorted(computed - listed):
            fail(f"{MAP}: '{heading}' lacks {path}")
    first = tree.listed(FIRST)
    if not first:
        fail(f"{MAP}: it has no section '{FIRST}' that names a file of specs/")
    for path in sorted((first or set()) - believed_files):
        fail(f"{MAP}: '{FIRST}' has {path}, which holds nothing that must be believed")
    much = f"{len(tree.believed)} definitions, {lines_of(tree.believed)} lines"
    return f"{much} must be believed; of the files of definitions {len(believed_files)} must, {len(other_files)} need not"


# ---- what is printed on demand

def print_list(tree):
    for file in tree.files.values():
        believed, others = tree.split(file)
        if believed:
            print(f"{file.path}: {lines_of(believed)} lines: {named(believed)}")
    print(f"\n{len(tree.believed)} definitions, {lines_of(tree.believed)} lines\n\nneed not be believed:")
    for file in tree.specs():
        believed, others = tree.split(file)
        if others:
            print(f"{file.path}{', in part' if believed else ''}: {named(others)}")


def print_sections(tree):
    for heading, wanted in (BELIEVED, True), (OTHERS, False):
        print(f"{heading}\n")
        files = [file for file in tree.specs() if bool(tree.split(file)[0]) == wanted]
        for crate in dict.fromkeys(file.crate for file in files):
            paths = ", ".join(f"`{file.path}`" for file in files if file.crate == crate)
            print(textwrap.fill(f"- {paths}", 110, subsequent_indent="  ", break_long_words=False, break_on_hyphens=False))
        print()


def print_why(tree, name):
    found = [one for file in tree.files.values() for one in file.declarations.values() if name in (one.name, full(one))]
    for one in found:
        print("\n  < ".join(tree.way(one)) if one in tree.reached else f"{full(one)}: from nothing that is claimed")
    if not found:
        print(f"no file of specs/ or proofs/ declares {name}")


def repository():
    texts = {}
    for crate in crates():
        folder = ROOT / "crates" / crate
        for path in [*sorted(folder.glob("src/**/*.rt")), *sorted(folder.glob("specs/*.antt")), *sorted(folder.glob("proofs/*.antt"))]:
            texts[str(path.relative_to(ROOT))] = path.read_text()
    for name in PROMISES, MAP:
        texts[name] = (ROOT / name).read_text() if (ROOT / name).is_file() else ""
    return Tree(texts)


# ---- the tests of this file: a small repository of which all is known

KIT = "use Rattle.std.specs.Prelude.{ℕ, zero, suc, ◌+◌, ◌≡◌}\n"
EXAMPLE = {
    "crates/low/specs/Base.antt": KIT + """
-- two lines of comment
-- directly above it
abbrev pub size : ℕ
size = 3

unfoldable pub twice : ℕ → ℕ
twice n = n joins n

abbrev pub thrice : ℕ → ℕ
thrice n = n + n + n

-- only a proof and a private function name it
abbrev pub idle : ℕ → ℕ
idle n = twice n

pub data Turn (S : Type 0) : Type 0 where
  stays : Turn S
  goes : S → Turn S

pub data Step : Type 0 where
  first : Step
  onward : ℕ → Step

infix 3 ◌joins◌
abbrev pub ◌joins◌ : ℕ → ℕ → ℕ
a joins b = a + b
""",
    # each of these is bound wherever Top writes its name, but for `again`
    "crates/low/specs/Bound.antt": KIT + """
abbrev pub section : ℕ
section = 0

abbrev pub arrow : ℕ
arrow = 0

abbrev pub variable : ℕ
variable = 0

abbrev pub case : ℕ
case = 0

abbrev pub lambda : ℕ
lambda = 0

abbrev pub local : ℕ
local = 0

abbrev pub field : ℕ
field = 0
""",
    "crates/low/specs/Again.antt": KIT + """
abbrev pub again : ℕ
again = 0

abbrev pub value : ℕ
value = 0
""",
    "crates/high/specs/Top.antt": KIT + """
use Rattle.low.specs.Base.{twice as double, Turn, goes, first, onward, ◌joins◌}
use Rattle.low.specs.Base as B
use Rattle.low.specs.Bound.{section, arrow, variable, case, lambda, local, field}
use Rattle.low.specs.Again.{again, value}
use Rattle.high.specs.declared.Thing.{Thing}

module _ {S : Type 0} (section : S → ℕ) where
  unfoldable pub walked : Turn S → (arrow : ℕ) → arrow ≡ arrow → Thing
  walked (goes variable) n p =
      let local : ℕ = section variable + value in
      elim n [ first ↦ local joins go variable | onward case ↦ B.thrice (λ lambda. lambda case, again) (λ again. again) ]
    where
      go : S → ℕ
      go variable = double (section variable)
  walked B.stays n' p = (record { field = n' }).field

abbrev pub after : ℕ
after = 0
""",
    "crates/high/specs/Claim.antt": KIT + """
pub record Promise (n : ℕ) : Type 0 where
  pub field : ℕ
  pub holds : n ≡ field + Rattle.low.specs.Base.size
""",
    "crates/high/proofs/Laws.antt": KIT + """
use Rattle.low.specs.Base.{idle}
use Rattle.high.specs.Claim.{Promise}

abbrev shorthand : ℕ
shorthand = 4

pub ruleset shorter = (shorthand, idle)

module _ (n : ℕ) where
  pub kept : Promise shorthand
  kept = lemma (idle n)
""",
    # examples: the walk does not begin here
    "crates/high/proofs/Refuted.antt": KIT + """
use Rattle.low.specs.Base.{idle}

abbrev wrong : ℕ
wrong = 5

pub not_so : idle wrong ≡ wrong → ⊥
not_so = lemma
""",
    "crates/high/src/lib.rt": """
ghost use Rattle.std.specs.Prelude.{◌≡◌};
ghost use Rattle.low.specs.Base.{idle};
ghost use Rattle.high.specs.Top.{walked, after};
fn inner(x: u32) -> u32
    requires { idle x ≡ 0 }
{ 0 }
pub fn outer(after: u32) -> [u32; 2]
    ensures same { result ≡ result }
    ensures walks {
        result ≡ walked after
    }
{ inner(after) }
""",
    PROMISES: "`high/Laws.kept`, `crates/high/proofs/Refuted.antt`: `high/Refuted.not_so`",
    MAP: f"{FIRST}\n`crates/high/specs/Claim.antt`\n{BELIEVED}\n`crates/low/specs/Base.antt`, `crates/low/specs/Again.antt`, `crates/high/specs`\n"
         f"{OTHERS}\n`crates/low/specs/Bound.antt`\n",
}
KNOWN = ["high/Claim.Promise", "high/Laws.shorthand", "high/Top.walked", "low/Again.again", "low/Again.value",
         "low/Base.Step", "low/Base.Turn", "low/Base.size", "low/Base.thrice", "low/Base.twice", "low/Base.◌joins◌"]
FAILURES = [
    "crates/low/specs/Base.antt: it has both kinds: idle need not be believed, the other 6 must",
    "crates/high/specs/Top.antt: it has both kinds: after need not be believed, the other 1 must",
    f"crates/high/proofs/Laws.antt: shorthand must be believed and stands in proofs/: high/Laws.shorthand < high/Laws.kept < {PROMISES}",
]


def self_test(fail):
    def expect(what, found, wanted):
        if found != wanted:
            fail(f"self-test: {what}: {found} and not {wanted}")

    def with_edit(path, old, new):
        return Tree({**EXAMPLE, path: EXAMPLE[path].replace(old, new)})

    def believed(tree):
        return sorted(full(one) for one in tree.believed)

    def failures(tree):
        said = []
        check(tree, said.append)
        return [line for line in said if line not in FAILURES]

    tree = Tree(EXAMPLE)
    base = tree.files["crates/low/specs/Base.antt"].declarations
    expect("what must be believed", believed(tree), KNOWN)
    expect("its way", tree.way(base["size"]), ["low/Base.size", "high/Claim.Promise", "high/Laws.kept", PROMISES])
    expect("lines", [base[name].length() for name in ("size", "twice", "Turn")], [4, 2, 3])
    said = []
    check(tree, said.append)
    expect("failures", said, FAILURES)
    expect("a public function more", believed(with_edit("crates/high/src/lib.rt", "fn inner", "pub fn inner")), sorted([*KNOWN, "low/Base.idle"]))
    expect("a promised function", believed(with_edit(PROMISES, "`high/Laws", "`high::inner` `high/Laws")), sorted([*KNOWN, "low/Base.idle"]))
    expect("a promise less", believed(with_edit(PROMISES, "kept", "lost")), [one for one in KNOWN if one.split(".")[1] not in ("Promise", "shorthand", "size")])
    expect("a file promised whole", believed(with_edit(PROMISES, "high/Laws.kept", "crates/high/proofs/Laws.antt")), KNOWN)
    expect("an example as a theorem", believed(Tree({
        **{path.replace("Refuted", "Refuses"): text for path, text in EXAMPLE.items()}, PROMISES: "`high/Laws.kept` `high/Refuses.not_so`"})),
        sorted([*KNOWN, "low/Base.idle", "high/Refuses.wrong"]))
    example = "Rattle.high.proofs.Refuted.wrong"
    expect("an example in a statement", believed(with_edit("crates/high/proofs/Laws.antt", "Promise shorthand", f"Promise {example}")),
           sorted([*(one for one in KNOWN if one != "high/Laws.shorthand"), "high/Refuted.wrong"]))
    expect("a list too short", failures(with_edit(MAP, "`crates/low/specs/Base.antt`, ", "")), [f"{MAP}: '{BELIEVED}' lacks crates/low/specs/Base.antt"])
    expect("a list too long", failures(with_edit(MAP, "`crates/high/specs`", "`crates/high/specs`, `crates/low/specs/Bound.antt`")),
           [f"{MAP}: '{BELIEVED}' has crates/low/specs/Bound.antt, which holds nothing that must be believed"])
    expect("a false comment", failures(with_edit("crates/low/specs/Again.antt", "\nabbrev", f"-- {DENIAL}.\nabbrev")),
           [f"crates/low/specs/Again.antt: it says '{DENIAL}', and again, value must"])
    for what, path, old, new in (
        ("a glob", "crates/high/specs/Top.antt", "use Rattle.low.specs.Again", "use Rattle.low.specs.Bound.*\nuse Rattle.low.specs.Again"),
        ("a name that nothing brings", "crates/high/specs/Top.antt", "{again, ", "{"),
        ("a name that is not declared", "crates/low/specs/Again.antt", "again", "other"),
        ("a clause of nothing", "crates/high/specs/Top.antt", "after = 0", "other = 0"),
    ):
        try:
            with_edit(path, old, new)
            fail(f"self-test: {what} was passed over")
        except Unreadable:
            pass


def main():
    report = Report()
    self_test(report.fail)
    if sys.argv[1:] == ["--self-test"]:
        report.end(f"self-test: {report.failures} failures")
    try:
        tree = repository()
    except Unreadable as error:
        report.fail(f"cannot be read: {error}")
        report.end("nothing was computed")
    if sys.argv[1:] == ["--list"]:
        print_list(tree)
    elif sys.argv[1:] == ["--sections"]:
        print_sections(tree)
    elif len(sys.argv) == 3 and sys.argv[1] == "--why":
        print_why(tree, sys.argv[2])
    elif sys.argv[1:]:
        sys.exit(__doc__)
    else:
        summary = check(tree, report.fail)
        report.end(f"{summary}; {report.failures} failures")


main()
