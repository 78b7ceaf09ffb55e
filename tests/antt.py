"""Reads antt files for the checks beside this file: what a file declares, and which names each declaration takes from elsewhere.

Names are taken by scope: what a pattern, a λ, a let, a (x : A) → or a section binds is no reference where it is bound. A form that
is not read here (mutual, open, do, a glob) raises Unreadable and is not passed over.
"""
import re

NAME = r"[^\s(){}.;,@\"«»]+"
TOKEN = re.compile(rf'"(?:\\.|[^"\\])*"|«[^»]*»|{NAME}(?:\.{NAME})*|\.{NAME}|[(){{}}.;,@]')
MARKS = r"(?:(?:unfoldable|abbrev|axiom|pub) )*"
CLOSER = {"(": ")", "{": "}", "[": "]"}
WORDS = {"λ", "let", "in", "elim", "as", "unfold", "record", "Type", "→", "=", ":", "|", "↦", "_", "×", "@"}


class Unreadable(Exception):
    pass


def parts_of(name):
    """The words between which an operator's operands stand, as ∷ of ◌∷◌; of another name none."""
    return [part for part in name.split("◌") if part] if "◌" in name else []


def grouped(tokens):
    """The tokens as a tree: what stands in brackets is a list that begins with its opening bracket."""
    stack = [["top"]]
    for token in tokens:
        if token in CLOSER:
            stack.append([token])
        elif token in CLOSER.values():
            group = stack.pop()
            if CLOSER.get(group[0]) != token:
                raise Unreadable(f"a '{token}' closes nothing")
            stack[-1].append(group)
        else:
            stack[-1].append(token)
    if len(stack) > 1:
        raise Unreadable(f"a '{stack[-1][0]}' stays open")
    return stack[0][1:]


def tree(text):
    tokens = []
    for line in text.splitlines():
        for token in TOKEN.findall(line):
            if token.startswith("--"):
                break
            tokens.append(token)
    return grouped(tokens)


def parted(nodes, marks):
    """The parts between the marks."""
    parts = [[]]
    for node in nodes:
        if isinstance(node, str) and node in marks:
            parts.append([])
        else:
            parts[-1].append(node)
    return parts


def is_binder(node):
    """(x y : A) or {x : A}: antt has no type ascription, so a colon in brackets binds."""
    return node[0] in "({" and ":" in node and all(isinstance(name, str) for name in node[1:node.index(":")])


class Names:
    """Collects in `found` the names that a piece of text takes from outside of it."""

    def __init__(self, is_constructor):
        self.is_constructor = is_constructor
        self.found = {}  # a dict, to keep the order

    def name(self, token, bound):
        if token not in WORDS and not token.startswith((".", '"')) and token.split(".")[0] not in bound:
            self.found[token] = True

    def expression(self, nodes, bound):
        for part in parted(nodes, ",;|"):
            self.part(part, bound)

    def part(self, nodes, bound):
        """What a λ, a let or a binder binds holds up to the part's end. Gives all that is bound there."""
        at = 0
        while at < len(nodes):
            node = nodes[at]
            if node == "λ":
                dot = nodes.index(".", at)
                bound = self.binders(nodes[at + 1:dot], bound)
                at = dot
            elif node == "let":
                equals = nodes.index("=", at)
                end = self.end_of_let(nodes, equals)
                left = parted(nodes[at + 1:equals], ":")
                for kind in left[1:]:
                    self.expression(kind, bound)
                self.expression(nodes[equals + 1:end], bound)
                bound = self.pattern(left[0], bound)
                at = end
            elif node == "do":
                raise Unreadable("a do block")
            elif node == "record" and isinstance(nodes[at + 1], list):
                self.fields(nodes[at + 1][1:], bound)
                at += 1
            elif isinstance(node, str):
                self.name(node, bound)
            elif is_binder(node):
                bound = self.binders([node], bound)
            elif node[0] == "{":
                self.fields(node[1:], bound)
            elif node[0] == "[":
                self.cases(node[1:], bound)
            else:
                self.expression(node[1:], bound)
            at += 1
        return bound

    def end_of_let(self, nodes, at):
        depth = 1
        while depth:
            at += 1
            if at == len(nodes):
                raise Unreadable("a let without in")
            depth += {"let": 1, "unfold": 1, "in": -1}.get(nodes[at] if isinstance(nodes[at], str) else "", 0)
        return at

    def binders(self, nodes, bound):
        for node in nodes:
            if isinstance(node, list) and is_binder(node):
                colon = node.index(":")
                self.expression(node[colon + 1:], bound)
                bound = bound | set(node[1:colon])
            else:
                bound = self.pattern([node], bound)
        return bound

    def fields(self, nodes, bound):
        """{x = e; y = e}, of a record or an implicit argument, and {x : A; y : B}, of a record type."""
        for part in parted(nodes, ";"):
            if len(part) > 1 and part[1] in ("=", ":"):
                self.expression(part[2:], bound)
                bound = bound | {part[0]} if part[1] == ":" else bound
            else:
                self.expression(part, bound)

    def cases(self, nodes, bound):
        for part in parted(nodes, "|"):
            if "↦" in part:
                arrow = part.index("↦")
                self.expression(part[arrow + 1:], self.pattern(part[:arrow], bound))
            else:
                self.expression(part, bound)

    def pattern(self, nodes, bound):
        """A constructor in scope is that constructor; any other name is bound."""
        for node in nodes:
            if isinstance(node, list):
                inner = node[1:]
                bound = self.pattern(inner[2:] if node[0] == "{" and "=" in inner[1:2] else inner, bound)
            elif node in WORDS or node in ",;" or node.startswith("."):
                continue
            elif self.is_constructor(node):
                self.found[node] = True
            else:
                bound = bound | {node}
        return bound


class Declaration:
    """A signature with its clauses, a record or a data type."""

    def __init__(self, file, name, kind, marks, first, sections):
        self.file, self.name, self.kind, self.marks, self.first, self.last = file, name, kind, marks, first, first
        self.sections = sections  # the parameters of the sections around it, outermost first
        self.parameters, self.type = [], []
        self.clauses = []  # each with the declarations behind its where
        self.members = []  # names and type: a record's fields, a data type's constructors

    @property
    def is_definition(self):
        """In proofs/ what is declared plainly is a theorem."""
        return self.kind != "plain" or self.file.part == "specs"

    @property
    def constructors(self):
        return [name for names, _ in self.members for name in names] if self.kind == "data" else []

    def length(self):
        """Its lines, with the comment directly above it."""
        lines, top = self.file.lines, self.first - 1
        while top > 0 and lines[top - 1].lstrip().startswith("--"):
            top -= 1
        return sum(1 for line in lines[top:self.last] if line.strip())

    def names(self, is_constructor, statement=False):
        """The names that it takes from elsewhere; of a statement, those of its type and of the sections around it."""
        found = Names(is_constructor)
        bound = frozenset()
        try:
            for section in self.sections:
                bound = found.part(section, bound)
            self.collect(found, bound, statement)
        except (Unreadable, ValueError, IndexError) as error:
            raise Unreadable(f"{self.file.path}: {self.name}: {error}") from None
        return list(found.found)

    def collect(self, found, bound, statement=False):
        inside = found.part(self.parameters, bound)
        found.expression(self.type, inside)
        if statement:
            return
        for names, kind in self.members:
            found.expression(kind, inside)
            if self.kind == "record":
                inside = inside | set(names)
        own = {self.name, *parts_of(self.name)}
        for left, right, helpers in self.clauses:
            there = found.pattern([node for node in left if isinstance(node, list) or node not in own], bound)
            there = there | {helper.name for helper in helpers}
            found.expression(right, there)
            for helper in helpers:
                helper.collect(found, there)


class File:
    """A file of crates/CRATE/specs or crates/CRATE/proofs."""

    def __init__(self, path, text):
        self.path, self.lines = path, text.splitlines()
        self.crate, self.part, self.module = re.fullmatch(r"crates/(\w+)/(specs|proofs)/(\w+)\.antt", path).groups()
        self.names = {}  # brought by a use line: the module and the name there
        self.modules = {}  # brought by 'use M' and 'use M as X'
        self.declarations = {}
        self.scope = {}  # declared names, constructors and the parts of operators
        try:
            if "{-" in text:
                raise Unreadable("a comment in brackets")
            numbered = [(number, line) for number, line in enumerate(self.lines, 1) if line.strip() and not line.lstrip().startswith("--")]
            for declaration in self.block(numbered, []):
                if declaration.name in self.declarations:
                    raise Unreadable(f"{declaration.name} is declared twice")
                self.declarations[declaration.name] = declaration
                for name in [declaration.name, *declaration.constructors]:
                    self.scope.update((part, declaration) for part in [name, *parts_of(name)])
        except Unreadable as error:
            raise Unreadable(f"{path}: {error}") from None

    @property
    def label(self):
        return f"{self.crate}/{self.module}"

    def block(self, lines, sections):
        """The declarations of lines at one margin."""
        declarations = []
        while lines:
            margin = indent(lines[0])
            end = end_of_item(lines)
            self.item(lines[:end], sections, declarations)
            if end < len(lines) and indent(lines[end]) < margin:
                raise Unreadable(f"line {lines[end][0]}: its margin is no block's")
            lines = lines[end:]
        return declarations

    def item(self, lines, sections, declarations):
        """A line with the deeper ones below it."""
        number, first = lines[0][0], lines[0][1].strip()
        text = "\n".join(line for _, line in lines)
        try:
            if re.match(r"module _\b", first):
                head, body = headed(lines)
                declarations.extend(self.block(body, sections + [tree(head)[2:-1]]))
            elif re.match(rf"{MARKS}use ", first):
                self.use(" ".join(text.split()))
            elif re.match(rf"{MARKS}(?:record|data) ", first):
                declarations.append(self.record_or_data(lines, sections))
            elif re.match(rf"{MARKS}{NAME}(?: \{{[^}}]*\}})? :(?: |$)", first):
                marks, name, rest = re.match(rf"\s*({MARKS})({NAME})(?: \{{[^}}]*\}})? :(.*)", text, re.S).groups()
                kind = "abbrev" if "abbrev" in marks else "unfoldable" if "unfoldable" in marks else "plain"
                declaration = Declaration(self, name, kind, marks.split(), number, sections)
                declaration.type = tree(rest)
                declaration.last = lines[-1][0]
                declarations.append(declaration)
            elif re.match(r"(?:unfolding|infix|infixl|infixr) ", first):
                if first.startswith("unfolding") and declarations:
                    declarations[-1].last = lines[-1][0]
            elif not re.match(rf"(?:pub )?mod \w+$|{MARKS}ruleset ", first):  # a ruleset is a list for tactics: it claims nothing
                self.clause(lines, declarations)
        except (Unreadable, ValueError) as error:
            raise Unreadable(f"line {number}: {error}") from None

    def use(self, line):
        parts = re.fullmatch(rf"{MARKS}use ([^{{\s*]+?)(?:\.\{{([^}}]*)\}}| as (\S+))?", line)
        if not parts:
            raise Unreadable(f"not a use line that is known here: {line}")
        path, names, alias = parts.groups()
        if names is None:
            self.modules[alias or path.split(".")[-1]] = path
        for name in filter(None, (name.strip() for name in (names or "").split(","))):
            original, _, renamed = name.partition(" as ")
            self.names[renamed.strip() or original] = (path, original)
            if not renamed:
                self.names.update((part, (path, original)) for part in parts_of(original))

    def record_or_data(self, lines, sections):
        head, body = headed(lines)
        marks, kind, name, rest = re.match(rf"\s*({MARKS})(record|data) ({NAME})(.*)", head, re.S).groups()
        declaration = Declaration(self, name, kind, marks.split(), lines[0][0], sections)
        nodes = tree(rest)[:-1]
        colon = nodes.index(":")
        declaration.parameters, declaration.type = nodes[:colon], nodes[colon + 1:]
        declaration.last = lines[-1][0]
        while body:
            end = end_of_item(body)
            member = tree(re.sub(r"^\s*(?:pub )?", "", "\n".join(line for _, line in body[:end])))
            if member[0] == "deriving":
                raise Unreadable("deriving")
            colon = member.index(":")
            declaration.members.append((member[:colon], member[colon + 1:]))
            body = body[end:]
        return declaration

    def clause(self, lines, declarations):
        where = next((at for at, (_, line) in enumerate(lines) if line.strip() == "where"), len(lines))
        nodes = tree("\n".join(line for _, line in lines[:where]))
        if not declarations or declarations[-1].kind in ("record", "data") or "=" not in nodes or "where" in nodes:
            raise Unreadable(f"neither a signature nor a clause: {lines[0][1].strip()}")
        declaration = declarations[-1]
        equals = nodes.index("=")
        if not {declaration.name, *parts_of(declaration.name)} & {node for node in nodes[:equals] if isinstance(node, str)}:
            raise Unreadable(f"a clause, and not of {declaration.name}")
        declaration.clauses.append((nodes[:equals], nodes[equals + 1:], self.block(lines[where + 1:], [])))
        declaration.last = lines[-1][0]


def indent(line):
    return len(line[1]) - len(line[1].lstrip())


def end_of_item(lines):
    """Where the next line at the margin begins; a closing bracket there still belongs to the item."""
    return next((at for at, line in enumerate(lines) if at and indent(line) <= indent(lines[0]) and line[1].strip()[0] not in ")}]"), len(lines))


def headed(lines):
    """The lines up to the one that ends with where, as text, and those behind it."""
    for at, (_, line) in enumerate(lines):
        if re.search(r"\bwhere$", line.rstrip()):
            return "\n".join(line for _, line in lines[:at + 1]), lines[at + 1:]
    raise Unreadable("no where")
