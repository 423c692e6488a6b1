"""The files of the tree, and what those of the crates declare, import and name.

It knows the layout that the house's formatter leaves, and no grammar: a declaration begins at the margin of its file
or module, or of the impl or the trait that it stands in, and what belongs to it is indented or closes a bracket.
"""

import functools
import os
import pathlib
import re
import textwrap

ROOT = pathlib.Path(__file__).resolve().parent.parent
# what else lies beside these, as a log of the gate, is not of the tree
KEPT = {".ci", "crates", "docs", "examples", "include", "tests", "tools",
        ".gitignore", "README.md", "crates.txt", "elect"}
LEFT_OUT = {"__pycache__", "out"}

NAME = r'[^\s(){}.,;"]+'
TOKEN = re.compile(rf'"(?:\\.|[^"\\])*"|\.?{NAME}(?:\.{NAME})*')
COMMENT = re.compile(r"(?:^|(?<=\s))--(?:\s.*)?$")
MODIFIERS = {"pub", "abbrev", "unfoldable", "opaque"}
# what a parameter, a λ, a let or a line of a where binds
BINDER = re.compile(rf"[({{]\s*((?:{NAME}\s+)+):\s|λ\s+((?:{NAME}\s+)*{NAME})\.\s|\blet\s+({NAME})"
                    rf"|^\s+({NAME})\s:\s", re.M)
GIVEN = re.compile(rf"([{{;]\s*){NAME}(?=\s=\s)")
USE = re.compile(r"use\s+(\S+?)(?:(?:\.|::)\{(.*)\}|\s+as\s+(\S+?))?;?$", re.S)
MODULE_HEAD = re.compile(r"module\s.*\swhere", re.S)
MODULE = re.compile(r"Rattle\.(\w+)\.((?:specs|proofs)\..+)")
DECLARED = re.compile(r"Rattle\.(\w+)\.specs\.declared((?:\.[a-z]\w*)*)\.([A-Z]\w*)")

CODE_ITEM = re.compile(r'(pub |pub\(crate\) )?(?:unsafe |extern +|const (?=fn))*'
                       r"(ghost use|use|mod|fn|const|static|type|struct|enum|trait|impl|ghost)\b ?(\w*)")
# a path that is no field and no method, and what follows it: an argument, a type
CODE_PATH = re.compile(r"(?<![\w'])(?<!(?<!\.)\.)([A-Za-z_]\w*(?:::[A-Za-z_]\w*)*)\s*(\(|:(?!:))?")
CALLED_ON = re.compile(r"(\bself)?(?<!\.)\.(\w+)(?:::<[^()]*>)?\(")
# what a let, a for, a closure or an arm of a match binds
CODE_BINDER = re.compile(r"\blet\b([^=;]*)=|\bfor\b(.*?)\bin\b|\|([^|(){};]*)\||^(.*)=>", re.M)
CODE_LEFT_OUT = re.compile(r"""b?'(?:\\.|[^'\\])'|b?"(?:\\.|[^"\\])*"|//.*""")
ATTRIBUTE = re.compile(r"^ *#!?\[.*?\]$", re.M | re.S)
# the laws that an attribute tells a tactic of
TOLD_OF = re.compile(r"\b(?:using|unfolding)\(([^()]*)\)")
CLAUSE = re.compile(r"^ +(?:(?:requires|ensures)(?: \w+)?|ghost (\w+)(?: =|:)) (?=\{)", re.M)
HEAD = re.compile(r"\b(?:fn \w+|trait \w+|impl\b)")
MEMBER = re.compile(r"^ {4}(?:pub |pub\(crate\) |ghost )*(\w+)", re.M)
ARROW_OR_ONE = re.compile(r"->|=>|.", re.S)


def shown(path):
    return path.relative_to(ROOT).as_posix()


@functools.lru_cache(maxsize=None)
def files():
    """Every file of the tree, in order."""
    found = []
    for folder, inner, names in os.walk(ROOT):
        kept = KEPT if pathlib.Path(folder) == ROOT else {*inner, *names} - LEFT_OUT
        inner[:] = sorted(kept.intersection(inner))
        found += [pathlib.Path(folder, name) for name in sorted(kept.intersection(names))]
    return found


@functools.lru_cache(maxsize=None)
def text(path):
    return path.read_text(encoding="utf-8")


@functools.lru_cache(maxsize=None)
def crates():
    """The names of crates.txt."""
    return list(floors())


@functools.lru_cache(maxsize=None)
def floors():
    """What each crate of crates.txt stands on."""
    lines = [line.partition(":") for line in text(ROOT / "crates.txt").splitlines() if line and line[0] != "#"]
    return {head.split()[0]: below.split() for head, _, below in lines}


def tokens(line):
    """The names in a line, with what stands before a dot; a string, a field that is given or taken are none."""
    found = [token for token in TOKEN.findall(GIVEN.sub(r"\1", line)) if token[0] not in '".']
    return {*found, *[token.partition(".")[0] for token in found]}


def occurs(name, words):
    """Whether a name is among the words; an operator may be there by its parts."""
    pieces = [piece for piece in name.split("◌") if piece]
    return name in words or "◌" in name and bool(pieces) and all(piece in words for piece in pieces)


class Import:
    """A name that a file imports, and what it is called there; of a whole module the name is None."""

    def __init__(self, line, path, name, called):
        self.line = line
        self.path = path
        self.name = name
        self.called = called

    def file(self):
        """The .antt file that it is imported from, if that is one of the tree."""
        module = MODULE.match(self.path)
        path = module and ROOT / "crates" / module[1] / (module[2].replace(".", "/") + ".antt")
        return path if path and path.is_file() else None

    def whole(self):
        """The path of code that it stands for."""
        return [*self.path.split("::"), *(self.name.split("::") if self.name else ())]


def imports(line, statement):
    """The names that a `use` or a `ghost use` imports."""
    path, names, whole = USE.search(statement).groups()
    if names is None:
        return [Import(line, path, None, whole or re.split(r"\.|::", path)[-1])]
    pairs = [name.split(" as ") for name in names.replace("\n", " ").split(",") if name.strip()]
    return [Import(line, path, pair[0].strip(), pair[-1].strip().split("::")[-1]) for pair in pairs]


def left_side(line):
    """What stands before the equals sign of a clause or of a field that is given."""
    side, equals, _ = (line + " ").partition(" = ")
    inside = side.count("(") - side.count(")") or side.count("{") - side.count("}")
    return "" if inside or not equals or {"let", "λ"} & set(side.split()) else side


def in_type(line, before):
    """Whether a line ends in the type of a let, whose equals sign is on a later one."""
    _, let, rest = f" {line} ".rpartition(" let ")
    return (before or bool(let) and " : " in rest) and " = " not in rest


class Declaration:
    """A definition, a law or a type, with its constructors or fields, and the names in its type and body."""

    def __init__(self, item):
        self.line = item.line
        self.name = item.first
        self.public = item.public
        self.members = item.members()
        self.words = set()
        self.patterns = set()
        self.bound = set(self.members)
        for head in item.around:
            self.read(head)

    def read(self, piece):
        self.bound.update(" ".join("".join(groups) for groups in BINDER.findall(piece)).split())
        typed = False
        for line in piece.splitlines():
            side = "" if typed else left_side(line)
            typed = in_type(line, typed)
            # a name alone has no patterns, and may be a field
            self.patterns |= tokens(side) if " " in side.strip() else set()
            self.words |= tokens(line[len(side):])

    def names(self, name, constructor=True):
        """Whether it names what is declared elsewhere; in a pattern only a constructor is no variable."""
        matched = occurs(name, self.patterns)
        return name not in self.bound and (constructor if matched else occurs(name, self.words))

    def through(self, alias):
        """What it names by an alias and a dot."""
        return {word.split(".")[1] for word in self.words | self.patterns if word.startswith(alias + ".")}


class Item:
    """What begins at a margin, with the lines that belong to it, and the heads of the modules around it."""

    def __init__(self, line, piece, around):
        self.line = line
        self.piece = piece
        self.around = around
        words = piece.split()
        self.public = "pub" in words[:2]
        while words[0] in MODIFIERS:
            words.pop(0)
        self.kind = words[0] if words[0] in ("use", "mod", "module", "unfolding", "data", "record") else "clause"
        self.first = words[0] if self.kind == "clause" else words[1]
        self.signs = self.kind == "clause" and words[1:2] == [":"]

    def members(self):
        """The constructors of a type, the fields of a record."""
        body = self.piece.partition("where\n")[2] if self.kind in ("data", "record") else ""
        return [item.first for item in items(textwrap.dedent(body))]


def items(source):
    """What begins at each margin; the body of a module has a margin of its own."""
    found = []
    margins = [(0, ())]
    for number, line in enumerate(source.splitlines(), 1):
        line = COMMENT.sub("", line).rstrip()
        depth = len(line) - len(line.lstrip())
        if not line:
            continue
        while depth < margins[-1][0]:
            margins.pop()
        if found and MODULE_HEAD.fullmatch(found[-1][1]) and depth > margins[-1][0]:
            margins.append((depth, (*found[-1][2], found[-1][1])))
        if depth == margins[-1][0] and line[depth] not in "})":
            found.append([number, line.strip(), margins[-1][1]])
        else:
            found[-1][1] += "\n" + line
    return [Item(*item) for item in found]


class Laws:
    """An .antt file: what it imports, and its declarations by name."""

    def __init__(self, path):
        self.path = path
        self.imports = []
        self.declared = {}
        last = None
        for item in items(text(path)):
            if item.kind == "use":
                self.imports += imports(item.line, item.piece)
            elif item.kind in ("data", "record") or item.signs:
                last = self.declared[item.first] = Declaration(item)
            elif item.kind == "clause":
                last = self.declared.get(item.first, last)
            if item.kind not in ("use", "mod", "module"):
                last.read(item.piece)

    def owners(self):
        """Every name that it declares, and the declaration that has it: itself, or as a constructor or field."""
        return {**{name: part for part in self.declared.values() for name in part.members}, **self.declared}


def closed(piece, start, brackets="([{<)]}>"):
    """Where the bracket that stands at a place is closed: the place behind it."""
    half = len(brackets) // 2
    depth = 0
    for mark in ARROW_OR_ONE.finditer(piece, start):
        depth += (mark[0] in brackets[:half]) - (mark[0] in brackets[half:])
        if not depth:
            return mark.end()
    return len(piece)


def listed(inside):
    """What commas part, none of them inside a bracket."""
    found = [""]
    depth = 0
    for mark in ARROW_OR_ONE.findall(inside):
        depth += (mark in "([{<") - (mark in ")]}>")
        found[-1] += mark
        if mark == "," and not depth:
            found[-1] = found[-1][:-1]
            found.append("")
    return [" ".join(part.split()) for part in found if part.strip()]


def signature(piece):
    """The generic parameters of a function, an impl or a trait, and where they end."""
    end = HEAD.search(piece).end()
    behind = closed(piece, end) if piece[end:end + 1] == "<" else end
    return piece[end:behind], behind


def given(piece):
    """The parameters of a function, each with its type; self is its own."""
    start = signature(piece)[1]
    pairs = [part.split(": ", 1) for part in listed(piece[start + 1:closed(piece, start) - 1])]
    return [(re.split(r"[ &]", pair[0])[-1], pair[-1]) for pair in pairs]


def clauses(piece):
    """The requires, the ensures and the ghosts of a piece: the name of each ghost, what it says; and what is left."""
    found = []
    rest = ""
    at = 0
    for head in CLAUSE.finditer(piece):
        end = closed(piece, head.end(), "{}")
        found.append((head[1], piece[head.end() + 1:end - 1]))
        rest += piece[at:head.start()]
        at = end
    return found, rest + piece[at:]


def code_words(text, bound):
    """The names in a clause that neither it nor what stands around it binds."""
    own = {"self", "result", *bound, *" ".join("".join(groups) for groups in BINDER.findall(text)).split()}
    return {word for word in tokens(text) if word.partition(".")[0] not in own}


class Block:
    """An impl or a trait: the type, the trait that it is of, with what, and what stands in it beside functions."""

    def __init__(self, line, piece):
        head, _, body = piece.partition("{")
        self.line = line
        self.kind = CODE_ITEM.match(piece)[2]
        self.generics, start = signature(head)
        parts = re.split(r" for (?!<)", re.split(r"\bwhere\b", head[start:])[0].strip())
        self.trait, self.of = self.parted(parts[0]) if len(parts) > 1 else ("", "")
        self.type = CODE_ITEM.match(piece)[3] if self.kind == "trait" else self.parted(parts[-1])[0]
        # the line of the head stands above, empty
        inner = pieces(textwrap.dedent("\n" * head.count("\n") + body.rpartition("}")[0]), line)
        rest = "\n".join(piece for _, piece in inner if CODE_ITEM.match(piece)[2] not in ("fn", "ghost use"))
        said, self.rest = clauses(textwrap.indent(rest, "    "))
        self.rest = head[start:] + self.rest
        ghosts = {name for name, _ in said} if self.kind == "trait" else set()
        self.bound = {*ghosts, *re.findall(r"\w+", self.generics)}
        self.contract = set().union(*[code_words(text, self.bound) for _, text in said])
        self.paths = CODE_PATH.findall(self.rest)
        self.functions = [Part(*pair, self) for pair in inner if CODE_ITEM.match(pair[1])[2] == "fn"]
        uses = [Part(*pair) for pair in inner if CODE_ITEM.match(pair[1])[2] == "ghost use"]
        self.ghosts = [name for part in uses for name in part.imports]

    def parted(self, path):
        """A type's or a trait's path, and its generic arguments; those of time are none."""
        name = re.match(r"[\w:]+", path)
        start = name.end() if name else len(path)
        plain = [part for part in listed(path[start + 1:closed(path, start) - 1]) if part[0] != "'"]
        return path[:start], ", ".join(plain)

    def words(self):
        """The names in its clauses and in those of its functions."""
        return set().union(self.contract, *[part.contract for part in self.functions])


class Part:
    """A function, a constant, a type, a trait or a module of an .rt file.

    A function of a block has its type's name before its own, and behind it in brackets what the trait is given:
    `Shape::new`, `Told::from(Refusal)`. Given are its parameters with their types.
    """

    def __init__(self, line, piece, block=None):
        access, self.kind, name = CODE_ITEM.match(piece).groups()
        self.line = line
        self.block = block
        self.public = access == "pub " or block is not None and (block.kind == "trait" or block.trait != "")
        self.imports = imports(line, piece.strip()) if "use" in self.kind else []
        self.given = given(piece) if self.kind == "fn" else []
        self.generics = re.findall(r"\w+", signature(piece)[0]) if self.kind == "fn" else []
        self.members = MEMBER.findall(piece) if self.kind in ("struct", "enum") else []
        self.own = f"{name}({block.of})" if block and block.of else name
        self.name = f"{block.type}::{self.own}" if block else name
        said, rest = clauses(piece)
        self.clauses = [text for _, text in said]
        bound = {*self.members, *self.generics, *[name for name, _ in self.given], *(block.bound if block else ())}
        self.contract = set().union(*[code_words(text, bound) for text in self.clauses])
        self.asks = re.search(r"^\s*requires\b", piece, re.M) is not None
        self.gives = re.search(r"^\s*ensures\b", piece, re.M) is not None
        self.read(rest)

    def read(self, rest):
        """What it names and binds, beside its clauses."""
        self.lines = len(rest.strip().splitlines())
        self.body = rest.partition("{")[2] if self.kind == "fn" else ""
        self.paths = CODE_PATH.findall(rest) + (self.block.paths if self.block else [])
        self.called_on = CALLED_ON.findall(rest)
        self.passes_on = "?" in self.body
        binders = " ".join("".join(groups) for groups in CODE_BINDER.findall(self.body))
        self.bound = {*re.findall(r"\w+", binders), *[name for name, _ in self.given]}

    def names(self, path, follows):
        """Whether a path that it has names what is declared elsewhere: it is neither bound here nor a field."""
        return "::" in path or follows == "(" or not path.islower() or not follows and path not in self.bound


def pieces(source, line=1):
    """What begins at the margin of code, with its line."""
    found = []
    for number, text in enumerate(source.splitlines(), line):
        if CODE_ITEM.match(text):
            found.append((number, text))
        elif found:
            found[-1] = (found[-1][0], found[-1][1] + "\n" + text)
    return found


def plain_code(source):
    """Code without comments, strings and attributes, its lines where they were."""
    for left_out in (ATTRIBUTE, CODE_LEFT_OUT):
        source = left_out.sub(lambda found: "\n" * found[0].count("\n"), source)
    return source


class Code:
    """An .rt file: its crate, its module ('' is the crate's own file), what it imports and what it declares."""

    def __init__(self, path):
        self.path = path
        self.crate = path.parent.parent.name
        self.module = "" if path.stem in ("lib", "main") else path.stem
        found = pieces(plain_code(text(path)))
        kinds = [CODE_ITEM.match(piece)[2] for _, piece in found]
        self.blocks = [Block(*pair) for pair, kind in zip(found, kinds) if kind in ("impl", "trait")]
        heads = [piece.partition("{")[0] if kind == "trait" else piece for (_, piece), kind in zip(found, kinds)]
        parts = [Part(line, head) for (line, _), head, kind in zip(found, heads, kinds) if kind != "impl"]
        self.parts = [part for part in parts if "use" not in part.kind]
        self.parts += [part for block in self.blocks for part in block.functions]
        self.declared = {part.name: part for part in self.parts}
        self.imports = [name for part in parts if part.kind == "use" for name in part.imports]
        self.ghosts = [name for part in parts if part.kind == "ghost use" for name in part.imports]
        self.passed_on = [name.called for part in parts if part.public for name in part.imports]
        attributes = "".join(ATTRIBUTE.findall(text(path)))
        self.told_of = [name for names in TOLD_OF.findall(attributes) for name in listed(names)]

    def absolute(self, names):
        """A path of code from its crate on, or None where it begins with no import, module, crate or part of it."""
        imported = {name.called: name.whole() for name in self.imports}
        if names[0] in imported:
            names = imported[names[0]] + names[1:]
        elif names[0] in self.declared and self.declared[names[0]].kind != "mod":
            return [self.crate, *filter(None, [self.module]), *names]
        if names[0] == "crate":
            return [self.crate, *names[1:]]
        if not self.module and names[0] in self.declared:
            return [self.crate, *names]
        return names if names[0] in crates() else None

    def words(self):
        """The names in its clauses."""
        blocks = [block.contract for block in self.blocks]
        return set().union(*blocks, *[part.contract for part in self.parts])

    def laws(self):
        """The declarations of .antt files that its attributes name: file and name of each."""
        found = set()
        for path in self.told_of:
            crate, *folders, name = path.replace("crate::", self.crate + "::").split("::")
            found.add((ROOT.joinpath("crates", crate, *folders).with_suffix(".antt"), name))
        return found


@functools.lru_cache(maxsize=None)
def laws():
    """Every .antt file of the crates, by path."""
    return {path: Laws(path) for path in files() if path.suffix == ".antt"}


@functools.lru_cache(maxsize=None)
def code():
    """Every .rt file, by crate and module."""
    found = [Code(path) for path in files() if path.suffix == ".rt"]
    return {(file.crate, file.module): file for file in found}
