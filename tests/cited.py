#!/usr/bin/env python3
"""Checks that what the papers cite is there: files, definitions, laws, functions, edits, links; one line a fault.

In backticks, the names of crates being those of crates.txt:

    crate                                   a crate
    crate/File, crate/File: name, name      its definitions in specs/File.antt
    crate/proofs/File: name, name           its laws in proofs/File.antt
    crate::name, crate::module::name        its code; a signature may follow, (&mut [u32], u32)
    crate::Type::name                       a function of an impl of the type, or of a trait; a case of an enum
    crate::Type::from(Source)               a conversion: Source as behind From or TryFrom in the head of its impl
    crate/src/file.rt, tests/model.py       a file or a folder

A function of an impl whose type is of another crate or of the language has the crate that it stands in before its type:
gateway::u32::from(State).

In emphasis, *crate/name* is the edit must-fail/name.edit of a crate. docs/PROMISES.md has nothing else in backticks and
cites every edit; its section of settled outcomes has every public function beside a theorem that settles it. Public are
also the pub functions of an impl of a public type, and all those of an impl of a trait for one.
"""

import functools
import re
import sys

import tree
from tree import ROOT, crates, shown, text

PROMISES = ROOT / "docs" / "PROMISES.md"
SETTLED = "## Any two outcomes are equal"
# a crate whose functions have the clauses of another's, by whose theorems they are settled
SETTLED_BY = {"hub_c": "hub"}
FOLDERS = ("tests/", "docs/", "tools/", "include/", "examples/", ".ci/")
PATHS = ("crates/", *FOLDERS)
SINGLE = {"./elect", "README.md", "crates.txt"}
# papers of their time: what they name may be gone
OLD = ("docs/landings/", "docs/DESIGN-PASS.md")

SPAN = re.compile(r"`([^`]+)`")
EMPHASIS = re.compile(r"(?<![*\w])\*(?![*\s])([^*]+)(?<!\s)\*(?![*\w])")
LINK = re.compile(r'(?:\]\(|src="|href=")([^)"\s]+)')
LAW = re.compile(r"([a-z]\w*)/(proofs/(?:\w+/)*)?([A-Z]\w*)(?:: (.+))?")
CODE = re.compile(r"([a-z]\w*)((?:::\w+)+)(?:\((.*)\))?")
LOOKS_CITED = re.compile(r"[a-z]\w*(?:/proofs/|/[A-Z]\w*: |::\w)")
EDIT = re.compile(r"([a-z]\w*)/(\w+)")
EDIT_ALONE = re.compile(r"[a-z0-9]+(_[a-z0-9]+)+")
IN_SOURCE = re.compile(r"(?<![\w/.$}*-])((?:crates|tests|docs|tools|include|examples|\.ci)/[\w./-]*\w)")
SOURCES = {".antt", ".rt", ".py", ".sh", ".c", ".h", ".S", ".edit", ""}


def papers():
    return [path for path in tree.files() if path.suffix == ".md" and not shown(path).startswith(OLD)]


@functools.lru_cache(maxsize=None)
def lines(paper):
    """The paper's lines with their numbers, and whether each is in a fenced block."""
    found = []
    fenced = False
    for number, line in enumerate(text(paper).splitlines(), 1):
        edge = line.lstrip().startswith("```")
        fenced ^= edge
        found.append((number, line, fenced or edge))
    return found


def prose(paper):
    return [(number, line) for number, line, fenced in lines(paper) if not fenced]


def law_names(law):
    return [name.strip() for name in law[4].split(",")] if law[4] else []


def law_file(law):
    return ROOT / "crates" / law[1] / (law[2] or "specs/") / f"{law[3]}.antt"


def law_faults(law):
    path = law_file(law)
    if path not in tree.laws():
        return [f"no file {shown(path)}"]
    there = tree.laws()[path].owners()
    return [f"no name {name} in {shown(path)}" for name in law_names(law) if name not in there]


def own_part(crate, *names):
    """What a path of code names in a module: the file and the part of it, or None."""
    *modules, name = names
    file = tree.code().get((crate, "::".join(modules)))
    if file and name in file.declared:
        return file, file.declared[name]
    passed_on = file.absolute([name]) if file and name in file.passed_on else None
    return own_part(*passed_on) if passed_on and len(passed_on) > 1 else None


def type_of(file, path):
    """A type or a trait that a file names: crate, module and name where it is of the same crate, else the path."""
    whole = file.absolute(path.split("::"))
    found = own_part(*whole) if whole and len(whole) > 1 else None
    return (file.crate, found[0].module, found[1].name) if found and found[0].crate == file.crate else path


@functools.lru_cache(maxsize=None)
def members(crate):
    """The functions of a crate's blocks, by the type of each and its name: the file and the part of it."""
    files = [file for file in tree.code().values() if file.crate == crate]
    blocks = [(file, block) for file in files for block in file.blocks]
    return {(type_of(file, block.type), part.own): (file, part) for file, block in blocks for part in block.functions}


def code_part(crate, *names):
    """What a path of code names: the file and the part of it, or None; of the case of an enum, the enum."""
    *owner, name = names
    found = own_part(crate, *names)
    if found or not owner:
        return found
    found = own_part(crate, *owner)
    if not found:
        return members(crate).get(("::".join(owner), name))
    file, part = found
    case = found if part.kind == "enum" and name in part.members else None
    return members(file.crate).get(((file.crate, file.module, part.name), name), case)


def cited_part(code):
    """What a citation of code names; the name of a conversion has brackets."""
    *owner, name = code[2].split("::")[1:]
    return code_part(code[1], *owner, f"{name}({code[3]})") or code_part(code[1], *owner, name)


def code_faults(code):
    found = cited_part(code)
    if not found:
        return [f"no {code[0]} in crates/{code[1]}/src"]
    if code[3] is None or "(" in found[1].name:
        return []
    types = [kind for _, kind in found[1].given]
    return [] if types == tree.listed(code[3]) else [f"{code[1]}{code[2]} takes ({', '.join(types)})"]


def path_of(span):
    """The path that a span is, if it is one."""
    if span.startswith(PATHS) or span in SINGLE:
        return ROOT / span
    return ROOT / "crates" / span if re.match(r"(\w+)/src/", span) and span.split("/")[0] in crates() else None


def span_faults(span):
    """What is wrong with a citation; None where the span has no form of one."""
    law, code, path = LAW.fullmatch(span), CODE.fullmatch(span), path_of(span)
    if path:
        return [] if path.exists() else [f"no {span}"]
    if law and law[1] in crates():
        return law_faults(law)
    if code and code[1] in crates():
        return code_faults(code)
    return [] if span in crates() else None


def strict_faults(span):
    faults = span_faults(span)
    return [f"`{span}` is no citation: tests/cited.py says what is one"] if faults is None else faults


def loose_faults(span):
    """Of a paper where not every span is a citation; one may also be a command, or a folder of a crate."""
    crate = re.match(r"(\w+)(?:/|::)", span)
    cited = crate and crate[1] in crates() or LOOKS_CITED.match(span)
    if span.startswith(PATHS):
        return span_faults(span.split()[0])
    there = any((ROOT / "crates" / (span + end)).exists() for end in ("", ".antt"))
    return strict_faults(span) if cited and not there else []


def edit_file(emphasis):
    edit = EDIT.fullmatch(emphasis)
    return ROOT / "crates" / edit[1] / "must-fail" / f"{edit[2]}.edit" if edit and edit[1] in crates() else None


def emphasis_faults(paper, emphasis):
    path = edit_file(emphasis)
    if path:
        return [] if path.is_file() else [f"no edit {shown(path)}"]
    alone = EDIT_ALONE.fullmatch(emphasis) or EDIT.fullmatch(emphasis)
    return [f"*{emphasis}* is no edit: write *crate/name*"] if alone and paper == PROMISES else []


@functools.lru_cache(maxsize=None)
def anchors(paper):
    heads = [line.lstrip("# ").strip() for _, line in prose(paper) if re.match("#+ ", line)]
    return {re.sub(r"[^\w\- ]", "", head.lower()).replace(" ", "-") for head in heads}


def link_faults(paper, link):
    path, _, anchor = link.partition("#")
    target = paper.parent / path if path else paper
    if re.match(r"\w+:", link):
        return [f"{link} is outside the tree"]
    if not target.exists():
        return [f"no {link}"]
    return [f"no heading {anchor} in {path or 'this paper'}"] if anchor and anchor not in anchors(target) else []


def line_faults(paper, line):
    of_span = strict_faults if paper == PROMISES else loose_faults
    plain = SPAN.sub("", line)
    found = [fault for span in SPAN.findall(line) for fault in of_span(span)]
    found += [fault for emphasis in EMPHASIS.findall(plain) for fault in emphasis_faults(paper, emphasis)]
    found += [f"{link} is outside the tree" for link in re.findall(r'(?<![("])https?://\S+', plain)]
    return found + [fault for link in LINK.findall(plain) for fault in link_faults(paper, link)]


def paper_faults(paper):
    return [(paper, number, fault) for number, line in prose(paper) for fault in line_faults(paper, line)]


def fenced_faults():
    """The files that README.md's blocks name."""
    paper = ROOT / "README.md"
    words = [(number, word.strip("`,;:()")) for number, line, fenced in lines(paper) if fenced for word in line.split()]
    return [(paper, number, f"no {word}") for number, word in words
            if word.startswith(FOLDERS) and not (ROOT / word).exists()]


def source_faults():
    """The files that sources name."""
    sources = [path for path in tree.files() if path.suffix in SOURCES and path.name not in ("stdin", "stdout")]
    named = [(path, number, name) for path in sources for number, line in enumerate(text(path).splitlines(), 1)
             for name in IN_SOURCE.findall(line)]
    return [(path, number, f"no {name}") for path, number, name in named if not (ROOT / name).exists()]


def edit_faults():
    """Every edit is cited."""
    plain = [SPAN.sub("", line) for _, line in prose(PROMISES)]
    cited = {edit_file(emphasis) for line in plain for emphasis in EMPHASIS.findall(line)}
    edits = [path for path in tree.files() if path.suffix == ".edit"]
    return [(PROMISES, 0, f"{shown(path)} is not cited") for path in edits if path not in cited]


def settled_rows():
    """The rows of the section of settled outcomes: the spans of each."""
    found = []
    inside = False
    for _, line in prose(PROMISES):
        if line.startswith("#"):
            inside = line.strip() == SETTLED
        elif inside and line.startswith("|"):
            found.append(SPAN.findall(line))
    return found


def libraries():
    """The crates whose public functions are to be settled."""
    return [crate for crate in crates() if (ROOT / "crates" / crate / "src" / "lib.rt").is_file()]


def offered(crate):
    """What a crate offers in its modules, by path: the file and the part of it."""
    public = [part.name for part in tree.code()[crate, ""].parts if part.kind == "mod" and part.public]
    files = [tree.code()[crate, module] for module in ["", *public]]
    names = [(file, part.name) for file in files for part in file.parts if part.public and not part.block]
    names += [(file, name) for file in files for name in file.passed_on]
    paths = [[crate, *filter(None, [file.module]), name] for file, name in names]
    return {"::".join(path): own_part(*path) for path in paths if own_part(*path)}


@functools.lru_cache(maxsize=None)
def functions(crate):
    """The functions that another crate can call or has to write, by path: the file and the part of it."""
    parts = offered(crate)
    types = {(file.crate, file.module, part.name): path for path, (file, part) in reversed(parts.items())}
    found = {path: pair for path, pair in parts.items() if pair[1].kind == "fn"}
    for (owner, name), (file, part) in members(crate).items():
        named = {type_of(file, path) for path, _ in part.block.paths}
        hidden = [at for at in named if isinstance(at, tuple) and at not in types]
        unseen = part.block.kind == "trait" and owner not in types
        if part.public and not hidden and not unseen:
            found[f"{types.get(owner) or f'{crate}::{owner}'}::{name}"] = file, part
    return found


def public_functions(crate):
    """The functions that a library crate offers, as they are cited; what a trait only asks for is none."""
    return [name for name, (_, part) in functions(crate).items() if part.body]


def laws_of(row):
    """The theorems of Settled files that a row cites: crate and name."""
    laws = [law for law in map(LAW.fullmatch, row) if law and law[2] == "proofs/" and law[3] == "Settled"]
    return {(law[1], name) for law in laws for name in law_names(law)}


def settled_faults():
    """Every public function stands in a row with a theorem that settles it, and every such theorem in a row."""
    rows = settled_rows()
    if not rows:
        return [(PROMISES, 0, f"no rows under '{SETTLED}'")]
    pairs = {(name, crate) for row in rows for span in row for name in (span, span.partition("(")[0])
             for crate, _ in laws_of(row)}
    offered = [(name, SETTLED_BY.get(crate, crate)) for crate in libraries() for name in public_functions(crate)]
    found = [(PROMISES, 0, f"{name} has no row with a theorem of {crate}/proofs/Settled under '{SETTLED}'")
             for name, crate in offered if (name, crate) not in pairs]
    cited = {law for row in rows for law in laws_of(row)}
    theorems = [(path.parent.parent.name, name) for path, file in tree.laws().items() if path.stem == "Settled"
                for name in file.declared]
    return found + [(PROMISES, 0, f"{crate}/proofs/Settled: {name} is not cited under '{SETTLED}'")
                    for crate, name in theorems if (crate, name) not in cited]


def clause_faults():
    """What another crate's theorems settle has the clauses of its namesake there."""
    names = [(name.split("::")[1:], crate) for crate in SETTLED_BY for name in public_functions(crate)]
    pairs = [(code_part(crate, *name), code_part(SETTLED_BY[crate], *name)) for name, crate in names]
    return [(file.path, part.line, f"{part.name} has other clauses than in {SETTLED_BY[file.crate]}")
            for (file, part), twin in pairs if not twin or part.clauses != twin[1].clauses]


def spans():
    """Every span of the papers."""
    return [span for paper in papers() for _, line in prose(paper) for span in SPAN.findall(line)]


def laws_cited():
    """The declarations that the papers cite by name: file and name."""
    laws = [law for law in map(LAW.fullmatch, spans()) if law]
    return {(law_file(law), name) for law in laws for name in law_names(law)}


def code_cited():
    """The parts of the code that the papers cite: crate, module and name."""
    found = [cited_part(code) for code in map(CODE.fullmatch, spans()) if code]
    return {(file.crate, file.module, part.name) for file, part in filter(None, found)}


def report(faults, said):
    """Prints each fault as `file:line: what`, or what was seen where there is none; the status to exit with."""
    for path, number, fault in faults:
        print(f"{shown(path)}:{number}: {fault}" if number else f"{shown(path)}: {fault}")
    if not faults:
        print(said)
    return 1 if faults else 0


def main():
    faults = [fault for paper in papers() for fault in paper_faults(paper)]
    faults += fenced_faults() + source_faults() + edit_faults() + settled_faults() + clause_faults()
    return report(faults, f"{len(papers())} papers: all that they cite is there")


if __name__ == "__main__":
    sys.exit(main())
