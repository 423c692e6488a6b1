#!/usr/bin/env python3
"""Checks the tree as its next owner wants it: first lines, layout, folders, order, short functions, nothing unused; one
line a fault.

A declaration of specs/ or proofs/ is used where a computed case, a proof that the checker asks for, a contract or a
paper needs it, by itself or through others; a part of the code where a program, the C header or a paper does.
"""

import ast
import collections
import functools
import re
import sys

import cited
import tree
from tree import ROOT, text

MOST_ENTRIES = 32
MOST_COLUMNS = 120
FIRST = {".antt": "-- ", ".rt": "// ", ".c": "/* ", ".h": "/* ", ".S": "/* ", ".py": '"""', ".sh": "# ", ".edit": "# ",
         ".md": "# ", ".txt": "# ", ".svg": ("<?xml", "<svg")}
MEASURED = {".antt", ".rt", ".py", ".sh", ".c", ".h"}
NO_TABS = {".antt", ".rt", ".py"}
# what programs read and print, to the byte
DATA = {"stdin", "stdout", "hub.txt"}
# of docs/, papers that begin with commits
BARE = {".gitignore", "PORT.md", "DESIGN-PASS.md"}
# of a function from its name to its last bracket, clauses left out; of loops, one in another is two
MOST_LINES = 45
MOST_LOOPS = 1
MOST_NESTED = 3
# std's traits whose methods are called: importing one is what makes them known
METHODS = {"Read": "read", "Write": "write_all|flush"}
# what is called to convert, and the function that is run
CONVERTS = {"into": "from", "try_into": "try_from"}
# their laws are cases that are computed: nothing uses them
COMPUTED = {"Examples", "Conditions", "Cards"}
# what they say of a function's goals is what the checker asks for
FOR_GOALS = {"Answers", "Invariants"}
HEADER = ROOT / "include" / "thuyrekho.h"
# in this order, std as Rattle, and before our own crates
LIBRARIES = ["Rattle", "Prim", "mathlib", "native", "lib", "borrow"]


def kind(path):
    """The suffix; of a script without one, that of its language."""
    if path.suffix or path.name in BARE:
        return path.suffix
    return ".py" if "python" in text(path).partition("\n")[0] else ".sh"


def papers_and_sources():
    return [path for path in tree.files() if path.name not in DATA]


def first_line_fault(path):
    """A file's first line says what it is about, a drawing's title does."""
    sign = FIRST.get(kind(path))
    if sign is None:
        return "a kind of file that tests/tidy.py does not know"
    if path.suffix == ".svg":
        drawn = text(path).startswith(sign) and "<title>" in text(path)
        return None if drawn else "a drawing begins with its tag and has a <title>"
    lines = [line for line in text(path).splitlines()[:2] if not line.startswith("#!")]
    said = bool(lines) and lines[0].startswith(sign) and bool(lines[0][len(sign):].strip())
    return None if said else f"the first line must say what the file is about, behind {sign.strip()}"


def first_line_faults():
    faults = [(path, 1, first_line_fault(path)) for path in papers_and_sources() if path.name not in BARE]
    return [fault for fault in faults if fault[2]]


def folder_faults():
    entries = collections.Counter()
    seen = set()
    for path in tree.files():
        for inner in [path, *path.parents][:len(path.relative_to(ROOT).parts)]:
            entries[inner.parent] += inner not in seen
            seen.add(inner)
    return [(folder, 0, f"{count} entries, at most {MOST_ENTRIES}") for folder, count in entries.items()
            if count > MOST_ENTRIES]


def layout_faults(path):
    lines = text(path).split("\n")
    found = []
    for number, line in enumerate(lines, 1):
        if len(line) > MOST_COLUMNS and kind(path) in MEASURED:
            found.append((path, number, f"{len(line)} columns, at most {MOST_COLUMNS}"))
        if line != line.rstrip():
            found.append((path, number, "blanks at the end of the line"))
        if "\t" in line and kind(path) in NO_TABS:
            found.append((path, number, "a tab"))
    if lines[-1] or len(lines) < 2 or not lines[-2].strip():
        found.append((path, len(lines), "the file must end with one newline and no blank line"))
    return found


def import_used(name, declaration):
    """Whether a declaration of a file names what the file imports, by itself or as what stands before a dot."""
    path = name.file()
    defined = path and name.name in tree.laws()[path].declared
    return declaration.names(name.called, not defined) or bool(declaration.through(name.called))


def law_import_faults():
    """Every import is used, tactics naming what they need (omega arith, search needs), and none is there twice.

    A type by itself brings its constructors, as Ran.Refused.
    """
    found = []
    for path, file in tree.laws().items():
        first = {name.called: name for name in reversed(file.imports)}
        idle = [name for name in file.imports if not any(import_used(name, part) for part in file.declared.values())]
        found += [(path, name.line, f"{name.called} is imported and not used") for name in idle]
        found += [(path, name.line, f"{name.called} is imported already") for name in file.imports
                  if name is not first[name.called]]
    return found


def rank(name, own):
    """Where an import stands: the kit's libraries, then the crates in the order of crates.txt, its own one last."""
    module = tree.MODULE.match(name.path)
    if not module or module[1] not in tree.crates():
        return LIBRARIES.index(name.path.split(".")[0]), 0, False
    crate = len(tree.crates()) if module[1] == own else tree.crates().index(module[1])
    return len(LIBRARIES), crate, module[2].startswith("proofs")


def import_order_faults():
    files = [(path, file.imports) for path, file in tree.laws().items()]
    files += [(file.path, ghosts) for file in tree.code().values() for ghosts, _ in ghost_uses(file)]
    found = []
    for path, names in files:
        ranks = [rank(name, path.relative_to(ROOT).parts[1]) for name in names]
        late = [name for name, own, before in zip(names[1:], ranks[1:], ranks) if own < before]
        found += [(path, name.line, f"{name.path} is imported behind a higher one") for name in late]
    return found


def function_faults():
    """No function that another crate can call asks anything of its caller or says nothing of what it gives."""
    pairs = [pair for crate in tree.crates() if (crate, "") in tree.code() for pair in cited.functions(crate).values()]
    found = [(file, part, "is public and has a requires") for file, part in pairs if part.asks]
    found += [(file, part, "is public and has no contract") for file, part in pairs
              if not part.gives and not (part.block and part.block.kind == "impl" and part.block.contract)]
    return [(file.path, part.line, f"{part.name} {what}") for file, part, what in found]


def nested(body):
    """How deep the blocks of a body are that are run on a condition, again, or in a closure."""
    most, at, inside = 0, 0, []
    for mark in re.finditer(r"[{};]", body):
        if mark[0] == "{":
            inside.append(re.search(r"\b(?:for|while|loop|match|if|else)\b|\|", body[at:mark.start()]) is not None)
            most = max(most, sum(inside))
        elif mark[0] == "}":
            inside = inside[:-1]
        at = mark.end()
    return most


def size_faults():
    found = []
    for file, part in [(file, part) for file in tree.code().values() for part in file.parts if part.kind == "fn"]:
        loops = len(re.findall(r"\b(?:for|while|loop)\b", part.body))
        counts = [(part.lines, MOST_LINES, "lines"), (loops, MOST_LOOPS, "loops"),
                  (nested(part.body), MOST_NESTED, "blocks in each other")]
        found += [(file.path, part.line, f"{part.name} has {count} {what}, at most {most}")
                  for count, most, what in counts if count > most]
    return found


def twice_faults():
    """No two parts of a file have one name: this script could not tell them apart."""
    found = [(file, part) for file in tree.code().values() for part in file.parts if part != file.declared[part.name]]
    return [(file.path, part.line, f"{part.name} is declared twice") for file, part in found]


def ghost_uses(file):
    """What a file and each of its blocks import for clauses, with the names in the clauses that see it."""
    return [(file.ghosts, file.words()), *[(block.ghosts, block.words()) for block in file.blocks]]


def brings_method(file, name):
    """Whether an import is a trait whose functions the file calls."""
    methods = METHODS.get(name.called)
    found = code_found(file, [name.called])
    if found and found[1].kind == "trait":
        trait = (found[0].crate, found[0].module, found[1].name)
        methods = "|".join(own for owner, own in cited.members(trait[0]) if owner == trait)
    return methods is not None and re.search(rf"(?:\.|::)(?:{methods})\(", text(file.path)) is not None


def heads(file):
    """What the paths of a file begin with, and what its clauses name of the code."""
    paths = [path for part in file.parts for path, follows in part.paths if part.names(path, follows)]
    paths += [path for block in file.blocks for path, _ in block.paths]
    ghosts = {name.called for names, _ in ghost_uses(file) for name in names}
    return {path.split("::")[0] for path in paths} | file.words() - ghosts


def code_import_faults():
    found = []
    for file in tree.code().values():
        named = {*heads(file), *file.passed_on}
        idle = [name for name in file.imports if name.called not in named and not brings_method(file, name)]
        uses = ghost_uses(file)
        idle += [name for names, words in uses for name in names if not tree.occurs(name.called, words)]
        found += [(file.path, name.line, f"{name.called} is imported and not used") for name in idle]
        again = [name for names in [file.imports, file.ghosts] for name in repeated(names)]
        again += [name for block in file.blocks for name in repeated(block.ghosts, file.ghosts)]
        found += [(file.path, name.line, f"{name.called} is imported already") for name in again]
    return found


def repeated(names, known=()):
    """The imports that an earlier one, or one of the known, has brought."""
    called = [name.called for name in (*known, *names)]
    return [name for at, name in enumerate(names, len(known)) if name.called in called[:at]]


def script_import_faults():
    found = []
    for path in [path for path in papers_and_sources() if kind(path) == ".py"]:
        body = ast.parse(text(path))
        names = [(node.lineno, alias.asname or alias.name) for node in ast.walk(body)
                 if isinstance(node, (ast.Import, ast.ImportFrom)) for alias in node.names]
        used = {node.id for node in ast.walk(body) if isinstance(node, ast.Name)}
        found += [(path, line, f"{name} is imported and not used") for line, name in names
                  if name.split(".")[0] not in used]
    return found


def without_comments(path):
    return re.sub(r"/\*.*?\*/", "", text(path), flags=re.S)


def outside(code):
    """C without what its brackets hold."""
    rest = re.sub(r"\{[^{}]*\}", "", re.sub(r"\([^()]+\)", "()", code))
    return rest if rest == code else outside(rest)


def header_names(path):
    """What a header of ours declares: macros, enumerators, types, functions."""
    plain = re.sub(r"#ifdef __cplusplus.*?#endif", "", without_comments(path), flags=re.S)
    listed = " ".join(re.findall(r"\benum\b[^{;]*\{(.*?)\}", plain, re.S))
    named = re.findall(r"#define (\w+)", plain) + re.findall(r"[A-Za-z_]\w*", listed)
    return {*named, *re.findall(r"(\w+)\s*(?=[(;,\[])", outside(plain))} - {"struct", "enum", "union"}


def includes(path):
    """The headers of ours that a file includes."""
    headers = {path.name: path for path in tree.files() if path.suffix == ".h"}
    return [headers[name] for name in re.findall(r'#include "(?:.*/)?(.+)"', text(path)) if name in headers]


@functools.lru_cache(maxsize=None)
def brought(path):
    """What a header declares, itself or by those that it includes."""
    return header_names(path).union(*map(brought, includes(path)))


def include_faults():
    found = []
    for path in [path for path in tree.files() if path.suffix in (".c", ".h")]:
        words = set(re.findall(r"\w+", re.sub(r"#include.*", "", without_comments(path))))
        for header in includes(path):
            others = set().union(*[brought(other) for other in includes(path) if other != header])
            if not words & (header_names(header) | brought(header) - others):
                found.append((path, 1, f"{header.name} is included and not used"))
    return found


def owner(path, name):
    """The declaration that has a name: itself, or the type whose constructor or field it is."""
    found = tree.laws()[path].owners().get(name)
    return (path, found.name) if found else None


def law_targets(file, declaration):
    """What a declaration names: file and name of each."""
    own = [part for part in file.declared.values()
           if declaration.names(part.name, False) or any(map(declaration.names, part.members))]
    found = {(file.path, part.name) for part in own}
    for name in file.imports:
        path = name.file()
        if path and name.name is None:
            found |= {owner(path, inner) for inner in declaration.through(name.called)}
        elif path and import_used(name, declaration):
            found.add(owner(path, name.name))
    return found - {None, (file.path, declaration.name)}


def law_roots():
    """What needs no other declaration to use it."""
    found = {owner(path, name) for path, name in cited.laws_cited() if path in tree.laws()}
    for path, file in tree.laws().items():
        if path.stem in COMPUTED:
            found |= {(path, name) for name in file.declared}
        if path.stem in FOR_GOALS:
            found |= {(path, part.name) for part in file.declared.values() if part.public and "goal" in part.words}
    for file in tree.code().values():
        named = [name for names, words in ghost_uses(file) for name in names if tree.occurs(name.called, words)]
        found |= {owner(name.file(), name.name) for name in named if name.file()}
        found |= {owner(path, name) for path, name in file.laws() if path in tree.laws()}
    return found - {None}


def reached(roots, targets):
    """All that the roots need, by themselves or through others."""
    found = set()
    waiting = list(roots)
    while waiting:
        at = waiting.pop()
        if at not in found:
            found.add(at)
            waiting += targets.get(at, ())
    return found


def unused(targets, roots):
    """What nothing needs, and whether something that is not needed either names it."""
    needed = reached(roots, targets)
    named = {target for at in targets for target in targets[at]}
    rest = [at for at in targets if at not in needed]
    return [(at, "is used only by what is not used" if at in named else "is not used") for at in rest]


def law_faults():
    targets = {(path, name): law_targets(file, part) for path, file in tree.laws().items()
               for name, part in file.declared.items()}
    return [(path, tree.laws()[path].declared[name].line, f"{name} {what}")
            for (path, name), what in unused(targets, law_roots())]


def code_found(file, names):
    """What the beginning of a path in a file names: the file and the part of it, or None."""
    whole = file.absolute(names)
    if not whole or len(whole) < 2:
        return None
    inner = 2 if tuple(whole[:2]) in tree.code() else 1
    return cited.own_part(whole[0], *whole[1:inner + 1]) if len(whole) > inner else None


def functions_named(crate, name, is_of):
    """The functions of a name in the blocks of a crate and of those that it stands on, of the types that fit."""
    pairs = [pair for below in [crate, *tree.floors().get(crate, ())] for pair in cited.members(below).items()]
    return {(file.crate, file.module, part.name) for (of, own), (file, part) in pairs
            if own.partition("(")[0] == name and is_of(of)}


def path_targets(file, part, path, follows):
    """What a path in a part names: the part that it begins with, the function of a type that it goes on to."""
    names = path.split("::")
    block = part.block
    if names[0] == "Self" and block:
        names = [*block.type.split("::"), *names[1:]]
    found = code_found(file, names)
    if follows == ":" and "::" not in path or found and found[1].kind == "fn" and not part.names(path, follows):
        return set()
    targets = {(found[0].crate, found[0].module, found[1].name)} if found and found[1].kind != "mod" else set()
    if len(names) > 1 and names[0] in {*part.generics, *(block.bound if block else ())}:
        return targets | functions_named(file.crate, names[1], lambda of: True)
    # a type of another crate stands by its name where its impl is
    return targets | functions_named(file.crate, names[-1], lambda of: of in targets or of == "::".join(names[:-1]))


def method_targets(file, part):
    """What a part calls on a value, and what converts for it: all that its calls could mean."""
    of_self = cited.type_of(file, part.block.type) if part.block else None
    words = set(re.findall(r"\w+", text(file.path)))
    found = set()
    for on_self, name in part.called_on:
        own = functions_named(file.crate, name, lambda of: of == of_self) if on_self else set()
        found |= own or functions_named(file.crate, name, lambda of: True)
        # a type of the language may be converted to without being named
        found |= functions_named(file.crate, CONVERTS.get(name), lambda of: isinstance(of, str) or of[2] in words)
    if part.passes_on:
        named = {path.split("::")[0] for path, _ in part.paths}
        found |= functions_named(file.crate, "from", lambda of: isinstance(of, tuple) and of[2] in named)
    return found


def trait_targets(file, part):
    """Of a type, the functions by which it has a trait of others, conversions apart; of a function, its trait's."""
    at = (file.crate, file.module, part.name)
    if part.block and part.block.trait:
        found = code_found(file, part.block.trait.split("::"))
        trait = found and (found[0].crate, found[0].module, found[1].name)
        return functions_named(file.crate, part.own, lambda of: of == trait)
    return {(other.crate, other.module, function.name) for (of, own), (other, function) in cited.members(at[0]).items()
            if of == at and function.block.trait and own.partition("(")[0] not in CONVERTS.values()
            and not code_found(other, function.block.trait.split("::"))}


def code_targets(file, part):
    ghosts = {name.called for names, _ in ghost_uses(file) for name in names}
    said = part.contract | (part.block.contract if part.block else set())
    found = {target for path, follows in part.paths for target in path_targets(file, part, path, follows)}
    found |= {target for word in said - ghosts for target in path_targets(file, part, word, "")
              if tree.code()[target[:2]].declared[target[2]].kind != "fn"}
    found |= method_targets(file, part) | trait_targets(file, part)
    return found - {(file.crate, file.module, part.name)}


def code_roots():
    """The programs, what C calls, what a paper cites, the types that definitions speak of."""
    header = set(re.findall(r"\bthk_\w+", text(HEADER)))
    told = [tree.DECLARED.match(name.path) for file in tree.laws().values() for name in file.imports]
    types = {(match[1], match[2][1:].replace(".", "::"), match[3]) for match in told if match}
    names = [(*at, name) for at, file in tree.code().items() for name in file.declared]
    found = {at for at in names if at[2] in header or at in types}
    programs = {(file.crate, "", "main") for file in tree.code().values() if file.path.stem == "main"}
    return found | programs | cited.code_cited()


def code_faults():
    targets = {(*at, part.name): code_targets(file, part) for at, file in tree.code().items()
               for part in file.declared.values() if part.kind != "mod"}
    return [(tree.code()[crate, module].path, tree.code()[crate, module].declared[name].line, f"{name} {what}")
            for (crate, module, name), what in unused(targets, code_roots())]


def main():
    sources = [path for path in papers_and_sources() if kind(path) in FIRST or path.name in BARE]
    faults = first_line_faults() + folder_faults() + [fault for path in sources for fault in layout_faults(path)]
    faults += law_import_faults() + code_import_faults() + script_import_faults() + include_faults()
    faults += import_order_faults() + function_faults() + size_faults() + twice_faults()
    faults += law_faults() + code_faults()
    return cited.report(faults, f"{len(sources)} files: nothing untidy, nothing that is not used")


if __name__ == "__main__":
    sys.exit(main())
