#!/usr/bin/env python3
"""Brings the repository's own antt names to today's spelling, everywhere that they stand.

usage: respell.py [--old COMMIT] [--ported COMMIT] [--dashes keep|drop] [--plan]

Words become snake case: definitions, laws, fields, locals (`startOf`, `moved-down` become `start_of`, `moved_down`).
Every dash becomes `_`, as port.py made it of most; with --dashes keep it stays where it joins two names that the
law's own statement has (`length-slots`).
Turned: .antt, contracts and ghost use lines in .rt, must-fail/*.edit, README.md, docs/*.md (in backticks), tests/*.py
and tools. Left alone: functions of src/ and steps of their proofs, names of goals, names from outside, strings, files
of input and output.
--old is the commit before port.py (default: the parent of --ported), --ported the commit of its output: with them,
papers and edits, which port.py does not turn, take port.py's spellings too. --plan only prints. Running it again
changes nothing.
"""

import argparse
import collections
import difflib
import os
import pathlib
import re
import subprocess
import sys

ROOT = pathlib.Path(__file__).resolve().parent.parent
KIT = pathlib.Path(subprocess.run(["rt", "doc"], capture_output=True, text=True).stdout.strip()).parent / "rattle"
RESERVED = set(
    """data record deriving module where use mod pub package open as unfoldable abbrev axiom unfold unfolding
ruleset mutual infix infixl infixr elim let in do coe fcoe tcoe hcom com
rw simp search grw cc omega grind hlevel assumption first_of
cap V vin vproj in_s out_s yes no refl tt absurd ground syntax requires ensures ghost""".split()
)
STRING = r'"(?:\\.|[^"\\\n])*"'
NAME = r"[^\s(){}\[\].,;\"`«»]+"
TOKEN = re.compile(rf"{STRING}|--(?=\s|$).*|{NAME}|[.(){{}}\[\],;`«»]|\s+", re.M)
SIGNATURE = re.compile(
    rf"^( *)((?:(?:pattern|unfoldable|abbrev|axiom|pub) )*)({NAME})(?: \{{[^}}]*\}})? :(?= |$)", re.M
)
TYPE = re.compile(rf"^ *(?:pub )?(?:record|data) ({NAME})", re.M)
USE = re.compile(r"^\s*(?:pub )?(?:ghost )?use\s+([^\s{;]+?)(?:\.\{([^}]*)\}|\s+as\s+(\S+?))?;?\s*$", re.M | re.S)
# names of goals and steps that rattle makes: a function's own proof declares them and cites them
MADE = re.compile(
    r"returns(?:-.*)?$|.*-(?:requires|init|preserved|result|spec)(?:-\d+)?$|(?:invariant|decreases|measure)-.*"
    r"|(?:overflow|underflow|slice|array|cast|mul|add|sub|lend|enum|loop|ei|bytes)[-_].*|Need.*|clause-.*"
)

# laws whose word is a definition's: what each says
LAWS = {
    "asked_by": "asked_by_parts",
    "became-words": "became_record",
    "head-for": "head_for_kind",
    "identity-as": "identity_as_head",
    "in-range": "some_in",
    "kind-number": "kind_number_of",
    "line-number": "refused_line_number",
    "put-words": "put_record",
    "read-proc": "proc_back",
    "read-queue": "queue_back",
    "read-slots": "slots_back",
    "record-ok": "record_formed",
    "record-words": "record_read",
    "run-told": "turns_told",
    "slots-ok": "slots_formed",
    "state-number": "state_number_of",
    "step_room": "step_fits",
    "taken-words": "taken_record",
}


def run(*words):
    return subprocess.run(["git", *words], cwd=ROOT, capture_output=True, text=True).stdout


def snake(name):
    name = re.sub(r"(?<=[a-z0-9'])(?=[A-Z])", "_", name)
    return re.sub(r"[A-Z]", lambda m: m[0].lower(), name)


def is_word(name):
    """Whether a name is a word (and no type, operator or letter with an index)."""
    return bool(re.match(r"[a-z]", name)) and "◌" not in name


def wants(name):
    return is_word(name) and bool(re.search(r"[a-z0-9'][A-Z]|[A-Z]|-(?=[a-z0-9A-Z])", name))


def statement(text, start, name):
    """The text of a signature: up to the line where its definition begins."""
    end = re.compile(rf"^ *(?:{re.escape(name)}(?= |$)|unfolding |where\b)|\n\s*\n", re.M).search(text, start)
    return text[start : end.start() if end else len(text)]


def declared(text):
    """(name, statement) of each signature, in order, and the names of types."""
    code = re.sub(r"--(?=\s|$).*", "", text)
    return [(m[3], statement(code, m.end(), m[3])) for m in SIGNATURE.finditer(code)], [
        m[1] for m in TYPE.finditer(code)
    ]


def in_function(path):
    """Whether a file is of the proof of one function: proofs/F/.."""
    parts = pathlib.Path(path).parts
    at = parts.index("proofs") if "proofs" in parts else -1
    return at >= 0 and len(parts) > at + 2 and parts[at + 1][0].islower()


def files(*ends):
    for folder, inner, names in os.walk(ROOT / "crates"):
        inner[:] = sorted(d for d in inner if d not in ("out", "data"))
        for name in sorted(names):
            if name.endswith(ends):
                yield pathlib.Path(folder, name)


def kit_names():
    """The names of std's Prelude: what a file may import without a thought."""
    found = set()
    for p in (KIT / "std/specs/Prelude.antt", KIT / "core/specs/Prelude.antt"):
        if p.exists():
            for m in re.finditer(r"\{([^}]*)\}", p.read_text()):
                found |= {n.strip() for n in m[1].split(",")}
    return found


def imported(text):
    """The names that a text imports, each with whether its module is the repository's own; and aliases of modules."""
    own = {p.name for p in (ROOT / "crates").iterdir()}
    names, aliases = {}, {}
    for m in USE.finditer(text):
        crate = re.match(r"Rattle[.·](\w+)", m[1])
        is_own = bool(crate and crate[1] in own)
        for n in (m[2] or "").split(","):
            n = n.strip().split(" as ")
            if n[0]:
                names[n[-1]] = is_own
        last = m[3] or m[1].split(".")[-1]
        aliases[last] = is_own
    return names, aliases


class Plan:
    def __init__(self, dashes, ported=None):
        self.dashes = dashes
        self.dashed = {now for was, now in (ported or {}).items() if "-" in was}
        self.texts = {p: p.read_text() for p in files(".antt")}
        self.where = collections.defaultdict(list)  # old name: files that declare it
        self.said = collections.defaultdict(list)  # old name: statements
        self.types = set()
        self.outside = set()
        for p, text in self.texts.items():
            sigs, types = declared(text)
            self.types |= set(types)
            own, aliases = imported(text)
            self.outside |= {n for n, is_own in own.items() if not is_own}
            for name, said in sigs:
                if in_function(p) and self.is_made(p, name, said):
                    continue
                self.where[name].append(p)
                self.said[name].append(said)
        self.to = {}
        for name in sorted(self.where):
            if wants(name):
                self.to[name] = self.respelled(name)
        # what a λ, a let or a parameter binds
        for p, text in self.texts.items():
            for t in (
                set(re.findall(NAME, re.sub(r"--(?=\s|$).*|" + STRING, "", text))) - self.outside - set(self.where)
            ):
                if re.match(r"[a-z][a-z0-9]*[A-Z]", t) and not in_function(p) and "." not in t:
                    self.to[t] = snake(t)
        self.notes = []
        self.collide()

    def is_made(self, path, name, said):
        return bool(MADE.match(name)) or bool(re.match(r"\s*(?:goal|tie|needs|rules|need)\.", said))

    def respelled(self, name):
        parts = [snake(p) for p in name.split("-")]
        if self.dashes == "drop":
            return "_".join(parts)
        words = []
        for said in self.said[name]:
            words.append({snake(t) for t in re.findall(NAME, said) if is_word(t) and len(t) > 1})

        def begins(rest):
            return all(any("_".join(rest[:n]) in w for n in range(1, len(rest) + 1)) for w in words)

        made, from_ = parts[0], 0
        for i in range(1, len(parts)):
            joins = begins(parts[from_:i]) and begins(parts[i:])
            made += ("-" if joins else "_") + parts[i]
            from_ = i if joins else from_
        return made

    def collide(self):
        prelude = kit_names()
        tokens = {p: set(re.findall(NAME, re.sub(r"--(?=\s|$).*", "", t))) for p, t in self.texts.items()}
        back = collections.defaultdict(set)
        for old in self.where:
            back[self.to.get(old, old)].add(old)
        rust = set()
        for p in files(".rt"):
            rust |= set(re.findall(r"\b(?:fn|const|static|mod|type) (\w+)", p.read_text()))
        for new, olds in sorted(back.items()):
            changed = [o for o in olds if o in self.to]
            if not changed:
                continue
            if len(olds) > 1:
                both = [p for p in tokens if len(olds & tokens[p]) > 1]
                if both:
                    # the definition keeps the word: what had a dash, now or before port.py, is a law
                    laws = [o for o in sorted(olds) if "-" in o or self.was_dashed(o)] or changed
                    laws = laws if len(laws) < len(olds) else laws[1:]
                    for o in laws:
                        self.to[o] = LAWS.get(o) or self.free(new, back)
                    told = ", ".join(f"{o} -> {self.to.get(o, o)}" for o in sorted(olds))
                    self.notes.append(
                        ("FALL TOGETHER", f"{told}: both in {', '.join(str(p.relative_to(ROOT)) for p in both[:4])}")
                    )
                else:
                    self.notes.append(
                        ("same word in two places", f"{', '.join(sorted(olds))} -> {new}: no file has both")
                    )
            if new in RESERVED:
                self.notes.append(("RESERVED", f"{changed[0]} -> {new}"))
                for o in changed:
                    self.to[o] = self.free(new, back)
            if new in prelude:
                self.notes.append(("a word of the Prelude", f"{changed[0]} -> {new}"))
                for o in changed:
                    self.to[o] = self.free(new, back)
            elif new in self.outside:
                self.notes.append(("imported from outside", f"{changed[0]} -> {new}"))
                for p in tokens:
                    if changed[0] in tokens[p] and new in tokens[p]:
                        for o in changed:
                            self.to[o] = self.free(new, back)
                        break
            if new in rust:
                self.notes.append(("a function of src/ has this name too", f"{changed[0]} -> {new}"))
        for old in list(self.to):
            if old in self.outside:
                self.notes.append(
                    ("IMPORTED FROM OUTSIDE under the old name", f"{old}: protected where it is imported")
                )
        # names of one file that differ in case alone
        for p, text in self.texts.items():
            sigs, types = declared(text)
            by = collections.defaultdict(set)
            for n, _ in sigs:
                by[self.to.get(n, n).lower()].add(self.to.get(n, n))
            for n in types:
                by[n.lower()].add(n)
            for low, ns in by.items():
                if len(ns) > 1 and not in_function(p):
                    self.notes.append(("differ in case alone", f"{', '.join(sorted(ns))} in {p.relative_to(ROOT)}"))
        # a local of the file that has the new name of what the file cites
        for p, text in self.texts.items():
            names = tokens[p]
            for old in names & set(self.to):
                if self.to[old] in names and self.to[old] not in back:
                    self.notes.append(
                        ("a local has the new name", f"{old} -> {self.to[old]} in {p.relative_to(ROOT)}")
                    )

    def was_dashed(self, name):
        return name in self.dashed

    def free(self, new, back):
        """A name near this one that is free."""
        n = f"{new}_lem" if new not in RESERVED else f"{new}_of"
        while n in back:
            n += "_too"
        back[n] = {n}
        return n


def source_names(path):
    """The names of more than one word in the source of the crate of a path and of those below it, the longest first."""
    crate = path.relative_to(ROOT / "crates").parts[0]
    lines = [l.split("#")[0].partition(":") for l in (ROOT / "crates.txt").read_text().splitlines()]
    below = {a.split()[0]: b.split() for a, _, b in lines if a.strip()}.get(crate, [])
    found = set()
    for c in [crate, *below]:
        for p in (ROOT / "crates" / c / "src").rglob("*.rt"):
            found |= set(re.findall(r"\b[a-z][a-z0-9]*(?:_[a-z0-9]+)+\b", re.sub(r"//.*", "", p.read_text())))
    return sorted(found, key=len, reverse=True)


def kept(name, source):
    """A name that rattle makes, with the source's names as it spells them: `read-at-requires` is `read_at-requires`."""
    for w in source:
        name = re.sub(rf"(?:(?<=^)|(?<=-)){w.replace('_', '-')}(?=-|$)", w, name)
    return name


def turn_antt(text, to, path, fields):
    names, aliases = imported(text)
    here = in_function(path)
    source = source_names(path) if here else []
    own = {n for n, _ in declared(text)[0] if n not in to} if here else set()
    spec = {f"{path.parent.name.replace('_', '-')}-spec": f"{path.parent.name}_spec"} if here else {}
    out, before = [], []
    for m in TOKEN.finditer(text):
        t = m[0]
        if t.startswith('"'):
            out.append(t)
        elif t.startswith("--"):
            out.append(turn_comment(t, to))
        elif t in to:
            after_dot = bool(before) and before[-1] == "."
            head = before[-2] if after_dot and len(before) > 1 else ""
            if after_dot and aliases.get(head) is False:
                out.append(t)  # of a module from outside
            elif not after_dot and names.get(t) is False:
                out.append(t)  # imported from outside
            elif after_dot and here and t not in fields and head not in aliases:
                out.append(kept(t, source))  # a step of a function's proof
            else:
                out.append(to[t])
        elif t in spec:
            out.append(spec[t])
        elif here and "-" in t and (t in own or before and before[-1] == "."):
            out.append(kept(t, source))
        else:
            out.append(t)
        if not t.isspace() or "\n" not in t:
            before.append(t)
        else:
            before = []
    return "".join(out)


def turn_comment(text, to):
    """In prose a name with a capital inside is a name; one with a dash only in backticks or after `File: `."""
    text = re.sub(r"`([^`]+)`", lambda m: "`" + turn_words(m[1], to) + "`", text)
    return re.sub(NAME, lambda m: to.get(m[0], m[0]) if re.search(r"[a-z][A-Z]", m[0]) else m[0], text)


def turn_words(text, to):
    return re.sub(r"(?<![\w'/.-])[\w'][^\s(){}\[\].,;\"`«»:]*", lambda m: to.get(m[0], m[0]), text)


def turn_rt(text, to):
    parts = re.split(rf"({STRING}|//.*)", text)
    return "".join(
        p
        if p.startswith('"')
        else turn_comment(p, to)
        if p.startswith("//")
        else re.sub(NAME, lambda m: to.get(m[0], m[0]), p)
        for p in parts
    )


# what port.py did to texts, for those that it does not turn
def project(text):
    """`(p .d)` becomes `p.d`, and `f x .d` becomes `(f x).d`."""
    atom = re.compile(rf"{STRING}|[\w'◌∙]+(?:\.[\w-]+)*|\((?:[^()]|\((?:[^()]|\([^()]*\))*\))*\)(?:\.[\w-]+)*")
    while True:
        m = re.search(r" \.([a-z][\w-]*|[0-9]+)(?![\w.'-])", text)
        if not m:
            return text
        head, tail = text[: m.start()], text[m.end() :]
        atoms, at = [], len(head)
        while True:
            found = [k for k in atom.finditer(head[:at]) if k.end() == at]
            if not found:
                break
            atoms.insert(0, found[0][0])
            at = found[0].start()
            if at == 0 or head[at - 1] != " " or re.search(r"(?:[=:λ→≡∷+*/<≤,∙;]|\.) $", head[:at]):
                break
            at -= 1
        if not atoms:
            return text
        value = head[at:]
        if head[:at].endswith("(") and tail.startswith(")"):
            text = head[: at - 1] + (value if len(atoms) == 1 else f"({value})") + f".{m[1]}" + tail[1:]
        else:
            text = head[:at] + (value if len(atoms) == 1 else f"({value})") + f".{m[1]}" + tail


def dots(text):
    text = re.sub(r"Rattle·(\w+)\.", r"Rattle.\1.", text)
    return text.replace("the-variants", "TheVariants").replace("″", "''").replace("′", "'")


def ported_names(old, ported):
    """What port.py made of names: by the order of declarations in each file; of tokens, by how lines align."""
    to, votes = {}, collections.defaultdict(collections.Counter)
    if not (old and ported):
        return to, {}
    for path in run("ls-tree", "-r", "--name-only", old, "crates").split():
        if not path.endswith((".antt", ".rt")) or "/out/" in path:
            continue
        a, b = run("show", f"{old}:{path}"), run("show", f"{ported}:{path}")
        if not b:
            continue
        if path.endswith(".antt") and not in_function(path):
            x, y = [n for n, _ in declared(a)[0]], [n for n, _ in declared(b)[0]]
            if len(x) == len(y):
                for one, other in zip(x, y):
                    if one != other and is_word(one):
                        to.setdefault(one, other)
        if path.endswith(".antt"):
            A, B = ([t for t in re.findall(rf"{STRING}|{NAME}|[.,;{{}}]", s) if t not in "()"] for s in (a, b))
            for op, i, j, k, l in difflib.SequenceMatcher(None, A, B, autojunk=False).get_opcodes():
                if op in ("replace", "equal") and j - i == l - k:
                    for one, other in zip(A[i:j], B[k:l]):
                        votes[one][other] += 1
    tokens = {x: c.most_common(1)[0][0] for x, c in votes.items()}
    return to, {x: y for x, y in tokens.items() if x != y and re.search(r"[a-zA-Z◌_]", x) and len(x) > 1}


def turn_edit(text, to, tokens, target):
    """An edit's texts: port.py's spelling and ours; whether each old text stands once is said."""
    lines, path, said, state = [], "", [], None
    for line in text.split("\n"):
        m = re.match(r"(file|old|new): (.*)$", line)
        if not m:
            lines.append(line)
            continue
        key, body = m[1], m[2]
        if key == "file":
            path, state = body, None
        elif path.endswith(".antt"):
            new = dots(body)
            new = re.sub(rf"{STRING}|{NAME}", lambda k: k[0] if k[0].startswith('"') else tokens.get(k[0], k[0]), new)
            new = re.sub(rf"{STRING}|{NAME}", lambda k: k[0] if k[0].startswith('"') else to.get(k[0], k[0]), new)
            body = project(new)
        elif path.endswith(".rt"):
            body = turn_rt(body, to)
        lines.append(f"{key}: {body}")
        if key == "old" and path:
            f = target / path
            there = state if state is not None else (f.read_text() if f.exists() else "")
            said.append((body, there.count(body)))
            last = body
        elif key == "new" and path:
            f = target / path
            there = state if state is not None else (f.read_text() if f.exists() else "")
            state = there.replace(last, body) if there.count(last) == 1 else there
    return "\n".join(lines), said


def main():
    ask = argparse.ArgumentParser()
    ask.add_argument("--old")
    ask.add_argument("--ported")
    ask.add_argument("--dashes", choices=("keep", "drop"), default="drop")
    ask.add_argument("--plan", action="store_true")
    it = ask.parse_args()
    ported = it.ported or run("log", "--format=%H", "--grep=^port$", "-1").strip()
    old = it.old or (run("rev-parse", ported + "^").strip() if ported else "")
    before, tokens = ported_names(old, ported)
    plan = Plan(it.dashes, before)
    to = dict(plan.to)
    # after a first run the names that stand now are found by the order of declarations, from the commit of port.py
    since = {}
    for path in run("ls-tree", "-r", "--name-only", ported, "crates").split() if ported else []:
        if path.endswith(".antt") and not in_function(path) and (ROOT / path).exists():
            x, y = (
                [n for n, _ in declared(t)[0]] for t in (run("show", f"{ported}:{path}"), (ROOT / path).read_text())
            )
            if len(x) == len(y):
                since |= {a: b for a, b in zip(x, y) if a != b}
    since |= to
    papers = {a: since.get(b, b) for a, b in before.items()} | since
    papers = {a: b for a, b in papers.items() if wants(a) or a in before and wants(a)}
    by_kind = collections.Counter(k for k, _ in plan.notes)
    for kind, note in sorted(plan.notes):
        print(f"{kind}: {note}")
    print(f"respell: {len(to)} names; dashes kept in {sum('-' in n for n in to.values())}; notes: {dict(by_kind)}")
    if it.plan:
        for a, b in sorted(to.items()):
            print(f"  {a} -> {b}")
        return 0
    fields = {n for n in to if any(re.search(rf"^  (?:pub )?{re.escape(n)} :", t, re.M) for t in plan.texts.values())}
    changed = 0

    def write(p, new):
        nonlocal changed
        if p.read_text() != new:
            p.write_text(new)
            changed += 1

    for p, text in plan.texts.items():
        write(p, turn_antt(text, to, p, fields))
    for p in files(".rt"):
        write(p, turn_rt(p.read_text(), to))
    bad = 0
    for p in files(".edit"):
        new, said = turn_edit(
            p.read_text(), papers, {k: v for k, v in tokens.items() if k not in papers}, p.parent.parent
        )
        write(p, new)
        for body, n in said:
            if n != 1:
                bad += 1
                print(f"edit: {p.relative_to(ROOT)}: its old text stands {n} times: {body}")
    for p in [ROOT / "README.md", *sorted((ROOT / "docs").glob("*.md"))]:
        text = p.read_text()
        write(p, re.sub(r"`([^`\n]+)`", lambda m: "`" + turn_words(m[1], papers) + "`", text))
    for p in [
        *sorted((ROOT / "tests").rglob("*.py")),
        *sorted(f for f in (ROOT / "tools").rglob("*") if f.is_file() and f.name != "respell.py"),
    ]:
        try:
            text = p.read_text()
        except UnicodeDecodeError:
            continue
        hits = sorted({t for t in re.findall(NAME, text) if t in papers})
        if hits:
            print(f"look: {p.relative_to(ROOT)} has {', '.join(hits)}")
            write(
                p,
                re.sub(
                    r"(?<![\w'/.-])[\w'][\w'-]*(?![\w'-])",
                    lambda m: papers[m[0]] if m[0] in papers and re.search(r"[a-z][A-Z]", m[0]) else m[0],
                    text,
                ),
            )
    left = collections.Counter()
    for p in files(".antt"):
        names, _ = imported(p.read_text())
        for t in re.findall(NAME, re.sub(r"--(?=\s|$).*|" + STRING, "", p.read_text())):
            if re.search(r"^[a-z][a-z0-9]*[A-Z]", t) and names.get(t) is not False:
                left[t] += 1
    print(
        f"respell: {changed} files changed; {bad} edits to bring over by hand; "
        f"camel case left: {dict(left.most_common(40))}"
    )
    return 0


if __name__ == "__main__":
    sys.exit(main())
