#!/usr/bin/env python3
"""Lists the definitions that the clauses of public functions unfold to, by file and in reading order.

    docs/trusted.py                  the page TRUSTED.md, on standard output
    docs/trusted.py CRATE FUNCTION   the same list for one function, with a count

A definition counts where a clause names it, or a definition that counts does. What a clause of a
type's invariant or a private function says does not count: nobody has to believe it.
"""
import re
import sys
from pathlib import Path

TOP = Path(__file__).resolve().parent.parent
CRATES = TOP / "crates"
WORD = re.compile(r"[^\W\d][\w'-]*(?:\.[^\W\d][\w'-]*)*")
USE = re.compile(r"^\s*(?:ghost )?use Rattle\.(\w+(?:\.\w+)*)(?:\.\{([^}]*)\}| as (\w+))?;?", re.M)
HEAD = re.compile(r"^(\s*)(?:(?:abbrev|unfoldable|unfolding [\w. ,]+?|pub|module _.*where)\s+)*"
                  r"(record|data)?\s*([^\W\d][\w'-]*)\s*(?:[({:]|$)")


class Module:
    """A file of specs/: what it imports, and its definitions with their texts."""

    def __init__(self, crate, path):
        self.crate, self.path = crate, path
        self.name = f"{crate}.specs." + ".".join(path.relative_to(CRATES / crate / "specs").with_suffix("").parts)
        self.text = path.read_text(encoding="utf-8")
        self.imports = imports_of(self.text)
        self.definitions = dict(definitions_of(self.text))


def imports_of(text):
    """Which names stand for which: a name by its module and its name there, a module's own by itself alone."""
    found = {}
    for module, names, alias in USE.findall(text):
        if names:
            for name in names.split(","):
                there, _, here = name.strip().partition(" as ")
                found[here or there] = (module, there)
        else:
            found[alias or module.split(".")[-1]] = (module, None)
    return found


def definitions_of(text):
    """Each definition with its lines: from its head to the next one."""
    name, lines = None, []
    for line in text.split("\n"):
        if line.lstrip().startswith(("--", "use ")) or re.match(r"\s*module _", line):
            continue
        start = head_of(line)
        if start and start != name:
            if name:
                yield name, lines
            name, lines = start, []
        if name and line.strip():
            lines.append(line)
    if name:
        yield name, lines


def head_of(line):
    """The name that a line begins to define, if it does: at the margin, or within a module of parameters."""
    indent = len(line) - len(line.lstrip())
    words = line.strip()
    if indent > 2 or not words:
        return None
    found = re.match(r"(?:(?:abbrev|unfoldable|unfolding [\w.-]+)\s+)*(?:pub )?(?:record |data )([^\W\d][\w'-]*)", words)
    if not found:
        found = re.match(r"(?:(?:abbrev|unfoldable)\s+)*(?:pub )?([^\W\d][\w'-]*)\s*:(?!:)", words)
        if found and indent == 2 and not words.startswith(("abbrev", "unfoldable")):
            return None
    return found and found[1]


def modules():
    found = {}
    for path in sorted(CRATES.glob("*/specs/**/*.antt")):
        if path.name != "Lib.antt":
            module = Module(path.relative_to(CRATES).parts[0], path)
            found[module.name] = module
    return found


MODULES = modules()


def cited(text, imports, own):
    """The definitions of the repository that a text names."""
    for word in WORD.findall(re.sub(r"--.*", "", text)):
        first, _, rest = word.partition(".")
        if first in own:
            yield own[first]
        elif first in imports:
            module, name = imports[first]
            name = name or rest
            if module in MODULES and name in MODULES[module].definitions:
                yield module, name


def closure(starts, apart=()):
    """All that these definitions unfold to, themselves included, but for what is set apart and what only that needs."""
    found, left = set(), list(starts)
    while left:
        at = left.pop()
        if at not in found and at not in apart:
            found.add(at)
            module = MODULES[at[0]]
            own = {name: (at[0], name) for name in module.definitions}
            left += cited("\n".join(module.definitions[at[1]]), module.imports, own)
    return found


def clauses_of(crate, function):
    """The clauses of a public function, with what its file imports."""
    for path in sorted((CRATES / crate / "src").glob("**/*.rt")):
        text = path.read_text(encoding="utf-8")
        at = re.search(rf"pub fn {function}\b", text)
        if at:
            end = re.search(r"^\s*\{\s*(\}\s*)?$", text[at.start():], re.M)
            return text[at.start():at.start() + end.start()], imports_of(text)
    raise SystemExit(f"no public function {function} in {crate}")


def started(functions):
    for crate, function in functions:
        text, imports = clauses_of(crate, function)
        yield from cited(text, imports, {})


def unfolded(functions):
    return closure(list(started(functions)))


# The two programs beside `hls`, each by its top call.
BESIDE = [("What `hlsview` writes", ("hls_view", "view_run")), ("What `hlsoffer` writes", ("hls_offer", "offer_run"))]

# What a reader may leave for later: a definition of the clauses, and what it is needed for.
APART = [
    ("The clauses of an audit, for `check` and `trial`",
     [("hls_audit_clauses.specs.Kept", "IsKept"), ("hls_audit_clauses.specs.Kept", "IsBroken"),
      ("hls_audit.specs.Audits", "IsAudit")]),
    ("The scenario of a number, for `gen` and `trial`", [("hls_gen.specs.Generated", "generated")]),
    ("The cause that is told of a refused text: what reads it, word by word",
     [("hls_lang.specs.ReadingLines", "scenario_of")]),
]


def sections(functions):
    """The definitions that clauses unfold to, in parts: first what is not set apart, then what each part adds."""
    starts = list(started(functions))
    apart = {it for _, names in APART for it in names}
    seen = closure(starts, apart)
    yield None, seen
    whole = closure(starts)
    for title, names in APART:
        more = closure([it for it in names if it in whole], apart - set(names)) - seen
        seen = seen | more
        yield title, more
    rest = whole - seen
    if rest:
        yield "And besides", rest


def crate_order():
    lines = (TOP / "crates.txt").read_text(encoding="utf-8").split("\n")
    deps = {it.split(":")[0]: it.split(":")[1].split() for it in lines if ":" in it and not it.startswith("#")}
    order = []

    def visit(name):
        if name in deps and name not in order:
            for dep in deps[name]:
                visit(dep)
            order.append(name)

    for name in deps:
        visit(name)
    return order


def module_order(names):
    """Modules in reading order: what a module imports comes before it."""
    order, crates = [], crate_order()

    def visit(name):
        if name in names and name not in order:
            for module, _ in MODULES[name].imports.values():
                visit(module)
            order.append(name)

    for name in sorted(names, key=lambda it: (crates.index(MODULES[it].crate), it)):
        visit(name)
    return order


def page_of(found):
    """The list, crate by crate."""
    by_module = {}
    for module, name in found:
        by_module.setdefault(module, set()).add(name)
    out, crate = [], None
    for name in module_order(set(by_module)):
        module = MODULES[name]
        if module.crate != crate:
            crate = module.crate
            out += ["", f"**{crate}**", ""]
        there = [it for it in module.definitions if it in by_module[name]]
        shown = name.split(".specs.")[1].replace(".", "/")
        out.append(f"- `{shown}`: {', '.join(f'`{it}`' for it in there)}")
    return out


def lines_in(found):
    return sum(len(MODULES[module].definitions[name]) for module, name in found)


def wrapped(line, width=120):
    """A line of the list, broken at spaces, with what follows set in."""
    if len(line) <= width:
        return [line]
    cut = line.rfind(" ", 0, width + 1)
    return [line[:cut], *wrapped("  " + line[cut + 1:], width)]


def is_public(crate, function):
    """Whether a crate has a public function of this name."""
    return any(re.search(rf"pub fn {function}\b", it.read_text(encoding="utf-8"))
               for it in (CRATES / crate / "src").glob("**/*.rt"))


def laws():
    """The functions that THEOREMS.md names, with their crates, which stand in the same row before or behind them."""
    text = (TOP / "docs" / "THEOREMS.md").read_text(encoding="utf-8")
    for row in re.findall(r"^\|.*\|$", text, re.M):
        words = re.findall(r"`(?:\w+::)?(\w+)`", row)
        crates = [it for it in words if (CRATES / it).is_dir()]
        for word in words:
            yield from ((crate, word) for crate in crates if crate != word and is_public(crate, word))


HEADER = """# What a reader has to believe

The theorems speak of the definitions below and of nothing else. `docs/trusted.py` writes this page: it lists what the
clauses of the two public calls of the program, `hls_run` and `start`, unfold to, file by file and in reading order,
then what those of the two programs beside it do, and then those of the laws. What only private clauses cite need not be
read, and neither do proofs. Types that are named here are those of the code.

What comes first is what is promised of `run`. A reader who asks only that may stop there.
"""

FOOTER = """
## Why these are the definitions meant

Laws say of many what the field says: budgets, tags, turns and places go by the rules that are known of them, which
`hls_book_rules` writes down, and `hls_book` those of turns; blocked threads do not run, a tick is idle only where the
root does not ask, refusals are exactly what the machine forbids. Wrong readings are shown to be ruled out. Tests hold
slow functions that compute the definitions against worked schedules, answers and reports.

## And besides

The toolchain (Rattle's compiler, prover and proved standard library, LLVM), the C library, and the contracts of the
ported crates that are used (`clap`, `indexmap`, `itoa`, `slab`, `thiserror`).
"""


def listed(found):
    for line in page_of(found):
        print("\n".join(wrapped(line)))



def main():
    if len(sys.argv) == 3:
        found = unfolded([(sys.argv[1], sys.argv[2])])
        print("\n".join(page_of(found)))
        print(f"\n{len(found)} definitions, {lines_in(found)} lines")
        return
    first = set()
    for title, found in sections([("hls_top", "hls_run"), ("hls_prog_start", "start")]):
        size = f"{len(found)} definitions, {lines_in(found)} lines."
        print(HEADER.rstrip() + f"\n\n{size}" if title is None else f"\n## {title}\n\n{size}")
        listed(found)
        first |= found
    for title, call in BESIDE:
        found = unfolded([call]) - first
        print(f"\n## {title}, besides\n\n{len(found)} definitions, {lines_in(found)} lines.")
        listed(found)
        first |= found
    others = unfolded(dict.fromkeys(laws())) - first
    print(f"\n## What the other lines of THEOREMS.md rest on besides\n\n{len(others)} definitions, {lines_in(others)} lines.")
    listed(others)
    print(FOOTER.rstrip())


if __name__ == "__main__":
    main()
