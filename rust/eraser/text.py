"""The Rust text of a Source: what is left of it, and what is added."""
import functools
import os
import re
import textwrap

from . import added, imports, rules
from .source import Source
from .tables import FEATURED, LEFT_OUT, PARTS, RUST_CRATES, SOURCES, Trouble

# How long a line of documentation may be.
WIDTH = 140


def read_all(folder, crates, parts):
    """Of each source of these crates, or of these parts of them, its crate, its module, its path and its text. `folder` is the project's
    folder crates/."""
    for crate in crates:
        src = os.path.join(folder, crate, "src")
        for place, _, names in sorted(os.walk(src)):
            for name in sorted(names):
                path = os.path.join(place, name)
                part = os.path.relpath(path, src)[:-3]
                if name.endswith(".rt") and part in parts.get(crate, {part}):
                    with open(path, encoding="utf-8") as file:
                        yield crate, crate + "/" + part, "crates/" + os.path.relpath(path, folder), file.read()


def out_path(module):
    crate, part = module.split("/", 1)
    return os.path.join("src", crate, "mod.rs" if part in ("lib", "main") else part + ".rs")


@functools.lru_cache
def law_names(folder):
    """The names of the laws of all crates, also of files that are not written."""
    files = [Source(*it, SOURCES) for it in read_all(folder, SOURCES, {})]
    for s in files:
        rules.ghost_text(s)
    names, before = set(), None
    while names != before:  # a law may cite laws
        before = set(names)
        for s in files:
            names |= rules.laws_of(s, names)
    return names


def erased(folder, rust_crate):
    """The sources with marks at what goes and what is added, and the names of the laws."""
    crates = RUST_CRATES[rust_crate]
    names = law_names(folder)
    parts = PARTS.get(rust_crate, {})
    files = [Source(*it, crates, parts.get(it[0])) for it in read_all(folder, crates, parts)]
    for s in files:
        rules.ghost_text(s)
        rules.attributes(s)
        rules.modules(s)
        rules.handles(s)
        rules.functions(s, names)
    laws = set().union(*(s.laws for s in files))
    for s in files:
        rules.citations(s, names)
        if names & s.items:
            raise Trouble("%s: %s names a law and another item" % (s.path, sorted(names & s.items)))
        rules.impls(s)
        imports.imports(s, names | set(LEFT_OUT))
        rules.bounds(s)
        rules.formatters(s)
        added.paths(s)
        if rust_crate == FEATURED and not s.on_shim:
            imports.std_items(s)
        added.functions(s)
        added.called(s)
        rules.unknown(s)
    return files, laws


def rust(s):
    """The text without what goes, and with what is added. Every change is a place, its end, and what is there instead; \\0 stands where
    something went."""
    edits = [(t.start, t.end, "\0") for k, t in enumerate(s.toks) if k in s.gone]
    edits += [(s.all[i].start, s.all[i].end, "\0") for i in s.docs_gone]
    edits += [(a.end, b.start, "") for k, (a, b) in enumerate(zip(s.toks, s.toks[1:]))
              if k in s.gone and k + 1 in s.gone and a.end < b.start and not s.text[a.end:b.start].strip(" ")]
    edits += [(s.toks[k].end, s.toks[k].end, text) for k, text in s.behind.items()]
    edits += [(s.toks[k].start, s.toks[k].start, text) for k, text in s.before.items()]
    edits += added.doc_edits(s)
    out, at = [], 0
    for start, end, text in sorted(edits, key=lambda it: it[:2]):
        if start < at:
            raise Trouble("%s: two changes at one place" % s.path)
        out += [s.text[at:start], text]
        at = end
    return added.prelude(s, tidy("".join(out) + s.text[at:]))


def run(files):
    """The text of the file that calls the tests: of each file the names of its tests."""
    lines = ["//! Calls each test, with what a program has of the system. Written by rust/erase.", "tests! {"]
    for s in files:
        if s.tests:
            lines += textwrap.wrap("%s: %s;" % (s.module.rsplit("/", 1)[1], " ".join(s.tests)), WIDTH, initial_indent="    ",
                                   subsequent_indent="        ")
    return "\n".join([*lines, "}"]) + "\n"


def tidy(text):
    """Takes the lines away of which nothing is left."""
    lines = []
    for line in text.split("\n"):
        marked, line = "\0" in line, without_marks(line)
        if marked and not line.strip():
            if lines and lines[-1] is not None:
                lines.append(None)
        elif line.strip() in ("{", "{}", ";") and lines and (lines[-1] is None or marked):
            body_joins(lines, line)
        else:
            lines += broken(line)
    return blank_lines([line for line in lines if line is not None])


def broken(line):
    """The line, or more where documentation is too long: behind the last sign of a sentence if there is one, or else behind a word."""
    head = re.match(r" *//[/!] ", line)
    if not head or len(line) <= WIDTH:
        return [line]
    first = re.match(r" *//[/!] .+[.:;] ", line[:WIDTH]) or re.match(r" *//[/!] .+ ", line[:WIDTH + 1])
    return [first[0].rstrip(), *broken(head[0] + line[first.end():])] if first else [line]


def without_marks(line):
    """The line with no blanks left over where something went."""
    if "\0" not in line:
        return line
    line = re.sub("(?<=[{(]) ?\0+ ", "", re.sub(" \0+(?=[>,;)])", "", line))
    return re.sub(r"(\S) +$", r"\1", re.sub(" \0+ ", " ", line).replace("\0", ""))


def body_joins(lines, line):
    """A body or a semicolon whose clauses went ends the line of its head."""
    while lines[-1] is None or not lines[-1].strip():
        lines.pop()
    if lines[-1].endswith(",") or "//" in lines[-1]:
        lines.append(line)
    else:
        lines[-1] += line.strip().replace("{", " {")


def blank_lines(lines):
    """One blank line between items, and none at the ends of a block."""
    out = []
    for line in lines:
        if not line.strip() and (not out or not out[-1].strip() or out[-1].rstrip().endswith("{")):
            continue
        if line.strip().startswith("}") and out and not out[-1].strip():
            out.pop()
        if line.strip() == "}" and out and out[-1].endswith(" {") and "//" not in out[-1]:
            out[-1] += "}"
        else:
            out.append(line)
    return "\n".join(out).rstrip("\n") + "\n"
