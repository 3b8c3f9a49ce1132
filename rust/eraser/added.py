"""What is added: the crate's name in paths, `#[inline]`, clauses as documentation, and the prelude."""
import re
import textwrap

from .tables import (
    ALLOW, CRATES, DOC_WORDS, EXPORTS, MARK, NOTES, PROGRAMS, RUST_CRATES, SHIM_MACROS, SHIM_TYPES, SOURCES, TESTS_OF)

# What may stand at the head of a path.
HEADS = {"std", *SOURCES} - PROGRAMS
# A function of at most so many tokens in its body is small.
SMALL = 200


def paths(s):
    """The crate's name behind a path's `crate`."""
    for k in range(len(s.toks)):
        if k not in s.gone and s.is_(k, "crate") and s.is_(k + 1, ":") and s.is_(k + 2, ":"):
            s.behind[k] = "::" + s.crate


def first_of(s, k):
    """The first token of the function whose `fn` is at k."""
    while k:
        if s.is_(k - 1, ")") and s.is_(s.match[k - 1] - 1, "pub"):
            k = s.match[k - 1] - 1
        elif s.is_(k - 1, "pub", "const", "extern") or s.toks[k - 1].text == '"C"':
            k -= 1
        else:
            break
    return k


def heads(s):
    """Each function that stays: its `fn`, the first token of its item with its attributes, that without them, and its `{` or `;`."""
    for k in range(len(s.toks)):
        if k not in s.gone and s.is_(k, "fn") and s.is_id(k + 1):
            first = first_of(s, k)
            yield k, s.attributed(first), first, s.body_of(k)


def indent_of(s, k):
    line = s.text[:s.toks[k].start].rsplit("\n", 1)[-1]
    if line.strip():
        s.stop(k, "a function that does not begin its line")
    return line


def functions(s):
    """`#[inline]` before small functions that have no hint, the clauses of each function behind its documentation, and that a number among
    its parameters is not 0, which rustc tests."""
    for k, head, first, body in heads(s):
        indent = indent_of(s, head)
        hinted = any(s.is_(i, "inline", "cold") for i in range(head, first))
        if s.is_(body, "{") and not hinted and s.match[body] - body - 1 <= SMALL:
            add(s, first, "#[inline]\n" + indent)
        lines = clauses(s, k, body)
        if lines:
            if documented(s, head):
                lines.insert(0, "///")
            add(s, head, "".join(line + "\n" + indent for line in lines), front=True)
        for name in not_zero(s, k, body):
            add(s, body + 1, f"const {{ assert!(0 < {name}) }};\n{indent}    ")


def add(s, k, text, front=False):
    s.before[k] = text + s.before.get(k, "") if front else s.before.get(k, "") + text


def documented(s, k):
    before = [t for t in s.all if t.end <= s.toks[k].start]
    return bool(before) and before[-1].kind == "doc"


def clauses(s, k, body):
    """The lines of documentation that say what the clauses of a function say."""
    lines = []
    for what, title in (("requires", "The caller has to see to it that:"), ("ensures", "Proved:")):
        texts = [clause(s.toks[i].text, what) for i in range(k, body) if s.is_ghost(i, what)]
        if texts:
            lines += ["///"] * bool(lines) + ["/// " + title, "///", "/// ```text"]
            lines += [("/// " + line).rstrip() for text in texts for line in text] + ["/// ```"]
    return lines


def not_zero(s, k, body):
    """The parameters `const N` that a function requires not to be 0."""
    found = [re.fullmatch(r"requires\s*\w*\s*\{ 0 < (\w+) \}", s.toks[i].text) for i in range(k, body) if s.is_ghost(i, "requires")]
    named = [s.toks[i + 1].text for i in range(k, body) if s.is_(i, "const")]
    return [it[1] for it in found if it and it[1] in named and s.is_(body, "{")]


def clause(text, what):
    """The lines of a clause: its name, if it has one, and its text."""
    name, inner = re.fullmatch(what + r"\s*(\w*)\s*\{(.*)\}", text, re.S).groups()
    first, *rest = inner.strip().split("\n")
    rest = textwrap.indent(textwrap.dedent("\n".join(rest)), "    ").split("\n") if rest else []
    return [(name + ": " if name else "") + first] + [line.rstrip() for line in rest]


def doc_edits(s):
    """In documentation: links name the crate, and calls are Rust's. Pairs of a place, its end and the new text."""
    for i, t in enumerate(s.all):
        if t.kind not in ("doc", "idoc") or i in s.docs_gone:
            continue
        for found in re.finditer(r"\]\(crate(?=::)", t.text):
            yield t.start + found.end(), t.start + found.end(), "::" + s.crate
        for old, new in DOC_WORDS:
            for found in re.finditer(re.escape(old), t.text):
                yield t.start + found.start(), t.start + found.end(), new


def reexports(s):
    """Whether the file exports a whole crate, as `pub use hash_fx as fx_hash;`: then its prelude is public."""
    return any(s.is_(k, "pub") and s.is_(k + 1, "use") and s.is_(k + 2, *s.siblings) and s.is_(k + 3, ";", "as")
               for k in range(len(s.toks)))


def crates_named(s):
    """The crates, and std, that the file names at the head of a path."""
    found = set()
    for k in range(len(s.toks)):
        if k in s.gone or not s.is_name(k, HEADS) or s.is_(k - 1, ":"):
            continue
        if s.is_(k + 1, ":") and s.is_(k + 2, ":") and not s.is_(k + 3, "<") or s.is_(k - 1, "use"):
            found.add(s.toks[k].text)
    return sorted(found)


def shim_names(s):
    """What a file that stands on the shim finds in its prelude in Rattle, and names."""
    found = set()
    for k in range(len(s.toks)):
        if s.on_shim and k not in s.gone and not (s.is_(k - 1, ":") and s.is_(k - 2, ":")):
            if s.is_(k, *SHIM_TYPES) or s.is_(k, *SHIM_MACROS) and s.is_(k + 1, "!"):
                found.add(s.toks[k].text)
    return sorted(found) + ["std"] * ("std" in crates_named(s) and s.on_shim)


def called(s):
    """`pub` before the `main` of a program, which a file by hand calls, and before tests, which RUN calls."""
    for k in range(len(s.toks)):
        if s.is_(k, "fn") and s.texts(k + 2, k + 3) == ["(", "rt"]:
            if s.crate in PROGRAMS and s.is_(k + 1, "main") or s.toks[k + 1].text in s.tests:
                add(s, k, "pub ")


def imports_of(s):
    """The `use` lines of the prelude: the crates that become modules here, and those of the crate below."""
    named = crates_named(s)
    here = [it for it in named if it in s.siblings or it == "std" and not s.on_shim]
    below = [(rust_crate.replace("-", "_"), [it for it in named if it in RUST_CRATES[rust_crate] and it not in s.siblings])
             for rust_crate in ("hashers-proved", "hashers-tools")]
    shim = "crate::shim" if s.siblings in (CRATES, RUST_CRATES["hashers-tests"]) else "hashers_proved::shim"
    for root, names in [("crate", here), *below, (shim, shim_names(s))]:
        if names:
            names = "{%s}" % ", ".join(names) if len(names) > 1 else names[0]
            yield "%suse %s::%s;" % ("pub " if reexports(s) else "", root, names)


def prelude(s, text):
    """The text with the prelude behind its inner documentation."""
    lines = text.split("\n")
    at = next(n for n, line in enumerate(lines) if not line.startswith("//!"))
    docs, body = lines[:at], "\n".join(lines[at:]).lstrip("\n")
    if s.module in NOTES:
        docs += ["//!"] + ["//! " + line for line in NOTES[s.module].split("\n")]
    head = ["", MARK % s.path]
    if s.module in ALLOW:
        head += ["// %s." % ALLOW[s.module][1], "#![allow(%s)]" % ALLOW[s.module][0]]
    uses = list(imports_of(s))
    if uses and reexports(s):
        head.append("#[doc(hidden)]")
    elif uses and any("cfg(" in it for it in s.before.values()):
        head.append("#[allow(unused_imports)]")
    head += uses + ["#[allow(unsafe_code)]", "mod exports;"] * (s.module == EXPORTS) + ["mod run;"] * (s.module == TESTS_OF)
    return "\n".join(docs + head + ["", body]).rstrip("\n") + "\n"
