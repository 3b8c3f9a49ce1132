"""The rules of what goes. Each takes a Source, and stops at a form that it does not know."""
import re

from .tables import ATTRIBUTES, DERIVES, KEYWORDS, SHIM_MACROS, SHIM_WORDS, LEFT_OUT, UNKNOWN

ITEMS = {"fn", "struct", "enum", "const", "static", "trait", "type", "mod"}
WHY = {"use": "ghost use", "member": "ghost member", "field": "ghost field", "value": "ghost value", "requires": "requires",
       "ensures": "ensures"}


def ghost_text(s):
    """Ghost items and clauses."""
    for k, t in enumerate(s.toks):
        if t.kind != "ghost":
            continue
        first = k
        if t.what == "field" and s.is_(k - 1, "pub"):
            first = k - 1
        elif t.what in ("member", "use"):
            if not (k == 0 or s.is_(k - 1, ";", "{", "}", "]") or s.toks[k - 1].kind == "ghost"):
                s.stop(k, "a ghost item in an unknown place")
        elif t.what in ("requires", "ensures"):
            clause(s, k)
        elif t.what == "value" and not s.is_(k + 1, "{", ";"):
            s.stop(k, "a ghost value with something unknown behind it")
        s.erase(first, k, WHY[t.what], docs=True)


def clause(s, k):
    """A clause ends a function's head: other clauses, or the body or a semicolon, are behind it, and `fn` before it, or the bars of a
    closure."""
    if not (s.is_(k + 1, "{", ";") or s.is_ghost(k + 1, "requires", "ensures")):
        s.stop(k, "a clause with something unknown behind it")
    i = k - 1
    while i >= 0 and not s.is_(i, "fn"):
        if s.is_(i, ")", "]"):
            i = s.match[i]
        elif s.is_(i, "=") and s.is_(i - 2, "<", ","):
            i -= 2  # of an associated type
        elif s.is_(i, "|") and s.is_(i + 1, "-") and s.is_(i + 2, ">"):
            return
        elif s.is_(i, "{", "}", ";", "=") or s.toks[i].kind == "ghost" and not s.is_ghost(i, "requires", "ensures"):
            s.stop(k, "a clause that ends no function's head")
        i -= 1
    if i < 0:
        s.stop(k, "a clause that ends no function's head")


def attributes(s):
    """`#[tactic]`, `#[cycle]` and `#[rattlefmt::skip]` go, and Drop out of a derive."""
    for k in range(len(s.toks)):
        if not s.is_(k, "#"):
            continue
        o = k + 1 + s.is_(k + 1, "!")
        if not s.is_(o, "["):
            s.stop(k, "a # that is no attribute")
        name = s.toks[o + 1].text
        if s.texts(o, s.match[o] + 2) == ["[", "cfg", "(", "test", ")", "]", "mod", "tests"] and s.is_(s.match[o] + 3, ";"):
            s.erase(k, s.match[o] + 3, "module of tests")
        elif s.of_tests and s.texts(o, o + 2) == ["[", "test", "]"]:
            test(s, k, o + 3)
        elif name in ("tactic", "cycle", "rattlefmt"):
            s.erase(k, s.match[o], "#[%s]" % name)
        elif s.texts(o, o + 5) == ["[", "unsafe", "(", "no_mangle", ")", "]"]:
            exported(s, k, s.match[o])
        elif name == "derive":
            derive(s, k, o)
        elif name not in ATTRIBUTES:
            s.stop(k, "an unknown attribute")


def test(s, first, fn):
    """`#[test] fn NAME(rt: HostRuntime)`: a test of Rust takes nothing, so a file of its own calls this one."""
    if s.texts(fn, fn) != ["fn"] or s.texts(fn + 2, fn + 6) != ["(", "rt", ":", "HostRuntime", ")"]:
        s.stop(first, "a test of an unknown form")
    s.erase(first, fn - 1, "#[test]")
    s.tests.append(s.toks[fn + 1].text)


def modules(s):
    """The lines of modules whose files are not taken, and what is shown of them."""
    part = s.module.split("/", 1)[1]
    folder = "" if part in ("lib", "main") else part + "/"
    left = {name for k, name in tops(s) if s.parts and s.is_(k, "mod") and s.is_(k + 2, ";") and folder + name not in s.parts}
    for k in range(len(s.toks)):
        if k not in s.gone and s.is_(k, "mod", "use") and s.is_name(k + 1, left):
            end = next(i for i in range(k, len(s.toks)) if s.is_(i, ";"))
            s.erase(k - s.is_(k - 1, "pub"), end, "module that is not taken", docs=True)


def handles(s):
    """What ends a test takes a handle in Rattle: `assert!(rt; ..)`, `x.expect(&rt, ..)`."""
    for k in range(len(s.toks) if s.of_tests else 0):
        if s.is_(k, "assert", "assert_eq", "panic") and s.texts(k + 1, k + 4) == ["!", "(", "rt", ";"]:
            s.erase(k + 3, k + 4, "handle")
        elif s.texts(k, k + 2) == [".", "expect", "("]:
            rt = k + 3 + s.is_(k + 3, "&")
            if s.texts(rt, rt + 1) == ["rt", ","]:
                s.erase(k + 3, rt + 1, "handle")


def exported(s, first, last):
    """`#[unsafe(no_mangle)] pub extern "C" fn`: Rust gives a slice no layout in C, so exports.rs has the calls of C."""
    if s.texts(last + 1, last + 4) != ["pub", "extern", '"C"', "fn"]:
        s.stop(first, "an export of an unknown form")
    s.erase(first, last, "#[unsafe(no_mangle)]")
    s.erase(last + 2, last + 3, 'extern "C"')


def derive(s, k, o):
    names = [x for x in range(o + 3, s.match[o] - 1) if s.is_id(x)]
    texts = [s.toks[x].text for x in names]
    if not set(texts) <= DERIVES:
        s.stop(k, "an unknown derive")
    if "Clone" in texts and "Copy" not in texts:
        s.stop(k, "Clone without Copy, which returns a Result in Rattle")
    if texts == ["Drop"]:
        s.erase(k, s.match[o], "derive(Drop)")
    elif "Drop" in texts:
        x = names[texts.index("Drop")]
        if s.is_(x - 1, ","):
            s.erase(x - 1, x, "derive(Drop)")
        elif s.is_(x + 1, ","):
            s.erase(x, x + 1, "derive(Drop)")
        else:
            s.stop(x, "a derive of an unknown form")


def impls(s):
    """`impl Model`, which is ghost, goes, and an `impl Drop` that says only that a value may be dropped."""
    for k in range(len(s.toks)):
        if not s.is_(k, "impl") or k in s.gone or s.is_(k - 1, "&", "(", ",", ":", ">"):
            continue
        body = s.body_of(k)
        if not s.is_(body, "{"):
            s.stop(k, "an impl of an unknown form")
        angle, of = 0, None
        for i in range(k + 1, body):
            angle += s.is_(i, "<") - (s.is_(i, ">") and not s.is_(i - 1, "-"))
            if s.is_(i, "for") and angle == 0:
                of = i - 1
        if of is None:
            continue
        inside = range(body + 1, s.match[body])
        if s.is_(of, "Model"):
            for i in inside:
                if s.toks[i].kind != "ghost":
                    s.stop(i, "an impl Model with code")
            s.erase(k, s.match[body], "impl Model", docs=True)
        elif s.is_(of, "Drop"):
            plain_drop(s, body, [s.toks[i].text for i in inside if s.toks[i].kind != "ghost"])
            s.erase(k, s.match[body], "impl Drop", docs=True)
        elif s.is_(of, "Iterator"):
            if [s.toks[i + 1].text for i in inside if s.is_(i, "fn") and s.is_id(i + 1)] != ["next"]:
                s.stop(of, "an Iterator with more than next")
        elif s.is_(of, "Clone", "Deref", "DerefMut", "Owns"):
            s.stop(of, "an impl of a trait that differs in Rattle")


def plain_drop(s, body, words):
    """The block is `fn drop(self) { let Self { x: _, .. } = self; }`, or a `match self` whose arms only take it apart: nothing happens."""
    field = r"\w+ : _"
    fields = r"(?: \{ %s(?: , %s)*(?: ,)? \}| \( _(?: , _)* \))?" % (field, field)
    variant = r"\w+ : : \w+(?: \( _\w*(?: , _\w*)* \))?"
    arm = r"%s(?: \| %s)* = > \{ \}(?: ,)?" % (variant, variant)
    if not re.fullmatch(r"fn drop \( self \) \{ (?:let Self%s = self ;|match self \{(?: %s)+ \}) \}" % (fields, arm), " ".join(words)):
        s.stop(body, "a drop that does something")


def tops(s):
    """Each named item at the top of the module."""
    depth = 0
    for k, t in enumerate(s.toks):
        if t.kind == "punct":
            depth += (t.text == "{") - (t.text == "}")
        elif not depth and t.text in ITEMS and t.kind == "id" and s.is_id(k + 1):
            yield k, s.toks[k + 1].text


def laws_of(s, names):
    """The names of its laws, which may cite laws of these names, and its other names for these."""
    others = {s.toks[k + 2].text for k in range(len(s.toks)) if s.is_(k + 1, "as") and s.is_name(k, names)}
    return others | {name for k, name in tops(s) if s.is_(k, "fn") and is_law(s, k, names)}


def functions(s, names):
    """Finds the laws, functions with clauses and nothing else but citations of laws, and what is left out, at the top of the module."""
    for k, name in tops(s):
        if s.is_(k, "fn") and (name in LEFT_OUT or is_law(s, k, names)):
            s.laws.add(name)
            first = k
            while s.is_(first - 1, "pub"):
                first -= 1
            s.erase(first, s.match[s.body_of(k)], "left out" if name in LEFT_OUT else "law", docs=True)
        else:
            s.items.add(name)


def citation_end(s, k, names):
    """Of a statement that cites a law, `NAME();` or `NAME::<..>();`, the number of its semicolon, or None."""
    if not (s.is_name(k, names) and s.is_(k - 1, ";", "{", "}")):
        return None
    i = k + 1
    if s.is_(i, ":") and s.is_(i + 1, ":") and s.is_(i + 2, "<"):
        i = s.past_generics(i + 2)
    return i + 2 if s.is_(i, "(") and s.is_(i + 1, ")") and s.is_(i + 2, ";") else None


def citations(s, names):
    """A statement that cites a law has no code."""
    for k in range(len(s.toks)):
        end = None if k in s.gone else citation_end(s, k, names)
        if end is not None:
            s.erase(k, end, "citation of a law")
        elif k not in s.gone and s.is_name(k, names) and (s.is_(k - 1, "let", "mut") or s.is_(k + 1, "(") and not s.is_(k - 1, "fn", ".")):
            s.stop(k, "a law that is cited otherwise")


def is_law(s, k, names):
    """No parameter, no result, no body but citations of laws: only `ensures`."""
    i = s.past_generics(k + 2)
    if not (s.is_(i, "(") and s.is_(i + 1, ")")):
        return False
    i += 2
    first = i
    while s.is_ghost(i, "ensures"):
        i += 1
    if not (i > first and s.is_(i, "{")):
        return False
    i += 1
    while citation_end(s, i, names) is not None:
        i = citation_end(s, i, names) + 1
    return s.is_(i, "}")


def bounds(s):
    """`Drop` as a bound says in Rattle that a value may be dropped."""
    for k in range(len(s.toks)):
        if k in s.gone or not s.is_(k, "Drop"):
            continue
        if s.is_(k - 1, "+"):
            s.erase(k - 1, k, "bound Drop")
        elif s.is_(k + 1, "+"):
            s.erase(k, k + 1, "bound Drop")
        elif s.is_(k - 1, ":") and not s.is_(k - 2, ":") and s.is_(k + 1, ",", ">", ";", "{"):
            s.erase(k - 1, k, "bound Drop")
        else:
            s.stop(k, "a Drop of an unknown form")


def formatters(s):
    """`fn fmt<W: fmt::Write>(&self, f: &mut Formatter<W>)`: Rust's Formatter has no parameter."""
    head = ["fn", "fmt", "<", "W", ":", "fmt", ":", ":", "Write", ">", "(", "&", "self", ",", "f", ":", "&", "mut"]
    for k in range(len(s.toks)):
        if s.texts(k, k + 2) != head[:3]:
            continue
        i = k + 18 + 3 * (s.texts(k + 18, k + 20) == ["fmt", ":", ":"])
        if s.texts(k, k + 17) != head or s.texts(i, i + 3) != ["Formatter", "<", "W", ">"]:
            s.stop(k, "a fmt of an unknown form")
        s.erase(k + 2, k + 9, "Formatter's parameter")
        s.erase(i + 1, i + 3, "Formatter's parameter")


def unknown(s):
    """Stops at what no rule took."""
    for k, t in enumerate(s.toks):
        if k in s.gone:
            continue
        if t.kind == "ghost":
            s.stop(k, "ghost text that no rule took")
        if t.kind == "id" and t.text in UNKNOWN and not (s.on_shim and t.text in SHIM_WORDS):
            if t.text != "expect" or s.is_(k - 1, ".") and k + 2 not in s.gone:
                s.stop(k, "no rule for %s" % UNKNOWN[t.text])
        takes_handle = (s.is_(k, "!") and s.is_(k + 1, "(", "[") and s.is_id(k + 2) and k + 2 not in s.gone
                        and (s.is_(k + 3, ";") or s.is_(k + 2, "in")))
        if takes_handle and not (s.on_shim and s.is_(k - 1, *SHIM_MACROS)):
            s.stop(k, "a macro that takes a handle")
        if s.is_(k, "fn") and s.is_id(k + 1):
            body = s.body_of(k)
            if s.is_(body, "{") and s.is_(s.match[body] + 1, "{"):
                s.stop(body, "a head with something unknown")
        if s.is_id(k + 1) and s.toks[k + 1].text not in KEYWORDS and k + 1 not in s.gone:
            if t.kind == "id" and t.text not in KEYWORDS or s.is_(k, ")") and not s.is_(s.match[k] - 1, "pub"):
                s.stop(k + 1, "a word that the eraser does not know")
