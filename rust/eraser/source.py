"""One Rattle source: its tokens, which of them go, and what is added."""
import bisect
import functools

from .tables import SHIM_CRATES, TESTS_OF
from .tokens import Scanner

OPEN, CLOSE = {"(": ")", "[": "]", "{": "}"}, {")", "]", "}"}


@functools.lru_cache(maxsize=None)
def tokens_of(path, text):
    """The tokens of a text, which several Rust crates may take."""
    return Scanner(path, text).tokens()


class Source:
    """`gone` says of a token's number why it goes; `before` and `behind` what text is added there. `toks` has no comments, `all` has."""

    def __init__(self, crate, module, path, text, siblings, parts=None):
        self.crate, self.module, self.path, self.text = crate, module, path, text
        # the Rattle crates that become modules of the same Rust crate, and the files that are taken of this one, where not all are
        self.siblings, self.parts = siblings, parts
        # whether it takes memory, reads or writes, over the shim
        self.on_shim = crate in SHIM_CRATES
        # whether it has tests, which take a handle
        self.of_tests = module.startswith(TESTS_OF)
        self.scanner = Scanner(path, text)
        self.all = tokens_of(path, text)
        self.toks = [t for t in self.all if t.kind not in ("note", "doc", "idoc")]
        self.match = self.pairs()
        self.gone, self.before, self.behind = {}, {}, {}
        self.docs_gone, self.laws, self.items, self.tests = set(), set(), set(), []

    def stop(self, k, why):
        self.scanner.stop(self.toks[min(k, len(self.toks) - 1)].start, why)

    def pairs(self):
        match, stack = {}, []
        for k, t in enumerate(self.toks):
            if t.kind != "punct":
                continue
            if t.text in OPEN:
                stack.append(k)
            elif t.text in CLOSE:
                if not stack or OPEN[self.toks[stack[-1]].text] != t.text:
                    self.stop(k, "a bracket that nothing opens")
                match[stack[-1]], match[k] = k, stack[-1]
                stack.pop()
        if stack:
            self.stop(stack[-1], "a bracket that nothing closes")
        return match

    def is_(self, k, *texts):
        return 0 <= k < len(self.toks) and self.toks[k].text in texts and self.toks[k].kind in ("id", "punct")

    def is_name(self, k, names):
        """Whether it is one of many words."""
        return 0 <= k < len(self.toks) and self.toks[k].kind == "id" and self.toks[k].text in names

    def is_id(self, k):
        return 0 <= k < len(self.toks) and self.toks[k].kind == "id"

    def is_ghost(self, k, *whats):
        return 0 <= k < len(self.toks) and self.toks[k].kind == "ghost" and self.toks[k].what in whats

    def texts(self, first, last):
        return [t.text for t in self.toks[first:last + 1]]

    def attributed(self, first):
        """The first token of the attributes right before."""
        while self.is_(first - 1, "]") and self.is_(self.match[first - 1] - 1, "#"):
            first = self.match[first - 1] - 1
        return first

    def erase(self, first, last, why, docs=False):
        """The tokens from first to last go. With `docs` the attributes and comments right before go too."""
        if docs:
            head = self.attributed(first)
            for k in range(head, first):
                self.gone.setdefault(k, "attribute of what goes")
            self.erase_comments(self.toks[head].start)
        for k in range(first, last + 1):
            if docs or k not in self.gone:
                self.gone[k] = why

    def erase_comments(self, at):
        """The comments right before that place, with no blank line between."""
        i = bisect.bisect_left([t.start for t in self.all], at) - 1
        while i >= 0 and self.all[i].kind in ("doc", "note"):
            t = self.all[i]
            ends_line = not self.text[:t.start].rsplit("\n", 1)[-1].strip()
            if self.text[t.end:at].count("\n") > 1 or not ends_line:
                break
            self.docs_gone.add(i)
            at, i = t.start, i - 1

    def body_of(self, k):
        """Of an `impl`, `trait` or `fn` at k: the number of its `{` or `;`."""
        i = k
        while i < len(self.toks):
            if self.is_(i, "(", "["):
                i = self.match[i]
            elif self.is_(i, "{", ";"):
                return i
            i += 1
        self.stop(k, "an item without a body")

    def past_generics(self, i):
        """Past the angle brackets that open at i, if any."""
        angle = 0
        while self.is_(i, "<") or angle:
            angle += self.is_(i, "<") - (self.is_(i, ">") and not self.is_(i - 1, "-"))
            i += 1
        return i
