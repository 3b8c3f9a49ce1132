"""The tokens of a Rattle text. A ghost text with its braces is one token."""
import re

from .tables import Trouble

IDENT = re.compile(r"(?:r#)?[A-Za-z_][A-Za-z0-9_]*")
NUMBER = re.compile(r"[0-9](?:[0-9A-Za-z_]|\.(?=[0-9]))*")
CHAR = re.compile(r"b?'(?:[^'\\\n]|\\(?:x[0-9a-fA-F]{2}|u\{[0-9a-fA-F_]+\}|.))'", re.S)
LIFETIME = re.compile(r"'[A-Za-z_][A-Za-z0-9_]*(?!')")
STRING = re.compile(r'(?:b|c)?"(?:[^"\\]|\\.)*"', re.S)
RAW = re.compile(r'(?:b|c)?r#*"')
SPACE = re.compile(r"\s+")
NAME = re.compile(r"[A-Za-z_][A-Za-z0-9_]*")
BY = re.compile(r"by\b")
KINDS = (("str", STRING), ("char", CHAR), ("life", LIFETIME), ("id", IDENT), ("num", NUMBER))
GHOST_WORDS = ("ghost", "requires", "ensures")


class Token:
    """kind: id, num, str, char, life, punct, doc (an outer doc comment), idoc (an inner one), note (another comment), ghost. `what` of a
    ghost token is use, member, field, value, requires or ensures."""
    __slots__ = ("kind", "text", "start", "end", "what")

    def __init__(self, kind, text, start, end, what=None):
        self.kind, self.text, self.start, self.end, self.what = kind, text, start, end, what


class Scanner:
    def __init__(self, path, text):
        self.path, self.text = path, text

    def stop(self, at, why):
        raise Trouble("%s:%d: %s: %r" % (self.path, self.text.count("\n", 0, at) + 1, why, self.text[at:at + 60]))

    def blank(self, at):
        found = SPACE.match(self.text, at)
        return found.end() if found else at

    def antt(self, at):
        """The end of the antt text in braces that begins at `at`. No character or comment may be in it, since a brace could be in there;
        a string is passed over."""
        if self.text[at:at + 1] != "{":
            self.stop(at, "ghost text has to begin with a brace")
        depth, i = 0, at
        while i < len(self.text):
            c = self.text[i]
            if c == '"':
                i = self.string(i)
                continue
            depth += (c == "{") - (c == "}")
            if depth == 0:
                return i + 1
            if self.text.startswith(("//", "/*", "--", "{-"), i):
                self.stop(i, "ghost text with a comment")
            if c == "'" and not (self.text[i - 1].isalnum() or self.text[i - 1] in "_'"):
                self.stop(i, "ghost text with a character")
            i += 1
        self.stop(at, "ghost text without end")

    def string(self, at):
        """The end of the string in ghost text that begins at `at`, on one line."""
        found = STRING.match(self.text, at)
        if not found or "\n" in found[0]:
            self.stop(at, "ghost text with a string of an unknown form")
        return found.end()

    def ghost(self, word, at):
        """What the ghost token is that begins with this word, and its end."""
        i = self.blank(at + len(word))
        found = NAME.match(self.text, i)
        if word in ("requires", "ensures"):
            return word, self.antt(self.blank(found.end()) if found else i)
        if not found:
            self.stop(at, "a ghost item without a name")
        if found[0] == "use":
            end = self.text.find(";", i)
            if end < 0 or "\n" in self.text[i:end] or '"' in self.text[i:end]:
                self.stop(at, "a ghost import over lines")
            return "use", end + 1
        return self.ghost_item(at, self.blank(found.end()))

    def ghost_item(self, at, i):
        """`: { type }`, `= { value }`, or both, and then perhaps `by { proof }`."""
        text = self.text
        if text[i:i + 1] not in (":", "=") or text[i + 1:i + 2] in (":", "="):
            self.stop(at, "a ghost item of an unknown form")
        if text[i] == ":":
            i = self.antt(self.blank(i + 1))
            j = self.blank(i)
            if text[j:j + 1] == "=" and text[j + 1:j + 2] != "=":
                i = self.antt(self.blank(j + 1))
        else:
            i = self.antt(self.blank(i + 1))
        j = self.blank(i)
        if BY.match(text, j):
            i = self.antt(self.blank(j + 2))
            j = self.blank(i)
        if text[j:j + 1] == ";":
            return "member", j + 1
        if text[j:j + 1] in (",", "}"):
            return "field", j + 1 if text[j] == "," else i
        return "value", i

    def comment(self, at):
        end = self.text.find("\n", at)
        end = len(self.text) if end < 0 else end
        kind = "note"
        if self.text.startswith("//!", at):
            kind = "idoc"
        elif self.text.startswith("///", at) and not self.text.startswith("////", at):
            kind = "doc"
        return Token(kind, self.text[at:end], at, end)

    def one(self, at):
        text = self.text
        if text.startswith("//", at):
            return self.comment(at)
        if text.startswith("/*", at):
            self.stop(at, "a comment in /* and */, which the check does not read")
        if RAW.match(text, at):
            self.stop(at, "a raw string, which the check does not read")
        for kind, pattern in KINDS:
            found = pattern.match(text, at)
            if found and kind == "id" and found[0] in GHOST_WORDS:
                what, end = self.ghost(found[0], at)
                return Token("ghost", text[at:end], at, end, what)
            if found:
                return Token(kind, found[0], at, found.end())
        if not text[at].isascii():
            self.stop(at, "a sign that is not ASCII outside ghost text")
        return Token("punct", text[at], at, at + 1)

    def tokens(self):
        at, out = self.blank(0), []
        while at < len(self.text):
            out.append(self.one(at))
            at = self.blank(out[-1].end)
        return out
