"""The check by a second tokenizer, which shares no code with the first: every token of a Rust file is in the Rattle file, in order, but
for the additions. It knows nothing of ghost text, and reads antt as words and signs."""
import re

SECOND = re.compile(r"""
    (?P<skip>\s+|//[^\n]*)
  | (?P<string>[bc]?"(?:[^"\\]|\\.)*")
  | (?P<char>b?'(?:[^'\\\n]|\\.[^']*)')
  | (?P<word>'?\w+)
  | (?P<sign>.)
""", re.X | re.S)
MARK = re.compile(r"// What follows is the proved text of crates/[\w/]+\.rt without its contracts\.")
PRELUDE = re.compile(r"// .*|#!?\[allow\([\w, ]+\)\]|#\[doc\(hidden\)\]|mod (?:exports|run);"
                     r"|(?:pub )?use (?:crate|hashers_proved|hashers_tools)(?:::shim)?::(?:\w+|\{[\w, ]+\});")
CFG = ["#", "[", "cfg", "(", "feature", "=", '"std"', ")", "]"]
INLINE = ["#", "[", "inline", "]"]
NOT_ZERO = re.compile(r"const \{ assert ! \( 0 < \w+ \) \} ;")


def tokens(text):
    return [m[0] for m in SECOND.finditer(text) if m.lastgroup != "skip"]


def without_additions(rust, crate):
    """The Rust tokens without what may be added."""
    words, i = [], 0
    while i < len(rust):
        if rust[i:i + 9] == CFG and rust[i + 9] in ("use", "pub", "type"):
            i += 9
        elif rust[i:i + 4] == INLINE:
            i += 4
        elif NOT_ZERO.fullmatch(" ".join(rust[i:i + 11])):
            i += 11
        elif rust[i:i + 2] == ["pub", "fn"] and rust[i + 3:i + 5] == ["(", "rt"]:
            i += 1
        elif rust[i] == "crate" and rust[i + 1:i + 6] == [":", ":", crate, ":", ":"]:
            words.append("crate")
            i += 4
        else:
            words.append(rust[i])
            i += 1
    return words


def body(text):
    """The text behind the prelude, or None where there is none."""
    lines = text.split("\n")
    marks = [n for n, line in enumerate(lines) if MARK.fullmatch(line)]
    if len(marks) != 1 or any(line and not line.startswith("//!") for line in lines[:marks[0]]):
        return None
    at = marks[0] + 1
    while PRELUDE.fullmatch(lines[at]):
        at += 1
    return "\n".join(lines[at:])


def wrong_in(rust, rattle, crate):
    """What is wrong with a Rust file, or None, and how many tokens of it were held."""
    if "/*" in rattle or re.search(r'(?<!\\)\br#*"', rattle):
        return "a comment or a string that the check does not read", 0
    text = body(rust)
    if text is None:
        return "no prelude", 0
    source = tokens(rattle)
    words = without_additions(tokens(text), crate)
    at = 0
    for here, word in enumerate(words):
        while at < len(source) and source[at] != word:
            at += 1
        if at == len(source):
            return "not in the source: " + " ".join(words[max(0, here - 8):here + 1]), here
        at += 1
    return None, len(words)
