"""The calls of C over the erased hash_c: of each function hashers_NAME one that makes slices of pointers and counts, and calls it."""
import re

FUNCTION = re.compile(r"^pub fn (hashers_\w+)\(([^)]*)\)(?: -> (\w+))? \{", re.M)
SLICE = re.compile(r"&(mut )?\[(u8|u32|u64|usize|Point)\]")
STATE = re.compile(r"&(mut )?(SpookyState|Poly61Place|BlockState|Xxh3Place|NumberKey|MapKey|Cutting)")
NUMBERS = {"u32", "u64", "usize"}
ANSWERS = NUMBERS | {"", "bool", "Words", "SpookyState", "Poly61Place", "BlockState", "Xxh3Place"}
HEAD = """\
//! The calls of `c/hashers.h` over the erased functions, written by rust/erase. This file alone has unsafe code.
use super::block::BlockState;
use super::chunks::Cutting;
use super::numbers::{MapKey, NumberKey};
use super::spooky::{SpookyState, Words};
use super::*;
use hashers_proved::hash_keyed::poly61::Poly61Place;
use hashers_proved::hash_ring::points::Point;
use hashers_proved::hash_xxh3::Xxh3Place;

/// So many items from there on. Where there are none, any pointer will do.
unsafe fn slice<'a, T>(at: *const T, count: usize) -> &'a [T] {
    if count == 0 {
        return &[];
    }
    // SAFETY: the caller says that so many items can be read there, which nobody writes during the call.
    unsafe { core::slice::from_raw_parts(at, count) }
}

/// The same, to be written.
unsafe fn slice_mut<'a, T>(at: *mut T, count: usize) -> &'a mut [T] {
    if count == 0 {
        return &mut [];
    }
    // SAFETY: the caller says that so many items can be written there, which nothing else reaches during the call.
    unsafe { core::slice::from_raw_parts_mut(at, count) }
}
"""
PLAIN = """
/// See `hashers.h`.
#[no_mangle]
pub extern "C" fn %s(%s)%s {
    %s
}
"""
OVER_POINTERS = """
/// See `hashers.h`.
///
/// # Safety
///
/// Each pointer and its count are so many items that nothing else writes during the call.
#[no_mangle]
%s
    // SAFETY: as said above.
    unsafe { %s }
}
"""


class Unknown(Exception):
    """A function of a form that has no call of C."""


def parameter(text):
    """What a call takes for a parameter, and what it hands on."""
    name, kind = [it.strip() for it in text.split(":")]
    found = SLICE.fullmatch(kind)
    if found:
        pointer, made = ("*mut", "slice_mut") if found[1] else ("*const", "slice")
        return "%s: %s %s, %s_count: usize" % (name, pointer, found[2], name), "%s(%s, %s_count)" % (made, name, name)
    if STATE.fullmatch(kind) or kind in NUMBERS:
        return "%s: %s" % (name, kind), name
    raise Unknown("a parameter of the type " + kind)


def call(module, name, parameters, answer):
    if answer not in ANSWERS:
        raise Unknown("an answer of the type " + answer)
    pairs = [parameter(it) for it in parameters.split(",") if it.strip()]
    handed = "%s::%s(%s)" % (module, name, ", ".join(given for _, given in pairs))
    taken, answer = ", ".join(it for it, _ in pairs), " -> " + answer if answer else ""
    if not any(given.startswith("slice") for _, given in pairs):
        return PLAIN % (name, taken, answer, handed)
    head = 'pub unsafe extern "C" fn %s(%s)%s {' % (name, taken, answer)
    if len(head) > 140:
        head = head.replace(taken, "\n    %s,\n" % taken.replace(", ", ",\n    "))
    return OVER_POINTERS % (head, handed)


def exports(files):
    """The text of exports.rs over the erased files, by their paths."""
    out = [HEAD]
    for path, text in sorted(files.items()):
        found = FUNCTION.findall(text)
        if len(found) != text.count("fn hashers_"):
            raise Unknown("a function of an unknown form in " + path)
        module = re.search(r"(\w+)\.rs$", path)[1]
        out += [call("super" if module == "mod" else module, *it) for it in found]
    return "".join(out)
