//! A table of slots, which finds the places of texts by their hashes.

// What follows is the proved text of crates/text_set/src/slots.rt without its contracts.
use crate::shim::{Vec, std};

use crate::text_set::store::Store;
use std::alloc::{AllocError, Global};
use std::hash::{BuildHasher, Hasher};

/// The place of a text, or that there is none.
#[derive(Clone, Copy)]
pub struct Slot {
    /// 32 bits of the text's hash: another tag is another text.
    pub tag: u32,
    /// The text's place; `NOWHERE` in a slot with no text.
    pub place: u32,
}

/// No text has this place.
pub const NOWHERE: u32 = u32::MAX;

/// A slot with no text.
const EMPTY: Slot = Slot {
    tag: 0,
    place: NOWHERE,
};

impl Slot {
    /// Whether there is a text.
    ///
    /// Proved:
    ///
    /// ```text
    /// result ≡ is_taken self
    /// ```
    #[inline(always)]
    pub fn is_taken(self) -> bool {
        self.place != NOWHERE
    }
}

/// The tag of a text.
///
/// Proved:
///
/// ```text
/// result ≡ tag_under S.Hasher.write S.Hasher.finish (S.build_hasher hasher.now) text.now
/// ```
#[inline(always)]
pub fn tag_of<S: BuildHasher>(hasher: &S, text: &[u8]) -> u32 {
    let mut hasher = hasher.build_hasher();
    hasher.write(text);
    let hash = hasher.finish();
    ((hash ^ (hash >> 32)) % (1 << 32)) as u32
}

/// The place where the search for texts with this tag begins, among so many.
///
/// The caller has to see to it that:
///
/// ```text
/// 0 < count
/// ```
///
/// Proved:
///
/// ```text
/// value: result ≡ home_of count tag
/// below: result < count
/// ```
#[inline(always)]
pub fn home_of(count: usize, tag: u32) -> usize {
    tag as usize & (count - 1)
}

/// Whether the search for a text ends at this slot: it has no text, or this one.
///
/// The caller has to see to it that:
///
/// ```text
/// Names texts.now slot
/// ```
///
/// Proved:
///
/// ```text
/// result ≡ stops texts.now tag text.now slot
/// ```
#[inline(always)]
fn stops(texts: &Store, slot: Slot, tag: u32, text: &[u8]) -> bool {
    if !slot.is_taken() {
        return true;
    }
    slot.tag == tag && texts.get(slot.place as usize) == text
}

/// The first place in a range at which the search for a text ends.
///
/// The caller has to see to it that:
///
/// ```text
/// named: All (Names texts.now) slots.now
/// within: to ≤ length slots.now
/// ```
///
/// Proved:
///
/// ```text
/// FirstBetween (stops texts.now tag text.now) slots.now from to result
/// ```
#[inline]
fn stop_between(
    texts: &Store,
    slots: &[Slot],
    tag: u32,
    text: &[u8],
    from: usize,
    to: usize,
) -> Option<usize> {
    for i in from..to {
        if stops(texts, slots[i], tag, text) {
            return Some(i);
        }
    }
    None
}

/// The first place, round from the home of the tag, at which the search for a text ends.
///
/// The caller has to see to it that:
///
/// ```text
/// named: All (Names texts.now) slots.now
/// some: 0 < length slots.now
/// ```
///
/// Proved:
///
/// ```text
/// FirstRound (stops texts.now tag text.now) slots.now (home_of (length slots.now) tag) result
/// ```
#[inline(always)]
pub fn stop(texts: &Store, slots: &[Slot], tag: u32, text: &[u8]) -> Option<usize> {
    let home = home_of(slots.len(), tag);
    if stops(texts, slots[home], tag, text) {
        return Some(home);
    }
    match stop_between(texts, slots, tag, text, home, slots.len()) {
        Some(place) => Some(place),
        None => stop_between(texts, slots, tag, text, 0, home),
    }
}

/// The first place in a range that has no text.
///
/// The caller has to see to it that:
///
/// ```text
/// to ≤ length slots.now
/// ```
///
/// Proved:
///
/// ```text
/// FirstBetween (λ slot. not (is_taken slot)) slots.now from to result
/// ```
#[inline]
fn free_between(slots: &[Slot], from: usize, to: usize) -> Option<usize> {
    for i in from..to {
        if !slots[i].is_taken() {
            return Some(i);
        }
    }
    None
}

/// The first place, round from the home of the tag, that has no text.
///
/// The caller has to see to it that:
///
/// ```text
/// 0 < length slots.now
/// ```
///
/// Proved:
///
/// ```text
/// FirstRound (λ slot. not (is_taken slot)) slots.now (home_of (length slots.now) tag) result
/// ```
#[inline]
fn free(slots: &[Slot], tag: u32) -> Option<usize> {
    let home = home_of(slots.len(), tag);
    match free_between(slots, home, slots.len()) {
        Some(place) => Some(place),
        None => free_between(slots, 0, home),
    }
}

/// A table of so many slots, with the texts of a smaller one.
///
/// The caller has to see to it that:
///
/// ```text
/// length slots.now < count
/// ```
///
/// Proved:
///
/// ```text
/// IfOk result (λ more. IsRefilled slots.now (count - length slots.now) more.items)
/// ```
#[inline]
fn refilled(alloc: Global, slots: &[Slot], count: usize) -> Result<Vec<Slot>, AllocError> {
    let mut more = Vec::new(alloc);
    more.resize(count, EMPTY)?;
    for slot in slots {
        if slot.is_taken() {
            match free(&more, slot.tag) {
                Some(place) => more[place] = *slot,
                None => unreachable!(),
            }
        }
    }
    Ok(more)
}

/// Half of the least table.
const LEAST: usize = 8;

/// Doubles the table if there is no room for a text more. It is at most three quarters full. If there is no memory
/// for that, it stays as it was.
///
/// The caller has to see to it that:
///
/// ```text
/// found: AreFound slots.old.items
/// roomy: room.old ≤ free_count slots.old.items
/// ```
///
/// Proved:
///
/// ```text
/// some: OnOk result (0 < room.new)
/// refilled: OnOk result (IsRefilled slots.old.items room.new slots.new.items)
/// slots_kept: OnErr result (slots.new.items ≡ slots.old.items)
/// room_kept: OnErr result (room.new ≡ room.old)
/// ```
#[inline]
pub fn make_room(alloc: Global, slots: &mut Vec<Slot>, room: &mut usize) -> Result<(), AllocError> {
    if *room == 0 {
        let count = slots.len().max(LEAST);
        *slots = refilled(alloc, slots, 2 * count)?;
        *room = count - count / 4;
    }
    Ok(())
}
