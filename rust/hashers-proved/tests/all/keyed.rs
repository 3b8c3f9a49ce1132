//! The polynomial hash at a key.
use hashers_proved::keyed::{poly61, poly61_pair, Poly61Hasher, Poly61Pair, Poly61Place};
use std::hash::Hasher;

const FOX: &[u8] = b"The quick brown fox jumps over the lazy dog";
const KEY: u64 = 1234567890123456789;
const OF_FOX: u64 = 2910588923001171521;

/// The hash behind the beginning of a text once more was written.
fn behind(length: usize, write: impl Fn(&mut Poly61Hasher)) -> u64 {
    let mut hasher = Poly61Hasher::new(KEY);
    hasher.write(&FOX[..length]);
    write(&mut hasher);
    hasher.finish()
}

/// A number is its bytes, the lowest first, behind however many.
#[test]
fn numbers_are_their_bytes() {
    let number = u128::from_le_bytes(*b"sixteen letters!");
    for length in 0..14 {
        let of = |bytes: &[u8]| poly61(KEY, &[&FOX[..length], bytes].concat());
        assert_eq!(behind(length, |it| it.write_u16(number as u16)), of(b"si"));
        assert_eq!(behind(length, |it| it.write_u32(number as u32)), of(b"sixt"));
        assert_eq!(behind(length, |it| it.write_u64(number as u64)), of(b"sixteen "));
        assert_eq!(behind(length, |it| it.write_usize(usize::MAX)), of(&(usize::MAX as u64).to_le_bytes()));
        assert_eq!(behind(length, |it| it.write_u128(number)), of(b"sixteen letters!"));
    }
}

#[test]
fn copies_go_on_by_themselves() {
    let (mut hasher, mut pair) = (Poly61Hasher::new(KEY), Poly61Pair::new(KEY, 7));
    hasher.write(&FOX[..9]);
    pair.write(&FOX[..9]);
    let (copy, copies) = (hasher, pair);
    hasher.write(&FOX[9..]);
    pair.write(&FOX[9..]);
    assert_eq!((hasher.finish(), pair.finish()), (OF_FOX, poly61_pair(KEY, 7, FOX)));
    assert_eq!((copy.finish(), copies.finish()), (poly61(KEY, &FOX[..9]), poly61_pair(KEY, 7, &FOX[..9])));
}

#[test]
fn a_place_is_kept_and_taken_up() {
    for cut in 0..=FOX.len() {
        let mut hasher = Poly61Hasher::new(KEY);
        hasher.write(&FOX[..cut]);
        let mut later = Poly61Hasher::at(&hasher.place()).unwrap();
        later.write(&FOX[cut..]);
        assert_eq!(later.finish(), OF_FOX);
    }
    let place = |key, state, word, count| Poly61Hasher::at(&Poly61Place { key, state, word, count }).is_some();
    assert!(place(7, 1, 255, 1) && !place(7, 1, 256, 1) && !place(7, 1, 0, 7) && !place(u64::MAX, 1, 0, 0) && !place(7, u64::MAX, 0, 0));
}

/// Whoever sees a hash may compute the key.
#[test]
fn debug_shows_neither_key_nor_hash() {
    let told = format!("{:?}, {:?}", Poly61Hasher::new(KEY), Poly61Pair::new(KEY, 7));
    assert_eq!(told, "Poly61Hasher { .. }, Poly61Pair { .. }");
}
