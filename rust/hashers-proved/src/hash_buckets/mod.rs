//! A table of buckets over any hasher.

// What follows is the proved text of crates/hash_buckets/src/lib.rt without its contracts.
use crate::hashers;
use crate::shim::{Vec, std};

use hashers::laws::{Piecewise, bucket_of};
use std::alloc::{AllocError, AllocFailed, Global};
use std::error::Error as StdError;
use std::fmt;
use std::fmt::{Debug, Display, Formatter};
use std::marker::{PhantomData};

/// A finite map from byte texts to numbers: `N` lists of pairs in one `Vec`. A key stands in the list whose number is its hash
/// mod `N`. The hash is that of a default `H` that takes the key in one piece.
///
/// A call walks one list. So the time depends on how evenly `H` spreads the keys, and the answers do not.
pub struct Buckets<H: Piecewise, const N: usize> {
    buckets: Vec<Vec<(Vec<u8>, u64)>>,
    hasher: PhantomData<H>,
}

/// There is no memory for a table's lists.
pub struct NoTable;

impl Debug for NoTable {
    #[inline]
    fn fmt(&self, f: &mut Formatter) -> fmt::Result {
        write!(f, "NoTable")
    }
}

impl Display for NoTable {
    #[inline]
    fn fmt(&self, f: &mut Formatter) -> fmt::Result {
        write!(f, "there is no memory for the table's lists")
    }
}

impl StdError for NoTable {}

/// There is no memory for a new key: the key and its value come back.
pub struct NoRoom {
    /// The key.
    pub key: Vec<u8>,
    /// Its value.
    pub value: u64,
}

impl NoRoom {
    /// The key and its value.
    ///
    /// Proved:
    ///
    /// ```text
    /// result ≡ (self.key, self.value)
    /// ```
    #[inline]
    pub fn into_parts(self) -> (Vec<u8>, u64) {
        let Self { key, value } = self;
        (key, value)
    }
}

impl Debug for NoRoom {
    #[inline]
    fn fmt(&self, f: &mut Formatter) -> fmt::Result {
        write!(f, "NoRoom {{ key: {:?}, value: {} }}", self.key, self.value)
    }
}

impl Display for NoRoom {
    #[inline]
    fn fmt(&self, f: &mut Formatter) -> fmt::Result {
        write!(f, "there is no memory for a new key")
    }
}

impl StdError for NoRoom {}

/// Where the key stands.
///
/// Proved:
///
/// ```text
/// result ≡ position (λ pair. bytes_eq pair.0.items key.now) list.now
/// ```
#[inline]
fn place_of(list: &[(Vec<u8>, u64)], key: &[u8]) -> Option<usize> {
    list.iter().position(|pair| pair.0.as_slice() == key)
}

/// The value of the key.
///
/// The caller has to see to it that:
///
/// ```text
/// HasEachKeyOnce (pairs list.now)
/// ```
///
/// Proved:
///
/// ```text
/// result ≡ value_at key.now (pairs list.now)
/// ```
#[inline]
fn value_in(list: &[(Vec<u8>, u64)], key: &[u8]) -> Option<u64> {
    match place_of(list, key) {
        Some(at) => Some(list[at].1),
        None => None,
    }
}

/// Gives the key the value, and answers its old one. It refuses a pair only where the list is full.
///
/// The caller has to see to it that:
///
/// ```text
/// HasEachKeyOnce (held list.old)
/// ```
///
/// Proved:
///
/// ```text
/// ok: IfOk result (λ old. old ≡ value_at key.items (held list.old))
/// put: OnOk result (IsChange (held list.old) (held list.new) key.items (Some value))
/// err: IfErr result (λ refused. refused ≡ record { key = key; value = value })
/// unchanged: OnErr result (list.new.items ≡ list.old.items)
/// new_key: OnErr result (value_at key.items (held list.old) ≡ None)
/// full: OnErr result (vec_capacity list.old ≤ vec_len list.old)
/// ```
#[inline]
fn put_in(list: &mut Vec<(Vec<u8>, u64)>, key: Vec<u8>, value: u64) -> Result<Option<u64>, NoRoom> {
    match place_of(list, &key) {
        Some(at) => {
            let old = list[at].1;
            list[at].1 = value;
            Ok(Some(old))
        }
        None => match list.push((key, value)) {
            Ok(()) => Ok(None),
            Err(AllocFailed { value }) => {
                let (key, value) = value;
                Err(NoRoom { key, value })
            }
        },
    }
}

/// Takes the key out, and answers its value.
///
/// The caller has to see to it that:
///
/// ```text
/// HasEachKeyOnce (held list.old)
/// ```
///
/// Proved:
///
/// ```text
/// value: result ≡ value_at key.now (held list.old)
/// taken: IsChange (held list.old) (held list.new) key.now None
/// ```
#[inline]
fn take_out(list: &mut Vec<(Vec<u8>, u64)>, key: &[u8]) -> Option<u64> {
    match place_of(list, key) {
        Some(at) => {
            let (_, value) = list.remove(at);
            Some(value)
        }
        None => None,
    }
}

/// How many pairs the buckets have together.
///
/// Proved:
///
/// ```text
/// result ≡ sum_by (λ bucket. length bucket.items) buckets.now
/// ```
#[inline]
fn pairs_in(buckets: &[Vec<(Vec<u8>, u64)>]) -> u128 {
    buckets.iter().map(|bucket| bucket.len() as u128).sum()
}

impl<H: Piecewise, const N: usize> Buckets<H, N> {
    /// The empty table. It refuses where there is no memory for `N` lists.
    ///
    /// The caller has to see to it that:
    ///
    /// ```text
    /// 1 ≤ N
    /// ```
    ///
    /// Proved:
    ///
    /// ```text
    /// IfOk result (λ table. table ≡ map.empty)
    /// ```
    #[inline]
    pub fn new(alloc: Global) -> Result<Self, NoTable> {
        let mut buckets = Vec::new(alloc);
        let empty = || -> Vec<(Vec<u8>, u64)>
        { Vec::new(alloc) };
        match buckets.resize_with(N, empty) {
            Ok(()) => Ok(Buckets {
                buckets,
                hasher: PhantomData,
            }),
            Err(AllocError) => Err(NoTable),
        }
    }

    /// The bucket of a key.
    ///
    /// Proved:
    ///
    /// ```text
    /// value: result ≡ number_by H.hash_of N key.now
    /// below: result < N
    /// ```
    #[inline]
    fn number(&self, key: &[u8]) -> usize {
        let _ = &self.buckets; // there are N of them
        bucket_of::<H>(key, N as u64) as usize
    }

    /// The value of the key, if it is there.
    ///
    /// Proved:
    ///
    /// ```text
    /// result ≡ map.get self.now key.now
    /// ```
    #[inline]
    pub fn get(&self, key: &[u8]) -> Option<u64> {
        value_in(&self.buckets[self.number(key)], key)
    }

    /// Gives the key the value, and answers its old one. Where there is no memory for a new key, the table stays as it was, and
    /// key and value come back.
    ///
    /// Proved:
    ///
    /// ```text
    /// ok: IfOk result (λ old. old ≡ map.get self.old key.items)
    /// inserted: OnOk result (self.new ≡ map.insert self.old key.items value)
    /// err: IfErr result (λ refused. refused ≡ record { key = key; value = value })
    /// unchanged: OnErr result (self.new ≡ self.old)
    /// new_key: OnErr result (map.get self.old key.items ≡ None)
    /// ```
    #[inline]
    pub fn insert(&mut self, key: Vec<u8>, value: u64) -> Result<Option<u64>, NoRoom> {
        let number = self.number(&key);
        put_in(&mut self.buckets[number], key, value)
    }

    /// Takes the key out, and answers its value.
    ///
    /// Proved:
    ///
    /// ```text
    /// value: result ≡ map.get self.old key.now
    /// removed: self.new ≡ map.remove self.old key.now
    /// ```
    #[inline]
    pub fn remove(&mut self, key: &[u8]) -> Option<u64> {
        let number = self.number(key);
        take_out(&mut self.buckets[number], key)
    }

    /// How many keys there are.
    ///
    /// Proved:
    ///
    /// ```text
    /// result ≡ map.len self.now
    /// ```
    #[inline]
    pub fn len(&self) -> u128 {
        pairs_in(&self.buckets)
    }

    /// Whether there is no key.
    ///
    /// Proved:
    ///
    /// ```text
    /// IsTrue result ↔ (map.len self.now ≡ 0)
    /// ```
    #[inline]
    pub fn is_empty(&self) -> bool {
        self.len() == 0
    }

    /// The pairs of bucket `i`: those of the keys whose hash mod `N` is `i`, each once, in no order that is promised.
    ///
    /// The caller has to see to it that:
    ///
    /// ```text
    /// i < N
    /// ```
    ///
    /// Proved:
    ///
    /// ```text
    /// IsBucket (number_by H.hash_of N) i self.now (pairs result.now)
    /// ```
    #[inline]
    pub fn bucket(&self, i: usize) -> &[(Vec<u8>, u64)] {
        &self.buckets[i]
    }
}

/// A step of a run on a table.
pub enum Command {
    /// Gives the key the value.
    Insert(Vec<u8>, u64),
    /// Takes the key out.
    Remove(Vec<u8>),
    /// Asks for the key's value.
    Get(Vec<u8>),
}

/// Does a command, and answers the value that its key had. Where there is no memory for a new key, the table stays as it was, and
/// key and value come back.
///
/// Proved:
///
/// ```text
/// reply: IfOk result (λ reply. reply ≡ reply_to table.old command)
/// content: OnOk result (table.new ≡ content_after table.old command)
/// unchanged: OnErr result (table.new ≡ table.old)
/// err: IfErr result (λ refused. command ≡ Command.Insert refused.key refused.value)
/// wanted: OnErr result (NeedsMemory table.old command)
/// ```
#[inline]
pub fn obey<H: Piecewise, const N: usize>(
    table: &mut Buckets<H, N>,
    command: Command,
) -> Result<Option<u64>, NoRoom> {
    match command {
        Command::Insert(key, value) => table.insert(key, value),
        Command::Remove(key) => Ok(table.remove(&key)),
        Command::Get(key) => Ok(table.get(&key)),
    }
}

/// Does the commands in order, and answers their replies. Where there is no memory for the replies, no command is done. Where
/// there is none for a new key, the commands before it are done.
///
/// Proved:
///
/// ```text
/// replies: IfOk result (λ replies. replies.items ≡ replies_to table.old commands.items)
/// content: OnOk result (table.new ≡ fold content_after table.old commands.items)
/// begun: OnErr result ((n : ℕ) × StopsAt n table.old commands.items table.new)
/// ```
#[inline]
pub fn obey_all<H: Piecewise, const N: usize>(
    alloc: Global,
    table: &mut Buckets<H, N>,
    commands: Vec<Command>,
) -> Result<Vec<Option<u64>>, AllocError> {
    let mut replies = Vec::with_capacity(alloc, commands.len())?;
    for command in commands {
        match obey(table, command) {
            Ok(reply) => replies.push(reply)?,
            Err(NoRoom { .. }) => return Err(AllocError),
        }
    }
    Ok(replies)
}
