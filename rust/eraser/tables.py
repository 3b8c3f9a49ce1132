"""What the eraser knows by name: the crates, what std alone has, what is left out and why, and the words at which it stops."""

# Of each Rust crate the Rattle crates whose sources become its modules, in the order in which they stand on one another.
RUST_CRATES = {
    "hashers-proved": [
        "hash_words", "hash_rounds", "hash_laws", "hash_writes", "hash_fx", "hash_jenkins", "hash_blocks", "hash_xxh3", "hash_bytes",
        "hash_more", "hash_theorems", "hashers", "hash_keyed", "hash_map_keys", "hash_names", "hash_kinds",
        "streams", "text_set", "hash_lines", "hash_buckets", "hash_ring", "hash_cuts", "hash_bloom",
    ],
    "hashers-tools": [
        "cli", "dedup_core", "spread_core", "hashsum_core", "cuts_core",
        "hashof", "dedup", "hashsum", "cuts", "spread",
    ],
    "hashers-c": ["hash_c"],
    "hashers-tests": ["streams", "hash_vectors"],
}
CRATES = RUST_CRATES["hashers-proved"]
# The programs, which no source imports.
PROGRAMS = {"hashof", "dedup", "hashsum", "cuts", "spread"}
SOURCES = sorted({crate for crates in RUST_CRATES.values() for crate in crates})
# The files of tests that go: what the others need is Rattle's std alone, as its maps.
TESTS = {
    "buckets", "calls", "filter_files", "filters", "laws", "original", "readers", "ring", "rounds", "sample", "two_texts",
    "vectors", "xxh3",
}
# Crates of which these files alone are taken: others take memory, read, have laws alone or are for tests.
PARTS = {
    "hashers-proved": {
        "hash_blocks": {
            "lib", "block_hasher", "block_rule", "parts", "wide_rule", "words", "murmur3", "murmur3/x64_128", "murmur3/x86_32",
            "siphash", "siphash/hasher", "siphash/rounds", "xxhash", "xxhash/at_32", "xxhash/at_64",
        },
        "hash_keyed": {"modular", "pair", "parts", "poly61", "words"},
        "hash_map_keys": {"hasher", "numbers", "words", "xxh3_pieces"},
        "hash_names": {"reading", "table", "task"},
        "hash_kinds": {"reading", "table", "wide"},
        "streams": {"failure", "hex", "tries"},
    },
    "hashers-tools": {
        "hashof": {"line", "main", "outcome", "run"},
    },
    "hashers-tests": {
        "streams": {"rehearsal"},
        "hash_vectors": {"times31", "tests", *("tests/" + it for it in TESTS)},
    },
}
# Crates that take memory, read or write: what they name of Rattle's std is in the shim, which is written by hand over Rust's.
SHIM_CRATES = {
    "streams", "text_set", "hash_lines", "hash_buckets", "hash_ring", "hash_cuts", "hash_bloom",
    "cli", "dedup_core", "spread_core", "hashsum_core", "cuts_core", "hash_vectors",
} | PROGRAMS
# What these find in their prelude in Rattle: types, and macros that take a handle or an allocator.
SHIM_TYPES = {"HostRuntime", "String", "Vec"}
SHIM_MACROS = {"eprint", "eprintln", "format", "vec"}
# Folders in src whose files are by hand, as those in src itself.
BY_HAND = {"shim", "bin"}
# At these words of UNKNOWN it does not stop there: where they are no names of the shim, rustc does.
SHIM_WORDS = {"HostRuntime", "rt", "Global", "AllocError", "alloc", "f64", "Abort"}
# The file of the exports for C, which are a module of their own.
EXPORTS = "hash_c/lib"
# The module of tests, each of which a file of its own calls.
TESTS_OF = "hash_vectors/tests"

# The Rust crate that has the feature std.
FEATURED = "hashers-proved"
# Names that are std's alone, or of what stands on it: an import, alias or module of such a name is there with the feature std.
STD_NAMES = {"HashMap", "HashSet", "FxHashMap", "FxHashSet", "reader", "reading"}

# Files with an item or an import that only clauses read: the lint that is silent there, and why.
ALLOW = {
    "hash_bytes/fnv": ("dead_code", "The law origin_of_constants alone reads SIGNATURE, the text of which the starts are the hash"),
    "hash_bytes/oz": ("unused_imports", "Clauses name Hasher"),
    "hash_rounds/turns": ("dead_code", "The counter of calls is ghost: nothing of it is kept at run time, and clauses alone read it"),
    "hash_fx/hasher": ("unused_imports", "Clauses name Word"),
    "hash_jenkins/spooky_short": ("unused_variables", "The clauses of short_words_v1 name len"),
    "hash_writes/build": ("unused_imports", "The clauses of hash_one name Hasher"),
    "hash_more/crc32": ("unused_imports", "Clauses name Hasher"),
    "hash_keyed/words": ("unused_labels", "Proofs name the loops"),
    "hash_bloom/bits": ("unused_variables", "The clauses of ones name bits"),
    "hash_lines/line": ("unused_imports", "Clauses name MOST_DIGITS"),
    "hash_lines/parse": ("unused_imports", "Clauses name MOST_DIGITS"),
    "hash_cuts/cuts": ("dead_code, unused_labels", "Clauses name the average, and proofs the loop"),
    "hash_cuts/gear": ("dead_code", "Clauses name the seeds"),
    "spread_core/keys": ("unused_labels", "Proofs name the loops"),
    "spread_core/named": ("unused_labels", "Proofs name the loops"),
    "hashsum_core/check": ("unused_imports", "Clauses name io"),
    "hashsum_core/laws": ("unused_imports", "The laws alone name the hashes"),
    "hashof/run": ("dead_code", "The tests alone call run"),
    "spread/table": ("unused_labels", "Proofs name the loop"),
    "spread/clock": ("unused_labels", "Proofs name the loop"),
    "dedup_core/run": ("unused_labels", "A proof names the loop"),
    "dedup_core/unread": ("unused_variables", "The clauses of fill name due"),
}

# Functions whose contracts would be false in Rust, and why. They go, and so do their names in imports.
LEFT_OUT = {
    "hash_one_slice_in_writes": "std of Rattle writes each byte of a slice by itself, and std of Rust all at once",
    "hash_one_slice_fx": "std of Rattle writes each byte of a slice by itself, and std of Rust all at once",
}

# Paragraphs that a module's documentation has more in Rust.
NOTES = {
    "hash_writes/build": """\
That is Rattle's std, where each item is a write of its own. Rust's std feeds the same bytes, but those of a slice of bytes at once.
Where cuts don't show, both hashes are one, and [`hash_one_slice`] holds. Where they show, under fx and lookup3, they differ, so
`hash_one_slice_in_writes` and `hash_one_slice_fx` of the Rattle text are left out here. The proofs also take numbers to be fed as
little-endian bytes, and `usize` to have 64 bits.""",
}

# In documentation alone: what a Rattle call has and a Rust call has not.
DOC_WORDS = [("with_hasher(alloc, ", "with_hasher(")]

# Types of Rattle's std that are ghost: their imports go.
GHOST_IMPORTS = {("std", "marker", "Model")}

# Identifiers that Rattle gives another meaning, or that Rust does not have.
UNKNOWN = {
    "HostRuntime": "a handle", "rt": "a handle", "final": "a final fn", "forever": "a loop that may not end",
    "derive_where": "a derive of Rattle", "derived": "a derive of Rattle", "clone": "a clone, which returns a Result in Rattle",
    "Global": "an allocator", "AllocError": "an allocator's error", "alloc": "an allocator", "unsafe": "unsafe code",
    "try_clone": "std of Rattle alone", "expect": "a stop by a handle", "Abort": "a handle", "Wait": "a handle", "Threads": "a handle",
    "also_owns": "a model of an owner", "dyn": "a trait object, whose drop Rattle writes out", "f32": "a float", "f64": "a float",
    "as_ref": "std of Rust alone", "size_of_val": "a layout", "transmute": "a layout", "extern": "an extern", "asm": "assembly",
    "macro_rules": "a macro's definition",
}

# Attributes that stay, and derives that mean the same.
ATTRIBUTES = {"inline", "cold", "repr", "allow", "must_use", "non_exhaustive", "derive"}
DERIVES = {"Drop", "Clone", "Copy", "Default", "Debug", "PartialEq", "Eq", "Hash", "PartialOrd", "Ord"}

# Rust's keywords: of two words side by side one is a keyword, or the eraser does not know them.
KEYWORDS = set("""as async await break const continue crate else enum extern false fn for if impl in let loop match mod move mut pub ref
    return self Self static struct super trait true type unsafe use where while""".split())

MARK = "// What follows is the proved text of %s without its contracts."


class Trouble(Exception):
    """The eraser stops, and says where and why."""
