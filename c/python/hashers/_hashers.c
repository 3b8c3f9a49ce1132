// hashers._hashers: the calls of libhashers for Python. It finds the bytes of Python's objects, lets other threads run where there are many,
// and calls the library, which computes. What is called once and not for each key is in Python, beside this file.
//
// It is built for the limited API of CPython 3.9. Nothing static changes, and what an interpreter has of its own is in the state of its
// module, so interpreters do not share anything, and may have a GIL each.
#define PY_SSIZE_T_CLEAN
#include <Python.h>
#include <structmember.h>

#include "hashers.h"

#ifndef METH_FASTCALL
#define METH_FASTCALL 0x0080
#endif
#if defined(Py_LIMITED_API) && Py_LIMITED_API < 0x030b0000
// Buffers are in the limited API from 3.11 on, in the form that they have in 3.9 and 3.10 too.
typedef struct {
    void *buf;
    PyObject *obj;
    Py_ssize_t len, itemsize;
    int readonly, ndim;
    char *format;
    Py_ssize_t *shape, *strides, *suboffsets;
    void *internal;
} Py_buffer;
enum { PyBUF_SIMPLE = 0, PyBUF_WRITABLE = 1 };
extern int PyObject_GetBuffer(PyObject *, Py_buffer *, int);
extern void PyBuffer_Release(Py_buffer *);
#endif
// Of the two forms, the one above and Python's own, each build checks the one that it has.
_Static_assert(sizeof(Py_buffer) == 80 && offsetof(Py_buffer, buf) == 0 && offsetof(Py_buffer, obj) == 8 && offsetof(Py_buffer, len) == 16
                   && PyBUF_SIMPLE == 0 && PyBUF_WRITABLE == 1,
               "Py_buffer has the form of the stable ABI");

// ---- arguments

// Above so many bytes other threads run meanwhile.
enum { LONG = 2048 };

// The bytes of an object until `drop`: those of bytes where they are, those of others through their buffer.
typedef struct {
    char *at;
    size_t n;
    Py_buffer buffer;
} held;

static int hold_buffer(PyObject *data, int flags, held *it) {
    if (PyObject_GetBuffer(data, &it->buffer, flags) < 0) return -1;
    it->at = it->buffer.buf, it->n = it->buffer.len;
    return 0;
}

static int hold(PyObject *data, held *it) {
    if (!PyBytes_CheckExact(data)) return hold_buffer(data, PyBUF_SIMPLE, it);
    it->at = PyBytes_AsString(data), it->n = PyBytes_Size(data), it->buffer.obj = NULL;
    return 0;
}

static void drop(held *it) {
    if (it->buffer.obj) PyBuffer_Release(&it->buffer);
}

// Runs the code, over so many bytes, without the GIL where they are many.
#define OVER(bytes, code)                                                  \
    do {                                                                   \
        PyThreadState *aside = (bytes) > LONG ? PyEval_SaveThread() : NULL; \
        code;                                                              \
        if (aside) PyEval_RestoreThread(aside);                            \
    } while (0)

static int refuse(PyObject *kind, const char *why) {
    PyErr_SetString(kind, why);
    return -1;
}

// How many items of that size there are.
static int items(const held *it, size_t size, size_t *count) {
    *count = it->n / size;
    if (!it->n || !(it->n % size || (uintptr_t)it->at % size)) return 0;
    PyErr_Format(PyExc_ValueError, "the buffer is not one of aligned items of %zu bytes", size);
    return -1;
}

static int apart(const held *written, const held *read) {
    uintptr_t one = (uintptr_t)written->at, two = (uintptr_t)read->at;
    if (!written->n || !read->n || one + written->n <= two || two + read->n <= one) return 0;
    return refuse(PyExc_ValueError, "a buffer that is written overlaps one that is read");
}

static int hold_to_write(PyObject *data, held *it) { return hold_buffer(data, PyBUF_WRITABLE, it); }

// A buffer that is written, in items of 8 bytes, and data beside it, as one of the two above holds it.
typedef struct {
    held room, data;
    size_t places;
} held_two;

static int hold_two(PyObject *out, PyObject *from, int (*taken)(PyObject *, held *), held_two *it) {
    if (hold_to_write(out, &it->room) < 0) return -1;
    if (taken(from, &it->data) == 0) {
        if (apart(&it->room, &it->data) == 0 && items(&it->room, 8, &it->places) == 0) return 0;
        drop(&it->data);
    }
    drop(&it->room);
    return -1;
}

static void drop_two(held_two *it) { drop(&it->data), drop(&it->room); }

// A ValueError for a number that has not so few bits; a long one is not printed.
static int out_of_range(PyObject *number, int bits) {
    PyErr_Clear();
    PyObject *length = PyObject_CallMethod(number, "bit_length", NULL);
    long has = length ? PyLong_AsLong(length) : -1;
    Py_XDECREF(length);
    if (has == -1 && PyErr_Occurred()) return -1;
    if (has > 160) PyErr_Format(PyExc_ValueError, "a number of %ld bits is not from 0 to 2**%d - 1", has, bits);
    else PyErr_Format(PyExc_ValueError, "%S is not from 0 to 2**%d - 1", number, bits);
    return -1;
}

// A number of at most 64 bits.
static int word_of(PyObject *from, int bits, uint64_t *to) {
    PyObject *number = PyNumber_Index(from);
    if (!number) return -1;
    int is = 0;
    *to = PyLong_AsUnsignedLongLong(number);
    if (*to == UINT64_MAX && PyErr_Occurred()) is = PyErr_ExceptionMatches(PyExc_OverflowError) ? out_of_range(number, bits) : -1;
    else if (bits < 64 && *to >> bits) is = out_of_range(number, bits);
    Py_DECREF(number);
    return is;
}

static int word(PyObject *from, uint64_t *to) { return word_of(from, 64, to); }

// A key of 16 bytes, as two numbers whose low bytes come first.
static int key_of(PyObject *from, uint64_t *to) {
    held key;
    if (hold(from, &key) < 0) return -1;
    int is = key.n == 16 ? 0 : refuse(PyExc_ValueError, "a key of SipHash has 16 bytes");
    for (int i = 15; is == 0 && i >= 0; i--) to[i / 8] = to[i / 8] << 8 | (unsigned char)key.at[i];
    drop(&key);
    return is;
}

// Those of `count` that are given.
static int words_of(PyObject *const *from, int count, uint64_t *to) {
    for (int i = 0; i < count; i++)
        if (from[i] && word(from[i], &to[i]) < 0) return -1;
    return 0;
}

static PyObject *number(uint64_t it) { return PyLong_FromUnsignedLongLong(it); }

static PyObject *pair(hashers_words it) {
    return Py_BuildValue("KK", (unsigned long long)it.first, (unsigned long long)it.second);
}

static PyObject *none(void) {
    Py_INCREF(Py_None);
    return Py_None;
}

// The name of a call and of its arguments, of which `plain` may stand without a name, and the first `wanted` must be given. One that is not
// given is NULL.
typedef struct {
    const char *name;
    int plain, wanted;
    const char *names[8];
} form;

static int taken(const form *form, PyObject *const *args, Py_ssize_t count, PyObject *named, PyObject **into) {
    Py_ssize_t more = named ? PyTuple_Size(named) : 0;
    if (count > form->plain) {
        PyErr_Format(PyExc_TypeError, "%s() takes %d argument(s) without a name, not %zd", form->name, form->plain, count);
        return -1;
    }
    for (int i = 0; form->names[i]; i++) into[i] = i < count ? args[i] : NULL;
    for (Py_ssize_t k = 0; k < more; k++) {
        PyObject *given = PyTuple_GetItem(named, k);
        int i = 0;
        while (form->names[i] && PyUnicode_CompareWithASCIIString(given, form->names[i])) i++;
        if (!form->names[i] || into[i]) {
            PyErr_Format(PyExc_TypeError, "%s() got the argument '%U' %s", form->name, given, form->names[i] ? "twice" : "unexpectedly");
            return -1;
        }
        into[i] = args[count + k];
    }
    for (int i = 0; i < form->wanted; i++) {
        if (into[i]) continue;
        PyErr_Format(PyExc_TypeError, "%s() misses the argument '%s'", form->name, form->names[i]);
        return -1;
    }
    return 0;
}

#define TAKES PyObject *module, PyObject *const *args, Py_ssize_t count, PyObject *named
#define TAKEN(into, ...)                                    \
    static const form form = __VA_ARGS__;                   \
    PyObject *into[sizeof form.names / sizeof *form.names]; \
    if (taken(&form, args, count, named, into) < 0) return NULL

static int is_given(PyObject *argument) { return argument && argument != Py_None; }

// ---- the hashes, in the order of their numbers, and two more that have none

typedef uint64_t whole_call(const void *, size_t);
typedef uint64_t write_call(uint64_t, const void *, size_t);
typedef uint64_t combine_call(uint64_t, uint64_t, uint64_t);
typedef struct {
    const char *name;
    int bits;
    whole_call *whole;
    write_call *write, *unwrite; // NULL where there is none
} row;

#define NAME(call) (&#call[8])
#define UNDONE(call, cuts, bits) {NAME(call), bits, call, call##_write, call##_unwrite},
#define WRITTEN(call, cuts, bits) {NAME(call), bits, call, call##_write, NULL},
#define WHOLE(call, cuts, bits) {NAME(call), bits, call, NULL, NULL},
#define SEEDED WHOLE
#define KEYED WHOLE
static const row rows[] = {
#include "hashes.inc"
    {"spooky128", 128, NULL, NULL, NULL},
    {"murmur3_128", 128, NULL, NULL, NULL},
    {"xxh128", 128, NULL, NULL, NULL},
    {"poly61", 64, NULL, NULL, NULL},
};
#undef UNDONE
#undef WRITTEN
#undef WHOLE
#undef SEEDED
#undef KEYED
enum { SPOOKY128 = HASHERS_KINDS, MURMUR3_128, XXH128, POLY61, ROWS };
_Static_assert(sizeof rows / sizeof *rows == ROWS, "each hash has a row");

// How many bytes a hash takes at a time, where it is not one.
static const unsigned char blocks[ROWS] = {
    /* declared: blocks */
    [HASHERS_LOOKUP3] = 12, [HASHERS_SPOOKY] = 96, [HASHERS_SPOOKY_V1] = 96, [HASHERS_FXHASH] = 8, [HASHERS_FXHASH32] = 4,
    [HASHERS_FXHASH64] = 8, [HASHERS_XXH32] = 16, [HASHERS_XXH64] = 32, [HASHERS_MURMUR3_32] = 4, [HASHERS_MURMUR3] = 16,
    [HASHERS_SIPHASH13] = 8, [HASHERS_SIPHASH24] = 8, [HASHERS_XXH3] = 64, [SPOOKY128] = 96, [MURMUR3_128] = 16, [XXH128] = 64,
    [POLY61] = 7,
    /* end of declared */
};

static combine_call *const laws[ROWS] = {
    /* declared: combines */
    [HASHERS_SDBM] = hashers_sdbm_combine, [HASHERS_LOSELOSE] = hashers_loselose_combine,
    [HASHERS_PASSTHROUGH] = hashers_passthrough_combine, [HASHERS_CRC32] = hashers_crc32_combine, [HASHERS_CRC32C] = hashers_crc32c_combine,
    /* end of declared */
};

static size_t size_of(const row *row) { return row->bits ? (row->bits + 7) / 8 : 8; }

// The hashes by the block: of a whole text under a seed or a key, and of one in parts.
typedef struct {
    hashers_words (*whole)(const void *, size_t, const uint64_t *);
    hashers_block_state (*begin)(const uint64_t *);
    void (*write)(hashers_block_state *, const void *, size_t);
    hashers_words (*finish)(const hashers_block_state *);
} by_block;

static hashers_words one(uint64_t word) { return (hashers_words){word, 0}; }
static hashers_words two(hashers_words words) { return words; }

#define BY_BLOCK(x, of_text, words, ...)                                                                                    \
    static hashers_words x##_whole(const void *at, size_t n, const uint64_t *from) { return words(of_text(at, n, __VA_ARGS__)); } \
    static hashers_block_state x##_begun(const uint64_t *from) { return hashers_##x##_begin(__VA_ARGS__); }                  \
    static hashers_words x##_finished(const hashers_block_state *state) { return words(hashers_##x##_finish(state)); }
/* declared: calls by block */
BY_BLOCK(xxh32, hashers_xxh32_seeded, one, from[0])
BY_BLOCK(xxh64, hashers_xxh64_seeded, one, from[0])
BY_BLOCK(murmur3_32, hashers_murmur3_32_seeded, one, from[0])
BY_BLOCK(murmur3, hashers_murmur3_128, two, from[0])
BY_BLOCK(siphash13, hashers_siphash13_keyed, one, from[0], from[1])
BY_BLOCK(siphash24, hashers_siphash24_keyed, one, from[0], from[1])
/* end of declared */
#undef BY_BLOCK

static hashers_words xxh3_whole(const void *at, size_t n, const uint64_t *from) { return one(hashers_xxh3_seeded(at, n, from[0])); }
static hashers_words xxh128_whole(const void *at, size_t n, const uint64_t *from) { return hashers_xxh128(at, n, from[0]); }

#define BY_BLOCK(x) {x##_whole, x##_begun, hashers_##x##_write, x##_finished}
static const by_block seeded[ROWS] = {
    /* declared: by block */
    [HASHERS_XXH32] = BY_BLOCK(xxh32), [HASHERS_XXH64] = BY_BLOCK(xxh64), [HASHERS_MURMUR3_32] = BY_BLOCK(murmur3_32),
    [HASHERS_MURMUR3] = BY_BLOCK(murmur3), [HASHERS_SIPHASH13] = BY_BLOCK(siphash13), [HASHERS_SIPHASH24] = BY_BLOCK(siphash24),
    /* end of declared */
    [MURMUR3_128] = BY_BLOCK(murmur3), [HASHERS_XXH3] = {.whole = xxh3_whole}, [XXH128] = {.whole = xxh128_whole}};
#undef BY_BLOCK

static const by_block *seeded_by(const row *row) { return &seeded[row - rows]; }
static int takes_key(const row *row) { return row == &rows[HASHERS_SIPHASH13] || row == &rows[HASHERS_SIPHASH24]; }

// The seed of a hash, of 32 bits where it has 32, or its key.
static int seed_of(const row *row, PyObject *given, uint64_t *to) {
    if (takes_key(row)) return key_of(given, to);
    return word_of(given, row->bits > 32 ? 64 : 32, to);
}

// What a hash keeps of a text that comes in parts.
typedef enum {
    NUMBER, // the hash so far
    PLACE,  // a hashers_poly61_place
    STATE,  // a hashers_spooky_state
    BLOCK,  // a hashers_block_state
    XXH3    // a hashers_xxh3_place
} kept;

static kept kept_of(const row *row) {
    if (row->write) return NUMBER;
    if (seeded_by(row)->whole) return seeded_by(row)->begin ? BLOCK : XXH3;
    return row == &rows[POLY61] ? PLACE : STATE;
}

// What an interpreter has of its own.
typedef struct {
    PyObject *rows_by_name; // without poly61, which is no hash without a key
    PyTypeObject *hash, *bloom;
} home;

static home *home_of(PyObject *module) { return PyModule_GetState(module); }

// The row of a name, whose letters may be of either case; a ValueError where there is none, or where it is poly61 and the caller cannot.
static const row *row_of(PyObject *module, PyObject *name, int may_be_keyed) {
    PyObject *by_name = home_of(module)->rows_by_name;
    if (!PyUnicode_Check(name)) {
        PyErr_Format(PyExc_TypeError, "the name of a hash is a str, not %R", Py_TYPE(name));
        return NULL;
    }
    PyObject *found = PyDict_GetItemWithError(by_name, name);
    if (!found && !PyErr_Occurred()) {
        PyObject *lower = PyObject_CallMethod(name, "lower", NULL);
        if (!lower) return NULL;
        // a str's child may have any `lower`
        int names_poly61 = may_be_keyed && PyUnicode_Check(lower) && !PyUnicode_CompareWithASCIIString(lower, "poly61");
        found = PyDict_GetItemWithError(by_name, lower);
        Py_DECREF(lower);
        if (names_poly61) return &rows[POLY61];
    }
    if (found) return &rows[PyLong_AsLong(found)];
    if (!PyErr_Occurred()) PyErr_Format(PyExc_ValueError, "unsupported hash type %U", name);
    return NULL;
}

static int goes_on(const row *row) {
    if (row->write) return 0;
    PyErr_Format(PyExc_ValueError, "%s does not go on from a number", row->name);
    return -1;
}

// A hash of that row, which has no more than its bits.
static int hash_from(const row *row, PyObject *given, uint64_t *to) {
    if (word(given, to) < 0) return -1;
    if (row->bits >= 64 || !(*to >> row->bits)) return 0;
    PyErr_Format(PyExc_ValueError, "a hash of %s is below 2**%d", row->name, row->bits);
    return -1;
}

// One call over a text, under the seed or the key that may be given.
static PyObject *whole_seeded(const row *row, PyObject *const *args, Py_ssize_t count, PyObject *named) {
    form form = {row->name, 2, 1, {"data", takes_key(row) ? "key" : "seed"}};
    PyObject *into[2] = {NULL, NULL};
    uint64_t from[2] = {0, 0};
    hashers_words hash;
    held data;
    if (taken(&form, args, count, named, into) < 0) return NULL;
    if ((is_given(into[1]) && seed_of(row, into[1], from) < 0) || hold(into[0], &data) < 0) return NULL;
    OVER(data.n, hash = seeded_by(row)->whole(data.at, data.n, from));
    drop(&data);
    return number(hash.first);
}

static PyObject *whole(const row *row, PyObject *const *args, Py_ssize_t count, PyObject *named) {
    PyObject *into[2] = {NULL, NULL};
    if (count == 1 && !named) {
        into[0] = args[0];
    } else if (seeded_by(row)->whole) {
        return whole_seeded(row, args, count, named);
    } else {
        form form = {row->name, 2, 1, {"data", "hash"}};
        if (taken(&form, args, count, named, into) < 0) return NULL;
    }
    uint64_t from = 0, hash;
    int follows = is_given(into[1]);
    held data;
    if ((follows && (goes_on(row) < 0 || hash_from(row, into[1], &from) < 0)) || hold(into[0], &data) < 0) return NULL;
    OVER(data.n, hash = follows ? row->write(from, data.at, data.n) : row->whole(data.at, data.n));
    drop(&data);
    return number(hash);
}

// One call for each hash, since each has a name of its own in Python.
#define WRITTEN UNDONE // and so for what follows
#define WHOLE UNDONE
#define SEEDED UNDONE
#define KEYED UNDONE
enum {
#define UNDONE(call, cuts, bits) call##_row,
#include "hashes.inc"
#undef UNDONE
};
#define UNDONE(call, cuts, bits) \
    static PyObject *call##_of(TAKES) { return whole(&rows[call##_row], args, count, named); }
#include "hashes.inc"
#undef UNDONE

// ---- a text in parts

typedef struct {
    PyObject_HEAD
    const row *row;
    PyThread_type_lock lock; // from the first call over many bytes on; before, the GIL is enough
    uint64_t start[2];       // the number, the seeds or the key where it began
    union {
        uint64_t number;
        hashers_poly61_place place;
        hashers_block_state block;
        hashers_spooky_state *state;
        hashers_xxh3_place *xxh3;
        void *apart;
    } now;
} Hash;

// While it is locked no Python code runs in this thread, so neither a signal's handler nor a buffer's release can come in between.
static void lock(Hash *self) {
    if (!self->lock || PyThread_acquire_lock(self->lock, NOWAIT_LOCK)) return;
    PyThreadState *others = PyEval_SaveThread();
    PyThread_acquire_lock(self->lock, WAIT_LOCK);
    PyEval_RestoreThread(others);
}

static void unlock(Hash *self) {
    if (self->lock) PyThread_release_lock(self->lock);
}

static void begin(Hash *self) {
    switch (kept_of(self->row)) {
    case NUMBER: self->now.number = self->start[0]; return;
    case PLACE: self->now.place = hashers_poly61_begin(self->start[0]); return;
    case STATE: *self->now.state = hashers_spooky_begin(self->start[0], self->start[1]); return;
    case BLOCK: self->now.block = seeded_by(self->row)->begin(self->start); return;
    case XXH3: *self->now.xxh3 = hashers_xxh3_begin(self->start[0]); return;
    }
}

// How many bytes a hash of that row keeps apart from itself.
static size_t bytes_apart(const row *row) {
    kept kept = kept_of(row);
    return kept == STATE ? sizeof(hashers_spooky_state) : kept == XXH3 ? sizeof(hashers_xxh3_place) : 0;
}

static Hash *begun(PyTypeObject *type, const row *row, const uint64_t *start) {
    size_t n = bytes_apart(row);
    void *apart = NULL;
    if (n && !(apart = PyMem_Malloc(n))) return (Hash *)PyErr_NoMemory();
    Hash *self = PyObject_New(Hash, type);
    if (!self) {
        PyMem_Free(apart);
        return NULL;
    }
    self->row = row, self->lock = NULL, self->start[0] = start[0], self->start[1] = start[1];
    memset(&self->now, 0, sizeof self->now);
    if (apart) self->now.apart = apart;
    begin(self);
    return self;
}

static void Hash_dealloc(Hash *self) {
    PyTypeObject *type = Py_TYPE((PyObject *)self);
    if (bytes_apart(self->row)) PyMem_Free(self->now.apart);
    if (self->lock) PyThread_free_lock(self->lock);
    PyObject_Free(self);
    Py_DECREF(type);
}

// Moves the hash on by the bytes; where it is a number, by that call.
static void moved(Hash *self, write_call *on, const held *data) {
    switch (kept_of(self->row)) {
    case NUMBER: self->now.number = on(self->now.number, data->at, data->n); return;
    case PLACE: hashers_poly61_write(&self->now.place, data->at, data->n); return;
    case STATE: hashers_spooky_write(self->now.state, data->at, data->n); return;
    case BLOCK: seeded_by(self->row)->write(&self->now.block, data->at, data->n); return;
    case XXH3: hashers_xxh3_write(self->now.xxh3, data->at, data->n); return;
    }
}

static int go(Hash *self, write_call *on, PyObject *from) {
    held data;
    if (hold(from, &data) < 0) return -1;
    // without a lock no other thread is at work on what is kept
    if (!self->lock && data.n > LONG && !(self->lock = PyThread_allocate_lock())) {
        PyErr_NoMemory();
        drop(&data);
        return -1;
    }
    lock(self);
    OVER(data.n, moved(self, on, &data));
    unlock(self);
    drop(&data);
    return 0;
}

static PyObject *Hash_update(Hash *self, PyObject *data) { return go(self, self->row->write, data) < 0 ? NULL : none(); }

static PyObject *Hash_unwrite(Hash *self, PyObject *data) {
    if (!self->row->unwrite) return PyErr_Format(PyExc_ValueError, "%s cannot be unwritten", self->row->name);
    return go(self, self->row->unwrite, data) < 0 ? NULL : none();
}

// The hash so far; one of up to 64 bits is the first word.
static hashers_words value(Hash *self) {
    hashers_words words = {0, 0};
    const row *row = self->row;
    lock(self);
    switch (kept_of(row)) {
    case NUMBER: words.first = self->now.number; break;
    case PLACE: words.first = hashers_poly61_finish(&self->now.place); break;
    case STATE:
        words = row == &rows[HASHERS_SPOOKY_V1] ? hashers_spooky_finish_v1(self->now.state) : hashers_spooky_finish(self->now.state);
        break;
    case BLOCK: words = seeded_by(row)->finish(&self->now.block); break;
    case XXH3:
        words = row->bits > 64 ? hashers_xxh128_finish(self->now.xxh3) : one(hashers_xxh3_finish(self->now.xxh3));
        break;
    }
    unlock(self);
    return words;
}

static void big_endian(uint64_t word, size_t n, unsigned char *bytes) {
    while (n--) bytes[n] = word, word >>= 8;
}

// The bytes of the digest, the high one first. XXH3 of 128 bits has its low word first, and its digest the high one.
static size_t bytes_of(Hash *self, unsigned char *bytes) {
    hashers_words words = value(self);
    size_t n = size_of(self->row), high = n > 8 ? 8 : n;
    if (self->row == &rows[XXH128]) words = (hashers_words){words.second, words.first};
    big_endian(words.first, high, bytes);
    big_endian(words.second, n - high, bytes + high);
    return n;
}

static PyObject *Hash_intdigest(Hash *self, PyObject *nothing) {
    if (self->row->bits <= 64) return number(value(self).first);
    unsigned char bytes[16];
    Py_ssize_t n = bytes_of(self, bytes);
    return PyObject_CallMethod((PyObject *)&PyLong_Type, "from_bytes", "y#s", (char *)bytes, n, "big");
}

static PyObject *Hash_digest(Hash *self, PyObject *nothing) {
    unsigned char bytes[16];
    size_t n = bytes_of(self, bytes);
    return PyBytes_FromStringAndSize((char *)bytes, n);
}

static PyObject *Hash_hexdigest(Hash *self, PyObject *nothing) {
    unsigned char bytes[16];
    char digits[32];
    size_t n = bytes_of(self, bytes);
    for (size_t i = 0; i < n; i++)
        digits[2 * i] = "0123456789abcdef"[bytes[i] >> 4], digits[2 * i + 1] = "0123456789abcdef"[bytes[i] & 15];
    return PyUnicode_FromStringAndSize(digits, 2 * n);
}

static PyObject *Hash_words(Hash *self, PyObject *nothing) {
    if (self->row->bits <= 64 && kept_of(self->row) != STATE) return PyErr_Format(PyExc_ValueError, "%s has no 128 bits", self->row->name);
    return pair(value(self));
}

static PyObject *Hash_reset(Hash *self, PyObject *nothing) {
    lock(self);
    begin(self);
    unlock(self);
    return none();
}

// The bytes that are kept.
static void *kept_by(Hash *self, size_t *size) {
    switch (kept_of(self->row)) {
    case NUMBER: *size = sizeof self->now.number; return &self->now.number;
    case PLACE: *size = sizeof self->now.place; return &self->now.place;
    case BLOCK: *size = sizeof self->now.block; return &self->now.block;
    default: *size = bytes_apart(self->row); return self->now.apart;
    }
}

// Puts bytes that were kept in the place of its own; a ValueError where they are of another length.
static int take(Hash *self, const void *bytes, size_t n) {
    size_t size;
    void *at = kept_by(self, &size);
    if (n != size) {
        PyErr_Format(PyExc_ValueError, "a state has %zu bytes, not %zu", size, n);
        return -1;
    }
    memcpy(at, bytes, n);
    return 0;
}

static PyObject *Hash_copy(Hash *self, PyObject *nothing) {
    Hash *copy = begun(Py_TYPE((PyObject *)self), self->row, self->start);
    if (!copy) return NULL;
    size_t n;
    lock(self);
    const void *bytes = kept_by(self, &n);
    int done = take(copy, bytes, n);
    unlock(self);
    if (done < 0) Py_CLEAR(copy);
    return (PyObject *)copy;
}

static PyObject *Hash_reduce(Hash *self, PyObject *nothing) {
    PyObject *home = PyImport_ImportModule("hashers._hashers");
    PyObject *revived = home ? PyObject_GetAttrString(home, "_revived") : NULL;
    Py_XDECREF(home);
    if (!revived) return NULL;
    size_t n;
    lock(self);
    const char *bytes = kept_by(self, &n);
    PyObject *state = PyBytes_FromStringAndSize(bytes, n);
    unlock(self);
    PyObject *made = NULL;
    if (state)
        made = Py_BuildValue("O(s(KK)N)", revived, self->row->name, (unsigned long long)self->start[0], (unsigned long long)self->start[1],
                             state);
    Py_DECREF(revived);
    return made;
}

static PyObject *revived(PyObject *module, PyObject *args) {
    PyObject *name;
    unsigned long long one, two;
    const char *state;
    Py_ssize_t n;
    if (!PyArg_ParseTuple(args, "O(KK)y#", &name, &one, &two, &state, &n)) return NULL;
    const row *row = row_of(module, name, 1);
    Hash *made = row ? begun(home_of(module)->hash, row, (uint64_t[]){one, two}) : NULL;
    if (made && take(made, state, n) < 0) Py_CLEAR(made);
    return (PyObject *)made;
}

static PyObject *Hash_repr(Hash *self) { return PyUnicode_FromFormat("<%s hash of hashers>", self->row->name); }
static PyObject *Hash_name(Hash *self, void *nothing) { return PyUnicode_FromString(self->row->name); }
static PyObject *Hash_digest_size(Hash *self, void *nothing) { return PyLong_FromSize_t(size_of(self->row)); }

static PyObject *Hash_block_size(Hash *self, void *nothing) {
    int bytes = blocks[self->row - rows];
    return PyLong_FromLong(bytes ? bytes : 1);
}

static PyObject *Hash_new(PyTypeObject *type, PyObject *args, PyObject *named) {
    refuse(PyExc_TypeError, "hashers.new makes a hash");
    return NULL;
}

static PyMethodDef Hash_methods[] = {
    {"update", (PyCFunction)Hash_update, METH_O,
     "update($self, data, /)\n--\n\nPuts more bytes behind. For fx and lookup3 the cut between two updates may show."},
    {"unwrite", (PyCFunction)Hash_unwrite, METH_O,
     "unwrite($self, data, /)\n--\n\nTakes the last bytes out again: from every state, update and unwrite of the same bytes lead back to it,\n"
     "in either order. ValueError for lookup3, those of SpookyHash, null, passthrough, elf and those under a seed or a key, which cannot."},
    {"words", (PyCFunction)Hash_words, METH_NOARGS,
     "words($self, /)\n--\n\nBoth words of the hash of 128 bits. ValueError but for those of SpookyHash, murmur3_128 and xxh128."},
    {"reset", (PyCFunction)Hash_reset, METH_NOARGS,
     "reset($self, /)\n--\n\nGoes back to where it began: to no bytes, under the seeds or from the hash that `new` was given."},
    {"copy", (PyCFunction)Hash_copy, METH_NOARGS, "copy($self, /)\n--\n\nA second hash of the same text, which goes on by itself."},
    {"__copy__", (PyCFunction)Hash_copy, METH_NOARGS, NULL},
    {"__reduce__", (PyCFunction)Hash_reduce, METH_NOARGS, NULL},
    {"intdigest", (PyCFunction)Hash_intdigest, METH_NOARGS, "intdigest($self, /)\n--\n\nThe hash so far as a number."},
    {"digest", (PyCFunction)Hash_digest, METH_NOARGS,
     "digest($self, /)\n--\n\nThe hash so far as `digest_size` bytes, the high one first."},
    {"hexdigest", (PyCFunction)Hash_hexdigest, METH_NOARGS, "hexdigest($self, /)\n--\n\nThe same in twice as many hexadecimal digits."},
    {NULL, NULL, 0, NULL}};
static PyGetSetDef Hash_getters[] = {
    {"name", (getter)Hash_name, NULL, "The name of the hash function.", NULL},
    {"digest_size", (getter)Hash_digest_size, NULL, "How many bytes the digest has: 4, 8 or 16.", NULL},
    {"block_size", (getter)Hash_block_size, NULL,
     "How many bytes the hash function takes at a time; of SpookyHash, where the text is long.", NULL},
    {NULL, NULL, NULL, NULL, NULL}};
static PyType_Slot Hash_slots[] = {
    {Py_tp_doc, "The hash of a text that comes in parts, as `new` makes it. A thread that updates it keeps other threads waiting; a\n"
                "signal's handler may update it too. A copy, by `copy` or the module of that name, goes on by itself, and so does what\n"
                "pickle brings elsewhere."},
    {Py_tp_new, Hash_new}, {Py_tp_dealloc, Hash_dealloc}, {Py_tp_repr, Hash_repr}, {Py_tp_methods, Hash_methods},
    {Py_tp_getset, Hash_getters}, {0, NULL}};
static PyType_Spec Hash_spec = {"hashers.Hash", sizeof(Hash), 0, Py_TPFLAGS_DEFAULT, Hash_slots};

// ---- what begins a hash

static const char new_doc[] =
    "new($module, name, data=b'', *, hash=None, usedforsecurity=False, seeds=None, key=None, seed=None)\n--\n\n"
    "A hash of the data, to be updated. ValueError for an unknown name; `algorithms_available` has the names, and letters may be of\n"
    "either case. Where `hash` is given, it goes on from there, and the data comes behind; those under seeds and keys cannot. SpookyHash\n"
    "takes two `seeds`, those of xxHash and MurmurHash3 a `seed`, SipHash a `key` of 16 bytes, and \"poly61\" wants a key, a number; it is\n"
    "not among `algorithms_available`, whose hashes are one for all. No hash here is for security.";
enum { NEW_NAME, NEW_DATA, NEW_HASH, NEW_SECURE, NEW_SEEDS, NEW_KEY, NEW_SEED };

// Why a hash of that row cannot begin so.
static const char *refusal(const row *row, PyObject *const *given) {
    kept kept = kept_of(row);
    int is_seeded = (kept == BLOCK || kept == XXH3) && !takes_key(row);
    if (kept == PLACE && !is_given(given[NEW_KEY])) return "poly61 wants a key";
    if (kept == PLACE && is_given(given[NEW_HASH])) return "poly61 takes a key alone";
    if (kept != PLACE && !takes_key(row) && is_given(given[NEW_KEY])) return "poly61 and SipHash alone take a key";
    if (kept != STATE && is_given(given[NEW_SEEDS])) return "those of SpookyHash alone take seeds";
    if (!is_seeded && is_given(given[NEW_SEED])) return "those of xxHash and MurmurHash3 alone take a seed";
    return NULL;
}

static int two_seeds(PyObject *given, uint64_t *to) {
    PyObject *seeds = PySequence_Tuple(given);
    if (!seeds) return -1;
    int are = PyTuple_Size(seeds) == 2 ? 0 : refuse(PyExc_ValueError, "there are two seeds");
    for (int i = 0; i < 2 && are == 0; i++) are = word(PyTuple_GetItem(seeds, i), &to[i]);
    Py_DECREF(seeds);
    return are;
}

// Where a hash of that row begins: at a number, two seeds or a key.
static int start_of(const row *row, PyObject *const *given, uint64_t *start) {
    if (is_given(given[NEW_SEED])) return seed_of(row, given[NEW_SEED], start);
    if (is_given(given[NEW_KEY])) return takes_key(row) ? key_of(given[NEW_KEY], start) : word(given[NEW_KEY], start);
    if (is_given(given[NEW_SEEDS])) return two_seeds(given[NEW_SEEDS], start);
    if (!is_given(given[NEW_HASH])) {
        if (row->write) start[0] = row->whole(NULL, 0);
        return 0;
    }
    return goes_on(row) < 0 ? -1 : hash_from(row, given[NEW_HASH], start);
}

static PyObject *new(TAKES) {
    TAKEN(given, {"new", 2, 1, {"name", "data", "hash", "usedforsecurity", "seeds", "key", "seed"}});
    const row *row = row_of(module, given[NEW_NAME], 1);
    int is_secure = row && given[NEW_SECURE] ? PyObject_IsTrue(given[NEW_SECURE]) : 0;
    if (!row || is_secure < 0) return NULL;
    const char *why = is_secure ? "none of these hashes is for security" : refusal(row, given);
    if (why) {
        refuse(PyExc_ValueError, why);
        return NULL;
    }
    uint64_t start[2] = {0, 0};
    if (start_of(row, given, start) < 0) return NULL;
    Hash *made = begun(home_of(module)->hash, row, start);
    if (made && given[NEW_DATA] && go(made, row->write, given[NEW_DATA]) < 0) Py_CLEAR(made);
    return (PyObject *)made;
}

// ---- calls over numbers, and over a text and numbers

static PyObject *spooky128_by(hashers_words (*call)(const void *, size_t, uint64_t, uint64_t), PyObject **given) {
    uint64_t seeds[2] = {0, 0};
    hashers_words words;
    held data;
    if (words_of(&given[1], 2, seeds) < 0 || hold(given[0], &data) < 0) return NULL;
    OVER(data.n, words = call(data.at, data.n, seeds[0], seeds[1]));
    drop(&data);
    return pair(words);
}

static PyObject *spooky128(TAKES) {
    TAKEN(given, {"spooky128", 3, 1, {"data", "seed1", "seed2"}});
    return spooky128_by(hashers_spooky128, given);
}

static PyObject *spooky128_v1(TAKES) {
    TAKEN(given, {"spooky128_v1", 3, 1, {"data", "seed1", "seed2"}});
    return spooky128_by(hashers_spooky128_v1, given);
}

static PyObject *two_words(const row *row, PyObject **given) {
    uint64_t seed = 0;
    hashers_words words;
    held data;
    if ((given[1] && word(given[1], &seed) < 0) || hold(given[0], &data) < 0) return NULL;
    OVER(data.n, words = seeded_by(row)->whole(data.at, data.n, &seed));
    drop(&data);
    return pair(words);
}

static PyObject *murmur3_128(TAKES) {
    TAKEN(given, {"murmur3_128", 2, 1, {"data", "seed"}});
    return two_words(&rows[MURMUR3_128], given);
}

static PyObject *xxh128(TAKES) {
    TAKEN(given, {"xxh128", 2, 1, {"data", "seed"}});
    return two_words(&rows[XXH128], given);
}

static PyObject *poly61(TAKES) {
    TAKEN(given, {"poly61", 2, 2, {"data", "key"}});
    uint64_t key, hash;
    held data;
    if (word(given[1], &key) < 0 || hold(given[0], &data) < 0) return NULL;
    OVER(data.n, hash = hashers_poly61(key, data.at, data.n));
    drop(&data);
    return number(hash);
}

static PyObject *poly61_pair(TAKES) {
    TAKEN(given, {"poly61_pair", 3, 3, {"data", "key1", "key2"}});
    uint64_t keys[2];
    hashers_words words;
    held data;
    if (words_of(&given[1], 2, keys) < 0 || hold(given[0], &data) < 0) return NULL;
    OVER(data.n, words = hashers_poly61_pair(keys[0], keys[1], data.at, data.n));
    drop(&data);
    return pair(words);
}

static PyObject *poly61_state(TAKES) {
    TAKEN(given, {"poly61_state", 2, 2, {"data", "key"}});
    uint64_t key, state;
    held data;
    if (word(given[1], &key) < 0 || hold(given[0], &data) < 0) return NULL;
    OVER(data.n, state = hashers_poly61_state(key, data.at, data.n));
    drop(&data);
    return state != UINT64_MAX ? number(state) : PyErr_Format(PyExc_ValueError, "the length is no multiple of 7");
}

static PyObject *poly61_combine(TAKES) {
    TAKEN(given, {"poly61_combine", 4, 4, {"key", "state1", "hash2", "length2"}});
    uint64_t it[4];
    return words_of(given, 4, it) < 0 ? NULL : number(hashers_poly61_combine(it[0], it[1], it[2], it[3]));
}

// A number from 0 to 2^128 - 1, as its halves.
static int halves(PyObject *from, uint64_t *high, uint64_t *low) {
    PyObject *whole = PyNumber_Index(from), *by = PyLong_FromLong(64), *upper = whole && by ? PyNumber_Rshift(whole, by) : NULL;
    int are = upper ? 0 : -1;
    if (are == 0) {
        *low = PyLong_AsUnsignedLongLongMask(whole), *high = PyLong_AsUnsignedLongLong(upper);
        if (*high == UINT64_MAX && PyErr_Occurred()) are = out_of_range(whole, 128);
    }
    Py_XDECREF(upper);
    Py_XDECREF(by);
    Py_XDECREF(whole);
    return are;
}

static int number_key(PyObject *const *from, hashers_number_key *to) {
    if (halves(from[0], &to->multiplier_high, &to->multiplier_low) < 0) return -1;
    return halves(from[1], &to->addend_high, &to->addend_low);
}

static PyObject *number_hash(TAKES) {
    TAKEN(given, {"number_hash", 3, 3, {"number", "multiplier", "addend"}});
    hashers_number_key key;
    uint64_t it;
    return word(given[0], &it) < 0 || number_key(&given[1], &key) < 0 ? NULL : number(hashers_number_hash(&key, it));
}

// A key of a map, under the words of 296 bytes.
static PyObject *map_hash(TAKES) {
    TAKEN(given, {"map_hash", 2, 2, {"data", "key"}});
    hashers_map_key key;
    uint64_t hash;
    held data;
    if (hold(given[1], &data) < 0) return NULL;
    int is = data.n == sizeof key ? 0 : refuse(PyExc_ValueError, "a key of map_hash has 296 bytes");
    if (is == 0) memcpy(&key, data.at, sizeof key);
    drop(&data);
    if (is < 0 || hold(given[0], &data) < 0) return NULL;
    OVER(data.n, hash = hashers_map_hash(&key, data.at, data.n));
    drop(&data);
    return number(hash);
}

static PyObject *combine(TAKES) {
    TAKEN(given, {"combine", 4, 4, {"name", "hash1", "hash2", "length2"}});
    uint64_t it[3];
    const row *row = row_of(module, given[0], 0);
    if (!row) return NULL;
    combine_call *law = laws[row - rows];
    if (!law) return PyErr_Format(PyExc_ValueError, "%s of two texts joined does not follow from their hashes", row->name);
    if (hash_from(row, given[1], &it[0]) < 0 || hash_from(row, given[2], &it[1]) < 0 || word(given[3], &it[2]) < 0) return NULL;
    return number(law(it[0], it[1], it[2]));
}

static PyObject *crc32_ending(TAKES) {
    TAKEN(given, {"crc32_ending", 2, 2, {"hash", "answer"}});
    uint64_t it[2];
    for (int i = 0; i < 2; i++)
        if (hash_from(&rows[HASHERS_CRC32], given[i], &it[i]) < 0) return NULL;
    uint32_t ending = hashers_crc32_ending(it[0], it[1]);
    char bytes[4] = {ending, ending >> 8, ending >> 16, ending >> 24};
    return PyBytes_FromStringAndSize(bytes, 4);
}

static PyObject *version(PyObject *module, PyObject *nothing) { return PyLong_FromUnsignedLong(hashers_version()); }

// ---- many texts in one call

static PyObject *number_of(PyObject *module, PyObject *name) {
    const row *row = row_of(module, name, 0);
    if (row && row - rows < HASHERS_KINDS) return PyLong_FromSsize_t(row - rows);
    return row ? PyErr_Format(PyExc_ValueError, "%s has more than 64 bits", row->name) : NULL;
}

// How many lines there are; where `out` is given, their hashes go there as far as it has room.
static PyObject *lines(PyObject *module, PyObject *args) {
    unsigned kind;
    PyObject *from, *out;
    held_two it = {.places = 0};
    size_t found;
    if (!PyArg_ParseTuple(args, "IOO", &kind, &from, &out)) return NULL;
    if ((out == Py_None ? hold(from, &it.data) : hold_two(out, from, hold, &it)) < 0) return NULL;
    OVER(it.data.n, found = hashers_lines(kind, it.data.at, it.data.n, (uint64_t *)it.room.at, it.places));
    drop_two(&it);
    return PyLong_FromSize_t(found);
}

// Where the first chunks of the data end goes to `out` as far as it has room; the answer is how many these are.
static PyObject *chunk_ends(PyObject *module, PyObject *args) {
    PyObject *from, *out, *given[5];
    uint64_t number[5];
    held_two it;
    size_t found;
    if (!PyArg_ParseTuple(args, "OOOOOOO", &from, &out, &given[0], &given[1], &given[2], &given[3], &given[4])) return NULL;
    if (words_of(given, 5, number) < 0 || hold_two(out, from, hold, &it) < 0) return NULL;
    const hashers_cutting cutting = {number[0], number[1], number[2], number[3], number[4]};
    OVER(it.data.n, found = hashers_chunk_ends(it.data.at, it.data.n, &cutting, (uint64_t *)it.room.at, it.places));
    drop_two(&it);
    return PyLong_FromSize_t(found);
}

// The hash of each number of a buffer to another one.
static PyObject *number_column(PyObject *module, PyObject *args) {
    PyObject *from, *out, *key_from[2];
    hashers_number_key key;
    held_two it;
    size_t count = 0;
    bool fit = false;
    if (!PyArg_ParseTuple(args, "OOOO", &from, &key_from[0], &key_from[1], &out) || number_key(key_from, &key) < 0) return NULL;
    if (hold_two(out, from, hold, &it) < 0) return NULL;
    if (items(&it.data, 8, &count) == 0) {
        OVER(it.data.n, fit = hashers_number_column(&key, (uint64_t *)it.data.at, count, (uint64_t *)it.room.at, it.places));
        if (!fit) refuse(PyExc_ValueError, "out has not 8 bytes for each number");
    }
    drop_two(&it);
    return fit ? none() : NULL;
}

// ---- a ring: its points are two numbers of 8 bytes each, the place and the node

static int points_in(const held *it, size_t *count) {
    if (items(it, 8, count) < 0) return -1;
    *count /= 2;
    return it->n % sizeof(hashers_ring_point) ? refuse(PyExc_ValueError, "a point has 16 bytes") : 0;
}

// The points of a node go to a buffer. Its name has 8 bytes more.
static PyObject *ring_points(PyObject *module, PyObject *args) {
    unsigned kind;
    PyObject *name, *out;
    Py_ssize_t node;
    held_two it;
    size_t count;
    bool is_done = false;
    if (!PyArg_ParseTuple(args, "IOnO", &kind, &name, &node, &out) || hold_two(out, name, hold_to_write, &it) < 0) return NULL;
    if (points_in(&it.room, &count) == 0) {
        OVER(it.room.n, is_done = hashers_ring_points(kind, it.data.at, it.data.n, node, (hashers_ring_point *)it.room.at, count));
        if (!is_done) refuse(PyExc_ValueError, "there is no such hash, or the name has not 8 bytes more");
    }
    drop_two(&it);
    return is_done ? none() : NULL;
}

// Points get in order.
static PyObject *ring_sort(PyObject *module, PyObject *from) {
    held room;
    size_t count;
    if (hold_to_write(from, &room) < 0) return NULL;
    int are = points_in(&room, &count);
    if (are == 0) OVER(room.n, hashers_ring_sort((hashers_ring_point *)room.at, count));
    drop(&room);
    return are == 0 ? none() : NULL;
}

// The points of a new node go among those of the others.
static PyObject *ring_add(PyObject *module, PyObject *args) {
    PyObject *out, *from;
    Py_ssize_t node;
    held_two it;
    size_t all, new;
    bool is_done = false;
    if (!PyArg_ParseTuple(args, "OOn", &out, &from, &node) || hold_two(out, from, hold, &it) < 0) return NULL;
    if (points_in(&it.room, &all) == 0 && points_in(&it.data, &new) == 0) {
        OVER(it.room.n, is_done = hashers_ring_add((hashers_ring_point *)it.room.at, all, (hashers_ring_point *)it.data.at, new, node));
        if (!is_done) refuse(PyExc_ValueError, "the points are in no order");
    }
    drop_two(&it);
    return is_done ? none() : NULL;
}

// The points of a node go; the answer is how many are left.
static PyObject *ring_remove(PyObject *module, PyObject *args) {
    PyObject *from;
    Py_ssize_t node;
    held room;
    size_t count;
    if (!PyArg_ParseTuple(args, "On", &from, &node) || hold_to_write(from, &room) < 0) return NULL;
    int are = points_in(&room, &count);
    if (are == 0) OVER(room.n, count = hashers_ring_remove((hashers_ring_point *)room.at, count, node));
    drop(&room);
    return are == 0 ? PyLong_FromSize_t(count) : NULL;
}

// The nodes that own a key go to a buffer, as many as it has room for; the answer is how many these are.
static PyObject *ring_owners(PyObject *module, PyObject *args) {
    unsigned kind;
    PyObject *from, *data, *out;
    held ring;
    held_two it;
    size_t count, found = 0;
    if (!PyArg_ParseTuple(args, "IOOO", &kind, &from, &data, &out) || hold_two(out, data, hold, &it) < 0) return NULL;
    int are = hold_buffer(from, PyBUF_SIMPLE, &ring);
    if (are == 0) {
        are = points_in(&ring, &count) < 0 || apart(&it.room, &ring) < 0 ? -1 : 0;
        const hashers_ring_point *points = (const hashers_ring_point *)ring.at;
        if (are == 0)
            OVER(it.data.n + it.room.n, found = hashers_ring_owners(points, count, hashers_hash(kind, it.data.at, it.data.n),
                                                                    (size_t *)it.room.at, it.places));
        drop(&ring);
    }
    drop_two(&it);
    return are == 0 ? PyLong_FromSize_t(found) : NULL;
}

// A column of texts: its offsets of 32 or 64 bits, and the bytes in which the texts lie.
typedef struct {
    held offsets, data;
    unsigned width;
    size_t places;
} columns;

static int hold_column(PyObject *offsets, unsigned width, PyObject *data, columns *it) {
    it->width = width;
    if (hold(data, &it->data) < 0) return -1;
    if (hold(offsets, &it->offsets) == 0) {
        if (items(&it->offsets, width / 8, &it->places) == 0) return 0;
        drop(&it->offsets);
    }
    drop(&it->data);
    return -1;
}

static void drop_column(columns *it) {
    drop(&it->offsets);
    drop(&it->data);
}

static bool hashed(unsigned kind, const columns *it, uint64_t *hashes, size_t count) {
    const void *offsets = it->offsets.at;
    if (it->width == 32) return hashers_column32(kind, it->data.at, it->data.n, offsets, it->places, hashes, count);
    return hashers_column64(kind, it->data.at, it->data.n, offsets, it->places, hashes, count);
}

// Writes the hash of each text to `out`; a ValueError where the offsets fall or pass the data.
static PyObject *column(PyObject *module, PyObject *args) {
    unsigned kind, width;
    PyObject *offsets, *data, *out;
    columns it;
    held room;
    size_t count;
    bool is_done = false;
    if (!PyArg_ParseTuple(args, "IIOOO", &kind, &width, &offsets, &data, &out)) return NULL;
    if (hold_buffer(out, PyBUF_WRITABLE, &room) < 0) return NULL;
    if (hold_column(offsets, width, data, &it) == 0) {
        if (apart(&room, &it.data) == 0 && apart(&room, &it.offsets) == 0 && items(&room, 8, &count) == 0) {
            OVER(room.n + it.data.n, is_done = hashed(kind, &it, (uint64_t *)room.at, count));
            if (!is_done) refuse(PyExc_ValueError, "the offsets fall, or pass the data");
        }
        drop_column(&it);
    }
    drop(&room);
    return is_done ? none() : NULL;
}

// ---- a Bloom filter, whose calls for each key are here

typedef bool insert_call(uint64_t *, size_t, uint64_t, uint32_t, const void *, size_t);
typedef bool contains_call(const uint64_t *, size_t, uint64_t, uint32_t, const void *, size_t);
typedef struct {
    const char *name;
    insert_call *insert;
    contains_call *contains;
} places;
#define PLACES(name) {#name, hashers_bloom_##name##_insert, hashers_bloom_##name##_contains}
static const places ways[] = {PLACES(spooky_lookup3), PLACES(fnv1a64_lookup3)};

typedef struct {
    PyObject_HEAD
    PyObject *buffer;
    unsigned long long bits;
    unsigned probes;
    const places *places;
} Bloom;

static uint64_t words_for(uint64_t bits) { return bits / 64 + (bits % 64 != 0); }

static int hold_words(Bloom *self, int flags, held *words, size_t *count) {
    uint64_t wanted = words_for(self->bits);
    if (hold_buffer(self->buffer, flags, words) < 0) return -1;
    if (items(words, 8, count) == 0) {
        if (*count == wanted) return 0;
        PyErr_Format(PyExc_ValueError, "a filter of %llu bits has a buffer of %llu bytes, not of %zu", self->bits,
                     8 * (unsigned long long)wanted, words->n);
    }
    drop(words);
    return -1;
}

static const places *places_of(const char *name) {
    for (size_t i = 0; i < sizeof ways / sizeof *ways; i++)
        if (!strcmp(name, ways[i].name)) return &ways[i];
    PyErr_Format(PyExc_ValueError, "no filter has the hashes %s", name);
    return NULL;
}

static PyObject *Bloom_new(PyTypeObject *type, PyObject *args, PyObject *named) {
    static char *names[] = {"bits", "probes", "hashes", "buffer", NULL};
    PyObject *bits, *probes, *buffer = Py_None;
    const char *hashes = ways[0].name;
    uint64_t so_many, times;
    held words;
    size_t count;
    if (!PyArg_ParseTupleAndKeywords(args, named, "OO|$sO", names, &bits, &probes, &hashes, &buffer)) return NULL;
    if (word(bits, &so_many) < 0 || word(probes, &times) < 0) return NULL;
    if (!so_many || !times || times >> 32) {
        refuse(PyExc_ValueError, "a filter has at least one bit, and from 1 to 2**32 - 1 probes");
        return NULL;
    }
    const places *places = places_of(hashes);
    Bloom *self = places ? (Bloom *)PyType_GenericAlloc(type, 0) : NULL;
    if (!self) return NULL;
    self->bits = so_many, self->probes = times, self->places = places;
    if (buffer == Py_None)
        buffer = PyObject_CallFunction((PyObject *)&PyByteArray_Type, "K", 8 * (unsigned long long)words_for(so_many));
    else
        Py_INCREF(buffer);
    self->buffer = buffer;
    if (!buffer || hold_words(self, PyBUF_WRITABLE, &words, &count) < 0)
        Py_CLEAR(self);
    else
        drop(&words);
    return (PyObject *)self;
}

static int Bloom_traverse(Bloom *self, visitproc visit, void *arg) {
    Py_VISIT(self->buffer);
    Py_VISIT(Py_TYPE((PyObject *)self));
    return 0;
}

static void Bloom_dealloc(Bloom *self) {
    PyTypeObject *type = Py_TYPE((PyObject *)self);
    PyObject_GC_UnTrack(self);
    Py_XDECREF(self->buffer);
    ((freefunc)PyType_GetSlot(type, Py_tp_free))(self);
    Py_DECREF(type);
}

// Holds the words to be written, and a text apart from them.
static int hold_to_add(Bloom *self, PyObject *from, held *words, size_t *count, held *data) {
    if (hold_words(self, PyBUF_WRITABLE, words, count) < 0) return -1;
    if (hold(from, data) == 0) {
        if (apart(words, data) == 0) return 0;
        drop(data);
    }
    drop(words);
    return -1;
}

static bool inserted(Bloom *self, const held *words, size_t count, const char *key, size_t n) {
    return self->places->insert((uint64_t *)words->at, count, self->bits, self->probes, key, n);
}

static PyObject *Bloom_add(Bloom *self, PyObject *from) {
    held words, key;
    size_t count;
    bool is_new;
    if (hold_to_add(self, from, &words, &count, &key) < 0) return NULL;
    OVER(key.n, is_new = inserted(self, &words, count, key.at, key.n));
    drop(&key);
    drop(&words);
    return PyBool_FromLong(is_new);
}

static size_t new_lines(Bloom *self, const held *words, size_t count, const held *data) {
    const char *at = data->at, *end = at + data->n;
    size_t new = 0;
    while (at < end) {
        const char *newline = memchr(at, '\n', end - at), *behind = newline ? newline : end;
        new += inserted(self, words, count, at, behind - at);
        at = newline ? newline + 1 : end;
    }
    return new;
}

static PyObject *Bloom_add_lines(Bloom *self, PyObject *from) {
    held words, data;
    size_t count, new;
    if (hold_to_add(self, from, &words, &count, &data) < 0) return NULL;
    OVER(data.n, new = new_lines(self, &words, count, &data));
    drop(&data);
    drop(&words);
    return PyLong_FromSize_t(new);
}

static uint64_t offset(const columns *it, size_t i) {
    return it->width == 32 ? ((const uint32_t *)it->offsets.at)[i] : ((const uint64_t *)it->offsets.at)[i];
}

// Whether there is an offset, they rise, and they lie in the data.
static int rise(const columns *it) {
    int is_so = it->places > 0 && offset(it, it->places - 1) <= it->data.n;
    for (size_t i = 1; is_so && i < it->places; i++) is_so = offset(it, i - 1) <= offset(it, i);
    return is_so ? 0 : refuse(PyExc_ValueError, "the offsets fall, or pass the data");
}

static size_t new_texts(Bloom *self, const held *words, size_t count, const columns *it) {
    size_t new = 0;
    for (size_t i = 1; i < it->places; i++)
        new += inserted(self, words, count, it->data.at + offset(it, i - 1), offset(it, i) - offset(it, i - 1));
    return new;
}

static PyObject *Bloom_add_column(Bloom *self, PyObject *args) {
    unsigned width;
    PyObject *offsets, *data, *answer = NULL;
    columns it;
    held words;
    size_t count, new;
    if (!PyArg_ParseTuple(args, "IOO", &width, &offsets, &data)) return NULL;
    if (hold_words(self, PyBUF_WRITABLE, &words, &count) < 0) return NULL;
    if (hold_column(offsets, width, data, &it) == 0) {
        if (apart(&words, &it.data) == 0 && apart(&words, &it.offsets) == 0 && rise(&it) == 0) {
            OVER(it.data.n + it.offsets.n, new = new_texts(self, &words, count, &it));
            answer = PyLong_FromSize_t(new);
        }
        drop_column(&it);
    }
    drop(&words);
    return answer;
}

static void find(Bloom *self, const held *words, size_t count, const columns *it, char *to) {
    for (size_t i = 1; i < it->places; i++)
        to[i - 1] = self->places->contains((const uint64_t *)words->at, count, self->bits, self->probes, it->data.at + offset(it, i - 1),
                                           offset(it, i) - offset(it, i - 1));
}

static PyObject *Bloom_found(Bloom *self, PyObject *args) {
    unsigned width;
    PyObject *offsets, *data, *answer = NULL;
    columns it;
    held words;
    size_t count;
    if (!PyArg_ParseTuple(args, "IOO", &width, &offsets, &data)) return NULL;
    if (hold_words(self, PyBUF_SIMPLE, &words, &count) < 0) return NULL;
    if (hold_column(offsets, width, data, &it) == 0) {
        if (rise(&it) == 0 && (answer = PyBytes_FromStringAndSize(NULL, it.places - 1)))
            OVER(it.data.n + it.offsets.n, find(self, &words, count, &it, PyBytes_AsString(answer)));
        drop_column(&it);
    }
    drop(&words);
    return answer;
}

static int Bloom_contains(Bloom *self, PyObject *from) {
    held words, key;
    size_t count;
    int is_found = -1;
    if (hold_words(self, PyBUF_SIMPLE, &words, &count) < 0) return -1;
    if (hold(from, &key) == 0) {
        OVER(key.n, is_found = self->places->contains((const uint64_t *)words.at, count, self->bits, self->probes, key.at, key.n));
        drop(&key);
    }
    drop(&words);
    return is_found;
}

// Adds the keys of a filter of as many bits and probes and by the same hashes.
static PyObject *unite(PyObject *module, PyObject *args) {
    PyTypeObject *type = home_of(module)->bloom;
    PyObject *one, *two;
    held words, others;
    size_t count, other_count;
    if (!PyArg_ParseTuple(args, "O!O!", type, &one, type, &two)) return NULL;
    if (hold_words((Bloom *)one, PyBUF_WRITABLE, &words, &count) < 0) return NULL;
    int are = hold_words((Bloom *)two, PyBUF_SIMPLE, &others, &other_count);
    if (are == 0) {
        are = apart(&words, &others);
        if (are == 0) OVER(words.n, hashers_bloom_union((uint64_t *)words.at, count, (uint64_t *)others.at, other_count));
        drop(&others);
    }
    drop(&words);
    return are < 0 ? NULL : none();
}

static PyObject *Bloom_hashes(Bloom *self, void *nothing) { return PyUnicode_FromString(self->places->name); }

static PyMethodDef Bloom_methods[] = {
    {"add", (PyCFunction)Bloom_add, METH_O,
     "add($self, key, /)\n--\n\nAdds the key, and tells whether it is new: True says that it was not there, False that it possibly was."},
    {"add_lines", (PyCFunction)Bloom_add_lines, METH_O,
     "add_lines($self, data, /)\n--\n\nAdds each line, as `hash_lines` takes them. The answer is how many were not there: of those for which\n"
     "`add` would have said False."},
    {"_add_column", (PyCFunction)Bloom_add_column, METH_VARARGS, NULL},
    {"_found", (PyCFunction)Bloom_found, METH_VARARGS, NULL},
    {NULL, NULL, 0, NULL}};
static PyMemberDef Bloom_members[] = {
    {"buffer", T_OBJECT, offsetof(Bloom, buffer), READONLY, "where the bits lie"},
    {"bits", T_ULONGLONG, offsetof(Bloom, bits), READONLY, "how many bits"},
    {"probes", T_UINT, offsetof(Bloom, probes), READONLY, "how many bits a key sets"},
    {NULL, 0, 0, 0, NULL}};
static PyGetSetDef Bloom_getters[] = {
    {"hashes", (getter)Bloom_hashes, NULL, "the two hashes that place the keys", NULL}, {NULL, NULL, NULL, NULL, NULL}};
static PyType_Slot Bloom_slots[] = {
    {Py_tp_new, Bloom_new}, {Py_tp_traverse, Bloom_traverse}, {Py_tp_dealloc, Bloom_dealloc}, {Py_tp_methods, Bloom_methods},
    {Py_tp_members, Bloom_members}, {Py_tp_getset, Bloom_getters}, {Py_sq_contains, Bloom_contains}, {0, NULL}};
static PyType_Spec Bloom_spec = {
    "hashers._hashers.BloomBase", sizeof(Bloom), 0, Py_TPFLAGS_DEFAULT | Py_TPFLAGS_BASETYPE | Py_TPFLAGS_HAVE_GC, Bloom_slots};

// ---- the module

#define CALL(name, doc) {#name, (PyCFunction)(void (*)(void))name, METH_FASTCALL | METH_KEYWORDS, doc}
#define ROW(call, more, bits, told)                                                 \
    {NAME(call), (PyCFunction)(void (*)(void))call##_of, METH_FASTCALL | METH_KEYWORDS, \
     &#call "($module, data, " more ")\n--\n\nThe hash of the data, a number below 2^" #bits told[8]},
#define UNDONE(call, cuts, bits) \
    ROW(call, "hash=None", bits, ". Where `hash` is given, it is the hash so far,\nand the data comes behind.")
#undef SEEDED
#undef KEYED
#define SEEDED(call, cuts, bits) ROW(call, "seed=0", bits, ", under the seed.")
#define KEYED(call, cuts, bits) ROW(call, "key=None", bits, ", under a key of 16 bytes. It is 0 if none is given.")
static PyMethodDef functions[] = {
#include "hashes.inc"
    CALL(new, new_doc),
    CALL(spooky128, "spooky128($module, data, seed1=0, seed2=0)\n--\n\nBoth words of SpookyHash of the data, under two seeds."),
    CALL(spooky128_v1, "spooky128_v1($module, data, seed1=0, seed2=0)\n--\n\nThe same by version 1, which leaves the length of a text below\n"
                       "192 bytes out."),
    CALL(murmur3_128, "murmur3_128($module, data, seed=0)\n--\n\nBoth words of MurmurHash3_x64_128 of the data, under a seed."),
    CALL(xxh128, "xxh128($module, data, seed=0)\n--\n\nXXH3 of 128 bits of the data, under a seed: the low word and the high one."),
    CALL(poly61, "poly61($module, data, key)\n--\n\nThe polynomial hash of the data at a key, which counts modulo 2^61 - 1. At most n / 7 + 2\n"
                 "of the 2^61 - 1 keys give two different texts of up to n bytes one hash."),
    CALL(poly61_pair, "poly61_pair($module, data, key1, key2)\n--\n\nThe same at two keys."),
    CALL(poly61_state, "poly61_state($module, data, key)\n--\n\nThe state behind data of a multiple of seven bytes, for `poly61_combine`;\n"
                       "ValueError for another length."),
    CALL(poly61_combine, "poly61_combine($module, key, state1, hash2, length2)\n--\n\n"
                         "The hash of two texts joined, from the state behind the first, and the hash and the length of the second in bytes."),
    CALL(number_hash, "number_hash($module, number, multiplier, addend)\n--\n\n"
                      "The hash of a number below 2^64 at a key of two numbers below 2^128: the high half of the low 128 bits of\n"
                      "multiplier * number + addend. At random keys k bits of two different numbers' hashes are the same at one key in 2^k."),
    CALL(map_hash, "map_hash($module, data, key)\n--\n\nThe hash of a key of a map under a key of 296 bytes, such as os.urandom(296). At random keys k low and\n"
                   "high bits of two inputs of up to 128 bytes, neither of which begins with the other, are the same at one key in 2^k."),
    CALL(combine, "combine($module, name, hash1, hash2, length2)\n--\n\n"
                  "The hash of two texts joined, from the hash of each and the length of the second in bytes. ValueError where the hash has\n"
                  "no such law: sdbm, loselose, passthrough, crc32 and crc32c have."),
    CALL(crc32_ending, "crc32_ending($module, hash, answer)\n--\n\n"
                       "The one ending of four bytes behind data with this crc32 that makes the crc32 of the whole the answer. So a\n"
                       "CRC is no protection against someone who chooses the data."),
    {"_number_of", number_of, METH_O, "The number of a name; ValueError for spooky128, whose hashes fit no 64 bits."},
    {"_lines", lines, METH_VARARGS, NULL},
    {"_column", column, METH_VARARGS, NULL},
    {"_chunk_ends", chunk_ends, METH_VARARGS, NULL},
    {"_number_column", number_column, METH_VARARGS, NULL},
    {"_ring_points", ring_points, METH_VARARGS, NULL},
    {"_ring_sort", ring_sort, METH_O, NULL},
    {"_ring_add", ring_add, METH_VARARGS, NULL},
    {"_ring_remove", ring_remove, METH_VARARGS, NULL},
    {"_ring_owners", ring_owners, METH_VARARGS, NULL},
    {"_unite", unite, METH_VARARGS, NULL},
    {"_revived", revived, METH_VARARGS, NULL},
    {"_version", version, METH_NOARGS, NULL},
    {NULL, NULL, 0, NULL}};

static PyObject *numbers_by_name(void) {
    PyObject *made = PyDict_New();
    for (int i = 0; made && i < POLY61; i++) {
        PyObject *number = PyLong_FromLong(i);
        if (!number || PyDict_SetItemString(made, rows[i].name, number) < 0) Py_CLEAR(made);
        Py_XDECREF(number);
    }
    return made;
}

static int add(PyObject *module, const char *name, PyObject *it) {
    if (it && PyModule_AddObject(module, name, it) == 0) return 0;
    Py_XDECREF(it);
    return -1;
}

static int add_type(PyObject *module, const char *name, PyType_Spec *spec, PyTypeObject **type) {
    PyObject *made = PyType_FromSpec(spec);
    *type = (PyTypeObject *)made;
    Py_XINCREF(made);
    return add(module, name, made);
}

static int fill(PyObject *module) {
    home *home = home_of(module);
    if (!(home->rows_by_name = numbers_by_name())) return -1;
    if (add_type(module, "Hash", &Hash_spec, &home->hash) < 0 || add_type(module, "BloomBase", &Bloom_spec, &home->bloom) < 0) return -1;
    return add(module, "algorithms_available", PyFrozenSet_New(home->rows_by_name));
}

static int traverse(PyObject *module, visitproc visit, void *arg) {
    home *home = home_of(module);
    Py_VISIT(home->rows_by_name);
    Py_VISIT(home->hash);
    Py_VISIT(home->bloom);
    return 0;
}

static int clear(PyObject *module) {
    home *home = home_of(module);
    Py_CLEAR(home->rows_by_name);
    Py_CLEAR(home->hash);
    Py_CLEAR(home->bloom);
    return 0;
}

static void clear_at_last(void *module) { clear(module); }

// That interpreters with a GIL of their own may load a module is said by a slot, which Pythons before 3.12 refuse.
#ifndef Py_mod_multiple_interpreters
#define Py_mod_multiple_interpreters 3
#define Py_MOD_PER_INTERPRETER_GIL_SUPPORTED ((void *)2)
#endif
static PyModuleDef_Slot slots[] = {
    {Py_mod_multiple_interpreters, Py_MOD_PER_INTERPRETER_GIL_SUPPORTED}, {Py_mod_exec, fill}, {0, NULL}};
#define MODULE(slots) \
    {PyModuleDef_HEAD_INIT, "hashers._hashers", "The calls of libhashers.", sizeof(home), functions, slots, traverse, clear, clear_at_last}
static struct PyModuleDef module_before = MODULE(&slots[1]), module_now = MODULE(slots);

PyMODINIT_FUNC PyInit__hashers(void) {
    PyObject *version = PySys_GetObject("hexversion");
    return PyModuleDef_Init(version && PyLong_AsLong(version) >= 0x030c0000 ? &module_now : &module_before);
}
