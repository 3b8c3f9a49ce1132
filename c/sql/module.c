// An example: the calls of libhashers for PostgreSQL, as hashers_X(bytea) and hashers_X_write(bigint, bytea), which answer bigint: the 64
// bits of the hash as a signed number; and hashers_names(), a row for each hash.
#include "postgres.h"
#include "fmgr.h"
#include "funcapi.h"
#include "utils/builtins.h"
#include "hashers.h"

PG_MODULE_MAGIC;

#define WHOLE(call, cuts, bits) \
    PG_FUNCTION_INFO_V1(sql_##call); \
    Datum sql_##call(PG_FUNCTION_ARGS) { \
        bytea *text = PG_GETARG_BYTEA_PP(0); \
        PG_RETURN_INT64((int64)call(VARDATA_ANY(text), VARSIZE_ANY_EXHDR(text))); \
    }

#define WRITTEN(call, cuts, bits) WHOLE(call, cuts, bits) \
    PG_FUNCTION_INFO_V1(sql_##call##_write); \
    Datum sql_##call##_write(PG_FUNCTION_ARGS) { \
        bytea *text = PG_GETARG_BYTEA_PP(1); \
        PG_RETURN_INT64((int64)call##_write((uint64)PG_GETARG_INT64(0), VARDATA_ANY(text), VARSIZE_ANY_EXHDR(text))); \
    }

#define UNDONE WRITTEN
#define SEEDED WHOLE
#define KEYED WHOLE
#include "hashes.inc"
#undef UNDONE
#undef WRITTEN
#undef WHOLE
#undef SEEDED
#undef KEYED

// Of each hash, by its number, whether it goes on from a number, and whether cuts show.
static const struct {
    bool goes_on, cuts;
} hashes[] = {
#define UNDONE(call, cuts, bits) {true, cuts},
#define WRITTEN UNDONE
#define WHOLE(call, cuts, bits) {false, cuts},
#define SEEDED WHOLE
#define KEYED WHOLE
#include "hashes.inc"
};

// A row for each hash: its name, the hash of no bytes, whether it goes on from a number, and whether cuts show.
PG_FUNCTION_INFO_V1(sql_names);
Datum sql_names(PG_FUNCTION_ARGS) {
    ReturnSetInfo *set = (ReturnSetInfo *)fcinfo->resultinfo;
    InitMaterializedSRF(fcinfo, 0);
    for (uint32 number = 0; number < HASHERS_KINDS; number++) {
        char name[64];
        size_t n = hashers_name(number, name, sizeof name);
        Datum row[] = {PointerGetDatum(cstring_to_text_with_len(name, (int)n)), Int64GetDatum((int64)hashers_hash(number, NULL, 0)),
                       BoolGetDatum(hashes[number].goes_on), BoolGetDatum(hashes[number].cuts)};
        bool none[4] = {false};
        tuplestore_putvalues(set->setResult, set->setDesc, row, none);
    }
    return (Datum)0;
}
