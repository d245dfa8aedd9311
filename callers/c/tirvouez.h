/* The bridge check for C, and for C++ as C: docs/LAYOUT.md says what stands where in the buffer that a call fills.
 * The header tirvouez.hpp has the same for C++, with bounds checked. */
#ifndef TIRVOUEZ_H
#define TIRVOUEZ_H

#include <stddef.h>
#include <stdint.h>

/* The version of the layout that this header reads, the bytes that a call asks of its scratch, the bytes of an answer without
 * records, those of a record, the sets of names, the names and the most items of a sheet. */
#define TIRVOUEZ_VERSION 2
#define TIRVOUEZ_SCRATCH 4096
#define TIRVOUEZ_ANSWER 1824
#define TIRVOUEZ_RECORD 8
#define TIRVOUEZ_SETS 8
#define TIRVOUEZ_NAMES 256
#define TIRVOUEZ_ITEMS 255

/* Where the parts of an answer stand. */
#define TIRVOUEZ_AT_VERSION 1
#define TIRVOUEZ_AT_BEGIN 2
#define TIRVOUEZ_AT_POSITION 4
#define TIRVOUEZ_AT_TOTAL 8
#define TIRVOUEZ_AT_COUNT 12
#define TIRVOUEZ_AT_SETS 16
#define TIRVOUEZ_AT_SIZES 272
#define TIRVOUEZ_AT_REASONS 288
#define TIRVOUEZ_AT_ORDER 800
#define TIRVOUEZ_AT_STRUCTS 1055
#define TIRVOUEZ_AT_TIERS 1056
#define TIRVOUEZ_AT_UNPIN 1312

/* Why a name must be Unpin, as a number: no reason, and the numbers of row 0 and of item 0, from which the others count on. */
#define TIRVOUEZ_UNPIN_NONE 0
#define TIRVOUEZ_UNPIN_ROWS 1
#define TIRVOUEZ_UNPIN_ITEMS 32768

/* The bytes of an answer with so many records. */
#define TIRVOUEZ_ROOM(records) (TIRVOUEZ_ANSWER + TIRVOUEZ_RECORD * (size_t)(records))

#ifdef __cplusplus
extern "C" {
#endif

/* Checks a sheet and writes its answer, with the records from number `from` on, as many as have room. Gives the bytes written:
 * TIRVOUEZ_ROOM(records); 0 where `out` has fewer than TIRVOUEZ_ANSWER bytes, and then nothing is read or written.
 * It takes every sheet, scratch, number and buffer. No pointer may be null, also at length 0; `scratch` and `out` overlap neither
 * each other nor the sheet. A scratch of fewer than TIRVOUEZ_SCRATCH bytes is refusal 1; after an accepted sheet its first
 * TIRVOUEZ_SCRATCH bytes are 0. Nothing is kept after the call, so threads with buffers of their own may call at once. */
size_t tirvouez_check(const uint8_t *sheet, size_t sheet_len, uint8_t *scratch, size_t scratch_len, size_t from, uint8_t *out, size_t out_len);

#ifdef __cplusplus
}
#endif

/* The sets of names, in the order of the answer. */
enum tirvouez_set {
    TIRVOUEZ_SET_STRUCTS = 0,
    TIRVOUEZ_SET_ENUMS = 1,
    TIRVOUEZ_SET_CXX = 2,
    TIRVOUEZ_SET_RUST = 3,
    TIRVOUEZ_SET_ALIASES = 4,
    TIRVOUEZ_SET_UNTRUSTED = 5,
    TIRVOUEZ_SET_REQUIRED_TRIVIAL = 6,
    TIRVOUEZ_SET_IMPROPER = 7,
};

/* What a sheet is refused for: docs/SHEET.md, "Refused sheets". */
enum tirvouez_refusal {
    TIRVOUEZ_REFUSAL_SCRATCH_TOO_SHORT = 1,   /* scratch of fewer than TIRVOUEZ_SCRATCH bytes */
    TIRVOUEZ_REFUSAL_SHEET_TOO_LONG = 2,      /* sheet of more than 32,768 bytes */
    TIRVOUEZ_REFUSAL_SHEET_TOO_SHORT = 3,     /* sheet of fewer than 4 bytes */
    TIRVOUEZ_REFUSAL_TOO_MANY = 4,            /* more rows or items than there may be */
    TIRVOUEZ_REFUSAL_MISPLACED = 5,           /* offset, end or contents that do not fit */
    TIRVOUEZ_REFUSAL_BAD_VALUE = 6,           /* value that is not allowed */
    TIRVOUEZ_REFUSAL_BAD_ROW = 7,             /* row that may not stand there */
    TIRVOUEZ_REFUSAL_EQUAL_ROW = 8,           /* row equal to an earlier one */
};

/* The place of a record, and what its numbers are. */
enum tirvouez_letter {
    TIRVOUEZ_LETTER_ROW = 'R',          /* row */
    TIRVOUEZ_LETTER_ROW_ARGUMENT = 'G', /* row and argument */
    TIRVOUEZ_LETTER_ITEM = 'I',         /* item */
    TIRVOUEZ_LETTER_FIELD = 'F',        /* item and field */
    TIRVOUEZ_LETTER_ARGUMENT = 'A',     /* item and argument */
    TIRVOUEZ_LETTER_RETURN = 'O',       /* item */
    TIRVOUEZ_LETTER_DERIVE = 'D',       /* item and derive */
    TIRVOUEZ_LETTER_LIFETIME = 'L',     /* item and lifetime */
};

/* The messages: docs/MESSAGES.md. */
enum tirvouez_message {
    TIRVOUEZ_MESSAGE_DUPLICATE_NAME = 1,              /* an earlier item has the name */
    TIRVOUEZ_MESSAGE_CYCLIC_STRUCT = 2,               /* a field leads to a struct that is still being visited, or whose visit failed */
    TIRVOUEZ_MESSAGE_UNSUPPORTED_TYPE = 3,            /* a plain name that nothing declares */
    TIRVOUEZ_MESSAGE_BOX_OF_CXX = 4,                  /* Box of an opaque C++ type */
    TIRVOUEZ_MESSAGE_BOX_TARGET = 5,                  /* Box of what it cannot hold */
    TIRVOUEZ_MESSAGE_VEC_OF_CXX = 6,                  /* Vec of an opaque C++ type */
    TIRVOUEZ_MESSAGE_VEC_ELEMENT = 7,                 /* Vec of what it cannot hold */
    TIRVOUEZ_MESSAGE_UNIQUE_PTR_OF_RUST = 8,          /* UniquePtr of a Rust type */
    TIRVOUEZ_MESSAGE_UNIQUE_PTR_TARGET = 9,           /* UniquePtr of what it cannot hold */
    TIRVOUEZ_MESSAGE_SHARED_PTR_OF_RUST = 10,         /* SharedPtr of a Rust type */
    TIRVOUEZ_MESSAGE_SHARED_PTR_OF_VECTOR = 11,       /* SharedPtr of a CxxVector */
    TIRVOUEZ_MESSAGE_SHARED_PTR_TARGET = 12,          /* SharedPtr of what it cannot hold */
    TIRVOUEZ_MESSAGE_WEAK_PTR_OF_RUST = 13,           /* WeakPtr of a Rust type */
    TIRVOUEZ_MESSAGE_WEAK_PTR_OF_VECTOR = 14,         /* WeakPtr of a CxxVector */
    TIRVOUEZ_MESSAGE_WEAK_PTR_TARGET = 15,            /* WeakPtr of what it cannot hold */
    TIRVOUEZ_MESSAGE_VECTOR_OF_RUST = 16,             /* CxxVector of a Rust type */
    TIRVOUEZ_MESSAGE_VECTOR_ELEMENT = 17,             /* CxxVector of what it cannot hold */
    TIRVOUEZ_MESSAGE_REF_NEEDS_PIN = 18,              /* mutable reference to a C++ type that is not pinned */
    TIRVOUEZ_MESSAGE_REF_TO_REF = 19,                 /* reference to a reference */
    TIRVOUEZ_MESSAGE_REF_TARGET = 20,                 /* reference to a function pointer or to void */
    TIRVOUEZ_MESSAGE_PTR_TO_REF = 21,                 /* pointer to a reference */
    TIRVOUEZ_MESSAGE_PTR_TARGET = 22,                 /* pointer to a function pointer or to void */
    TIRVOUEZ_MESSAGE_SLICE_ELEMENT = 23,              /* slice of what has no size */
    TIRVOUEZ_MESSAGE_ARRAY_ELEMENT = 24,              /* array of what has no size */
    TIRVOUEZ_MESSAGE_FN_POINTER_RESULT = 25,          /* function pointer that returns a Result */
    TIRVOUEZ_MESSAGE_FN_POINTER_PTR_ARGUMENT = 26,    /* pointer argument of a function pointer that is not unsafe */
    TIRVOUEZ_MESSAGE_STRUCT_EMPTY = 27,               /* struct without fields */
    TIRVOUEZ_MESSAGE_STRUCT_UNTRUSTED = 28,           /* extern shared struct outside of an unsafe extern block */
    TIRVOUEZ_MESSAGE_STRUCT_DERIVE_BIT = 29,          /* BitAnd, BitOr or BitXor of a struct */
    TIRVOUEZ_MESSAGE_STRUCT_DERIVE_EXTERN_TYPE = 30,  /* ExternType of a struct */
    TIRVOUEZ_MESSAGE_STRUCT_FN_FIELD = 31,            /* field that is a function pointer */
    TIRVOUEZ_MESSAGE_STRUCT_FIELD_BY_VALUE = 32,      /* field that has no size */
    TIRVOUEZ_MESSAGE_ENUM_EMPTY = 33,                 /* enum without variants and without a repr */
    TIRVOUEZ_MESSAGE_ENUM_DERIVE_DEFAULT = 34,        /* Default of an enum without exactly one default variant */
    TIRVOUEZ_MESSAGE_ENUM_DERIVE_EXTERN_TYPE = 35,    /* ExternType of an enum */
    TIRVOUEZ_MESSAGE_TYPE_DERIVE = 36,                /* derive of an opaque type */
    TIRVOUEZ_MESSAGE_TYPE_BOUNDS = 37,                /* bounds of an extern type */
    TIRVOUEZ_MESSAGE_TYPE_NEEDS_EXTERN_TYPE = 38,     /* opaque type that is used as a trivial one */
    TIRVOUEZ_MESSAGE_CXX_FUNCTION_LIFETIMES = 39,     /* C++ function with lifetimes outside of an unsafe extern block */
    TIRVOUEZ_MESSAGE_RUST_FUNCTION_LIFETIMES = 40,    /* Rust function with lifetimes that is not unsafe */
    TIRVOUEZ_MESSAGE_RECEIVER_UNNAMED = 41,           /* receiver without a type */
    TIRVOUEZ_MESSAGE_RECEIVER_ENUM = 42,              /* receiver that is an enum */
    TIRVOUEZ_MESSAGE_RECEIVER_UNKNOWN = 43,           /* receiver of a type that nothing declares */
    TIRVOUEZ_MESSAGE_RECEIVER_NEEDS_PIN = 44,         /* mutable receiver of an opaque C++ type that is not pinned */
    TIRVOUEZ_MESSAGE_SELF_TYPE_ENUM = 45,             /* self type that is an enum */
    TIRVOUEZ_MESSAGE_SELF_TYPE_UNKNOWN = 46,          /* self type that nothing declares */
    TIRVOUEZ_MESSAGE_ARGUMENT_FN_POINTER = 47,        /* function pointer handed from C++ to Rust */
    TIRVOUEZ_MESSAGE_ARGUMENT_PTR_NEEDS_UNSAFE = 48,  /* pointer argument of a function that is not unsafe */
    TIRVOUEZ_MESSAGE_ARGUMENT_BY_VALUE = 49,          /* argument that has no size */
    TIRVOUEZ_MESSAGE_RETURN_FN_POINTER = 50,          /* return that is a function pointer */
    TIRVOUEZ_MESSAGE_RETURN_BY_VALUE = 51,            /* return that has no size */
    TIRVOUEZ_MESSAGE_ALIAS_DERIVE = 52,               /* derive of a type alias */
    TIRVOUEZ_MESSAGE_IMPL_NEGATIVE = 53,              /* negative impl */
    TIRVOUEZ_MESSAGE_IMPL_OF_ATOM = 54,               /* impl of an atom */
    TIRVOUEZ_MESSAGE_IMPL_TARGET = 55,                /* impl of what can have none */
    TIRVOUEZ_MESSAGE_MUT_RETURN = 56,                 /* &mut return without a &mut argument */
    TIRVOUEZ_MESSAGE_RESERVED_NAME = 57,              /* name that is reserved */
    TIRVOUEZ_MESSAGE_RESERVED_LIFETIME = 58,          /* lifetime named static */
};

struct tirvouez_record {
    uint8_t message; /* enum tirvouez_message */
    uint8_t letter;  /* enum tirvouez_letter */
    uint16_t first;
    uint16_t second; /* 0 where the place has none */
    uint16_t detail;
};

/* ---- Readers of what a call wrote. Ask tirvouez_known first; the others read within an answer, and check no index. ---- */

static inline uint16_t tirvouez_u16(const uint8_t *at) {
    return (uint16_t)(at[0] | (unsigned)at[1] << 8);
}

static inline uint32_t tirvouez_u32(const uint8_t *at) {
    return tirvouez_u16(at) | (uint32_t)tirvouez_u16(at + 2) << 16;
}

/* Where the records begin, and how many of them follow in this buffer. */
static inline size_t tirvouez_begin(const uint8_t *out) {
    return tirvouez_u16(out + TIRVOUEZ_AT_BEGIN);
}

static inline size_t tirvouez_count(const uint8_t *out) {
    return tirvouez_u32(out + TIRVOUEZ_AT_COUNT);
}

/* Whether so many bytes are a whole answer of a version that this header reads: 1 or 0. */
static inline int tirvouez_known(const uint8_t *out, size_t written) {
    size_t begin;
    if (written < TIRVOUEZ_ANSWER || out[TIRVOUEZ_AT_VERSION] != TIRVOUEZ_VERSION) return 0;
    begin = tirvouez_begin(out);
    return begin >= TIRVOUEZ_ANSWER && begin <= written && tirvouez_count(out) == (written - begin) / TIRVOUEZ_RECORD;
}

/* The number of the refusal, 0 where the sheet is accepted, and its position. */
static inline uint8_t tirvouez_refusal(const uint8_t *out) {
    return out[0];
}

static inline uint32_t tirvouez_position(const uint8_t *out) {
    return tirvouez_u32(out + TIRVOUEZ_AT_POSITION);
}

/* How many records the full report has. */
static inline size_t tirvouez_total(const uint8_t *out) {
    return tirvouez_u32(out + TIRVOUEZ_AT_TOTAL);
}

/* Whether a set has a name, 1 or 0; how many names it has. */
static inline int tirvouez_has(const uint8_t *out, enum tirvouez_set set, uint8_t name) {
    return out[TIRVOUEZ_AT_SETS + 32 * (size_t)set + name / 8] >> name % 8 & 1;
}

static inline uint16_t tirvouez_size(const uint8_t *out, enum tirvouez_set set) {
    return tirvouez_u16(out + TIRVOUEZ_AT_SIZES + 2 * (size_t)set);
}

/* How many reasons a name has to be trivial. */
static inline uint16_t tirvouez_reasons(const uint8_t *out, uint8_t name) {
    return tirvouez_u16(out + TIRVOUEZ_AT_REASONS + 2 * (size_t)name);
}

/* How many struct items there are; the item at a place of the order, below that number; the tier of an item, below TIRVOUEZ_ITEMS. */
static inline uint8_t tirvouez_structs(const uint8_t *out) {
    return out[TIRVOUEZ_AT_STRUCTS];
}

static inline uint8_t tirvouez_order(const uint8_t *out, uint8_t place) {
    return out[TIRVOUEZ_AT_ORDER + (size_t)place];
}

static inline uint8_t tirvouez_tier(const uint8_t *out, uint8_t item) {
    return out[TIRVOUEZ_AT_TIERS + (size_t)item];
}

/* Why a name must be Unpin, what lets callers move it, as a number; TIRVOUEZ_UNPIN_NONE where nothing does. */
static inline uint16_t tirvouez_unpin(const uint8_t *out, uint8_t name) {
    return tirvouez_u16(out + TIRVOUEZ_AT_UNPIN + 2 * (size_t)name);
}

/* Whether such a number is a row, that of a slice or a reference; whether it is an item, that of a method: 1 or 0. */
static inline int tirvouez_unpin_is_row(uint16_t reason) {
    return reason >= TIRVOUEZ_UNPIN_ROWS && reason < TIRVOUEZ_UNPIN_ITEMS;
}

static inline int tirvouez_unpin_is_item(uint16_t reason) {
    return reason >= TIRVOUEZ_UNPIN_ITEMS;
}

/* The row of a number that is a row, the item of one that is an item. */
static inline uint16_t tirvouez_unpin_row(uint16_t reason) {
    return (uint16_t)(reason - TIRVOUEZ_UNPIN_ROWS);
}

static inline uint8_t tirvouez_unpin_item(uint16_t reason) {
    return (uint8_t)(reason - TIRVOUEZ_UNPIN_ITEMS);
}

/* Record k of those in this buffer; k is below tirvouez_count. */
static inline struct tirvouez_record tirvouez_record_at(const uint8_t *out, size_t k) {
    const uint8_t *at = out + tirvouez_begin(out) + TIRVOUEZ_RECORD * k;
    struct tirvouez_record r;
    r.message = at[0];
    r.letter = at[1];
    r.first = tirvouez_u16(at + 2);
    r.second = tirvouez_u16(at + 4);
    r.detail = tirvouez_u16(at + 6);
    return r;
}

/* Whether the place of a letter has a second number: 1 or 0. */
static inline int tirvouez_has_second(uint8_t letter) {
    return letter != TIRVOUEZ_LETTER_ROW && letter != TIRVOUEZ_LETTER_ITEM && letter != TIRVOUEZ_LETTER_RETURN;
}

#endif
