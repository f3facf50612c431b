/* All lent memory as one struct, functions that take it, and words for the numbers of an answer.
 *
 * For a host in C (C99 or later) or C++ that would rather not write calls of 31 arguments. It needs nothing beside chelbugan.h
 * and the archive: every function here is `static inline`, hands its inputs and the struct's buffers to the one call of
 * chelbugan.h that its comment names, and returns what that call returns. That call's comment is the contract, for what it
 * answers and for what a caller must keep; where it says `rows`, the buffer here is `memory->rows`, and `answer` is
 * `memory->answer`. The archive is proved; this file is compiled with the host and is tested, not proved.
 *
 *   static struct chelbugan_memory memory;
 *   if (chelbugan_section(&memory, section, sizeof section) == CHELBUGAN_NO)
 *       printf("refused: %s\n", chelbugan_refusal_text(memory.answer[0]));
 */
#ifndef CHELBUGAN_HOST_H
#define CHELBUGAN_HOST_H

#include "chelbugan.h"

#ifdef __cplusplus
extern "C" {
#endif

/* The buffers in the order in which the calls are lent them: name, element, how many elements. A call about sections or types
 * is lent those of the table, one about a body those of a body, a run all of them. This is the only list of them: the struct
 * and the functions are made from it, and a buffer that a later version adds is one line more here. */
#define CHELBUGAN_TABLE_BUFFERS(BUFFER)       \
    BUFFER(rows, uint16_t, CHELBUGAN_ROWS)     \
    BUFFER(shared, uint16_t, CHELBUGAN_SHARED) \
    BUFFER(codes, uint16_t, CHELBUGAN_CODES)
#define CHELBUGAN_BODY_BUFFERS(BUFFER) \
    CHELBUGAN_TABLE_BUFFERS(BUFFER)    \
    BUFFER(work, uint32_t, CHELBUGAN_WORK)
#define CHELBUGAN_RUN_BUFFERS(BUFFER)              \
    CHELBUGAN_BODY_BUFFERS(BUFFER)                 \
    BUFFER(ends, uint16_t, CHELBUGAN_ENDS)         \
    BUFFER(counts, uint64_t, CHELBUGAN_COUNTS)     \
    BUFFER(objects, uint16_t, CHELBUGAN_OBJECTS)   \
    BUFFER(cells, uint64_t, CHELBUGAN_CELLS)       \
    BUFFER(locals, uint64_t, CHELBUGAN_LOCALS)     \
    BUFFER(operands, uint64_t, CHELBUGAN_OPERANDS) \
    BUFFER(blocks, uint16_t, CHELBUGAN_BLOCKS)

/* All that a host lends for writing, each buffer at its size of chelbugan.h: `static struct chelbugan_memory memory;`. It may
 * hold anything beforehand. It is too large for most stacks. A host that judges sections or bodies alone needs half of it: it
 * makes the calls of chelbugan.h with buffers of its own. */
#define CHELBUGAN_MEMBER(name, element, elements) element name[elements];
struct chelbugan_memory {
    CHELBUGAN_RUN_BUFFERS(CHELBUGAN_MEMBER)
    uint64_t answer[CHELBUGAN_ANSWER];
};
#undef CHELBUGAN_MEMBER

/* Its size in bytes, a constant. docs/EMBEDDING.md has the figure. */
#define CHELBUGAN_MEMORY_BYTES (sizeof(struct chelbugan_memory))

/* 1 where the archive's calls have the shape of these headers, else 0: then no other call may be made. */
static inline int chelbugan_fits(void)
{
    return chelbugan_version() / 10000 == CHELBUGAN_VERSION / 10000;
}

/* Below, a function whose name ends in _after takes a library, and judges the add-on's section after it. The one without takes
 * none, and its call is handed CHELBUGAN_EMPTY_LIBRARY. */
#define CHELBUGAN_LENT(name, element, elements) memory->name, elements,

/* chelbugan_judge_section: are the types accepted? After a yes chelbugan_row gives them. */
static inline uint64_t chelbugan_section_after(struct chelbugan_memory *memory,
                                               const uint8_t *library, size_t library_len,
                                               const uint8_t *section, size_t section_len)
{
    return chelbugan_judge_section(library, library_len, section, section_len,
                                   CHELBUGAN_TABLE_BUFFERS(CHELBUGAN_LENT) memory->answer);
}

static inline uint64_t chelbugan_section(struct chelbugan_memory *memory, const uint8_t *section, size_t section_len)
{
    return chelbugan_section_after(memory, CHELBUGAN_EMPTY_LIBRARY, CHELBUGAN_EMPTY_LIBRARY_LEN, section, section_len);
}

/* chelbugan_ask_type: where are the bytes of a type? After a yes chelbugan_row gives it. */
static inline uint64_t chelbugan_type_after(struct chelbugan_memory *memory,
                                            const uint8_t *library, size_t library_len,
                                            const uint8_t *section, size_t section_len, uint64_t number)
{
    return chelbugan_ask_type(library, library_len, section, section_len, number,
                              CHELBUGAN_TABLE_BUFFERS(CHELBUGAN_LENT) memory->answer);
}

static inline uint64_t chelbugan_type(struct chelbugan_memory *memory, const uint8_t *section, size_t section_len,
                                      uint64_t number)
{
    return chelbugan_type_after(memory, CHELBUGAN_EMPTY_LIBRARY, CHELBUGAN_EMPTY_LIBRARY_LEN, section, section_len, number);
}

/* chelbugan_judge_body: is a body of function type `number` accepted? */
static inline uint64_t chelbugan_body_after(struct chelbugan_memory *memory,
                                            const uint8_t *library, size_t library_len,
                                            const uint8_t *section, size_t section_len,
                                            const uint8_t *body, size_t body_len, uint64_t number)
{
    return chelbugan_judge_body(library, library_len, section, section_len, body, body_len, number,
                                CHELBUGAN_BODY_BUFFERS(CHELBUGAN_LENT) memory->answer);
}

static inline uint64_t chelbugan_body(struct chelbugan_memory *memory, const uint8_t *section, size_t section_len,
                                      const uint8_t *body, size_t body_len, uint64_t number)
{
    return chelbugan_body_after(memory, CHELBUGAN_EMPTY_LIBRARY, CHELBUGAN_EMPTY_LIBRARY_LEN, section, section_len,
                                body, body_len, number);
}

/* chelbugan_try_run: what does a trial run of at most `budget` steps do? Its state is in memory->counts to memory->blocks. */
static inline uint64_t chelbugan_run_after(struct chelbugan_memory *memory,
                                           const uint8_t *library, size_t library_len,
                                           const uint8_t *section, size_t section_len,
                                           const uint8_t *body, size_t body_len, uint64_t number, uint64_t budget)
{
    return chelbugan_try_run(library, library_len, section, section_len, body, body_len, number, budget,
                             CHELBUGAN_RUN_BUFFERS(CHELBUGAN_LENT) memory->answer);
}

static inline uint64_t chelbugan_run(struct chelbugan_memory *memory, const uint8_t *section, size_t section_len,
                                     const uint8_t *body, size_t body_len, uint64_t number, uint64_t budget)
{
    return chelbugan_run_after(memory, CHELBUGAN_EMPTY_LIBRARY, CHELBUGAN_EMPTY_LIBRARY_LEN, section, section_len,
                               body, body_len, number, budget);
}

#undef CHELBUGAN_LENT

/* The row of a type, CHELBUGAN_ROW_WORDS words, after a yes to a section or to a type; all words are 0 where there is no type
 * of that number. NULL for a number that no type can have, from CHELBUGAN_TYPES on. */
static inline const uint16_t *chelbugan_row(const struct chelbugan_memory *memory, uint64_t number)
{
    return number < CHELBUGAN_TYPES ? memory->rows + CHELBUGAN_ROW_WORDS * number : NULL;
}

/* Which section holds the type of a row: CHELBUGAN_INPUT_LIBRARY or CHELBUGAN_INPUT_ADDON. */
static inline int chelbugan_row_input(const uint16_t *row)
{
    return row[CHELBUGAN_ROW_CODE] < CHELBUGAN_ROW_SHARED ? CHELBUGAN_INPUT_ADDON : CHELBUGAN_INPUT_LIBRARY;
}

/* The codes of a row's type: row[CHELBUGAN_ROW_FIELDS] of fields or parameters, then row[CHELBUGAN_ROW_RESULTS] of results. */
static inline const uint16_t *chelbugan_row_codes(const struct chelbugan_memory *memory, const uint16_t *row)
{
    uint16_t code = row[CHELBUGAN_ROW_CODE];
    return code < CHELBUGAN_ROW_SHARED ? memory->codes + code : memory->shared + (code - CHELBUGAN_ROW_SHARED);
}

/* A refusal's number in words, those of `chelbugan explain` and of docs/REFUSALS.md (a test compares them). Never NULL: a number
 * without words, of a later version perhaps, gives "". */
static inline const char *chelbugan_refusal_text(uint64_t number)
{
    switch (number) {
    case CHELBUGAN_REFUSAL_BYTES_END: return "bytes end inside an item";
    case CHELBUGAN_REFUSAL_BAD_NUMBER: return "LEB too long or out of range";
    case CHELBUGAN_REFUSAL_NOT_LISTED: return "byte or FB number not listed, negative number as type";
    case CHELBUGAN_REFUSAL_OVERSIZE: return "a size exceeded";
    case CHELBUGAN_REFUSAL_LEFT_OVER: return "bytes left over";
    case CHELBUGAN_REFUSAL_OUT_OF_REACH: return "type number out of reach";
    case CHELBUGAN_REFUSAL_BAD_SUPERTYPE: return "supertype rule 1: at most one, earlier and open";
    case CHELBUGAN_REFUSAL_NO_MATCH: return "supertype rule 2: forms equal, fields and functions match";
    case CHELBUGAN_REFUSAL_CLAUSE_NOT_ON_STRUCT: return "clause not on a struct";
    case CHELBUGAN_REFUSAL_DESCRIBES_NOT_EARLIER: return "describes not earlier";
    case CHELBUGAN_REFUSAL_CLAUSES_DISAGREE: return "clauses disagree";
    case CHELBUGAN_REFUSAL_BAD_DESCRIPTOR: return "rule 4: the supertype's descriptor has none below it here";
    case CHELBUGAN_REFUSAL_BAD_DESCRIBES: return "rule 5: both describe or neither does, described types stand alike";
    case CHELBUGAN_REFUSAL_BUFFER_TOO_SMALL: return "a lent buffer under its one size";
    case CHELBUGAN_REFUSAL_BAD_OPERAND: return "operand missing or wrong";
    case CHELBUGAN_REFUSAL_ABSENT: return "label or local absent";
    case CHELBUGAN_REFUSAL_NOT_SET: return "local not set";
    case CHELBUGAN_REFUSAL_BAD_STRUCT: return "not a struct, no such field, descriptor missing or unwanted";
    case CHELBUGAN_REFUSAL_FIELD_FIXED: return "field fixed";
    case CHELBUGAN_REFUSAL_BAD_BRANCH: return "branching cast's rule, label without types";
    case CHELBUGAN_REFUSAL_NOT_A_FUNCTION: return "not a function type's number";
    case CHELBUGAN_REFUSAL_VALUES_LEFT: return "values left at `end`";
    case CHELBUGAN_REFUSAL_NO_DEFAULT: return "no default";
    case CHELBUGAN_REFUSAL_ONLY_NULL: return "operand would fit if it couldn't be null";
    case CHELBUGAN_REFUSAL_PADDED: return "LEB number with more bytes than it needs";
    default: return "";
    }
}

/* A trap's number in words, the same way. */
static inline const char *chelbugan_trap_text(uint64_t number)
{
    switch (number) {
    case CHELBUGAN_TRAP_UNREACHABLE: return "unreachable";
    case CHELBUGAN_TRAP_NULL: return "null used by get, set, as_non_null or ref.get_desc";
    case CHELBUGAN_TRAP_NULL_DESCRIPTOR: return "null descriptor, looked at before the object and before room";
    case CHELBUGAN_TRAP_CAST: return "cast failed";
    case CHELBUGAN_TRAP_NO_ROOM:
        return "1,024 objects exist or fewer than the needed cells are left of 4,096, an object needing one cell for each field";
    case CHELBUGAN_TRAP_OTHER_NUMERIC: return "a numeric code that the trial run does not do";
    default: return "";
    }
}

#ifdef __cplusplus
}
#endif

#endif
