/* Chelbugan says yes or no to a WebAssembly add-on before the add-on may run.
 *
 * For a host in C or C++. Link libchelbugan.a, which `make` builds and `make install` installs; of other code it needs memset
 * alone. Nothing is allocated, no file is touched, and no state outlives a call. docs/EMBEDDING.md shows a whole host and
 * has an integrator's figures, docs/LAYOUT.md every word of the lent memory. "Document 01" is the paper with the loader's
 * rules, whose numbers the refusals and traps bear; document 02 amends it, request by request (trap 46 is of request 1, the
 * library of request 5).
 *
 * TWO TYPE SECTIONS. Each call but chelbugan_version is handed a `library`, the type section that a fleet shares, and after it
 * the add-on's own `section`. Both are the content of a type section: a count of groups, then the groups. The library's types
 * come first, and the add-on's are numbered on after them: with a library of 10 types the add-on's first is type 10. Types
 * of the add-on may name those of the library, as supertypes too; the library cannot name the add-on's. The library is judged
 * whole, rules included, before the add-on's section is looked at, and its refusals come first. A host without a library
 * hands in the one that has no types, the byte 00: CHELBUGAN_EMPTY_LIBRARY, CHELBUGAN_EMPTY_LIBRARY_LEN. (No bytes at all are
 * no section: refusal 1.)
 *
 * WHAT A CALLER MUST KEEP. The proofs hold for any bytes, numbers and lengths; these are all that they take on trust:
 *   1. No pointer is null, where its length is 0 either, and each is aligned for its element.
 *   2. Each pointer leads to as many elements as the length beside it says. (Elements, not bytes.)
 *   3. Memory that is lent for writing (answer, and every buffer but library, section and body) overlaps with nothing else
 *      that the call is handed. Library, section and body are only read and may overlap.
 *   4. Until the call returns nobody else writes what it was handed, or reads what it was lent for writing. Calls with
 *      buffers of their own may run at the same time.
 *   5. For chelbugan_try_run the processor's float mode is its default, as a C program starts with it: rounding to nearest,
 *      subnormal numbers kept. Floats are computed by the processor's own instructions.
 * Lent memory may hold anything beforehand, and may be lent again as it is.
 *
 * ANSWERS. Each call but chelbugan_version returns what the answer is, CHELBUGAN_NO or a yes, and writes the answer's values
 * to the four words of `answer`; a word that has no value is 0, and the fourth is 0 in every answer of this version. After
 * CHELBUGAN_NO these are
 *   answer[0]  the refusal's number, CHELBUGAN_REFUSAL_..
 *   answer[1]  its place, as the list of the refusals says
 *   answer[2]  of which section the place is a byte, CHELBUGAN_INPUT_..: the library, the add-on's, or none of the two
 *   answer[3]  0
 * and every element of every other lent buffer is 0. `answer` is where the answer itself goes and no buffer in document
 * 01's sense: it is never refused and never zeroed. A host that meets a number that this header does not have takes it as a
 * no.
 */
#ifndef CHELBUGAN_H
#define CHELBUGAN_H

#include <stddef.h>
#include <stdint.h>

#ifdef __cplusplus
extern "C" {
#endif

/* The version of this header: 10,000 times the first number, 100 times the second, and the third. chelbugan_version() is the
 * archive's. Where the first numbers are equal the calls have one shape, and what this header names means the same; the second
 * number changes with what is accepted, the third with which refusal is given. */
#define CHELBUGAN_VERSION 20001
#define CHELBUGAN_VERSION_TEXT "2.0.1"

/* What each call returns: 0 is a refusal, everything else is a yes. Only a trial run has more than one. */
#define CHELBUGAN_NO 0
#define CHELBUGAN_YES 1
#define CHELBUGAN_DONE 1  /* a run reached its end */
#define CHELBUGAN_TRAP 2  /* a run was stopped by an instruction */
#define CHELBUGAN_SPENT 3 /* a run's budget was used up */

/* In which section a place lies: answer[2] of a refusal, and of a type that is handed back. It is CHELBUGAN_INPUT_NONE for a
 * type's number, for every place in a body, and for the 0 of 14, of 27, of a run's budget and of a run's parameters. */
#define CHELBUGAN_INPUT_NONE 0
#define CHELBUGAN_INPUT_LIBRARY 1
#define CHELBUGAN_INPUT_ADDON 2 /* the add-on's own section */

/* The library of no types, for a host that has none: the one byte 00. */
#define CHELBUGAN_EMPTY_LIBRARY ((const uint8_t *)"")
#define CHELBUGAN_EMPTY_LIBRARY_LEN 1

/* The refusals: 1 to 14, 20 to 25, 27 to 29, 31 and 32; there are no others (26 and 30 do not exist). Each with its place:
 *   byte         an offset in the input at fault: the section that answer[2] names, or the body where answer[2] is
 *                CHELBUGAN_INPUT_NONE; a missing byte lies at the input's length
 *   instruction  the offset of its first byte in the body
 *   type         a type's number, the library's types counted first: the type at fault
 *   0            no place: the whole input, the budget, the parameters or a buffer
 * Where a number has several kinds of place:
 *   - 4 with an input in answer[2] is a byte of that section: the first of the entry beyond a size, or 0 for a section that is
 *     too long. Without one it is a type where a chain of supertypes is longer than CHELBUGAN_CHAIN; of a body the instruction
 *     that goes beyond, the first byte of an entry of its locals, or 0 for a body that is too long; of a run 0 for the budget.
 *   - 6 never has an input. Of a section it is a type; of a type asked for it is the number asked for; of a body it is the
 *     instruction, or the first byte of an entry of its locals.
 * A body's call, and a run's, judges the two sections first; the place is one of theirs then (chelbugan_judge_body). */
#define CHELBUGAN_REFUSAL_BYTES_END 1              /* bytes end inside an item; byte: the item's first */
#define CHELBUGAN_REFUSAL_BAD_NUMBER 2             /* LEB too long or out of range; byte: its first */
#define CHELBUGAN_REFUSAL_NOT_LISTED 3             /* byte or FB number not listed, negative number as type; byte */
#define CHELBUGAN_REFUSAL_OVERSIZE 4               /* a size exceeded; byte, type (chain of supertypes), instruction, or 0 */
#define CHELBUGAN_REFUSAL_LEFT_OVER 5              /* bytes left over; byte: the first of them */
#define CHELBUGAN_REFUSAL_OUT_OF_REACH 6           /* type number out of reach; type (section), number asked, instruction */
#define CHELBUGAN_REFUSAL_BAD_SUPERTYPE 7          /* supertype not earlier, not open, or more than one; type */
#define CHELBUGAN_REFUSAL_NO_MATCH 8               /* does not match its supertype; type */
#define CHELBUGAN_REFUSAL_CLAUSE_NOT_ON_STRUCT 9   /* describes or descriptor on a function; type */
#define CHELBUGAN_REFUSAL_DESCRIBES_NOT_EARLIER 10 /* describes names no earlier type; type */
#define CHELBUGAN_REFUSAL_CLAUSES_DISAGREE 11      /* x has descriptor y, and y does not describe x, or the reverse; type */
#define CHELBUGAN_REFUSAL_BAD_DESCRIPTOR 12        /* its descriptor is not below its supertype's; type */
#define CHELBUGAN_REFUSAL_BAD_DESCRIBES 13         /* it and its supertype do not describe alike; type */
#define CHELBUGAN_REFUSAL_BUFFER_TOO_SMALL 14      /* a lent buffer under its size, below; 0 */
#define CHELBUGAN_REFUSAL_BAD_OPERAND 20           /* operand missing or wrong, by more than null; instruction */
#define CHELBUGAN_REFUSAL_ABSENT 21                /* label or local absent; instruction */
#define CHELBUGAN_REFUSAL_NOT_SET 22               /* local not set; instruction */
#define CHELBUGAN_REFUSAL_BAD_STRUCT 23            /* no struct, no such field, descriptor missing or unwanted; instruction */
#define CHELBUGAN_REFUSAL_FIELD_FIXED 24           /* field fixed; instruction */
#define CHELBUGAN_REFUSAL_BAD_BRANCH 25            /* branching cast: two hierarchies, or label does not take it; instruction */
#define CHELBUGAN_REFUSAL_NOT_A_FUNCTION 27        /* not a function type's number; 0 */
#define CHELBUGAN_REFUSAL_VALUES_LEFT 28           /* values left at an end; instruction */
#define CHELBUGAN_REFUSAL_NO_DEFAULT 29            /* no default; instruction, or 0 for a run's parameters */
#define CHELBUGAN_REFUSAL_ONLY_NULL 31             /* an operand would fit if it could not be null; instruction */
#define CHELBUGAN_REFUSAL_PADDED 32                /* LEB number with more bytes than it needs; byte: its first */

/* The traps: 41 to 46. A trap's place is that of the trapping instruction. */
#define CHELBUGAN_TRAP_UNREACHABLE 41
#define CHELBUGAN_TRAP_NULL 42            /* null used by get, set, as_non_null or ref.get_desc */
#define CHELBUGAN_TRAP_NULL_DESCRIPTOR 43
#define CHELBUGAN_TRAP_CAST 44            /* a cast failed */
#define CHELBUGAN_TRAP_NO_ROOM 45         /* no object or too few cells are left */
#define CHELBUGAN_TRAP_OTHER_NUMERIC 46   /* a numeric code that the trial run does not do */

/* Sizes of documents 01 and 02. What goes beyond is refusal 4; of objects and cells it is trap 45. */
#define CHELBUGAN_SECTION_BYTES 32768 /* of the library and of the add-on's section, each */
#define CHELBUGAN_BODY_BYTES 32768
#define CHELBUGAN_TYPES 1024          /* of both sections together */
#define CHELBUGAN_FIELDS 64           /* fields, parameters or results, each */
#define CHELBUGAN_CHAIN 63            /* steps up a chain of supertypes, through both sections */
#define CHELBUGAN_BODY_LOCALS 256     /* parameters among them */
#define CHELBUGAN_BODY_OPERANDS 512   /* in all frames after an instruction */
#define CHELBUGAN_FRAMES 64           /* the function's own counted */
#define CHELBUGAN_BUDGET 1000000      /* steps of a run */
#define CHELBUGAN_HEAP_OBJECTS 1024
#define CHELBUGAN_HEAP_CELLS 4096     /* one for each field of each object */

/* How many elements a buffer has at least. A shorter one is refusal 14 at 0, before anything else is looked at; of a
 * longer one the rest is zeroed too. */
#define CHELBUGAN_ROWS 16384    /* uint16_t: the table's rows, 1,024 of 16 words */
#define CHELBUGAN_SHARED 32768  /* uint16_t: the codes of fields, parameters and results of the library's types */
#define CHELBUGAN_CODES 32768   /* uint16_t: the same of the add-on's own types */
#define CHELBUGAN_WORK 4096     /* uint32_t: a body's scratch */
#define CHELBUGAN_ENDS 32768    /* uint16_t: a run's scratch */
#define CHELBUGAN_COUNTS 6      /* uint64_t: a run's place, and how many of each of the following it has */
#define CHELBUGAN_OBJECTS 4096  /* uint16_t: 1,024 objects */
#define CHELBUGAN_CELLS 8192    /* uint64_t: the fields of all objects, 4,096 values */
#define CHELBUGAN_LOCALS 512    /* uint64_t: 256 values */
#define CHELBUGAN_OPERANDS 1024 /* uint64_t: 512 values */
#define CHELBUGAN_BLOCKS 189    /* uint16_t: 63 open blocks */

/* The number of words of an answer, the same for every call. */
#define CHELBUGAN_ANSWER 4

/* Row x of the table begins at rows[CHELBUGAN_ROW_WORDS * x]: the library's types first, then the add-on's. A number that may
 * be missing is 0 for none, else one more than the number. Words 9 and 11 are the loader's own (docs/LAYOUT.md); words 14 and
 * 15 are 0 and kept for later versions. x is below y exactly where x is y, or START of y <= START of x < END of y. */
#define CHELBUGAN_ROW_WORDS 16
#define CHELBUGAN_ROW_FORM 0       /* CHELBUGAN_FORM_.. */
#define CHELBUGAN_ROW_FIELDS 1     /* fields of a struct, parameters of a function */
#define CHELBUGAN_ROW_RESULTS 2    /* results of a function */
#define CHELBUGAN_ROW_OPEN 3       /* 1 open, 0 final */
#define CHELBUGAN_ROW_SUPERTYPE 4  /* 0 or one more than its number */
#define CHELBUGAN_ROW_DESCRIBES 5  /* the same */
#define CHELBUGAN_ROW_DESCRIPTOR 6 /* the same */
#define CHELBUGAN_ROW_FROM 7       /* offset of the definition's first byte, in the section that holds it */
#define CHELBUGAN_ROW_TO 8         /* offset after its last byte */
#define CHELBUGAN_ROW_REACH 9      /* it may name the types below this number */
#define CHELBUGAN_ROW_CODE 10      /* where its codes begin, and which section holds it: below */
#define CHELBUGAN_ROW_START 12     /* where the range of its subtypes starts: its own place */
#define CHELBUGAN_ROW_END 13       /* where that range ends */
#define CHELBUGAN_FORM_STRUCT 1
#define CHELBUGAN_FORM_FUNCTION 2

/* A row whose word CHELBUGAN_ROW_CODE is below this is a type of the add-on, and the word is a place in codes. From this on it
 * is a type of the library, and its codes begin in shared, at the word less this. It holds of a type without codes too.
 *
 *   uint16_t code = rows[CHELBUGAN_ROW_WORDS * x + CHELBUGAN_ROW_CODE];
 *   const uint16_t *own = code < CHELBUGAN_ROW_SHARED ? codes + code : shared + (code - CHELBUGAN_ROW_SHARED);
 */
#define CHELBUGAN_ROW_SHARED 32768

/* A code of a struct's field is CHELBUGAN_FIELD_.. and twice a value type's; of a parameter or a result it is a value type's:
 * a number's, or CHELBUGAN_TYPE_REF(_NULL) and twice a heap type's. Those of heap types: an abstract one's, or that of a
 * type's number x, CHELBUGAN_HEAP_DEFINED + 2 * x, exact CHELBUGAN_HEAP_EXACT + 2 * x. */
#define CHELBUGAN_FIELD_FIXED 0
#define CHELBUGAN_FIELD_MUTABLE 1
#define CHELBUGAN_TYPE_I32 0
#define CHELBUGAN_TYPE_I64 1
#define CHELBUGAN_TYPE_F32 2
#define CHELBUGAN_TYPE_F64 3
#define CHELBUGAN_TYPE_REF 4
#define CHELBUGAN_TYPE_REF_NULL 5
#define CHELBUGAN_HEAP_NOFUNC 0
#define CHELBUGAN_HEAP_NOEXTERN 1
#define CHELBUGAN_HEAP_NONE 2
#define CHELBUGAN_HEAP_FUNC 3
#define CHELBUGAN_HEAP_EXTERN 4
#define CHELBUGAN_HEAP_ANY 5
#define CHELBUGAN_HEAP_EQ 6
#define CHELBUGAN_HEAP_I31 7
#define CHELBUGAN_HEAP_STRUCT 8
#define CHELBUGAN_HEAP_ARRAY 9
#define CHELBUGAN_HEAP_DEFINED 10
#define CHELBUGAN_HEAP_EXACT 11

/* The state that a run leaves. counts holds the place in the body (of the next instruction; of the trapping one after a
 * trap; the body's length when done) and how many objects, cells, locals, operands and open blocks there are. */
#define CHELBUGAN_COUNT_PLACE 0
#define CHELBUGAN_COUNT_OBJECTS 1
#define CHELBUGAN_COUNT_CELLS 2
#define CHELBUGAN_COUNT_LOCALS 3
#define CHELBUGAN_COUNT_OPERANDS 4
#define CHELBUGAN_COUNT_BLOCKS 5

/* Object n begins at objects[CHELBUGAN_OBJECT_WORDS * n]. */
#define CHELBUGAN_OBJECT_WORDS 4
#define CHELBUGAN_OBJECT_TYPE 0       /* its type's number */
#define CHELBUGAN_OBJECT_DESCRIPTOR 1 /* the object that is its descriptor: 0 for none, else one more than its number */
#define CHELBUGAN_OBJECT_CELL 2       /* the number of the value in cells that is its first field */
#define CHELBUGAN_OBJECT_FIELDS 3     /* how many fields it has */

/* Value n of cells, locals (parameters first) or operands (the bottom first) begins at [CHELBUGAN_VALUE_WORDS * n]: its
 * kind, then its bits. */
#define CHELBUGAN_VALUE_WORDS 2
#define CHELBUGAN_VALUE_KIND 0
#define CHELBUGAN_VALUE_BITS 1
#define CHELBUGAN_KIND_UNSET 0  /* a local that holds no value; bits 0 */
#define CHELBUGAN_KIND_I32 1    /* bits below 2 to the 32: (int32_t)(uint32_t)bits */
#define CHELBUGAN_KIND_I64 2    /* (int64_t)bits */
#define CHELBUGAN_KIND_F32 3    /* bits below 2 to the 32: those of the float, of a NaN its sign and payload too */
#define CHELBUGAN_KIND_F64 4    /* the 64 bits of the float, the same */
#define CHELBUGAN_KIND_NULL 5   /* bits 0 */
#define CHELBUGAN_KIND_OBJECT 6 /* the object's number */

/* Open block n, the outermost first, begins at blocks[CHELBUGAN_BLOCK_WORDS * n]; the function's own frame is none. */
#define CHELBUGAN_BLOCK_WORDS 3
#define CHELBUGAN_BLOCK_KIND 0  /* CHELBUGAN_BLOCK_IS_.. */
#define CHELBUGAN_BLOCK_PLACE 1 /* of the instruction that opened it */
#define CHELBUGAN_BLOCK_BELOW 2 /* how many operands lie below it */
#define CHELBUGAN_BLOCK_IS_BLOCK 1
#define CHELBUGAN_BLOCK_IS_LOOP 2

/* The version of the archive, as CHELBUGAN_VERSION has the header's. A host that takes an archive as it comes asks it first.
 *
 *   if (chelbugan_version() / 10000 == CHELBUGAN_VERSION / 10000)
 *       printf("version %llu\n", (unsigned long long)chelbugan_version());   // version 20001
 */
uint64_t chelbugan_version(void);

/* Judges a library, `library_len` bytes, and the add-on's section after it, `section_len` bytes.
 *
 * CHELBUGAN_YES: answer[0] is the count of types of both, 0 to CHELBUGAN_TYPES. rows, shared and codes hold the table, zero
 *                beyond.
 * CHELBUGAN_NO:  the refusal (above); rows, shared and codes are zero.
 *
 *   static uint16_t rows[CHELBUGAN_ROWS], shared[CHELBUGAN_SHARED], codes[CHELBUGAN_CODES];
 *   uint64_t answer[CHELBUGAN_ANSWER];
 *   const uint8_t library[] = {0x01, 0x50, 0x00, 0x5F, 0x00};                    // type 0: an open struct without fields
 *   const uint8_t section[] = {0x01, 0x4F, 0x01, 0x00, 0x5F, 0x01, 0x7F, 0x00};  // type 1: below 0, with a fixed i32 field
 *   if (chelbugan_judge_section(library, sizeof library, section, sizeof section, rows, CHELBUGAN_ROWS,
 *                               shared, CHELBUGAN_SHARED, codes, CHELBUGAN_CODES, answer))
 *       printf("%llu types\n", (unsigned long long)answer[0]);   // 2 types
 */
uint64_t chelbugan_judge_section(const uint8_t *library, size_t library_len,
                                 const uint8_t *section, size_t section_len,
                                 uint16_t *rows, size_t rows_len,
                                 uint16_t *shared, size_t shared_len,
                                 uint16_t *codes, size_t codes_len,
                                 uint64_t answer[CHELBUGAN_ANSWER]);

/* Asks for a type by number, the library's types counted first. The two sections are judged first, with their own refusals.
 *
 * CHELBUGAN_YES: answer[2] says which section holds the definition, CHELBUGAN_INPUT_LIBRARY or CHELBUGAN_INPUT_ADDON; its very
 *                bytes are those of that section from answer[0] up to, not including, answer[1]. rows, shared and codes are as
 *                after chelbugan_judge_section.
 * CHELBUGAN_NO:  the refusal (above); a number that neither section has is refusal 6 with that number as place. rows, shared
 *                and codes are zero.
 *
 *   if (chelbugan_ask_type(library, sizeof library, section, sizeof section, 1, rows, CHELBUGAN_ROWS,
 *                          shared, CHELBUGAN_SHARED, codes, CHELBUGAN_CODES, answer))
 *       fwrite((answer[2] == CHELBUGAN_INPUT_LIBRARY ? library : section) + answer[0], 1, answer[1] - answer[0],
 *              out);   // 4F 01 00 5F 01 7F 00
 */
uint64_t chelbugan_ask_type(const uint8_t *library, size_t library_len,
                            const uint8_t *section, size_t section_len,
                            uint64_t number,
                            uint16_t *rows, size_t rows_len,
                            uint16_t *shared, size_t shared_len,
                            uint16_t *codes, size_t codes_len,
                            uint64_t answer[CHELBUGAN_ANSWER]);

/* Judges a body, `body_len` bytes: a list of locals and the instructions up to the last `end`, against the function type
 * of a number, the library's types counted first. The two sections are judged first, with their own refusals.
 *
 * CHELBUGAN_YES: answer[0] is the count of instructions.
 * CHELBUGAN_NO:  the refusal (above). A number that is no function type's, or no type's at all, is refusal 27 at 0.
 * Either way rows, shared, codes and work were scratch and are zero.
 *
 * Where answer[2] names an input, the place is a byte of that section. Else refusals 7 to 13 are at a type, and 4 and 6 can be
 * at a type or at a byte of the body. A host that has to know judges the sections alone first: once they are accepted, every
 * refusal's place is a byte's offset in the body, or the 0 of 27.
 *
 *   static uint32_t work[CHELBUGAN_WORK];
 *   const uint8_t types[] = {0x01, 0x60, 0x00, 0x01, 0x7F};    // no library; type 0: a function that gives an i32
 *   const uint8_t body[] = {0x00, 0x41, 0x07, 0x0B};           // no locals; i32.const 7, end
 *   if (chelbugan_judge_body(CHELBUGAN_EMPTY_LIBRARY, CHELBUGAN_EMPTY_LIBRARY_LEN, types, sizeof types, body, sizeof body, 0,
 *                            rows, CHELBUGAN_ROWS, shared, CHELBUGAN_SHARED, codes, CHELBUGAN_CODES, work, CHELBUGAN_WORK,
 *                            answer))
 *       printf("%llu instructions\n", (unsigned long long)answer[0]);   // 2 instructions
 */
uint64_t chelbugan_judge_body(const uint8_t *library, size_t library_len,
                              const uint8_t *section, size_t section_len,
                              const uint8_t *body, size_t body_len,
                              uint64_t number,
                              uint16_t *rows, size_t rows_len,
                              uint16_t *shared, size_t shared_len,
                              uint16_t *codes, size_t codes_len,
                              uint32_t *work, size_t work_len,
                              uint64_t answer[CHELBUGAN_ANSWER]);

/* Makes a trial run of a body, of at most `budget` steps: the heap empty, parameters zero or null, one step for each
 * instruction. The sections and the body are judged first, as by chelbugan_judge_body, with their own refusals.
 *
 * CHELBUGAN_DONE:  answer[0] steps, answer[1] count of results. The results are all of operands.
 * CHELBUGAN_TRAP:  answer[0] the trap's number, CHELBUGAN_TRAP_..; answer[1] the place of the instruction in the body;
 *                  answer[2] steps, the trapping one counted.
 * CHELBUGAN_SPENT: answer[0] steps: the budget.
 * After each of the three counts, objects, cells, locals, operands and blocks hold the state after exactly those steps,
 * zero beyond (a trapping step changes nothing of it); rows, shared, codes, work and ends were scratch and are zero.
 * CHELBUGAN_NO:    the refusal (above), and all eleven are zero. After the body's own refusals: a budget above
 *                  CHELBUGAN_BUDGET is refusal 4 at 0, a parameter without a default is refusal 29 at 0. These two places
 *                  mean the budget and the parameters, and no byte.
 * A trap is no refusal: the body keeps every rule, and stopping there is what documents 01 and 02 say that it does.
 *
 *   static uint16_t ends[CHELBUGAN_ENDS], objects[CHELBUGAN_OBJECTS], blocks[CHELBUGAN_BLOCKS];
 *   static uint64_t counts[CHELBUGAN_COUNTS], cells[CHELBUGAN_CELLS], locals[CHELBUGAN_LOCALS],
 *       operands[CHELBUGAN_OPERANDS];
 *   if (chelbugan_try_run(CHELBUGAN_EMPTY_LIBRARY, CHELBUGAN_EMPTY_LIBRARY_LEN, types, sizeof types, body, sizeof body,
 *                         0, 1000, rows, CHELBUGAN_ROWS, shared, CHELBUGAN_SHARED, codes, CHELBUGAN_CODES,
 *                         work, CHELBUGAN_WORK, ends, CHELBUGAN_ENDS, counts, CHELBUGAN_COUNTS,
 *                         objects, CHELBUGAN_OBJECTS, cells, CHELBUGAN_CELLS, locals, CHELBUGAN_LOCALS,
 *                         operands, CHELBUGAN_OPERANDS, blocks, CHELBUGAN_BLOCKS, answer) == CHELBUGAN_DONE)
 *       printf("%llu steps, i32 %ld\n", (unsigned long long)answer[0],
 *              (long)(int32_t)(uint32_t)operands[CHELBUGAN_VALUE_BITS]);   // 2 steps, i32 7
 */
uint64_t chelbugan_try_run(const uint8_t *library, size_t library_len,
                           const uint8_t *section, size_t section_len,
                           const uint8_t *body, size_t body_len,
                           uint64_t number,
                           uint64_t budget,
                           uint16_t *rows, size_t rows_len,
                           uint16_t *shared, size_t shared_len,
                           uint16_t *codes, size_t codes_len,
                           uint32_t *work, size_t work_len,
                           uint16_t *ends, size_t ends_len,
                           uint64_t *counts, size_t counts_len,
                           uint16_t *objects, size_t objects_len,
                           uint64_t *cells, size_t cells_len,
                           uint64_t *locals, size_t locals_len,
                           uint64_t *operands, size_t operands_len,
                           uint16_t *blocks, size_t blocks_len,
                           uint64_t answer[CHELBUGAN_ANSWER]);

#ifdef __cplusplus
}
#endif

#endif
