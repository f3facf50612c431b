/* Judges libraries, sections and bodies and makes runs with memory as malloc gives it, each block of the very size, so that valgrind
 * sees a read of a word that nobody wrote and any byte touched beyond a block. What it prints is read from the lent memory. */
#include <stdio.h>
#include <stdlib.h>
#include <string.h>

#include "chelbugan.h"

/* The buffers of a run, in the call's order: a section is lent the first SECTION, a body the first BODY. */
enum { ROWS, SHARED, CODES, WORK, ENDS, COUNTS, OBJECTS, CELLS, LOCALS, OPERANDS, BLOCKS, BUFFERS };
enum { SECTION = WORK, BODY = ENDS };
static const size_t sizes[BUFFERS] = {CHELBUGAN_ROWS,    CHELBUGAN_SHARED,   CHELBUGAN_CODES, CHELBUGAN_WORK,
                                      CHELBUGAN_ENDS,    CHELBUGAN_COUNTS,   CHELBUGAN_OBJECTS, CHELBUGAN_CELLS,
                                      CHELBUGAN_LOCALS,  CHELBUGAN_OPERANDS, CHELBUGAN_BLOCKS};
static const size_t bytes_each[BUFFERS] = {2, 2, 2, 4, 2, 8, 2, 8, 8, 8, 2};
static const char *const names[BUFFERS] = {"rows",    "shared", "codes",  "work",     "ends",  "counts",
                                           "objects", "cells",  "locals", "operands", "blocks"};

/* Bytes that are handed in. */
struct input {
    const uint8_t *bytes;
    size_t length;
};
#define INPUT(array) ((struct input){array, sizeof array})
static const struct input no_library = {CHELBUGAN_EMPTY_LIBRARY, CHELBUGAN_EMPTY_LIBRARY_LEN};

/* A block of 0 bytes has no place of its own everywhere, and the calls take no null. */
static void *block(size_t bytes) {
    void *place = malloc(bytes + (bytes == 0));
    if (!place)
        exit(2);
    return place;
}

static uint8_t *copied(struct input input) {
    uint8_t *place = block(input.length);
    memcpy(place, input.bytes, input.length);
    return place;
}

static unsigned long long sum_of(const void *words, size_t count, size_t each) {
    unsigned long long total = 0;
    for (size_t i = 0; i < count; i++)
        total += each == 2 ? ((const uint16_t *)words)[i]
                 : each == 4 ? ((const uint32_t *)words)[i]
                             : ((const uint64_t *)words)[i];
    return total;
}

/* What a call is lent: the first so many buffers, and the answer. */
struct lent {
    void *buffer[BUFFERS];
    uint64_t *answer;
};

static struct lent lend(size_t count, const size_t lengths[BUFFERS]) {
    struct lent lent;
    for (size_t i = 0; i < count; i++)
        lent.buffer[i] = block(lengths[i] * bytes_each[i]);
    lent.answer = block(sizeof(uint64_t) * CHELBUGAN_ANSWER);
    return lent;
}

/* The answer, and the sum of every buffer. */
static void told(const char *asked, uint64_t kind, size_t count, const struct lent *lent, const size_t lengths[BUFFERS]) {
    printf("%s %llu:", asked, (unsigned long long)kind);
    for (size_t i = 0; i < CHELBUGAN_ANSWER; i++)
        printf(" %llu", (unsigned long long)lent->answer[i]);
    for (size_t i = 0; i < count; i++)
        printf(", %s %llu", names[i], sum_of(lent->buffer[i], lengths[i], bytes_each[i]));
    printf("\n");
}

static void take_back(size_t count, struct lent *lent) {
    for (size_t i = 0; i < count; i++)
        free(lent->buffer[i]);
    free(lent->answer);
}

static void judge(struct input libraries, struct input types, const size_t lengths[BUFFERS]) {
    uint8_t *library = copied(libraries), *section = copied(types);
    struct lent lent = lend(SECTION, lengths);
    void **at = lent.buffer;
    uint64_t kind = chelbugan_judge_section(library, libraries.length, section, types.length, at[ROWS], lengths[ROWS],
                                            at[SHARED], lengths[SHARED], at[CODES], lengths[CODES], lent.answer);
    told("section", kind, SECTION, &lent, lengths);
    kind = chelbugan_ask_type(library, libraries.length, section, types.length, 0, at[ROWS], lengths[ROWS], at[SHARED],
                              lengths[SHARED], at[CODES], lengths[CODES], lent.answer);
    told("type", kind, SECTION, &lent, lengths);
    take_back(SECTION, &lent);
    free(library);
    free(section);
}

static void judge_body(struct input libraries, struct input types, struct input code, uint64_t number,
                       const size_t lengths[BUFFERS]) {
    uint8_t *library = copied(libraries), *section = copied(types), *body = copied(code);
    struct lent lent = lend(BODY, lengths);
    void **at = lent.buffer;
    uint64_t kind = chelbugan_judge_body(library, libraries.length, section, types.length, body, code.length, number,
                                         at[ROWS], lengths[ROWS], at[SHARED], lengths[SHARED], at[CODES],
                                         lengths[CODES], at[WORK], lengths[WORK], lent.answer);
    told("body", kind, BODY, &lent, lengths);
    take_back(BODY, &lent);
    free(library);
    free(section);
    free(body);
}

static void run_with(struct input libraries, struct input types, struct input code, uint64_t number, uint64_t budget,
                     const size_t lengths[BUFFERS]) {
    uint8_t *library = copied(libraries), *section = copied(types), *body = copied(code);
    struct lent lent = lend(BUFFERS, lengths);
    void **at = lent.buffer;
    uint64_t kind = chelbugan_try_run(
        library, libraries.length, section, types.length, body, code.length, number, budget, at[ROWS], lengths[ROWS],
        at[SHARED], lengths[SHARED], at[CODES], lengths[CODES], at[WORK], lengths[WORK], at[ENDS], lengths[ENDS],
        at[COUNTS], lengths[COUNTS], at[OBJECTS], lengths[OBJECTS], at[CELLS], lengths[CELLS], at[LOCALS],
        lengths[LOCALS], at[OPERANDS], lengths[OPERANDS], at[BLOCKS], lengths[BLOCKS], lent.answer);
    told("run", kind, BUFFERS, &lent, lengths);
    take_back(BUFFERS, &lent);
    free(library);
    free(section);
    free(body);
}

/* The lengths number `which` of a call that is lent so many buffers: the very sizes; then each buffer one element short, of
 * length 0, and some longer. */
static size_t every_length(size_t count) { return 1 + 3 * count; }
static void lengths_of(size_t which, size_t lengths[BUFFERS]) {
    memcpy(lengths, sizes, sizeof sizes);
    if (which == 0)
        return;
    size_t buffer = (which - 1) / 3;
    const size_t others[] = {sizes[buffer] - 1, 0, sizes[buffer] + 5};
    lengths[buffer] = others[(which - 1) % 3];
}

static void judge_with_every_length(struct input library, struct input section) {
    size_t lengths[BUFFERS];
    for (size_t i = 0; i < every_length(SECTION); i++) {
        lengths_of(i, lengths);
        judge(library, section, lengths);
    }
}

static void body_with_every_length(struct input library, struct input section, struct input body, uint64_t number) {
    size_t lengths[BUFFERS];
    for (size_t i = 0; i < every_length(BODY); i++) {
        lengths_of(i, lengths);
        judge_body(library, section, body, number, lengths);
    }
}

static void run_with_every_length(struct input library, struct input section, struct input body, uint64_t number,
                                  uint64_t budget) {
    size_t lengths[BUFFERS];
    for (size_t i = 0; i < every_length(BUFFERS); i++) {
        lengths_of(i, lengths);
        run_with(library, section, body, number, budget, lengths);
    }
}

/* The first so many bytes of an input. */
static struct input cut(struct input input, size_t length) {
    return (struct input){input.bytes, length};
}

static const uint8_t f1[] = {0x02, 0x4E, 0x02, 0x4D, 0x01, 0x5F, 0x00, 0x4C, 0x00,
                             0x5F, 0x00, 0x60, 0x00, 0x01, 0x64, 0x62, 0x00};
static const uint8_t disagree[] = {0x01, 0x4E, 0x03, 0x5F, 0x00, 0x4D, 0x02, 0x5F, 0x00, 0x4C, 0x00, 0x5F, 0x00};
/* the pair that tests/host/tests/table_words.rs works out: two types in the library, two after them */
static const uint8_t shared_types[] = {0x02, 0x50, 0x00, 0x5F, 0x01, 0x7F, 0x01, 0x60, 0x01, 0x63, 0x00, 0x01, 0x7E};
static const uint8_t own_types[] = {0x02, 0x4F, 0x01, 0x00, 0x5F, 0x02, 0x7F, 0x01, 0x64,
                                    0x62, 0x02, 0x00, 0x60, 0x00, 0x01, 0x63, 0x03};
static uint8_t longest[CHELBUGAN_SECTION_BYTES + 1];

static void sections(void) {
    struct input whole = INPUT(f1), library = INPUT(shared_types), own = INPUT(own_types);
    for (size_t length = 0; length < whole.length; length++)
        judge(no_library, cut(whole, length), sizes);
    judge(no_library, INPUT(disagree), sizes);
    judge(no_library, INPUT(longest), sizes);
    judge_with_every_length(no_library, whole);
    for (size_t length = 0; length < library.length; length++)
        judge(cut(library, length), own, sizes);
    for (size_t length = 0; length < own.length; length++)
        judge(library, cut(own, length), sizes);
    judge(INPUT(longest), own, sizes);
    judge_with_every_length(library, own);
}

static const uint8_t made[] = {0x00, 0xFB, 0x00, 0x01, 0xFB, 0x20, 0x00, 0x0B};
static const uint8_t of_the_pair[] = {0x00, 0xFB, 0x01, 0x00, 0x1A, 0x42, 0x05, 0x0B};
static uint8_t nops[CHELBUGAN_BODY_BYTES + 1];

static void bodies(void) {
    struct input whole = INPUT(made), types = INPUT(f1);
    for (size_t length = 0; length < whole.length; length++)
        judge_body(no_library, types, cut(whole, length), 2, sizes);
    judge_body(no_library, types, cut(INPUT(nops), CHELBUGAN_BODY_BYTES), 2, sizes);
    judge_body(no_library, types, INPUT(nops), 2, sizes);
    judge_body(no_library, types, whole, 1, sizes);
    judge_body(no_library, INPUT(disagree), whole, 2, sizes);
    body_with_every_length(no_library, types, whole, 2);
    body_with_every_length(INPUT(shared_types), INPUT(own_types), INPUT(of_the_pair), 1);
}

/* The worked states of docs/LAYOUT.md, a trap, a full heap, the longest body, and refusals. */
static void runs(void) {
    static const uint8_t nothing[] = {0x01, 0x60, 0x00, 0x00};
    static const uint8_t field[] = {0x02, 0x5F, 0x01, 0x7F, 0x00, 0x60, 0x00, 0x00};
    static const uint8_t used[] = {0x01, 0x01, 0x7F, 0x41, 0x7B, 0xFB, 0x00, 0x00,
                                   0x02, 0x40, 0x41, 0x07, 0x1A, 0x0B, 0x1A, 0x0B};
    static const uint8_t null[] = {0x00, 0xD0, 0x62, 0x01, 0xFB, 0x20, 0x00, 0x0B};
    static const uint8_t making[] = {0x00, 0x03, 0x40, 0xFB, 0x01, 0x00, 0x1A, 0x0C, 0x00, 0x0B, 0x0B};
    struct input whole = INPUT(made), types = INPUT(f1);
    run_with_every_length(no_library, types, whole, 2, 3);
    run_with_every_length(no_library, INPUT(field), INPUT(used), 1, 4);
    run_with_every_length(INPUT(shared_types), INPUT(own_types), INPUT(of_the_pair), 1, 2);
    run_with(no_library, types, INPUT(null), 2, 100, sizes);
    run_with(no_library, INPUT(field), INPUT(making), 1, CHELBUGAN_BUDGET, sizes);
    run_with(no_library, INPUT(nothing), cut(INPUT(nops), CHELBUGAN_BODY_BYTES), 0, CHELBUGAN_BUDGET, sizes);
    run_with(no_library, types, whole, 2, CHELBUGAN_BUDGET + 1, sizes);
    for (size_t length = 0; length < whole.length; length++)
        run_with(no_library, types, cut(whole, length), 2, 100, sizes);
}

int main(void) {
    memset(nops + 1, 0x01, sizeof nops - 1);
    nops[CHELBUGAN_BODY_BYTES - 1] = 0x0B;
    sections();
    bodies();
    runs();
    return 0;
}
