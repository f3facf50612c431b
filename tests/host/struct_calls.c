/* Requests from standard input, each answered twice: by a call of chelbugan.h with every argument written out, and by the
 * function of chelbugan_host.h. Status 1 where the two differ in what is returned or in any word of any buffer. It is C and
 * C++. A request is one byte S, T, B or R, one that is 1 where there is a library, then number, budget and the lengths of
 * library, section and body as 8 bytes each, the lowest first, then the bytes of the three. */
#include "chelbugan_host.h"
#include <stdio.h>
#include <stdlib.h>
#include <string.h>

#define ROOM 70000

struct input {
    uint8_t bytes[ROOM];
    size_t length;
};

static struct input library, section, body;
static uint64_t number, budget;
static struct chelbugan_memory spelt, lent;

static void stop(const char *why)
{
    fprintf(stderr, "%s\n", why);
    exit(2);
}

static uint64_t read_number(void)
{
    uint64_t value = 0;
    for (int place = 0; place < 64; place += 8) {
        int byte = getchar();
        if (byte == EOF)
            stop("a request is cut off");
        value |= (uint64_t)byte << place;
    }
    return value;
}

static void read_input(struct input *input)
{
    if (fread(input->bytes, 1, input->length, stdin) != input->length)
        stop("an input is cut off");
}

static void read_length(struct input *input)
{
    input->length = (size_t)read_number();
    if (input->length > ROOM)
        stop("an input is too long");
}

/* The call as chelbugan.h has it. */
static uint64_t by_hand(int asked)
{
    switch (asked) {
    case 'S':
        return chelbugan_judge_section(library.bytes, library.length, section.bytes, section.length,
                                       spelt.rows, CHELBUGAN_ROWS, spelt.shared, CHELBUGAN_SHARED,
                                       spelt.codes, CHELBUGAN_CODES, spelt.answer);
    case 'T':
        return chelbugan_ask_type(library.bytes, library.length, section.bytes, section.length, number,
                                  spelt.rows, CHELBUGAN_ROWS, spelt.shared, CHELBUGAN_SHARED,
                                  spelt.codes, CHELBUGAN_CODES, spelt.answer);
    case 'B':
        return chelbugan_judge_body(library.bytes, library.length, section.bytes, section.length,
                                    body.bytes, body.length, number, spelt.rows, CHELBUGAN_ROWS,
                                    spelt.shared, CHELBUGAN_SHARED, spelt.codes, CHELBUGAN_CODES,
                                    spelt.work, CHELBUGAN_WORK, spelt.answer);
    case 'R':
        return chelbugan_try_run(library.bytes, library.length, section.bytes, section.length,
                                 body.bytes, body.length, number, budget, spelt.rows, CHELBUGAN_ROWS,
                                 spelt.shared, CHELBUGAN_SHARED, spelt.codes, CHELBUGAN_CODES,
                                 spelt.work, CHELBUGAN_WORK, spelt.ends, CHELBUGAN_ENDS,
                                 spelt.counts, CHELBUGAN_COUNTS, spelt.objects, CHELBUGAN_OBJECTS,
                                 spelt.cells, CHELBUGAN_CELLS, spelt.locals, CHELBUGAN_LOCALS,
                                 spelt.operands, CHELBUGAN_OPERANDS, spelt.blocks, CHELBUGAN_BLOCKS,
                                 spelt.answer);
    }
    stop("there is no such request");
    return 0;
}

static uint64_t with_library(int asked)
{
    const uint8_t *l = library.bytes, *s = section.bytes, *b = body.bytes;
    switch (asked) {
    case 'S': return chelbugan_section_after(&lent, l, library.length, s, section.length);
    case 'T': return chelbugan_type_after(&lent, l, library.length, s, section.length, number);
    case 'B': return chelbugan_body_after(&lent, l, library.length, s, section.length, b, body.length, number);
    default: return chelbugan_run_after(&lent, l, library.length, s, section.length, b, body.length, number, budget);
    }
}

static uint64_t without_library(int asked)
{
    const uint8_t *s = section.bytes, *b = body.bytes;
    switch (asked) {
    case 'S': return chelbugan_section(&lent, s, section.length);
    case 'T': return chelbugan_type(&lent, s, section.length, number);
    case 'B': return chelbugan_body(&lent, s, section.length, b, body.length, number);
    default: return chelbugan_run(&lent, s, section.length, b, body.length, number, budget);
    }
}

/* Each row that the functions give is the table's, and its codes lie in the section that holds the type. */
static int rows_agree(uint64_t types)
{
    for (uint64_t x = 0; x < types; x++) {
        const uint16_t *row = chelbugan_row(&lent, x);
        uint16_t code = row[CHELBUGAN_ROW_CODE];
        int of_library = chelbugan_row_input(row) == CHELBUGAN_INPUT_LIBRARY;
        const uint16_t *codes = of_library ? lent.shared + (code - CHELBUGAN_ROW_SHARED) : lent.codes + code;
        if (row != lent.rows + CHELBUGAN_ROW_WORDS * x || codes != chelbugan_row_codes(&lent, row))
            return 0;
    }
    return chelbugan_row(&lent, CHELBUGAN_TYPES) == NULL && chelbugan_row(&lent, UINT64_MAX) == NULL;
}

int main(void)
{
    /* By what was asked, then by what was returned: no, then yes or done, trap, spent. */
    static const char asks[] = "STBR";
    unsigned counted[4][4] = {{0, 0, 0, 0}, {0, 0, 0, 0}, {0, 0, 0, 0}, {0, 0, 0, 0}};
    int asked;
    if (!chelbugan_fits() || CHELBUGAN_MEMORY_BYTES != sizeof lent)
        stop("the archive is of another shape");
    while ((asked = getchar()) != EOF) {
        int has_library = getchar();
        number = read_number();
        budget = read_number();
        read_length(&library);
        read_length(&section);
        read_length(&body);
        read_input(&library);
        read_input(&section);
        read_input(&body);
        memset(&spelt, 0xA5, sizeof spelt);
        memset(&lent, 0xA5, sizeof lent);
        uint64_t wanted = by_hand(asked);
        uint64_t given = has_library ? with_library(asked) : without_library(asked);
        if (wanted != given || memcmp(&spelt, &lent, sizeof lent) != 0) {
            printf("%c differs\n", asked);
            return 1;
        }
        if (asked == 'S' && given == CHELBUGAN_YES && !rows_agree(lent.answer[0])) {
            printf("a row differs\n");
            return 1;
        }
        counted[strchr(asks, asked) - asks][given & 3]++;
    }
    for (int kind = 0; kind < 4; kind++)
        printf("%c %u %u %u %u\n", asks[kind], counted[kind][0], counted[kind][1], counted[kind][2], counted[kind][3]);
    printf("%lu\n", (unsigned long)CHELBUGAN_MEMORY_BYTES);
    return 0;
}
