/* The calls of version 2 over those of an archive of version 1, so that bench/compare-archives can measure such an archive by
 * the same program. Version 1 knew of no library, so a library with types ends the program. The older calls' names begin with
 * version_1_ here; compare-archives renames them. */
#include <stddef.h>
#include <stdint.h>
#include <stdlib.h>

/* Elements of version 1's rows. A longer buffer would be cleared to its end, which version 1 never had to do. */
#define VERSION_1_ROWS 3072

uint64_t version_1_judge_section(const uint8_t *section, size_t section_len, uint16_t *rows, size_t rows_len,
                                 uint16_t *codes, size_t codes_len, uint64_t *answer);
uint64_t version_1_judge_body(const uint8_t *section, size_t section_len, const uint8_t *body, size_t body_len,
                              uint64_t number, uint16_t *rows, size_t rows_len, uint16_t *codes, size_t codes_len,
                              uint32_t *work, size_t work_len, uint64_t *answer);
uint64_t version_1_try_run(const uint8_t *section, size_t section_len, const uint8_t *body, size_t body_len,
                           uint64_t number, uint64_t budget, uint16_t *rows, size_t rows_len, uint16_t *codes,
                           size_t codes_len, uint32_t *work, size_t work_len, uint16_t *ends, size_t ends_len,
                           uint64_t *counts, size_t counts_len, uint16_t *objects, size_t objects_len, uint64_t *cells,
                           size_t cells_len, uint64_t *locals, size_t locals_len, uint64_t *operands,
                           size_t operands_len, uint16_t *blocks, size_t blocks_len, uint64_t *answer);

static void no_types(const uint8_t *library, size_t library_len) {
    if (library_len != 1 || library[0] != 0)
        abort();
}

/* The wrapper asks for it and takes the calls' shape from the first number. */
uint64_t chelbugan_version(void) { return 20000; }

uint64_t chelbugan_judge_section(const uint8_t *library, size_t library_len, const uint8_t *section, size_t section_len,
                                 uint16_t *rows, size_t rows_len, uint16_t *shared, size_t shared_len, uint16_t *codes,
                                 size_t codes_len, uint64_t *answer) {
    (void)rows_len, (void)shared, (void)shared_len;
    no_types(library, library_len);
    return version_1_judge_section(section, section_len, rows, VERSION_1_ROWS, codes, codes_len, answer);
}

/* The benchmark asks for no type. */
uint64_t chelbugan_ask_type(void) { abort(); }

uint64_t chelbugan_judge_body(const uint8_t *library, size_t library_len, const uint8_t *section, size_t section_len,
                              const uint8_t *body, size_t body_len, uint64_t number, uint16_t *rows, size_t rows_len,
                              uint16_t *shared, size_t shared_len, uint16_t *codes, size_t codes_len, uint32_t *work,
                              size_t work_len, uint64_t *answer) {
    (void)rows_len, (void)shared, (void)shared_len;
    no_types(library, library_len);
    return version_1_judge_body(section, section_len, body, body_len, number, rows, VERSION_1_ROWS, codes, codes_len,
                                work, work_len, answer);
}

uint64_t chelbugan_try_run(const uint8_t *library, size_t library_len, const uint8_t *section, size_t section_len,
                           const uint8_t *body, size_t body_len, uint64_t number, uint64_t budget, uint16_t *rows,
                           size_t rows_len, uint16_t *shared, size_t shared_len, uint16_t *codes, size_t codes_len,
                           uint32_t *work, size_t work_len, uint16_t *ends, size_t ends_len, uint64_t *counts,
                           size_t counts_len, uint16_t *objects, size_t objects_len, uint64_t *cells, size_t cells_len,
                           uint64_t *locals, size_t locals_len, uint64_t *operands, size_t operands_len,
                           uint16_t *blocks, size_t blocks_len, uint64_t *answer) {
    (void)rows_len, (void)shared, (void)shared_len;
    no_types(library, library_len);
    return version_1_try_run(section, section_len, body, body_len, number, budget, rows, VERSION_1_ROWS, codes,
                             codes_len, work, work_len, ends, ends_len, counts, counts_len, objects, objects_len, cells,
                             cells_len, locals, locals_len, operands, operands_len, blocks, blocks_len, answer);
}
