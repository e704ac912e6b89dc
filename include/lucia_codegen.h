/* The code generator's call, as the static library exports it (tools/staticlib).
 *
 * Tables and outputs are arrays of words, each lent as a pointer and its length in elements; docs/REFUSALS.md explains every number.
 * The call reads the tables and writes the outputs and nothing else. It takes up to about 2.5 MB of stack.
 */
#ifndef LUCIA_CODEGEN_H
#define LUCIA_CODEGEN_H

#include <stddef.h>
#include <stdint.h>

#ifdef __cplusplus
extern "C" {
#endif

/* Words that the outputs need at least, for so many records, members and functions; with less the answer is 2. */
#define LUCIA_MARKER_WORDS(records) ((size_t)(records) * 32 * 2)
#define LUCIA_CONSTANT_WORDS(records) ((size_t)(records) * 3 * 3)
#define LUCIA_NAME_WORDS(members) ((size_t)(members) * 3)
#define LUCIA_ERROR_WORDS(records) ((size_t)(records) * 3)
#define LUCIA_LINE_WORDS(functions) ((size_t)(functions) * 7)

/* 0: a listing; told holds the number of lines, the number of errors and the forecast.
 * Else the number of a refusal; told holds its place and two zeros, and no output has changed. */
uint32_t lucia_gen_code(
    const uint32_t *strings, size_t strings_len,
    const uint8_t *bytes, size_t bytes_len,
    const uint32_t *symbols, size_t symbols_len,
    const uint32_t *references, size_t references_len,
    const uint32_t *functions, size_t functions_len,
    const uint32_t *members, size_t members_len,
    const uint32_t *records, size_t records_len,
    uint32_t *markers, size_t markers_len,
    uint32_t *constants, size_t constants_len,
    uint32_t *names, size_t names_len,
    uint32_t *errors, size_t errors_len,
    uint32_t *lines, size_t lines_len,
    uint64_t *told, size_t told_len);

#ifdef __cplusplus
}
#endif

#endif
