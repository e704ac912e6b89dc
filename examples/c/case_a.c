/* Case A, a Function with an empty body: prints its answer and its markers.
 *
 *   tools/staticlib
 *   cc -I include examples/c/case_a.c target/staticlib/libcodegen.a -o case_a && ./case_a
 */
#include <inttypes.h>
#include <stdio.h>

#include "lucia_codegen.h"

int main(void) {
    const uint32_t none = 4294967295u;
    const uint32_t functions[] = {none, 0};
    const uint32_t records[] = {
        30, 0, 0, none, 0, 0, 1, 0, /* Function */
        31, 0, 0, 0, 0, 0, 0, 2,    /* Params */
        4, 0, 0, 0, 0, 0, 0, 0,     /* Block */
    };
    /* an empty table is a pointer to something and the length 0 */
    const uint32_t empty[1] = {0};
    const uint8_t no_bytes[1] = {0};
    uint32_t markers[LUCIA_MARKER_WORDS(3)] = {0}, constants[LUCIA_CONSTANT_WORDS(3)] = {0};
    uint32_t names[1] = {0}, errors[LUCIA_ERROR_WORDS(3)] = {0}, lines[LUCIA_LINE_WORDS(1)] = {0};
    uint64_t told[3] = {0};

    uint32_t number = lucia_gen_code(
        empty, 0, no_bytes, 0, empty, 0, empty, 0, functions, 2, empty, 0, records, 24,
        markers, LUCIA_MARKER_WORDS(3), constants, LUCIA_CONSTANT_WORDS(3), names, 0, errors, LUCIA_ERROR_WORDS(3),
        lines, LUCIA_LINE_WORDS(1), told, 3);
    if (number != 0) {
        printf("refused %" PRIu32 " at %" PRIu64 "\n", number, told[0]);
        return 1;
    }
    printf("%" PRIu64 " line, %" PRIu64 " errors, forecast %" PRIu64 "\n", told[0], told[1], told[2]);
    for (uint32_t i = 0; i < lines[0]; i++) printf("code %" PRIu32 " operand %" PRIu32 "\n", markers[2 * i], markers[2 * i + 1]);
    return 0;
}
