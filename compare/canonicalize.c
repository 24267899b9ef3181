/*
 * Writes a byte for each pair of 32-bit code points on the input: 1 if the two match where case is ignored, else 0. The
 * only word is `i`, for 16-bit units, or `iu`, for code points.
 */
#include "../c/regress_c.h"
#include <stdio.h>
#include <string.h>

static size_t put(uint16_t *text, uint32_t c)
{
    if (c < 0x10000) {
        text[0] = (uint16_t)c;
        return 1;
    }
    text[0] = (uint16_t)(0xD800 + ((c - 0x10000) >> 10));
    text[1] = (uint16_t)(0xDC00 + ((c - 0x10000) & 0x3FF));
    return 2;
}

int main(int count, char **words)
{
    static const char pattern[] = "^([^])\\1$";
    const char *flags = count == 2 ? words[1] : "";
    int in_units = strcmp(flags, "i") == 0;
    regress_c_bounds bounds = REGRESS_C_NO_BOUNDS;
    regress_c_pattern re = REGRESS_C_PATTERN_INIT;
    uint32_t code = regress_c_compile_utf8_with_syntax(&re, (const uint8_t *)pattern, sizeof pattern - 1,
                                                       (const uint8_t *)flags, strlen(flags), REGRESS_C_ES2018,
                                                       &bounds);
    if (code != REGRESS_C_DONE) {
        fprintf(stderr, "canonicalize: the pattern is refused: %u\n", (unsigned)code);
        return 2;
    }
    uint32_t pair[2];
    while (fread(pair, sizeof pair, 1, stdin) == 1) {
        uint16_t text[4];
        regress_c_span spans[2];
        size_t len = put(text, pair[0]);
        len += put(text + len, pair[1]);
        regress_c_reply reply = in_units ? regress_c_find_ucs2(&re, text, len, 0, spans, 2)
                                         : regress_c_find_utf16(&re, text, len, 0, spans, 2);
        putchar(reply.code == REGRESS_C_DONE);
    }
    regress_c_free(&re);
    return 0;
}
