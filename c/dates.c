/* Prints where the dates of a text stand: a search, which tests the text once. */
#include <stdio.h>
#include <string.h>

#include "regress_c.h"

enum { RANGES = 4, AT_ONCE = 8 };

static uint32_t print_dates(regress_c_pattern *dates, const char *text)
{
    regress_c_span spans[RANGES * AT_ONCE];
    regress_c_search search = REGRESS_C_SEARCH_INIT;
    regress_c_reply reply;
    reply.code = regress_c_search_utf8(&search, (const uint8_t *)text, strlen(text), 0);
    while (reply.code == REGRESS_C_DONE) {
        reply = regress_c_next(dates, &search, spans, RANGES * AT_ONCE);
        for (size_t i = 0; i < reply.count; i++) {
            const regress_c_span *date = spans + i * RANGES;
            printf("%zu..%zu, in the year %.4s\n", date[0].start, date[0].end, text + date[1].start);
        }
    }
    regress_c_close(&search);
    return reply.code;
}

int main(void)
{
    static const char pattern[] = "(\\d{4})-(\\d\\d)(?:-(\\d\\d))?";
    regress_c_pattern dates = REGRESS_C_PATTERN_INIT;
    uint32_t code = regress_c_compile_utf8(&dates, (const uint8_t *)pattern, sizeof pattern - 1, NULL, 0);
    if (code == REGRESS_C_DONE) {
        code = print_dates(&dates, "from 2018-06-27 to 2019-01, \xC3\xA9 2020-12-31");
    }
    regress_c_free(&dates);
    printf("%s\n", regress_c_message(code));
    return code == REGRESS_C_NO_MATCH ? 0 : 1;
}
