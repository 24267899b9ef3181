/* Each call that regress_c.h declares, and each code that a short program can meet. */
#include <inttypes.h>
#include <stdio.h>
#include <string.h>

#include "regress_c.h"

#define ROOM 8

static const uint8_t *bytes(const char *text)
{
    return (const uint8_t *)text;
}

static uint32_t compile(regress_c_pattern *pattern, const char *text, const char *flags)
{
    return regress_c_compile_utf8(pattern, bytes(text), strlen(text), bytes(flags), strlen(flags));
}

/* The pattern of a text that is one. */
static regress_c_pattern compiled(const char *text, const char *flags)
{
    regress_c_pattern pattern = REGRESS_C_PATTERN_INIT;
    uint32_t code = compile(&pattern, text, flags);
    if (code != REGRESS_C_DONE) {
        printf("%s is refused: %s\n", text, regress_c_message(code));
    }
    return pattern;
}

static void print_code(const char *what, uint32_t code)
{
    printf("%s: %" PRIu32 ", %s\n", what, code, regress_c_message(code));
}

static void print_reply(const char *what, regress_c_reply reply)
{
    printf("%s: %" PRIu32 ", %s, count %zu\n", what, reply.code, regress_c_message(reply.code), reply.count);
}

static void print_spans(const regress_c_span *spans, size_t count)
{
    for (size_t i = 0; i < count; i++) {
        if (spans[i].start == REGRESS_C_UNMATCHED) {
            printf(" -");
        } else {
            printf(" %zu..%zu", spans[i].start, spans[i].end);
        }
    }
    printf("\n");
}

static void print_text(const char *what, regress_c_reply reply, const uint8_t *text)
{
    print_reply(what, reply);
    if (reply.code != REGRESS_C_SHORT_BUFFER) {
        printf(" %.*s\n", (int)reply.count, (const char *)text);
    }
}

/* All matches of a search, with room for so many at a time. */
static void print_all(regress_c_pattern *pattern, regress_c_search *search, size_t at_a_time)
{
    regress_c_span spans[ROOM];
    size_t ranges = regress_c_range_count(pattern).count;
    regress_c_reply reply;
    do {
        reply = regress_c_next(pattern, search, spans, ranges * at_a_time);
        for (size_t i = 0; i < reply.count; i++) {
            print_spans(spans + i * ranges, ranges);
        }
    } while (reply.code == REGRESS_C_DONE);
    print_reply("then", reply);
}

static void patterns(void)
{
    regress_c_pattern pattern = REGRESS_C_PATTERN_INIT;
    print_code("nothing closes", compile(&pattern, "(", ""));
    print_code("global", compile(&pattern, "a", "ig"));
    print_code("broken", compile(&pattern, "\xFF", ""));
    print_code("dates", compile(&pattern, "(\\d{4})-(\\d\\d)(?:-(\\d\\d))?", ""));
    print_code("once more", compile(&pattern, "a", ""));
    print_reply("ranges", regress_c_range_count(&pattern));
    regress_c_free(&pattern);
    regress_c_free(&pattern);
    print_reply("freed", regress_c_range_count(&pattern));
    print_code("nothing, with NULL", regress_c_compile_utf8(&pattern, NULL, 0, NULL, 0));
    regress_c_free(&pattern);
}

static void bounds(void)
{
    static const uint16_t nested[] = {'(', '(', 'a', ')', ')', 0xD83D, 0xDE00};
    regress_c_bounds six = {6, 2};
    regress_c_bounds five = {5, 2};
    regress_c_bounds flat = {6, 1};
    regress_c_pattern pattern = REGRESS_C_PATTERN_INIT;
    print_code("too long", regress_c_compile_utf8_within(&pattern, bytes("((a))b"), 6, NULL, 0, &five));
    print_code("too deep", regress_c_compile_utf8_within(&pattern, bytes("((a))b"), 6, NULL, 0, &flat));
    print_code("within", regress_c_compile_utf8_within(&pattern, bytes("((a))b"), 6, NULL, 0, &six));
    regress_c_free(&pattern);
    print_code("too long in UTF-16", regress_c_compile_utf16_within(&pattern, nested, 7, NULL, 0, &five));
    print_code("too deep in UTF-16", regress_c_compile_utf16_within(&pattern, nested, 7, NULL, 0, &flat));
    print_code("within in UTF-16", regress_c_compile_utf16_within(&pattern, nested, 7, NULL, 0, &six));
    regress_c_free(&pattern);
}

/* A pattern that no language has, one that the profile lacks, and one that means another thing in it. */
static void syntaxes(void)
{
    static const char *const texts[] = {"(", "\\101|(?=a)*b", "[^\\xE9]"};
    static const uint16_t units[] = {'\\', '1', '0', '1'};
    regress_c_bounds all = REGRESS_C_NO_BOUNDS;
    regress_c_bounds three = {3, 0};
    regress_c_span spans[ROOM];
    regress_c_pattern pattern = REGRESS_C_PATTERN_INIT;
    for (size_t i = 0; i < 3; i++) {
        for (uint32_t syntax = REGRESS_C_PROFILE; syntax <= REGRESS_C_ES2018 + 1; syntax++) {
            printf("%s by %" PRIu32 "\n", texts[i], syntax);
            print_code("compiles", regress_c_compile_utf8_with_syntax(&pattern, bytes(texts[i]), strlen(texts[i]), bytes("i"), 1, syntax, &all));
            regress_c_reply reply = regress_c_find_utf8(&pattern, bytes("\xC3\x89" "Ab"), 4, 0, spans, ROOM);
            print_reply("finds", reply);
            print_spans(spans, reply.count);
            regress_c_free(&pattern);
        }
    }
    print_code("too long", regress_c_compile_utf8_with_syntax(&pattern, bytes(texts[1]), 4, NULL, 0, REGRESS_C_ES2018, &three));
    print_code("in UTF-16", regress_c_compile_utf16_with_syntax(&pattern, units, 4, NULL, 0, REGRESS_C_ES2018, &all));
    print_code("once more", regress_c_compile_utf16_with_syntax(&pattern, units, 4, NULL, 0, REGRESS_C_ES2018, &all));
    regress_c_free(&pattern);
    print_code("by the profile", regress_c_compile_utf16_with_syntax(&pattern, units, 4, NULL, 0, REGRESS_C_PROFILE, &all));
    regress_c_free(&pattern);
}

static void many_groups(void)
{
    static uint8_t text[2 * 65536];
    regress_c_pattern pattern = REGRESS_C_PATTERN_INIT;
    for (size_t i = 0; i < sizeof text; i += 2) {
        text[i] = '(';
        text[i + 1] = ')';
    }
    print_code("65536 groups", regress_c_compile_utf8(&pattern, text, sizeof text, NULL, 0));
    print_code("65535 groups", regress_c_compile_utf8(&pattern, text, sizeof text - 2, NULL, 0));
    print_reply("their ranges", regress_c_range_count(&pattern));
    regress_c_free(&pattern);
}

static void diagnoses(void)
{
    static const uint16_t units[] = {0xD83D, 0xDE00, 'a', '*', '*'};
    uint8_t cause[64];
    size_t at = 0;
    regress_c_reply reply = regress_c_diagnose_utf8(bytes("\xC3\xA9(a|b"), 6, NULL, 0, &at, cause, sizeof cause);
    print_text("unclosed", reply, cause);
    printf(" at %zu\n", at);
    reply = regress_c_diagnose_utf16(units, 5, NULL, 0, &at, cause, sizeof cause);
    print_text("in UTF-16", reply, cause);
    printf(" at %zu\n", at);
    print_reply("no room", regress_c_diagnose_utf8(bytes("(a)["), 4, NULL, 0, &at, cause, 2));
    printf(" at %zu\n", at);
    print_reply("a pattern", regress_c_diagnose_utf8(bytes("a"), 1, bytes("u"), 1, &at, cause, sizeof cause));
    print_reply("unknown", regress_c_diagnose_utf8(bytes("a"), 1, bytes("x"), 1, &at, NULL, 0));
    reply = regress_c_diagnose_utf8_with_syntax(bytes("a\\p{x}"), 6, bytes("u"), 1, REGRESS_C_ES2018, &at, cause, sizeof cause);
    print_text("no property", reply, cause);
    printf(" at %zu\n", at);
    reply = regress_c_diagnose_utf16_with_syntax(units, 5, NULL, 0, REGRESS_C_ES2018, &at, cause, sizeof cause);
    print_text("in UTF-16", reply, cause);
    printf(" at %zu\n", at);
    print_reply("octal", regress_c_diagnose_utf8_with_syntax(bytes("\\1"), 2, NULL, 0, REGRESS_C_ES2018, &at, cause, sizeof cause));
    print_reply("unknown syntax", regress_c_diagnose_utf8_with_syntax(bytes("("), 1, NULL, 0, 2, &at, cause, sizeof cause));
    print_reply("unknown syntax", regress_c_diagnose_utf16_with_syntax(units, 5, NULL, 0, 2, &at, cause, sizeof cause));
    printf(" at %zu\n", at);
}

static void names(void)
{
    regress_c_pattern pattern = compiled("(?<year>\\d+)-(\\d+)-(?<day>\\d+)", "");
    regress_c_pattern plain = compiled("(a)", "");
    uint8_t name[8];
    for (size_t number = 0; number <= 4; number++) {
        print_text("name", regress_c_group_name(&pattern, number, name, sizeof name), name);
    }
    print_text("no room", regress_c_group_name(&pattern, 1, name, 3), name);
    print_text("none has one", regress_c_group_name(&plain, 1, name, sizeof name), name);
    regress_c_free(&plain);
    regress_c_free(&pattern);
}

static void numbers(void)
{
    regress_c_pattern pattern = compiled("(?<year>\\d+)-(\\d+)-(?<day>\\d+)", "");
    regress_c_pattern plain = compiled("(a)", "");
    regress_c_pattern nothing = REGRESS_C_PATTERN_INIT;
    print_reply("number of year", regress_c_group_number(&pattern, bytes("year"), 4));
    print_reply("number of day", regress_c_group_number(&pattern, bytes("day"), 3));
    print_reply("a part of a name", regress_c_group_number(&pattern, bytes("yea"), 3));
    print_reply("not UTF-8", regress_c_group_number(&pattern, bytes("\xC3"), 1));
    print_reply("the empty name", regress_c_group_number(&pattern, NULL, 0));
    print_reply("no names", regress_c_group_number(&plain, bytes("a"), 1));
    print_reply("by nothing", regress_c_group_number(&nothing, bytes("a"), 1));
    regress_c_free(&plain);
    regress_c_free(&pattern);
}

static void clones(void)
{
    regress_c_span spans[ROOM];
    regress_c_pattern pattern = compiled("(?<n>b)", "");
    regress_c_pattern copy = REGRESS_C_PATTERN_INIT;
    print_code("clone", regress_c_clone(&pattern, &copy));
    print_code("into a full one", regress_c_clone(&pattern, &copy));
    regress_c_free(&pattern);
    print_reply("by the clone", regress_c_find_utf8(&copy, bytes("abc"), 3, 0, spans, ROOM));
    print_spans(spans, 2);
    print_code("of nothing", regress_c_clone(&pattern, &copy));
    regress_c_free(&copy);
}

static void first_matches(void)
{
    static const uint8_t broken[] = {'2', 0xFF};
    static const uint16_t units[] = {'a', 0xD83D, 0xDE00, 'b'};
    regress_c_span spans[ROOM];
    regress_c_pattern pattern = compiled("(.)(c)?b", "u");
    regress_c_pattern nothing = REGRESS_C_PATTERN_INIT;
    print_reply("no text", regress_c_find_utf8(&pattern, broken, sizeof broken, 0, spans, ROOM));
    print_reply("within a character", regress_c_find_utf8(&pattern, bytes("\xC3\xA9"), 2, 1, spans, ROOM));
    print_reply("past the end", regress_c_find_utf8(&pattern, bytes("ab"), 2, 3, spans, ROOM));
    print_reply("no room", regress_c_find_utf8(&pattern, bytes("ab"), 2, 0, spans, 2));
    print_reply("by nothing", regress_c_find_utf8(&nothing, bytes("ab"), 2, 0, spans, ROOM));
    print_reply("in UTF-8", regress_c_find_utf8(&pattern, bytes("xab"), 3, 0, spans, ROOM));
    print_spans(spans, 3);
    print_reply("in UTF-16", regress_c_find_utf16(&pattern, units, 4, 0, spans, ROOM));
    print_spans(spans, 3);
    print_reply("between surrogates", regress_c_find_utf16(&pattern, units, 4, 2, spans, ROOM));
    print_reply("in UCS-2", regress_c_find_ucs2(&pattern, units, 4, 2, spans, ROOM));
    print_spans(spans, 3);
    print_reply("in nothing", regress_c_find_utf8(&pattern, NULL, 0, 0, NULL, 0));
    regress_c_free(&pattern);
}

static void matches_at(void)
{
    static const uint8_t broken[] = {'2', 0xFF};
    static const uint16_t units[] = {'a', 0xD83D, 0xDE00, 'b'};
    regress_c_span spans[ROOM];
    regress_c_pattern pattern = compiled("(c)?b|ab", "");
    regress_c_pattern any = compiled(".b", "u");
    regress_c_pattern nothing = REGRESS_C_PATTERN_INIT;
    print_reply("at 1", regress_c_match_at_utf8(&pattern, bytes("xab"), 3, 1, spans, ROOM));
    print_spans(spans, 2);
    print_reply("at 0", regress_c_match_at_utf8(&pattern, bytes("xab"), 3, 0, spans, ROOM));
    print_reply("at the end", regress_c_match_at_utf8(&pattern, bytes("xab"), 3, 3, spans, ROOM));
    print_reply("past the end", regress_c_match_at_utf8(&pattern, bytes("xab"), 3, 4, spans, ROOM));
    print_reply("no room", regress_c_match_at_utf8(&pattern, bytes("ab"), 2, 0, spans, 1));
    print_reply("no text", regress_c_match_at_utf8(&pattern, broken, sizeof broken, 0, spans, ROOM));
    print_reply("within a character", regress_c_match_at_utf8(&pattern, bytes("\xC3\xA9"), 2, 1, spans, ROOM));
    print_reply("by nothing", regress_c_match_at_utf8(&nothing, bytes("ab"), 2, 0, spans, ROOM));
    print_reply("in UTF-16", regress_c_match_at_utf16(&any, units, 4, 1, spans, ROOM));
    print_spans(spans, 1);
    print_reply("at 0", regress_c_match_at_utf16(&any, units, 4, 0, spans, ROOM));
    print_reply("between surrogates", regress_c_match_at_utf16(&any, units, 4, 2, spans, ROOM));
    print_reply("in UCS-2", regress_c_match_at_ucs2(&any, units, 4, 2, spans, ROOM));
    print_spans(spans, 1);
    print_reply("at 1", regress_c_match_at_ucs2(&any, units, 4, 1, spans, ROOM));
    regress_c_free(&any);
    regress_c_free(&pattern);
}

static void searches(void)
{
    static const char text[] = "from 2018-06-27 to 2019-01, \xC3\xA9 2020-12-31";
    static const uint16_t units[] = {'a', 0xD83D, 0xDE00, 'b'};
    regress_c_span spans[ROOM];
    regress_c_search search = REGRESS_C_SEARCH_INIT;
    regress_c_pattern dates = compiled("(\\d{4})-(\\d\\d)(?:-(\\d\\d))?", "");
    regress_c_pattern empty = compiled("x*", "");
    print_reply("not open", regress_c_next(&dates, &search, spans, ROOM));
    print_code("no text", regress_c_search_utf8(&search, bytes("\xFF"), 1, 0));
    print_code("within a character", regress_c_search_utf8(&search, bytes("\xC3\xA9"), 2, 1));
    print_code("between surrogates", regress_c_search_utf16(&search, units, 4, 2));
    print_code("open", regress_c_search_utf8(&search, bytes(text), strlen(text), 0));
    print_reply("no room", regress_c_next(&dates, &search, spans, 3));
    print_all(&dates, &search, 1);
    search.next = 6;
    print_all(&dates, &search, 2);
    print_code("open anew", regress_c_search_utf8(&search, bytes("a\xC3\xA9x"), 4, 0));
    print_all(&empty, &search, 3);
    print_reply("by nothing", regress_c_next(&(regress_c_pattern)REGRESS_C_PATTERN_INIT, &search, spans, ROOM));
    search.next = 2;
    print_reply("set within a character", regress_c_next(&empty, &search, spans, ROOM));
    print_code("in UTF-16", regress_c_search_utf16(&search, units, 4, 0));
    print_all(&empty, &search, 8);
    print_code("in UCS-2", regress_c_search_ucs2(&search, units, 4, 1));
    print_all(&empty, &search, 8);
    regress_c_close(&search);
    print_reply("closed", regress_c_next(&empty, &search, spans, ROOM));
    print_code("nothing", regress_c_search_utf8(&search, NULL, 0, 0));
    print_all(&empty, &search, 8);
    regress_c_free(&empty);
    regress_c_free(&dates);
}

static void limits(void)
{
    static const char text[] = "aaaaaaaaaaaaaaaaaaaaaaaaac";
    static const uint16_t units[] = {'a'};
    regress_c_span spans[ROOM];
    regress_c_search search = REGRESS_C_SEARCH_INIT;
    regress_c_pattern heavy = compiled("(?:a|a)*b", "");
    regress_c_pattern light = compiled("[b]c", "");
    uint64_t steps = 1000;
    print_code("open", regress_c_search_utf8(&search, bytes(text), strlen(text), 0));
    print_reply("in 1000 steps", regress_c_next_within(&heavy, &search, &steps, spans, ROOM));
    printf(" %" PRIu64 " left, next %zu\n", steps, search.next);
    steps = 7;
    print_code("open", regress_c_search_utf8(&search, bytes("aabbcbc"), 7, 0));
    print_reply("in 7 steps", regress_c_next_within(&light, &search, &steps, spans, 1));
    printf(" %" PRIu64 " left, next %zu\n", steps, search.next);
    print_reply("and on", regress_c_next_within(&light, &search, &steps, spans, 1));
    printf(" %" PRIu64 " left, next %zu\n", steps, search.next);
    print_reply("and on", regress_c_next_within(&light, &search, &steps, spans, 1));
    printf(" %" PRIu64 " left, next %zu\n", steps, search.next);
    print_code("in UCS-2", regress_c_search_ucs2(&search, units, 1, 0));
    print_reply("with a limit", regress_c_next_within(&light, &search, &steps, spans, 1));
    regress_c_free(&light);
    regress_c_free(&heavy);
}

/* A call for the next match in so much work, what it leaves, and where the search continues. */
static void print_next_in_work(const char *what, regress_c_pattern *pattern, regress_c_search *search, uint64_t *work,
                               size_t room)
{
    regress_c_span spans[ROOM];
    size_t ranges = regress_c_range_count(pattern).count;
    regress_c_reply reply = regress_c_next_in_work(pattern, search, work, spans, room);
    print_reply(what, reply);
    printf(" %" PRIu64 " left, next %zu\n", *work, search->next);
    for (size_t i = 0; reply.code != REGRESS_C_SHORT_BUFFER && i < reply.count; i++) {
        print_spans(spans + i * ranges, ranges);
    }
}

static void next_in_work(void)
{
    static const char text[] = "aaaaaaaaaaaaaaaaaaaaaaaaac";
    static const uint16_t units[] = {'a', 'a'};
    regress_c_search search = REGRESS_C_SEARCH_INIT;
    regress_c_pattern heavy = compiled("(?:a|a)*b", "");
    regress_c_pattern twice = compiled("(a)\\1", "");
    regress_c_pattern nothing = REGRESS_C_PATTERN_INIT;
    uint64_t work = 1000;
    print_next_in_work("not open", &twice, &search, &work, 2);
    print_code("open", regress_c_search_utf8(&search, bytes(text), strlen(text), 0));
    print_next_in_work("in 1000 work", &heavy, &search, &work, 1);
    work = 1000;
    print_next_in_work("one match", &twice, &search, &work, 3);
    work = 1000 - work;
    print_next_in_work("in as much", &twice, &search, &work, 2);
    print_next_in_work("in none", &twice, &search, &work, 2);
    work = 1000;
    print_next_in_work("two matches", &twice, &search, &work, 4);
    print_next_in_work("no room", &twice, &search, &work, 1);
    print_next_in_work("by nothing", &nothing, &search, &work, 2);
    search.next = strlen(text) + 1;
    print_next_in_work("past the end", &twice, &search, &work, 2);
    print_code("in UCS-2", regress_c_search_ucs2(&search, units, 2, 0));
    print_next_in_work("its match", &twice, &search, &work, 2);
    print_code("in UTF-16", regress_c_search_utf16(&search, units, 2, 0));
    work = 5;
    print_next_in_work("in 5 work", &twice, &search, &work, 2);
    regress_c_free(&twice);
    regress_c_free(&heavy);
}

/* A search for the first match in so much work, and what it leaves. */
static void print_in_work(const char *what, regress_c_pattern *pattern, const char *text, size_t start, uint64_t work)
{
    regress_c_span spans[ROOM];
    print_reply(what, regress_c_find_utf8_in_work(pattern, bytes(text), strlen(text), start, &work, spans, ROOM));
    printf(" %" PRIu64 " left\n", work);
}

/* Why the work of a pattern has no bound. */
static void print_unbounded(const char *what, const char *text)
{
    regress_c_pattern pattern = compiled(text, "");
    uint64_t each = 0;
    print_code(what, regress_c_work_per_unit(&pattern, &each));
    regress_c_free(&pattern);
}

static void work(void)
{
    static const char text[] = "aaaaaaaaaaaaaaaaaaaaaaaaac";
    regress_c_pattern heavy = compiled("(?:a|a)*b", "");
    regress_c_pattern light = compiled("a", "");
    regress_c_pattern looking = compiled("(?=a*)b", "");
    regress_c_pattern nothing = REGRESS_C_PATTERN_INIT;
    uint64_t each = 0;
    print_code("work for each", regress_c_work_per_unit(&heavy, &each));
    print_reply("in as much", regress_c_find_utf8_in_work(&heavy, bytes(text), strlen(text), 0,
                                                          &(uint64_t){each * (strlen(text) + 1)}, NULL, 0));
    print_in_work("in too little", &heavy, text, 0, 100);
    print_in_work("in none", &light, "a", 0, 0);
    print_in_work("in one", &light, "a", 0, 1);
    print_in_work("in more", &light, "ba", 0, 10);
    print_in_work("within a character", &light, "\xC3\xA9", 1, 10);
    print_in_work("no text", &light, "\xFF", 0, 10);
    print_in_work("a lookaround", &looking, "a", 0, 10);
    print_code("its work", regress_c_work_per_unit(&looking, &each));
    print_unbounded("a backreference", "(a)\\1");
    print_unbounded("a large count", "(?:a|a){0,65}");
    print_unbounded("a large bound", ".+?.+?.+?.+?.+?.+?.+?.+?.+?.+?.+?.+?");
    print_in_work("by nothing", &nothing, "a", 0, 10);
    print_code("work of nothing", regress_c_work_per_unit(&nothing, &each));
    regress_c_free(&looking);
    regress_c_free(&light);
    regress_c_free(&heavy);
}

/* A search for all matches in so much work, with room for so many ranges, and what it leaves. */
static void print_all_in_work(const char *what, regress_c_pattern *pattern, const char *text, size_t start, uint64_t work,
                              size_t room)
{
    regress_c_span spans[ROOM];
    size_t ranges = regress_c_range_count(pattern).count;
    regress_c_reply reply = regress_c_find_all_utf8_in_work(pattern, bytes(text), strlen(text), start, &work, spans, room);
    print_reply(what, reply);
    printf(" %" PRIu64 " left\n", work);
    for (size_t i = 0; reply.code != REGRESS_C_SHORT_BUFFER && i < reply.count; i++) {
        print_spans(spans + i * ranges, ranges);
    }
}

static void all_in_work(void)
{
    static const char text[] = "aaaaaaaaaaaaaaaaaaaaaaaaac";
    regress_c_pattern heavy = compiled("(?:a|a)*b|c", "");
    regress_c_pattern light = compiled("a(b)?", "");
    regress_c_pattern empty = compiled("x*", "");
    regress_c_pattern looking = compiled("(?=a*)b", "");
    regress_c_pattern nothing = REGRESS_C_PATTERN_INIT;
    uint64_t each = 0;
    print_code("work for each", regress_c_work_per_unit(&heavy, &each));
    print_all_in_work("in too little", &heavy, text, 0, 100, ROOM);
    uint64_t enough = each * (strlen(text) + 1);
    regress_c_span span;
    print_reply("in as much", regress_c_find_all_utf8_in_work(&heavy, bytes(text), strlen(text), 0, &enough, &span, 1));
    print_spans(&span, 1);
    print_all_in_work("all", &light, "abxab", 0, 1000, ROOM);
    print_all_in_work("from 1", &light, "abxab", 1, 1000, ROOM);
    print_all_in_work("room for one", &light, "abxab", 0, 1000, 3);
    print_all_in_work("no room", &light, "abxab", 0, 1000, 1);
    print_all_in_work("in 8", &light, "abxab", 0, 8, ROOM);
    print_all_in_work("in none", &light, "abxab", 0, 0, ROOM);
    print_all_in_work("empty ones", &empty, "a\xC3\xA9x", 0, 1000, ROOM);
    print_all_in_work("past the end", &light, "ab", 3, 9, ROOM);
    print_all_in_work("within a character", &light, "\xC3\xA9", 1, 9, ROOM);
    print_all_in_work("no text", &light, "\xFF", 0, 9, ROOM);
    print_all_in_work("a lookaround", &looking, "a", 0, 9, ROOM);
    print_all_in_work("by nothing", &nothing, "a", 0, 9, ROOM);
    regress_c_free(&looking);
    regress_c_free(&empty);
    regress_c_free(&light);
    regress_c_free(&heavy);
}

/* The texts of the codes, which are those of the header. */
static void messages(void)
{
    uint8_t message[128];
    for (uint32_t code = 0; code <= 25; code++) {
        const char *other = regress_c_message(code);
        regress_c_reply reply = regress_c_message_utf8(code, message, sizeof message);
        int same = reply.count == strlen(other) && memcmp(message, other, reply.count) == 0;
        printf("%" PRIu32 ": %" PRIu32 ", %.*s%s\n", code, reply.code, (int)reply.count, (const char *)message,
               same ? "" : ", but another in the header");
    }
    print_reply("of any number", regress_c_message_utf8(UINT32_MAX, message, sizeof message));
    print_reply("no room", regress_c_message_utf8(REGRESS_C_NO_MATCH, message, 7));
    print_reply("no buffer", regress_c_message_utf8(REGRESS_C_NO_MATCH, NULL, 0));
}

static void texts(void)
{
    regress_c_pattern pattern = compiled("(?<d>\\d+)", "");
    uint8_t made[16];
    print_text("first", regress_c_replace_utf8(&pattern, bytes("a1b22"), 5, bytes("<$1>"), 4, made, sizeof made), made);
    print_text("all", regress_c_replace_all_utf8(&pattern, bytes("a1b22"), 5, bytes("${d}$$"), 6, made, sizeof made), made);
    print_text("no room", regress_c_replace_all_utf8(&pattern, bytes("a1b22"), 5, bytes("$0$0"), 4, made, 7), made);
    print_text("nothing", regress_c_replace_all_utf8(&pattern, NULL, 0, NULL, 0, NULL, 0), made);
    print_text("no text", regress_c_replace_utf8(&pattern, bytes("\xFF"), 1, NULL, 0, made, sizeof made), made);
    print_text("escaped", regress_c_escape_utf8(bytes("a.b*"), 4, made, sizeof made), made);
    print_text("no room", regress_c_escape_utf8(bytes("a.b*"), 4, made, 5), made);
    regress_c_free(&pattern);
}

int main(void)
{
    printf("version %" PRIu32 ", header %d\n", regress_c_version(), REGRESS_C_VERSION);
    patterns();
    bounds();
    syntaxes();
    many_groups();
    diagnoses();
    names();
    numbers();
    clones();
    first_matches();
    matches_at();
    searches();
    limits();
    work();
    all_in_work();
    next_in_work();
    texts();
    messages();
    return 0;
}
