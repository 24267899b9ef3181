/*
 * Calls with patterns, texts and buffers made from a seed: fuzz SEED ROUNDS. It tells what it did, and stops where calls do not
 * agree, or a reply is none that the header allows. Run it under AddressSanitizer, which sees what is read and written.
 */
#include <inttypes.h>
#include <stdio.h>
#include <stdlib.h>
#include <string.h>

#include "regress_c.h"

enum { MOST = 48, ROOM = 160, STEPS = 20000 };

static uint64_t state;

/* splitmix64 */
static uint64_t any(void)
{
    uint64_t z = (state += 0x9E3779B97F4A7C15u);
    z = (z ^ (z >> 30)) * 0xBF58476D1CE4E5B9u;
    z = (z ^ (z >> 27)) * 0x94D049BB133111EBu;
    return z ^ (z >> 31);
}

static size_t below(size_t n)
{
    return (size_t)(any() % n);
}

/* A text on the heap of exactly its length, so that a read beyond it is seen. */
typedef struct text {
    uint8_t *bytes;
    size_t len;
} text;

typedef struct wide_text {
    uint16_t *units;
    size_t len;
} wide_text;

static uint64_t seed_of_round;
static text shown_pattern;
static text shown_text;

static void print_bytes(const char *what, text t)
{
    fprintf(stderr, "%s:", what);
    for (size_t i = 0; i < t.len; i++) {
        fprintf(stderr, " %02x", t.bytes[i]);
    }
    fprintf(stderr, "\n");
}

static void fail(const char *what)
{
    fprintf(stderr, "seed of the round %" PRIu64 ": %s\n", seed_of_round, what);
    print_bytes("pattern", shown_pattern);
    print_bytes("text", shown_text);
    exit(1);
}

static void check(int holds, const char *what)
{
    if (!holds) {
        fail(what);
    }
}

static text copy_of(const uint8_t *bytes, size_t len)
{
    text t = {len == 0 ? NULL : malloc(len), len};
    if (len != 0) {
        check(t.bytes != NULL, "memory");
        memcpy(t.bytes, bytes, len);
    }
    return t;
}

static const char *const pieces[] = {
    "a", "b", "ab", "x", "\\d", "\\w", "\\b", "\\B", ".", "^", "$", "|", "(", ")", "(?:", "(?=", "(?!", "(?<=", "(?<!", "(?<n>", "(?<m>",
    "*", "+", "?", "*?", "+?", "{2}", "{1,3}", "{0,2}?", "[ab]", "[^a]", "[a-c", "]", "\\1", "\\2", "\\k<n>", "\\x61", "\\u0062", "\\u{1F600}",
    "\xC3\xA9", "\xF0\x9F\x98\x80", "\\", "[", "-", "\\n", "\n", " ",
};

static const char *const bits[] = {
    "a", "b", "ab", "aab", "x", "0", "12", "_", " ", "\n", "c", "\xC3\xA9", "\xE2\x82\xAC", "\xF0\x9F\x98\x80",
};

static text made_of(const char *const *parts, size_t count, size_t most)
{
    uint8_t made[16 * MOST];
    size_t len = 0;
    for (size_t left = below(most + 1); left > 0; left--) {
        const char *part = parts[below(count)];
        memcpy(made + len, part, strlen(part));
        len += strlen(part);
    }
    return copy_of(made, len);
}

static text random_bytes(void)
{
    uint8_t made[MOST];
    size_t len = below(MOST + 1);
    for (size_t i = 0; i < len; i++) {
        made[i] = (uint8_t)any();
    }
    return copy_of(made, len);
}

static text any_text(void)
{
    return below(12) == 0 ? random_bytes() : made_of(bits, sizeof bits / sizeof *bits, MOST);
}

static text any_pattern(void)
{
    return below(20) == 0 ? random_bytes() : made_of(pieces, sizeof pieces / sizeof *pieces, 14);
}

static int is_boundary(text t, size_t at)
{
    return at >= t.len || (t.bytes[at] & 0xC0) != 0x80;
}

/* The units of a text in UTF-8 that was tested. */
static wide_text units_of(text t)
{
    wide_text wide = {t.len == 0 ? NULL : malloc(2 * t.len), 0};
    for (size_t i = 0; i < t.len;) {
        uint32_t c = t.bytes[i];
        size_t more = c < 0x80 ? 0 : c < 0xE0 ? 1 : c < 0xF0 ? 2 : 3;
        c = more == 0 ? c : c & (0x3Fu >> more);
        for (i++; more > 0; more--, i++) {
            c = (c << 6) | (t.bytes[i] & 0x3Fu);
        }
        if (c >= 0x10000) {
            wide.units[wide.len++] = (uint16_t)(0xD800 + ((c - 0x10000) >> 10));
            wide.units[wide.len++] = (uint16_t)(0xDC00 + ((c - 0x10000) & 0x3FF));
        } else {
            wide.units[wide.len++] = (uint16_t)c;
        }
    }
    return wide;
}

static int is_ascii(text t)
{
    for (size_t i = 0; i < t.len; i++) {
        if (t.bytes[i] >= 0x80) {
            return 0;
        }
    }
    return 1;
}

/* All matches, with room for so many at a time. */
typedef struct matches {
    regress_c_span *spans;
    size_t count;
    uint32_t code;
    uint64_t left;
} matches;

static void free_matches(matches found)
{
    free(found.spans);
}

static matches all_matches(regress_c_pattern *pattern, regress_c_search *search, size_t ranges, size_t at_a_time, uint64_t *steps)
{
    matches found = {NULL, 0, REGRESS_C_DONE, 0};
    size_t room = ranges * at_a_time + below(ranges);
    regress_c_span *spans = malloc((room == 0 ? 1 : room) * sizeof *spans);
    check(spans != NULL, "memory");
    while (found.code == REGRESS_C_DONE) {
        regress_c_reply reply = steps == NULL ? regress_c_next(pattern, search, spans, room)
                                              : regress_c_next_within(pattern, search, steps, spans, room);
        check(reply.code == REGRESS_C_DONE || reply.code == REGRESS_C_NO_MATCH || (steps != NULL && reply.code == REGRESS_C_STEP_LIMIT),
              "a code of next");
        check(reply.count <= at_a_time && (reply.code != REGRESS_C_DONE || reply.count == at_a_time), "a count of next");
        found.spans = realloc(found.spans, (found.count + reply.count + 1) * ranges * sizeof *spans);
        check(found.spans != NULL, "memory");
        memcpy(found.spans + found.count * ranges, spans, reply.count * ranges * sizeof *spans);
        found.count += reply.count;
        found.code = reply.code;
    }
    free(spans);
    return found;
}

static void check_same(matches one, matches other, size_t ranges, const char *what)
{
    check(one.count == other.count, what);
    check(one.count == 0 || memcmp(one.spans, other.spans, one.count * ranges * sizeof *one.spans) == 0, what);
}

/* Each match stands in the text, in order, on boundaries, and its groups are ranges. */
static void check_stand(matches found, size_t ranges, text t, size_t from)
{
    for (size_t i = 0; i < found.count; i++) {
        const regress_c_span *spans = found.spans + i * ranges;
        check(from <= spans[0].start && spans[0].start <= spans[0].end && spans[0].end <= t.len, "where a match stands");
        for (size_t g = 0; g < ranges; g++) {
            int unmatched = spans[g].start == REGRESS_C_UNMATCHED && spans[g].end == REGRESS_C_UNMATCHED;
            check(unmatched || (spans[g].start <= spans[g].end && spans[g].end <= t.len && is_boundary(t, spans[g].start)
                                && is_boundary(t, spans[g].end)), "where a group stands");
        }
        check(spans[0].start != REGRESS_C_UNMATCHED, "the whole match");
        from = spans[0].end + (spans[0].start == spans[0].end);
    }
}

static void check_first(regress_c_pattern *pattern, text t, size_t start, matches all, size_t ranges)
{
    regress_c_span *spans = malloc(ranges * sizeof *spans);
    check(spans != NULL, "memory");
    regress_c_reply reply = regress_c_find_utf8(pattern, t.bytes, t.len, start, spans, ranges);
    check(reply.code == (all.count == 0 ? REGRESS_C_NO_MATCH : REGRESS_C_DONE), "a code of find");
    check(reply.count == (all.count == 0 ? 0 : ranges), "a count of find");
    check(all.count == 0 || memcmp(spans, all.spans, ranges * sizeof *spans) == 0, "the first match");
    if (all.count != 0 && ranges > 1) {
        reply = regress_c_find_utf8(pattern, t.bytes, t.len, start, spans, ranges - 1);
        check(reply.code == REGRESS_C_SHORT_BUFFER && reply.count == ranges, "a short buffer");
    }
    free(spans);
}

/* The first match, and none at the start if it begins elsewhere, by searches at one offset. */
static void check_at(regress_c_pattern *pattern, text t, size_t start, matches all, size_t ranges)
{
    regress_c_span *spans = malloc(ranges * sizeof *spans);
    check(spans != NULL, "memory");
    size_t first = all.count == 0 ? SIZE_MAX : all.spans[0].start;
    if (first != start) {
        regress_c_reply reply = regress_c_match_at_utf8(pattern, t.bytes, t.len, start, spans, ranges);
        check(reply.code == REGRESS_C_NO_MATCH, "no match at the start");
    }
    if (first != SIZE_MAX) {
        regress_c_reply reply = regress_c_match_at_utf8(pattern, t.bytes, t.len, first, spans, ranges);
        check(reply.code == REGRESS_C_DONE && reply.count == ranges, "a match at its start");
        check(memcmp(spans, all.spans, ranges * sizeof *spans) == 0, "the first match at its start");
    }
    free(spans);
}

/* All matches in as much work as is enough, and in what that takes; in less, the first of them. */
static void check_in_work(regress_c_pattern *pattern, text t, size_t start, matches all, size_t ranges)
{
    uint64_t each = 0;
    uint32_t code = regress_c_work_per_unit(pattern, &each);
    if (code != REGRESS_C_DONE) {
        check(code == REGRESS_C_UNBOUNDED_LOOKAROUND || code == REGRESS_C_UNBOUNDED_BACKREFERENCE
                  || code == REGRESS_C_UNBOUNDED_COUNT || code == REGRESS_C_UNBOUNDED_BOUND_TOO_LARGE,
              "why there is no bound");
        return;
    }
    size_t room = (t.len + 2) * ranges;
    matches found = {malloc(room * sizeof *found.spans), 0, REGRESS_C_DONE, 0};
    check(found.spans != NULL, "memory");
    uint64_t enough = each * (t.len + 1), left = enough;
    regress_c_reply reply = regress_c_find_all_utf8_in_work(pattern, t.bytes, t.len, start, &left, found.spans, room);
    check(reply.code == REGRESS_C_NO_MATCH && left <= enough, "enough work");
    found.count = reply.count;
    check_same(found, all, ranges, "matches in work");
    uint64_t taken = enough - left, again = taken;
    reply = regress_c_find_all_utf8_in_work(pattern, t.bytes, t.len, start, &again, found.spans, room);
    check(reply.code == REGRESS_C_NO_MATCH && again == 0, "as much work as was taken");
    if (taken > 0) {
        uint64_t less = taken - 1;
        reply = regress_c_find_all_utf8_in_work(pattern, t.bytes, t.len, start, &less, found.spans, room);
        check(reply.code == REGRESS_C_WORK_LIMIT && less == 0 && reply.count <= all.count, "less work");
        check(reply.count == 0 || memcmp(found.spans, all.spans, reply.count * ranges * sizeof *all.spans) == 0, "the first ones");
    }
    if (all.count > 0) {
        left = enough;
        reply = regress_c_find_all_utf8_in_work(pattern, t.bytes, t.len, start, &left, found.spans, ranges * all.count);
        check(reply.code == REGRESS_C_DONE && reply.count == all.count, "room for all matches alone");
    }
    free_matches(found);
}

/* All matches by calls within a work limit, and in as much work as these took; in less, the first of them. `len` is the
   number of units of the text of the open search. */
static void check_next_in_work(regress_c_pattern *pattern, regress_c_search opened, size_t len, matches all, size_t ranges)
{
    regress_c_search search = opened;
    size_t room = (all.count + 1) * ranges;
    regress_c_span *spans = malloc(room * sizeof *spans);
    check(spans != NULL, "memory");
    uint64_t left = UINT64_MAX;
    regress_c_reply reply = regress_c_next_in_work(pattern, &search, &left, spans, room);
    check(reply.code == REGRESS_C_NO_MATCH && search.next > len, "work without end");
    check_same((matches){spans, reply.count, 0, 0}, all, ranges, "matches in work without end");
    uint64_t taken = UINT64_MAX - left, again = taken;
    search = opened;
    reply = regress_c_next_in_work(pattern, &search, &again, spans, room);
    check(reply.code == REGRESS_C_NO_MATCH && again == 0, "as much work as the calls took");
    if (taken > 0) {
        uint64_t less = taken - 1;
        search = opened;
        reply = regress_c_next_in_work(pattern, &search, &less, spans, room);
        check(reply.code == REGRESS_C_WORK_LIMIT && less == 0, "one unit less than the calls took");
    }
    uint64_t half = taken / 2;
    search = opened;
    reply = regress_c_next_in_work(pattern, &search, &half, spans, room);
    check_same((matches){spans, reply.count, 0, 0}, (matches){all.spans, reply.count, 0, 0}, ranges, "the first ones");
    if (reply.code == REGRESS_C_WORK_LIMIT) {
        check(half == 0 && search.next <= len, "half of the work");
        half = UINT64_MAX;
        reply = regress_c_next_in_work(pattern, &search, &half, spans + reply.count * ranges, room - reply.count * ranges);
        check_same((matches){spans, all.count, 0, 0}, all, ranges, "matches in two calls");
    }
    check(reply.code == REGRESS_C_NO_MATCH, "the others");
    free(spans);
}

/* The names of groups have the numbers of these groups. */
static void check_numbers(regress_c_pattern *pattern, size_t ranges)
{
    uint8_t name[64];
    for (size_t number = 1; number < ranges; number++) {
        regress_c_reply named = regress_c_group_name(pattern, number, name, sizeof name);
        regress_c_reply reply = regress_c_group_number(pattern, name, named.count);
        check(named.count == 0 ? reply.code == REGRESS_C_NO_GROUP : reply.count == number, "the number of a name");
    }
}

/* The same matches in 16-bit units, at the same characters. */
static void check_wide(regress_c_pattern *pattern, text t, matches all, size_t ranges)
{
    wide_text wide = units_of(t);
    regress_c_search search = REGRESS_C_SEARCH_INIT;
    check(regress_c_search_utf16(&search, wide.units, wide.len, 0) == REGRESS_C_DONE, "to open UTF-16");
    regress_c_search opened = search;
    matches found = all_matches(pattern, &search, ranges, 1 + below(4), NULL);
    check(found.count == all.count, "matches in UTF-16");
    check_next_in_work(pattern, opened, wide.len, found, ranges);
    if (is_ascii(t)) {
        check_same(found, all, ranges, "matches of ASCII in UTF-16");
        regress_c_search_ucs2(&search, wide.units, wide.len, 0);
        opened = search;
        matches narrow = all_matches(pattern, &search, ranges, 1 + below(4), NULL);
        check_same(narrow, all, ranges, "matches of ASCII in UCS-2");
        check_next_in_work(pattern, opened, wide.len, narrow, ranges);
        free_matches(narrow);
    }
    free_matches(found);
    free(wide.units);
}

static void check_replaced(regress_c_pattern *pattern, text t)
{
    uint8_t made[4];
    regress_c_reply reply = regress_c_replace_all_utf8(pattern, t.bytes, t.len, (const uint8_t *)"$0", 2, made, below(5));
    check(reply.count == t.len, "matches replaced by themselves");
    uint8_t *room = malloc(t.len + 1);
    check(room != NULL, "memory");
    reply = regress_c_replace_all_utf8(pattern, t.bytes, t.len, (const uint8_t *)"$0", 2, room, t.len);
    check(reply.code == REGRESS_C_DONE && (t.len == 0 || memcmp(room, t.bytes, t.len) == 0), "the text itself");
    free(room);
}

/* Searches by a pattern that is compiled; whether there were steps enough for all of it. */
static int search_by(regress_c_pattern *pattern, text t)
{
    size_t ranges = regress_c_range_count(pattern).count;
    size_t start = below(4) == 0 ? below(t.len + 3) : 0;
    regress_c_search search = REGRESS_C_SEARCH_INIT;
    uint32_t code = regress_c_search_utf8(&search, t.bytes, t.len, start);
    if (code == REGRESS_C_NOT_UTF8) {
        regress_c_span span;
        check(regress_c_find_utf8(pattern, t.bytes, t.len, 0, &span, 1).code == REGRESS_C_NOT_UTF8, "what is no text");
        return 1;
    }
    check(code == (is_boundary(t, start) ? REGRESS_C_DONE : REGRESS_C_NOT_BOUNDARY), "a code of opening");
    if (code != REGRESS_C_DONE) {
        return 1;
    }
    uint64_t steps = STEPS;
    regress_c_search first = search;
    matches limited = all_matches(pattern, &first, ranges, 1 + below(5), &steps);
    check_stand(limited, ranges, t, start);
    if (limited.code == REGRESS_C_STEP_LIMIT) {
        check(steps == 0, "steps that are used up");
        free_matches(limited);
        return 0;
    }
    matches all = all_matches(pattern, &search, ranges, 1 + below(5), NULL);
    check_same(all, limited, ranges, "matches within steps");
    check(search.next > t.len, "a search that is over");
    regress_c_pattern copy = REGRESS_C_PATTERN_INIT;
    check(regress_c_clone(pattern, &copy) == REGRESS_C_DONE, "a clone");
    uint64_t again = STEPS - steps;
    first = search;
    first.next = start;
    matches by_copy = all_matches(&copy, &first, ranges, 1 + below(5), &again);
    check(by_copy.code == REGRESS_C_NO_MATCH && again == 0, "as many steps as were taken");
    check_same(by_copy, all, ranges, "matches by a clone");
    regress_c_free(&copy);
    check_first(pattern, t, start, all, ranges);
    check_at(pattern, t, start, all, ranges);
    check_in_work(pattern, t, start, all, ranges);
    first.next = start;
    check_next_in_work(pattern, first, t.len, all, ranges);
    check_numbers(pattern, ranges);
    if (start == 0) {
        check_wide(pattern, t, all, ranges);
        check_replaced(pattern, t);
    }
    free_matches(by_copy);
    free_matches(all);
    free_matches(limited);
    return 1;
}

static uint32_t compile(regress_c_pattern *pattern, text source, const char *flags)
{
    const uint8_t *letters = (const uint8_t *)flags;
    uint8_t cause[80];
    size_t at = SIZE_MAX;
    uint32_t syntax = below(2) ? REGRESS_C_ES2018 : REGRESS_C_PROFILE;
    regress_c_bounds all = REGRESS_C_NO_BOUNDS;
    uint32_t code = regress_c_compile_utf8_with_syntax(pattern, source.bytes, source.len, letters, strlen(flags), syntax, &all);
    regress_c_reply told = regress_c_diagnose_utf8_with_syntax(source.bytes, source.len, letters, strlen(flags), syntax, &at, cause, sizeof cause);
    check(told.code == code || (code == REGRESS_C_TOO_MANY_LOOPS && told.code == REGRESS_C_DONE), "a diagnosis");
    check(code != REGRESS_C_SYNTAX || at <= source.len, "where something is wrong");
    check((pattern->held != NULL) == (code == REGRESS_C_DONE), "what is held");
    if (code == REGRESS_C_DONE) {
        regress_c_bounds none = {0, 0};
        check(compile(&(regress_c_pattern)REGRESS_C_PATTERN_INIT, (text){NULL, 0}, "x") == REGRESS_C_UNKNOWN_FLAG, "a flag");
        check(regress_c_compile_utf8_within(pattern, source.bytes, source.len, letters, 0, &none) == REGRESS_C_FULL, "a full one");
    }
    return code;
}

int main(int argc, char **argv)
{
    static const char *const flags[] = {"", "i", "m", "s", "u", "iu", "ms", "imsu", "v"};
    uint64_t seed = argc > 1 ? strtoull(argv[1], NULL, 10) : 1;
    uint64_t rounds = argc > 2 ? strtoull(argv[2], NULL, 10) : 1000;
    uint64_t compiled = 0, whole = 0;
    for (uint64_t round = 0; round < rounds; round++) {
        state = seed_of_round = seed + round;
        text source = shown_pattern = any_pattern();
        regress_c_pattern pattern = REGRESS_C_PATTERN_INIT;
        shown_text = (text){NULL, 0};
        if (compile(&pattern, source, flags[below(sizeof flags / sizeof *flags)]) == REGRESS_C_DONE) {
            compiled++;
            for (int i = 0; i < 3; i++) {
                text t = shown_text = any_text();
                whole += (uint64_t)search_by(&pattern, t);
                shown_text = (text){NULL, 0};
                free(t.bytes);
            }
        }
        regress_c_free(&pattern);
        free(source.bytes);
    }
    printf("%" PRIu64 " rounds, %" PRIu64 " patterns, %" PRIu64 " texts searched to their end\n", rounds, compiled, whole);
    return 0;
}
