/*
 * Regular expressions with the syntax and meaning of ECMAScript 2018, for C and C++.
 *
 * What this header says of arguments, results and written memory is proved of the library (crates/regress_c), unless a
 * line says that it is tested or measured. That the library reads each pattern as ECMAScript does is tested. A pattern
 * is one of a profile of ECMAScript unless a call takes an enum regress_c_syntax; docs/PROFILE.md lists what differs.
 * As with any C function, the caller guarantees the rest:
 *
 * - A pointer is not NULL and points to as many values as its length says; a text may be read-only. No two parameters
 *   of a call overlap, and nothing that is passed changes during the call. With length 0 a pointer may have any value,
 *   also NULL (tested).
 * - A pattern is initialized with REGRESS_C_PATTERN_INIT and a search with REGRESS_C_SEARCH_INIT, and afterwards only
 *   the functions below change them; the field `next` of a search may be set. They may be moved, but only one copy is
 *   used.
 * - malloc, realloc and free belong to one allocator. No function is called from a signal handler.
 *
 * Threads: the library has no state of its own. One call at a time may use a pattern, since a call takes the pattern
 * out of its handle and puts it back. A pattern may be passed on to another thread; threads that search at the same
 * time use one clone each. A clone and its original share only the names of groups, which are counted atomically.
 * Searches, texts and buffers belong to the caller.
 *
 * Time: the searches backtrack, so some patterns take exponential time. regress_c_next_within limits the steps of a
 * search. regress_c_next_in_work, regress_c_find_utf8_in_work and regress_c_find_all_utf8_in_work limit its work. One
 * step may compare a long group with the text, so a step limit is not a time limit. docs/LIMITS.md and docs/LINEAR.md
 * have the details.
 *
 * Stack and memory: the functions that compile take stack in proportion to the depth of the pattern, up to 100 bytes a
 * level (measured); the functions with `within` in their names refuse deep patterns. A search takes none (measured). It
 * takes memory for what it may have to go back to: at most 316 MB for 10,000,000 steps of 2,204 patterns on texts of up
 * to 1,000 characters (measured, docs/LIMITS.md).
 *
 * To link: -lregress_c (pkg-config: regress_c), static or shared. Both need malloc, realloc, free, memcpy, memmove,
 * memset and memcmp of the C library, and nothing else.
 *
 * Not offered:
 *
 * - A limit for replacements, and replacements in UTF-16. The engine defines replacements of UTF-8 texts, without a
 *   limit. Find the matches with a limit (regress_c_next_within, regress_c_next_in_work) or in UTF-16, and copy the
 *   text between them.
 * - A limit for a match at one offset, and a limit of steps in UTF-16 and UCS-2. Steps are counted in UTF-8 only.
 * - A limit of the memory, other than that of the process. If an allocation fails, MEMORY is returned
 *   (tested).
 * - A pattern that two threads use at the same time. Use a clone for each.
 */
#ifndef REGRESS_C_H
#define REGRESS_C_H

#include <stddef.h>
#include <stdint.h>

#ifdef __cplusplus
extern "C" {
#endif

#define REGRESS_C_VERSION_MAJOR 0
#define REGRESS_C_VERSION_MINOR 2
#define REGRESS_C_VERSION_PATCH 0
/* 10000 times the major, 100 times the minor and the patch, as regress_c_version answers it. */
#define REGRESS_C_VERSION 200

/* The codes that functions return. Later versions may add other numbers. */
enum regress_c_code {
    /* The call succeeded. */
    REGRESS_C_DONE = 0,
    /* There is no match, or no further match. */
    REGRESS_C_NO_MATCH = 1,
    /* The handle holds no pattern. */
    REGRESS_C_EMPTY = 2,
    /* The handle already holds a pattern: free it first. */
    REGRESS_C_FULL = 3,
    /* A text is not UTF-8. */
    REGRESS_C_NOT_UTF8 = 4,
    /* The offset is within the text and splits a character. */
    REGRESS_C_NOT_BOUNDARY = 5,
    /* The buffer is too short, and `count` is the length that is needed. Nothing is written. */
    REGRESS_C_SHORT_BUFFER = 6,
    /* An allocation failed (tested). */
    REGRESS_C_MEMORY = 7,
    /* The step limit is reached. */
    REGRESS_C_STEP_LIMIT = 8,
    /* The pattern has a syntax error. */
    REGRESS_C_SYNTAX = 9,
    /* The pattern has more than 65,535 groups, or loops, or more than 2^32 - 1 instructions. */
    REGRESS_C_TOO_MANY_GROUPS = 10,
    REGRESS_C_TOO_MANY_LOOPS = 11,
    REGRESS_C_TOO_MANY_INSTRUCTIONS = 12,
    /* A flag is none of i, m, s, u and v. */
    REGRESS_C_UNKNOWN_FLAG = 13,
    /* The pattern is longer, or nested deeper, than the bounds allow. */
    REGRESS_C_TOO_LONG = 14,
    REGRESS_C_TOO_DEEP = 15,
    /* The pattern has no group with this number or name. */
    REGRESS_C_NO_GROUP = 16,
    /* The search is not open. */
    REGRESS_C_NOT_OPEN = 17,
    /* Steps are counted in UTF-8 only. */
    REGRESS_C_NOT_COUNTED = 18,
    /* No bound of the work of the pattern's searches is known, since a lookaround has a loop or joins alternatives. */
    REGRESS_C_UNBOUNDED_LOOKAROUND = 19,
    /* The work limit is reached. */
    REGRESS_C_WORK_LIMIT = 20,
    /* A syntax is none of enum regress_c_syntax. */
    REGRESS_C_UNKNOWN_SYNTAX = 21,
    /* No bound is known, since the pattern has a backreference. */
    REGRESS_C_UNBOUNDED_BACKREFERENCE = 22,
    /* No bound is known, since counts are too large, or loops are nested too deeply. */
    REGRESS_C_UNBOUNDED_COUNT = 23,
    /* No bound is known, since it would be too large, or lookarounds are nested too deeply. */
    REGRESS_C_UNBOUNDED_BOUND_TOO_LARGE = 24
};

/* The language of a pattern. */
enum regress_c_syntax {
    /* The profile of docs/PROFILE.md, which the functions without a syntax read. */
    REGRESS_C_PROFILE = 0,
    /*
     * The whole language of ECMAScript 2018, with annex B. With the flag i, letters beyond ASCII fold too. The flag v is
     * ignored.
     */
    REGRESS_C_ES2018 = 1
};

/* A handle that holds a compiled pattern, or nothing. */
typedef struct regress_c_pattern {
    void *held;
} regress_c_pattern;

#define REGRESS_C_PATTERN_INIT { NULL }

/* A range of a text, in bytes or 16-bit code units. `end` is the offset after its last unit. */
typedef struct regress_c_span {
    size_t start;
    size_t end;
} regress_c_span;

/* Both ends of the range of a group that did not match. */
#define REGRESS_C_UNMATCHED SIZE_MAX

/* A code and a count. Each function says what it counts; if it does not, the count is 0. */
typedef struct regress_c_reply {
    uint32_t code;
    size_t count;
} regress_c_reply;

/* Returns the version of the library, which is REGRESS_C_VERSION of its header. */
uint32_t regress_c_version(void);

/* ---- Patterns */

/* The maximum length of a pattern in code points, and the maximum number of parentheses that are open at once. */
typedef struct regress_c_bounds {
    size_t length;
    size_t nesting;
} regress_c_bounds;

/* The bounds that every pattern is within. */
#define REGRESS_C_NO_BOUNDS { SIZE_MAX, SIZE_MAX }

/*
 * Compiles `text`, a pattern in UTF-8, with the flags whose letters are `flags`, in any order: i, m, s, u, v.
 *
 * Returns DONE if the handle now holds the pattern. Returns FULL, NOT_UTF8, UNKNOWN_FLAG, MEMORY, SYNTAX or one of the
 * TOO_MANY codes if it is refused, and then the handle is unchanged.
 */
uint32_t regress_c_compile_utf8(regress_c_pattern *pattern, const uint8_t *text, size_t text_len, const uint8_t *flags,
                                size_t flags_len);

/*
 * Like regress_c_compile_utf8. Returns TOO_LONG or TOO_DEEP if the pattern exceeds a bound, and then compiles nothing.
 */
uint32_t regress_c_compile_utf8_within(regress_c_pattern *pattern, const uint8_t *text, size_t text_len,
                                       const uint8_t *flags, size_t flags_len, const regress_c_bounds *bounds);

/* The same for a pattern in UTF-16. An unpaired surrogate is a character, and NOT_UTF8 is never returned. */
uint32_t regress_c_compile_utf16(regress_c_pattern *pattern, const uint16_t *text, size_t text_len,
                                 const uint8_t *flags, size_t flags_len);
uint32_t regress_c_compile_utf16_within(regress_c_pattern *pattern, const uint16_t *text, size_t text_len,
                                        const uint8_t *flags, size_t flags_len, const regress_c_bounds *bounds);

/*
 * Like regress_c_compile_utf8_within and regress_c_compile_utf16_within, for a pattern of the language `syntax`, an enum
 * regress_c_syntax. Returns UNKNOWN_SYNTAX if it is another number, and then the handle is unchanged.
 */
uint32_t regress_c_compile_utf8_with_syntax(regress_c_pattern *pattern, const uint8_t *text, size_t text_len,
                                            const uint8_t *flags, size_t flags_len, uint32_t syntax,
                                            const regress_c_bounds *bounds);
uint32_t regress_c_compile_utf16_with_syntax(regress_c_pattern *pattern, const uint16_t *text, size_t text_len,
                                             const uint8_t *flags, size_t flags_len, uint32_t syntax,
                                             const regress_c_bounds *bounds);

/*
 * Says what is wrong with a pattern. For a syntax error or too many groups, returns SYNTAX, sets `at` to the offset in
 * units of the pattern at which the error begins, and writes the cause in words to `cause`: `count` bytes of UTF-8
 * without a terminating 0. Which patterns give SYNTAX, the offset and the words are tested. It is proved that the offset
 * is that of a character or of the end. If the buffer is too short, returns SHORT_BUFFER and sets `at` all the same.
 *
 * Returns DONE if there is no syntax error (also if the pattern has too many loops or instructions), or NOT_UTF8,
 * UNKNOWN_FLAG or MEMORY.
 */
regress_c_reply regress_c_diagnose_utf8(const uint8_t *text, size_t text_len, const uint8_t *flags, size_t flags_len,
                                        size_t *at, uint8_t *cause, size_t cause_len);
regress_c_reply regress_c_diagnose_utf16(const uint16_t *text, size_t text_len, const uint8_t *flags, size_t flags_len,
                                         size_t *at, uint8_t *cause, size_t cause_len);

/* The same for a pattern of the language `syntax`. Returns UNKNOWN_SYNTAX if it is none of enum regress_c_syntax. */
regress_c_reply regress_c_diagnose_utf8_with_syntax(const uint8_t *text, size_t text_len, const uint8_t *flags,
                                                    size_t flags_len, uint32_t syntax, size_t *at, uint8_t *cause,
                                                    size_t cause_len);
regress_c_reply regress_c_diagnose_utf16_with_syntax(const uint16_t *text, size_t text_len, const uint8_t *flags,
                                                     size_t flags_len, uint32_t syntax, size_t *at, uint8_t *cause,
                                                     size_t cause_len);

/*
 * Copies the pattern into `into` without compiling it again. Returns DONE, or EMPTY, FULL or MEMORY, and then `into` is
 * unchanged. `pattern` is unchanged.
 */
uint32_t regress_c_clone(regress_c_pattern *pattern, regress_c_pattern *into);

/* Frees the pattern of the handle, if it holds one. The handle is empty afterwards and may be used again. */
void regress_c_free(regress_c_pattern *pattern);

/*
 * Returns DONE, and in `count` the number of ranges of a match: one for the whole match, and one for each group; or
 * EMPTY.
 */
regress_c_reply regress_c_range_count(regress_c_pattern *pattern);

/*
 * Writes the name of a group, `count` bytes of UTF-8 without a terminating 0. A group without a name has the empty
 * name. Groups are numbered from 1. Returns DONE, EMPTY, NO_GROUP or SHORT_BUFFER. No two groups of a compiled pattern
 * have the same name, other than the empty one.
 */
regress_c_reply regress_c_group_name(regress_c_pattern *pattern, size_t number, uint8_t *name, size_t name_len);

/*
 * Returns DONE, and in `count` the number of the group with this name, in UTF-8; or EMPTY. Returns NO_GROUP if no group
 * has the name, as for the empty name and for bytes that are not UTF-8.
 */
regress_c_reply regress_c_group_number(regress_c_pattern *pattern, const uint8_t *name, size_t name_len);

/* ---- The first match */

/*
 * Finds the first match in `text`, which is UTF-8, from `start` on, an offset in bytes. What precedes the start is part
 * of the text. There is no match from past the end.
 *
 * Returns DONE, and writes the ranges over the first `count` of `spans`: the whole match, and each group by number.
 * Returns NO_MATCH, EMPTY, NOT_UTF8, NOT_BOUNDARY, SHORT_BUFFER or MEMORY otherwise, and then `spans` is unchanged. The
 * pattern is unchanged. Each call validates the whole text: for more than one match, open a search.
 */
regress_c_reply regress_c_find_utf8(regress_c_pattern *pattern, const uint8_t *text, size_t text_len, size_t start,
                                    regress_c_span *spans, size_t spans_len);

/*
 * The same in UTF-16. Offsets and ranges are in 16-bit code units. An unpaired surrogate is a character, and NOT_UTF8
 * is never returned.
 */
regress_c_reply regress_c_find_utf16(regress_c_pattern *pattern, const uint16_t *text, size_t text_len, size_t start,
                                     regress_c_span *spans, size_t spans_len);

/*
 * The same in UCS-2, in which each code unit is a character, as in JavaScript without the flag u. NOT_UTF8 and
 * NOT_BOUNDARY are never returned.
 */
regress_c_reply regress_c_find_ucs2(regress_c_pattern *pattern, const uint16_t *text, size_t text_len, size_t start,
                                    regress_c_span *spans, size_t spans_len);

/* ---- The match at one offset */

/*
 * Finds the match that begins at `at`, as JavaScript does with the flag y: the preferred one of those that begin there.
 * No other offset is tried. What precedes `at` is part of the text.
 *
 * Returns DONE and writes the ranges like regress_c_find_utf8. Returns NO_MATCH if no match begins at `at`, as when it
 * is past the end; or EMPTY, NOT_UTF8, NOT_BOUNDARY, SHORT_BUFFER or MEMORY, and then `spans` is unchanged.
 */
regress_c_reply regress_c_match_at_utf8(regress_c_pattern *pattern, const uint8_t *text, size_t text_len, size_t at,
                                        regress_c_span *spans, size_t spans_len);

/* The same in UTF-16. NOT_UTF8 is never returned. */
regress_c_reply regress_c_match_at_utf16(regress_c_pattern *pattern, const uint16_t *text, size_t text_len, size_t at,
                                         regress_c_span *spans, size_t spans_len);

/* The same in UCS-2. NOT_UTF8 and NOT_BOUNDARY are never returned. */
regress_c_reply regress_c_match_at_ucs2(regress_c_pattern *pattern, const uint16_t *text, size_t text_len, size_t at,
                                        regress_c_span *spans, size_t spans_len);

/* ---- Within a work limit */

/*
 * Sets `per_unit` to the work bound of the pattern, and returns DONE. On a text of n bytes, `per_unit` * (n + 1) work
 * is enough for all matches together. Tests check that it is enough for the calls below.
 *
 * If no bound is known (docs/LINEAR.md), the call returns one of the UNBOUNDED codes. For a pattern with a
 * backreference, the code is UNBOUNDED_BACKREFERENCE. For another pattern with a lookaround, it may be
 * UNBOUNDED_LOOKAROUND. The call may also return EMPTY or MEMORY. If it does not return DONE, `per_unit` is unchanged.
 *
 * Each of these events takes one unit of bounded work. A thread executes one step. A loop over characters examines one
 * character. A search skips one code unit. A search resumes a waiting thread. A search drops a thread that is known to
 * fail. A search reaches the record of a failure.
 */
uint32_t regress_c_work_per_unit(regress_c_pattern *pattern, uint64_t *per_unit);

/*
 * Finds the first match like regress_c_find_utf8, with a limit of the work. Sets `*work` to the work that is left,
 * which is never more than before.
 *
 * Returns WORK_LIMIT only if `*work` was less than a work bound of the pattern for each byte of the text and one more;
 * then no work is left. (That this is the bound of regress_c_work_per_unit is tested.) Returns one of the UNBOUNDED
 * codes if no bound is known. These and refusals of the handle, the text or the start take no work.
 *
 * A loop over characters examines no more of them than the work that is left pays for. The clauses of this call do not
 * say how much work it did, only that the work left never rises; those of regress_c_next_in_work say what each search
 * without an error costs, in a unit of their own.
 *
 * Each call computes the bound again. Only a search of much work takes memory for the failures that it records: some bits
 * for each byte of the text.
 */
regress_c_reply regress_c_find_utf8_in_work(regress_c_pattern *pattern, const uint8_t *text, size_t text_len,
                                            size_t start, uint64_t *work, regress_c_span *spans, size_t spans_len);

/*
 * Finds the matches in `text`, which is UTF-8, from `start` on, with a limit of the work for all of them together.
 * Writes as many as there is room for, one after another, each with as many ranges as regress_c_range_count says.
 * `count` is the number of matches that are written. Sets `*work` to the work that is left, as
 * regress_c_find_utf8_in_work does.
 *
 * The code says why no more are written: NO_MATCH, there is no further match; DONE, there is no room for one more;
 * WORK_LIMIT, as for regress_c_find_utf8_in_work; or MEMORY. The matches that are written are the first ones of the
 * list in each case. After DONE, the list continues from the end of the last match, or one character after it if that
 * match is empty; a new call has no record of failures, so it may do the same work again. If there is room for two
 * matches more than the text has characters, one call never returns DONE.
 *
 * If there is no room for one match, returns SHORT_BUFFER, and `count` is the number of ranges of a match. Returns
 * EMPTY, NOT_UTF8, NOT_BOUNDARY or one of the UNBOUNDED codes if it is refused. Then nothing is written, and no work is
 * done.
 */
regress_c_reply regress_c_find_all_utf8_in_work(regress_c_pattern *pattern, const uint8_t *text, size_t text_len,
                                                size_t start, uint64_t *work, regress_c_span *spans, size_t spans_len);

/* ---- All matches */

/*
 * A search in a text that was validated when the search was opened. It owns nothing and need not be closed, but the
 * text must stay in place, unchanged, until the search is closed, opened again or no longer used.
 *
 * `next` is the offset from which the search continues. It is past the end once the search is over, and may be set to
 * any offset. The other fields belong to the library.
 */
typedef struct regress_c_search {
    const uint8_t *bytes;
    size_t bytes_len;
    const uint16_t *units;
    size_t units_len;
    size_t next;
    size_t encoding;
} regress_c_search;

/* The texts of a search that is not open. */
static const uint8_t regress_c_no_bytes = 0;
static const uint16_t regress_c_no_units = 0;

#define REGRESS_C_SEARCH_INIT { &regress_c_no_bytes, 0, &regress_c_no_units, 0, 0, 0 }

/*
 * Opens a search in a text from `start` on. Returns DONE; or NOT_UTF8, or NOT_BOUNDARY (not in UCS-2), and then the
 * search is unchanged.
 */
uint32_t regress_c_search_utf8(regress_c_search *search, const uint8_t *text, size_t text_len, size_t start);
uint32_t regress_c_search_utf16(regress_c_search *search, const uint16_t *text, size_t text_len, size_t start);
uint32_t regress_c_search_ucs2(regress_c_search *search, const uint16_t *text, size_t text_len, size_t start);

/*
 * Writes the next matches of the search by the pattern, as many as there is room for, one after another: each has as
 * many ranges as regress_c_range_count says. `count` is the number of matches that are written, and `next` of the
 * search becomes the offset from which the list of matches continues after them. Successive calls write each match of
 * the list once, in order, and step over empty matches as ECMAScript does. Each call may use another pattern.
 *
 * The code says why no more are written: DONE, there is no room for one more; NO_MATCH, there is no further match, and
 * the search is over; or MEMORY, and the next call continues there. If there is no room for one match, returns
 * SHORT_BUFFER, and `count` is the number of ranges of a match. Returns EMPTY, NOT_OPEN or NOT_BOUNDARY if it is
 * refused, and then nothing is written.
 */
regress_c_reply regress_c_next(regress_c_pattern *pattern, regress_c_search *search, regress_c_span *spans,
                               size_t spans_len);

/*
 * The same with at most `*steps` steps. Sets `*steps` to the steps that are left, so one number may serve many calls.
 * Returns STEP_LIMIT if more steps are needed than are left, and then none is left. The number of steps depends on the
 * pattern and the text only. Steps are counted in UTF-8; in another encoding, NOT_COUNTED is returned.
 */
regress_c_reply regress_c_next_within(regress_c_pattern *pattern, regress_c_search *search, uint64_t *steps,
                                      regress_c_span *spans, size_t spans_len);

/*
 * The same with at most `*work` work. Sets `*work` to the work that is left, which is never more than before, so one
 * number may serve many calls. Any pattern may be searched for: no work bound is needed.
 *
 * A unit of work is one executed operation, one character that a loop over characters tries, one code unit that a
 * backreference compares or a search skips, or one resumed choice point. A search without an error takes exactly a
 * cost that the definition allows; no clause says which starts are skipped. The work that a search took suffices to search
 * again (tested). No number suffices for every text, since a search may take exponential work.
 * regress_c_find_all_utf8_in_work has a number that suffices, but it counts another kind of work.
 *
 * Returns WORK_LIMIT only if a beginning of the search for the next match costs more than is left. Then no work is
 * left, the matches before it are written, and the next call continues there with the work that it is given. Work is
 * counted in every encoding. A refused call takes no work.
 */
regress_c_reply regress_c_next_in_work(regress_c_pattern *pattern, regress_c_search *search, uint64_t *work,
                                       regress_c_span *spans, size_t spans_len);

/* Closes the search: no call uses its text from then on. */
void regress_c_close(regress_c_search *search);

/* ---- Produced texts */

/*
 * Writes `text` with the first match, or each match, replaced by `replacement` to `made`, without a terminating 0. In
 * the replacement `$$` stands for `$`, `$` with digits for a group by number, `${name}` for a group by name, and `$0`
 * for the whole match.
 *
 * Returns DONE or SHORT_BUFFER, and in `count` the length of the text in bytes; or EMPTY, NOT_UTF8 or MEMORY. The call
 * holds the produced text in memory once more.
 */
regress_c_reply regress_c_replace_utf8(regress_c_pattern *pattern, const uint8_t *text, size_t text_len,
                                       const uint8_t *replacement, size_t replacement_len, uint8_t *made,
                                       size_t made_len);
regress_c_reply regress_c_replace_all_utf8(regress_c_pattern *pattern, const uint8_t *text, size_t text_len,
                                           const uint8_t *replacement, size_t replacement_len, uint8_t *made,
                                           size_t made_len);

/*
 * Writes `text` with its syntax characters escaped, so that a pattern matches it literally. Returns DONE or
 * SHORT_BUFFER, and in `count` the length in bytes; or NOT_UTF8 or MEMORY.
 */
regress_c_reply regress_c_escape_utf8(const uint8_t *text, size_t text_len, uint8_t *escaped, size_t escaped_len);

/* ---- Messages */

/*
 * Writes the text of a code: `count` bytes of ASCII without a terminating 0. Returns DONE or SHORT_BUFFER. 128 bytes
 * are enough for each text. A number that is no code has the text "unknown code". The function is for programs that
 * cannot include this header.
 */
regress_c_reply regress_c_message_utf8(uint32_t code, uint8_t *message, size_t message_len);

/* Returns the same text as a string. (That the texts are the same is tested.) */
static inline const char *regress_c_message(uint32_t code)
{
    switch (code) {
    case REGRESS_C_DONE: return "done";
    case REGRESS_C_NO_MATCH: return "no match";
    case REGRESS_C_EMPTY: return "the handle holds no pattern";
    case REGRESS_C_FULL: return "the handle already holds a pattern";
    case REGRESS_C_NOT_UTF8: return "the pattern, the text or the replacement is not valid UTF-8";
    case REGRESS_C_NOT_BOUNDARY: return "the offset splits a character";
    case REGRESS_C_SHORT_BUFFER: return "the buffer is too short";
    case REGRESS_C_MEMORY: return "out of memory";
    case REGRESS_C_STEP_LIMIT: return "the step limit is reached";
    case REGRESS_C_SYNTAX: return "the pattern has a syntax error";
    case REGRESS_C_TOO_MANY_GROUPS: return "too many groups (at most 65535)";
    case REGRESS_C_TOO_MANY_LOOPS: return "too many loops (at most 65535)";
    case REGRESS_C_TOO_MANY_INSTRUCTIONS: return "too many instructions (at most 4294967295)";
    case REGRESS_C_UNKNOWN_FLAG: return "unknown flag (flags are i, m, s, u and v)";
    case REGRESS_C_TOO_LONG: return "the pattern is too long";
    case REGRESS_C_TOO_DEEP: return "the pattern is nested too deeply";
    case REGRESS_C_NO_GROUP: return "no such group";
    case REGRESS_C_NOT_OPEN: return "the search is not open";
    case REGRESS_C_NOT_COUNTED: return "steps are counted in UTF-8 only";
    case REGRESS_C_WORK_LIMIT: return "the work limit is reached";
    case REGRESS_C_UNKNOWN_SYNTAX: return "unknown syntax (syntaxes are 0 and 1)";
    case REGRESS_C_UNBOUNDED_LOOKAROUND:
        return "no work bound is known: a lookaround has a loop, or alternatives before its end";
    case REGRESS_C_UNBOUNDED_BACKREFERENCE: return "no work bound is known: the pattern has a backreference";
    case REGRESS_C_UNBOUNDED_COUNT:
        return "no work bound is known: counts are too large, or loops are nested too deeply";
    case REGRESS_C_UNBOUNDED_BOUND_TOO_LARGE:
        return "no work bound is known: the bound is too large, or lookarounds are nested too deeply";
    default: return "unknown code";
    }
}

#ifdef __cplusplus
}
#endif

#endif
