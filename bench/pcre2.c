/* `pcre2 PATTERN FLAGS FILE` prints the number of matches by PCRE2 with its compiler, and the nanoseconds of the fastest of
   some passes. The options are those that come nearest to JavaScript; PCRE2 refuses some patterns. `pcre2` prints the
   version. */
#define PCRE2_CODE_UNIT_WIDTH 8
#include <pcre2.h>
#include <stdio.h>
#include <stdlib.h>
#include <string.h>
#include <time.h>

enum { PASSES = 5 };

static void fail(const char *cause) {
    fprintf(stderr, "%s\n", cause);
    exit(1);
}

static char *contents_of(const char *name, size_t *len) {
    FILE *file = fopen(name, "rb");
    if (!file || fseek(file, 0, SEEK_END))
        fail("the file cannot be read");
    *len = (size_t)ftell(file);
    rewind(file);
    char *text = malloc(*len + 1);
    if (!text || fread(text, 1, *len, file) != *len)
        fail("the file cannot be read");
    fclose(file);
    return text;
}

static pcre2_code *compiled(const char *pattern, const char *flags) {
    uint32_t options = PCRE2_UTF | PCRE2_NO_UTF_CHECK | PCRE2_ALT_BSUX | PCRE2_ALLOW_EMPTY_CLASS | PCRE2_MATCH_UNSET_BACKREF
        | PCRE2_DOLLAR_ENDONLY | PCRE2_ALT_CIRCUMFLEX;
    options |= strchr(flags, 'i') ? PCRE2_CASELESS : 0;
    options |= strchr(flags, 'm') ? PCRE2_MULTILINE : 0;
    options |= strchr(flags, 's') ? PCRE2_DOTALL : 0;
    int error;
    size_t at;
    pcre2_code *code = pcre2_compile((PCRE2_SPTR)pattern, PCRE2_ZERO_TERMINATED, options, &error, &at, NULL);
    if (!code || pcre2_jit_compile(code, PCRE2_JIT_COMPLETE))
        fail("pattern refused");
    return code;
}

/* The offset of the next character. */
static size_t behind(const char *text, size_t len, size_t at) {
    at++;
    while (at < len && ((unsigned char)text[at] & 0xC0) == 0x80)
        at++;
    return at;
}

static size_t count(const pcre2_code *code, pcre2_match_data *match, pcre2_match_context *context, const char *text, size_t len) {
    const size_t *range = pcre2_get_ovector_pointer(match);
    size_t matches = 0, at = 0;
    while (at <= len && pcre2_jit_match(code, (PCRE2_SPTR)text, len, at, 0, match, context) > 0) {
        matches++;
        at = range[1] > range[0] ? range[1] : behind(text, len, range[1]);
    }
    return matches;
}

static double nanoseconds(void) {
    struct timespec now;
    clock_gettime(CLOCK_MONOTONIC, &now);
    return 1e9 * (double)now.tv_sec + (double)now.tv_nsec;
}

int main(int words, char **word) {
    if (words != 4) {
        char version[64];
        pcre2_config(PCRE2_CONFIG_VERSION, version);
        printf("%s\n", version);
        return 0;
    }
    size_t len, matches = 0;
    char *text = contents_of(word[3], &len);
    pcre2_code *code = compiled(word[1], word[2]);
    pcre2_match_data *match = pcre2_match_data_create_from_pattern(code, NULL);
    pcre2_match_context *context = pcre2_match_context_create(NULL);
    pcre2_jit_stack_assign(context, NULL, pcre2_jit_stack_create(32 << 10, 256 << 20, NULL));
    double fastest = 1e18;
    for (int pass = 0; pass < PASSES; pass++) {
        double start = nanoseconds();
        matches = count(code, match, context, text, len);
        double taken = nanoseconds() - start;
        fastest = taken < fastest ? taken : fastest;
    }
    printf("%zu matches, %.0f ns\n", matches, fastest);
    return 0;
}
