/*
 * What include/herd.h has beside the calls, tested: the version, HERD_RELATION, the texts of the answers and of the verdicts, words as bytes.
 * Run by tools/clients. With an argument it prints these texts alone, a line each, for the comparison with those of the Rust crate.
 */
#include <inttypes.h>
#include <stdio.h>
#include <string.h>

#include "herd.h"

static int failed;

static void expect(int fact, const char *what)
{
    if (!fact) {
        printf("header: not so: %s\n", what);
        failed = 1;
    }
}

static void versions(void)
{
    expect(HERD_VERSION == 10000 * HERD_VERSION_MAJOR + 100 * HERD_VERSION_MINOR + HERD_VERSION_PATCH, "the version's parts");
    expect(herd_version() == HERD_VERSION, "the header and the library are of one version");
    expect(herd_version_fits(), "the library fits the header");
}

static void relations(void)
{
    static const herd_schema schema = {
        2,
        HERD_RELATION(HERD_FIELD(1), 0, HERD_PLAIN),
        HERD_RELATION(HERD_FIELD(1) | HERD_FIELD(2), HERD_FIELD(3), HERD_PLAIN, HERD_ABORT(1), HERD_PROPAGATION(2)),
    };
    herd_schema expected = {0};
    uint64_t *block = expected + HERD_BLOCK(1);
    expected[0] = 2;
    block[HERD_COUNT_WORD] = 1;
    block[HERD_KIND_WORDS] = 1;
    block[HERD_KEY_WORDS] = 1;
    block = expected + HERD_BLOCK(2);
    block[HERD_COUNT_WORD] = 3;
    block[HERD_KIND_WORDS] = 1;
    block[HERD_KIND_WORDS + 1] = 17;
    block[HERD_KIND_WORDS + 2] = 34;
    block[HERD_KEY_WORDS] = 3;
    block[HERD_KEY_WORDS + 1] = 4;
    expect(memcmp(schema, expected, sizeof schema) == 0, "the words of HERD_RELATION");
    expect(herd_schema_check(schema, HERD_SCHEMA_WORDS) == HERD_DONE, "a schema of HERD_RELATION is not broken");
}

/* The form of before 1.0.0, with the field count first and the keys last, has nine kinds: it compiles, and the schema is broken. */
static void old_form(void)
{
    static const herd_schema schema = {1, HERD_RELATION(1, HERD_PLAIN, 0, 0, 0, 0, 0, 0, 0, HERD_FIELD(1), 0)};
    expect(herd_schema_check(schema, HERD_SCHEMA_WORDS) == HERD_SCHEMA_BROKEN, "a relation with the field count first is refused");
}

static void texts(void)
{
    uint64_t left, right;
    for (left = HERD_DONE; left <= HERD_TOO_MANY_FIELDS; left++)
        for (right = left + 1; right <= HERD_TOO_MANY_FIELDS + 1; right++)
            expect(strcmp(herd_answer_text(left), herd_answer_text(right)) != 0, "each answer has a text of its own");
    expect(strcmp(herd_answer_text(UINT64_MAX), herd_answer_text(HERD_TOO_MANY_FIELDS + 1)) == 0, "numbers that are no answers have one text");
    for (left = HERD_ALIKE; left <= HERD_NEITHER; left++)
        for (right = left + 1; right <= HERD_NEITHER + 1; right++)
            expect(strcmp(herd_verdict_text(left), herd_verdict_text(right)) != 0, "each verdict has a text of its own");
    expect(strcmp(herd_verdict_text(0), herd_verdict_text(HERD_NEITHER + 1)) == 0, "numbers that are no verdicts have one text");
}

static void bytes(void)
{
    static const uint64_t words[] = {0, 1, UINT64_C(0x0123456789abcdef), UINT64_MAX};
    static const uint8_t expected[] = {0,    0,    0,    0,    0,    0,    0,    0,    1,    0,    0,    0,    0,    0,    0,    0,
                                       0xef, 0xcd, 0xab, 0x89, 0x67, 0x45, 0x23, 0x01, 0xff, 0xff, 0xff, 0xff, 0xff, 0xff, 0xff, 0xff};
    enum { COUNT = sizeof words / sizeof words[0] };
    uint8_t written[HERD_BYTES(COUNT)];
    uint64_t again[COUNT];
    herd_words_to_bytes(words, COUNT, written);
    expect(sizeof expected == sizeof written && memcmp(written, expected, sizeof written) == 0, "words are written little-endian");
    herd_words_from_bytes(written, COUNT, again);
    expect(memcmp(again, words, sizeof words) == 0, "words are read as they were written");
}

int main(int count, char **arguments)
{
    uint64_t answer, verdict;
    (void)arguments;
    if (count > 1) {
        for (answer = 1; answer <= HERD_TOO_MANY_FIELDS; answer++)
            printf("%" PRIu64 " %s\n", answer, herd_answer_text(answer));
        for (verdict = HERD_ALIKE; verdict <= HERD_NEITHER; verdict++)
            printf("%" PRIu64 " %s\n", verdict, herd_verdict_text(verdict));
        return 0;
    }
    versions();
    relations();
    old_form();
    texts();
    bytes();
    return failed;
}
