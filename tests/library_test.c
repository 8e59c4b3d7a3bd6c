/* Calls the library for C, and compares what it hands back with what it must. Its last line has the counts. */
#define _DEFAULT_SOURCE
#include "ca.h"

#include <pthread.h>
#include <stdio.h>
#include <stdlib.h>
#include <string.h>
#include <sys/mman.h>

/* A block of words, as a literal, without the 0 byte that C puts after it. */
#define WORDS(block) (const uint8_t *)(block), sizeof(block) - 1

#define NOTHING (const uint8_t *)"", 0

#define REPORT_110                                                                                 \
    "rule 2:3:-1:t01110110\nnumber 110\nsurjective no orphan 01010\ninjective no twins 0 1\n"      \
    "right no split 0|100|0 0|111|1\nleft no split 011|01|0 110|11|0\nopen no\n"                   \
    "conserving no ring 1\n"

#define ACCEPTED_110                                                                               \
    "accepted 2:3:-1:t01110110\nsurjective no\ninjective no\nright no\nleft no\nopen no\n"         \
    "conserving no\n"

#define JSON_110                                                                                   \
    "{\"finding\":{\"report\":{\"conserving\":{\"holds\":false,\"ring\":\"1\"},"                      \
    "\"injective\":{\"holds\":false,\"twins\":[\"0\",\"1\"]},"                                       \
    "\"left\":{\"holds\":false,\"split\":[{\"left\":\"011\",\"middle\":\"01\",\"right\":\"0\"},"         \
    "{\"left\":\"110\",\"middle\":\"11\",\"right\":\"0\"}]},"                                        \
    "\"number\":\"110\",\"open\":false,"                                                           \
    "\"right\":{\"holds\":false,\"split\":[{\"left\":\"0\",\"middle\":\"100\",\"right\":\"0\"},"         \
    "{\"left\":\"0\",\"middle\":\"111\",\"right\":\"1\"}]},"                                         \
    "\"rule\":\"2:3:-1:t01110110\",\"surjective\":{\"holds\":false,\"orphan\":\"01010\"},"           \
    "\"weights\":[0,1]}},\"status\":\"done\"}"

#define USAGE_JSON "{\"status\":\"usage\"}"

/* The first certificate of docs/CERTIFICATES.md. */
#define SHIFT_CERTIFICATE                                                                          \
    "{\"conserving\":{\"flux\":[0,-1]},\"injective\":{\"c\":1,\"n\":1},\"left\":{\"ahead\":2},"        \
    "\"ranks\":{\"backward\":[null,0,0,null],\"forward\":[null,null,null,null]},"                   \
    "\"right\":{\"ahead\":1},\"rule\":\"2:2:0:t0101\",\"surjective\":{\"sets\":[3,1,2]},"            \
    "\"version\":2}"

#define SHIFT_VERDICTS                                                                             \
    "{\"status\":\"done\",\"verdicts\":{\"conserving\":true,\"injective\":true,\"left\":true,"        \
    "\"open\":true,\"right\":true,\"rule\":\"2:2:0:t0101\",\"surjective\":true,\"weights\":[0,1]}}"

/* The input of check that is one byte too long. */
#define LONG_INPUT 4194305

enum { ROOM = 4096, FILLING = 0xa5, THREADS = 4, CALLS = 50 };

/* No weights, so that letters weigh their own values. */
#define OWN NOTHING

static int passed;
static int failed;

static void is(const char *name, bool holds)
{
    if (holds) {
        passed++;
    } else {
        failed++;
        fprintf(stderr, "library_test: %s\n", name);
    }
}

/* Whether each byte of the buffer from a place on is as it was. */
static bool is_kept(const uint8_t *buffer, size_t from, size_t size)
{
    for (size_t at = from; at < size; at++)
        if (buffer[at] != FILLING)
            return false;
    return true;
}

/* ca_run or ca_run_json. */
typedef uint8_t run_function(const uint8_t *, size_t, const uint8_t *, size_t, uint8_t *, size_t, size_t *);

/* Whether a call into a buffer of this room gives the code and the text, and writes nothing else. */
static bool gives(run_function *run, const uint8_t *words, size_t words_length, const uint8_t *input,
                  size_t input_length, size_t room, int code, const char *text)
{
    uint8_t buffer[ROOM];
    size_t length = 12345;
    memset(buffer, FILLING, sizeof buffer);
    int got = run(words, words_length, input, input_length, buffer, room, &length);
    return got == code && length == strlen(text) && length <= room
        && memcmp(buffer, text, length) == 0 && is_kept(buffer, length, sizeof buffer);
}

/* Whether a call into a buffer of this room hands nothing back but the code and the length. */
static bool gives_none(run_function *run, const uint8_t *words, size_t words_length, size_t room, int code,
                       size_t length)
{
    uint8_t buffer[ROOM];
    size_t got_length = 12345;
    memset(buffer, FILLING, sizeof buffer);
    int got = run(words, words_length, NOTHING, buffer, room, &got_length);
    return got == code && got_length == length && is_kept(buffer, 0, sizeof buffer);
}

/* These two of ca_run. */
static bool answers(const uint8_t *words, size_t words_length, const uint8_t *input,
                    size_t input_length, size_t room, int code, const char *text)
{
    return gives(ca_run, words, words_length, input, input_length, room, code, text);
}

static bool leaves(const uint8_t *words, size_t words_length, size_t room, int code, size_t length)
{
    return gives_none(ca_run, words, words_length, room, code, length);
}

static void test_commands(void)
{
    is("decide 110", answers(WORDS("decide\0" "110\0"), NOTHING, ROOM, CA_DONE, REPORT_110));
    is("orphan 90", answers(WORDS("orphan\0" "90\0"), NOTHING, ROOM, CA_DONE, "surjective yes\n"));
    is("orphan 110",
       answers(WORDS("orphan\0" "110\0"), NOTHING, ROOM, CA_DONE, "surjective no orphan 01010\n"));
    is("orphan 256",
       answers(WORDS("orphan\0" "256\0"), NOTHING, ROOM, CA_RULE_FAULT, "rule fault 1 number\n"));
    is("inverse 90",
       answers(WORDS("inverse\0" "90\0"), NOTHING, ROOM, CA_NOT_FIT, "notfit twins 0 1\n"));
    is("compose 90 90", answers(WORDS("compose\0" "90\0" "90\0"), NOTHING, ROOM, CA_DONE,
                                "2:5:-2:t01010101010101011010101010101010\n"));
}

static void test_words(void)
{
    is("no words", answers(NOTHING, NOTHING, ROOM, CA_USAGE, "usage error\n"));
    is("one empty word", answers(WORDS("\0"), NOTHING, ROOM, CA_USAGE, "usage error\n"));
    is("an empty operand",
       answers(WORDS("orphan\0" "\0"), NOTHING, ROOM, CA_RULE_FAULT, "rule fault 1 form 0\n"));
    is("one word with a blank",
       answers(WORDS("orphan 110\0"), NOTHING, ROOM, CA_USAGE, "usage error\n"));
    is("a word of another script",
       answers(WORDS("orphan\0" "\xc3\xa9\0"), NOTHING, ROOM, CA_RULE_FAULT, "rule fault 1 form 0\n"));
    is("a last word without an end", leaves(WORDS("orphan\0" "110"), ROOM, CA_NO_WORDS, 0));
    is("an only word without an end", leaves(WORDS("orphan"), ROOM, CA_NO_WORDS, 0));
    is("a byte that begins nothing", leaves(WORDS("orphan\0" "\xff\0"), ROOM, CA_NO_WORDS, 0));
    is("a letter that is cut", leaves(WORDS("orphan\0" "\xc3\0" "\xa9\0"), ROOM, CA_NO_WORDS, 0));
}

static void test_room(void)
{
    const size_t length = strlen(REPORT_110);
    is("no room", leaves(WORDS("decide\0" "110\0"), 0, CA_SHORT, length));
    is("room for one byte too few", leaves(WORDS("decide\0" "110\0"), length - 1, CA_SHORT, length));
    is("just room enough",
       answers(WORDS("decide\0" "110\0"), NOTHING, length, CA_DONE, REPORT_110));
    is("no room, and no words", leaves(WORDS("decide"), 0, CA_NO_WORDS, 0));
    is("no room for a usage error", leaves(NOTHING, 0, CA_SHORT, strlen("usage error\n")));
}

static void test_input(void)
{
    uint8_t text[ROOM];
    size_t length = 0;
    uint8_t code = ca_run(WORDS("certify\0" "110\0"), NOTHING, text, sizeof text, &length);
    is("certify 110", code == CA_DONE && length > 0 && length < sizeof text);
    is("check of certify 110",
       answers(WORDS("check\0"), text, length, ROOM, CA_DONE, ACCEPTED_110));
    is("check of a part of it", answers(WORDS("check\0"), text, length - 1, ROOM, CA_REFUSED,
                                        "refused format notjson\n"));
    is("check of nothing",
       answers(WORDS("check\0"), NOTHING, ROOM, CA_REFUSED, "refused format notjson\n"));
    is("an input that isn't read", answers(WORDS("orphan\0" "90\0"), text, length, ROOM, CA_DONE,
                                           "surjective yes\n"));
    uint8_t *many = calloc(LONG_INPUT, 1);
    is("memory", many != NULL);
    if (many != NULL) {
        is("check of too much",
           answers(WORDS("check\0"), many, LONG_INPUT, ROOM, CA_TOO_LONG, "too long\n"));
        is("check of just not too much", answers(WORDS("check\0"), many, LONG_INPUT - 1, ROOM,
                                                 CA_REFUSED, "refused format notjson\n"));
    }
    free(many);
}

/* Whether the reply in JSON is this object. */
static bool says(const uint8_t *words, size_t words_length, const uint8_t *input, size_t input_length,
                 int code, const char *json)
{
    return gives(ca_run_json, words, words_length, input, input_length, ROOM, code, json);
}

static void test_json(void)
{
    is("JSON of decide 110", says(WORDS("decide\0" "110\0"), NOTHING, CA_CODE_DONE, JSON_110));
    is("JSON of orphan 90", says(WORDS("orphan\0" "90\0"), NOTHING, CA_CODE_DONE,
                                 "{\"finding\":{\"orphan\":null},\"status\":\"done\"}"));
    is("JSON of inverse 90", says(WORDS("inverse\0" "90\0"), NOTHING, CA_CODE_NOT_FIT,
                                  "{\"cause\":{\"twins\":[\"0\",\"1\"]},\"status\":\"notfit\"}"));
    is("JSON of orphan 256", says(WORDS("orphan\0" "256\0"), NOTHING, CA_CODE_RULE_FAULT,
                                  "{\"fault\":\"number\",\"operand\":1,\"status\":\"rulefault\"}"));
    is("JSON of no command", says(NOTHING, NOTHING, CA_CODE_USAGE, USAGE_JSON));
    is("JSON of a certificate", says(WORDS("check\0"), (const uint8_t *)SHIFT_CERTIFICATE, strlen(SHIFT_CERTIFICATE),
                                     CA_CODE_DONE, SHIFT_VERDICTS));
    is("JSON of no certificate",
       says(WORDS("check\0"), NOTHING, CA_CODE_REFUSED,
            "{\"at\":[],\"because\":\"notjson\",\"cause\":\"format\",\"status\":\"refused\"}"));
    const size_t length = strlen(JSON_110);
    is("room for one byte of JSON too few",
       gives_none(ca_run_json, WORDS("decide\0" "110\0"), length - 1, CA_CODE_SHORT, length));
    is("no room for JSON", gives_none(ca_run_json, NOTHING, 0, CA_CODE_SHORT, strlen(USAGE_JSON)));
    is("just room enough for JSON", gives(ca_run_json, WORDS("decide\0" "110\0"), NOTHING, length,
                                          CA_CODE_DONE, JSON_110));
    is("JSON of a last word without an end",
       gives_none(ca_run_json, WORDS("decide\0" "110"), ROOM, CA_CODE_NO_WORDS, 0));
    is("JSON of a byte that begins nothing",
       gives_none(ca_run_json, WORDS("orphan\0" "\xff\0"), ROOM, CA_CODE_NO_WORDS, 0));
}

/* Whether the rule of this table has these verdicts, in the order of the struct. */
static bool has(uint8_t width, const char *table, const char *verdicts)
{
    uint8_t letters[32];
    size_t length = strlen(table);
    for (size_t at = 0; at < length; at++)
        letters[at] = (uint8_t)(table[at] - '0');
    struct ca_rule_verdicts v = ca_verdicts(2, width, letters, length);
    return v.fault == CA_FAULT_NONE && v.surjective == (verdicts[0] == 'y')
        && v.injective == (verdicts[1] == 'y') && v.right == (verdicts[2] == 'y')
        && v.left == (verdicts[3] == 'y') && v.is_open == (verdicts[4] == 'y')
        && v.conserving == (verdicts[5] == 'y');
}

/* Whether there are no verdicts, for this fault. */
static bool lacks(uint8_t states, uint8_t width, const uint8_t *table, size_t length, int fault)
{
    struct ca_rule_verdicts v = ca_verdicts(states, width, table, length);
    return v.fault == fault && !v.surjective && !v.injective && !v.right && !v.left && !v.is_open
        && !v.conserving;
}

static void test_verdicts(void)
{
    static const uint8_t zeros[81];
    static const uint8_t two[4] = {0, 1, 1, 2};
    is("rule 110", has(3, "01110110", "nnnnnn"));
    is("rule 184", has(3, "00011101", "nnnnny"));
    is("the rule that shifts", has(2, "0101", "yyyyyy"));
    is("the rule that adds", has(2, "0110", "ynyyyn"));
    is("one state", lacks(1, 2, zeros, 1, CA_FAULT_STATES));
    is("17 states", lacks(17, 2, zeros, 4, CA_FAULT_STATES));
    is("width 1", lacks(2, 1, zeros, 2, CA_FAULT_WIDTH));
    is("width 6", lacks(2, 6, zeros, 64, CA_FAULT_WIDTH));
    is("27 nodes", lacks(3, 4, zeros, 81, CA_FAULT_NODES));
    is("a table of seven letters", lacks(2, 3, zeros, 7, CA_FAULT_LENGTH));
    is("a table of no letters", lacks(2, 2, zeros, 0, CA_FAULT_LENGTH));
    is("a letter that is too great", lacks(2, 2, two, 4, CA_FAULT_LETTER));
}

/* What a report says: the verdicts in the order of the struct, and of each the evidence; NULL where there is none. */
struct said {
    const char *verdicts;
    uint32_t window, place, right_ahead, left_ahead;
    int32_t flux[4];
    const char *orphan, *twins[2], *right_split[2], *left_split[2], *ring;
};

/* Whether the letters of a row are this word, or the row is none. */
static bool is_word(const uint8_t *letters, struct ca_row row, const char *word)
{
    if (word == NULL)
        return row.begin == 0 && row.length == 0;
    for (size_t at = 0; at < row.length; at++)
        if (letters[row.begin + at] + '0' != *word++)
            return false;
    return *word == 0;
}

/* Whether the parts of a configuration are these, with a bar between two, or the rows are none. */
static bool is_tail(const uint8_t *letters, struct ca_tail tail, const char *text)
{
    char left[ROOM], middle[ROOM] = "", right[ROOM] = "";
    if (text == NULL)
        return is_word(letters, tail.left, NULL) && is_word(letters, tail.middle, NULL)
            && is_word(letters, tail.right, NULL);
    const char *first = strchr(text, '|'), *second = strrchr(text, '|');
    snprintf(left, sizeof left, "%.*s", (int)(first - text), text);
    snprintf(middle, sizeof middle, "%.*s", (int)(second - first - 1), first + 1);
    snprintf(right, sizeof right, "%s", second + 1);
    return is_word(letters, tail.left, left) && is_word(letters, tail.middle, middle)
        && is_word(letters, tail.right, right);
}

/* Whether the report and the letters are what is said. */
static bool is_said(const struct ca_report *v, const uint8_t *letters, const struct said *said)
{
    const uint8_t verdicts[6] = {v->surjective, v->injective, v->right, v->left, v->is_open, v->conserving};
    static const uint32_t zeros[8];
    for (int at = 0; at < 6; at++)
        if (verdicts[at] != (said->verdicts[at] == 'y'))
            return false;
    for (int at = 0; at < 16; at++)
        if (v->flux[at] != (at < 4 ? said->flux[at] : 0))
            return false;
    return v->fault == CA_FAULT_NONE && v->nodes == (v->conserving ? 4 : 0) && v->window == said->window
        && v->place == said->place && v->right_ahead == said->right_ahead && v->left_ahead == said->left_ahead
        && is_word(letters, v->orphan, said->orphan) && is_word(letters, v->twins.x, said->twins[0])
        && is_word(letters, v->twins.y, said->twins[1]) && is_word(letters, v->ring, said->ring)
        && is_tail(letters, v->right_split.x, said->right_split[0])
        && is_tail(letters, v->right_split.y, said->right_split[1])
        && is_tail(letters, v->left_split.x, said->left_split[0])
        && is_tail(letters, v->left_split.y, said->left_split[1])
        && memcmp(v->reserved, zeros, sizeof v->reserved) == 0;
}

/* Whether an elementary rule, whose words have so many letters, has this report: in more room than it wants and in just
 * enough. In less by one letter nothing may be written. */
static bool reports(int number, const uint8_t *weights, size_t weights_length, size_t wanted, const struct said *said)
{
    uint8_t table[8];
    for (int window = 0; window < 8; window++)
        table[window] = number >> window & 1;
    for (size_t room = wanted == 0 ? 0 : wanted - 1; room <= wanted + 1; room++) {
        struct ca_report report;
        uint8_t letters[ROOM];
        size_t length = 12345;
        memset(&report, FILLING, sizeof report);
        memset(letters, FILLING, sizeof letters);
        int code = ca_report(2, 3, -1, table, sizeof table, weights, weights_length, &report, letters, room, &length);
        if (length != wanted || !is_kept(letters, room < wanted ? 0 : wanted, sizeof letters))
            return false;
        if (room < wanted ? code != CA_CODE_SHORT || !is_kept((const uint8_t *)&report, 0, sizeof report)
                          : code != CA_CODE_DONE || !is_said(&report, letters, said))
            return false;
    }
    return true;
}

/* Whether there is no report, for this fault. */
static bool reports_none(uint8_t states, uint8_t width, int8_t offset, const uint8_t *table, size_t length,
                         size_t weights_length, int fault)
{
    struct ca_report report, none = {0};
    uint8_t letters[ROOM];
    size_t count = 12345;
    none.fault = (uint8_t)fault;
    memset(&report, FILLING, sizeof report);
    memset(letters, FILLING, sizeof letters);
    int code = ca_report(states, width, offset, table, length, (const uint8_t *)"\0\1\2\3", weights_length, &report,
                         letters, sizeof letters, &count);
    return code == CA_CODE_DONE && count == 0 && memcmp(&report, &none, sizeof report) == 0
        && is_kept(letters, 0, sizeof letters);
}

static void test_report(void)
{
    static const struct said rule_110 = {
        .verdicts = "nnnnnn", .orphan = "01010", .twins = {"0", "1"}, .right_split = {"0|100|0", "0|111|1"},
        .left_split = {"011|01|0", "110|11|0"}, .ring = "1"};
    static const struct said rule_170 = {
        .verdicts = "yyyyyy", .window = 1, .place = 2, .right_ahead = 1, .left_ahead = 3, .flux = {0, -1, -1, -2}};
    static const struct said rule_30 = {
        .verdicts = "ynnynn", .twins = {"0", "1"}, .right_split = {"0|1011|1", "0|1100|0"}, .left_ahead = 1, .ring = "1"};
    static const struct said rule_184 = {
        .verdicts = "nnnnny", .orphan = "1100", .twins = {"0011", "0101"}, .right_split = {"0||01100", "0||10100"},
        .left_split = {"00101||0", "00011||0"}, .flux = {0, 0, 0, -1}};
    static const struct said weighed = {
        .verdicts = "nnnnny", .orphan = "1100", .twins = {"0011", "0101"}, .right_split = {"0||01100", "0||10100"},
        .left_split = {"00101||0", "00011||0"}, .flux = {0, 0, 0, 255}};
    static const uint8_t zeros[81], two[4] = {0, 1, 1, 2}, weights[2] = {255, 0};
    is("report of rule 110", reports(110, OWN, 5 + 2 + 5 + 5 + 6 + 6 + 1, &rule_110));
    is("report of rule 170", reports(170, OWN, 0, &rule_170));
    is("report of rule 30", reports(30, OWN, 2 + 6 + 6 + 1, &rule_30));
    is("report of rule 184", reports(184, OWN, 4 + 8 + 6 + 6 + 6 + 6, &rule_184));
    is("report of rule 184 with weights", reports(184, weights, 2, 4 + 8 + 6 + 6 + 6 + 6, &weighed));
    is("report of one state", reports_none(1, 2, 0, zeros, 1, 0, CA_FAULT_STATES));
    is("report of width 6", reports_none(2, 6, 0, zeros, 64, 0, CA_FAULT_WIDTH));
    is("report of 27 nodes", reports_none(3, 4, 0, zeros, 81, 0, CA_FAULT_NODES));
    is("report of offset -17", reports_none(2, 3, -17, zeros, 7, 0, CA_FAULT_OFFSET));
    is("report of offset 15", reports_none(2, 3, 15, zeros, 7, 0, CA_FAULT_OFFSET));
    is("report of a table of seven letters", reports_none(2, 3, 14, zeros, 7, 3, CA_FAULT_LENGTH));
    is("report of a letter that is too great", reports_none(2, 2, 15, two, 4, 3, CA_FAULT_LETTER));
    is("report with one weight", reports_none(2, 3, -16, zeros, 8, 1, CA_FAULT_WEIGHTS));
    is("report with three weights", reports_none(2, 3, 0, zeros, 8, 3, CA_FAULT_WEIGHTS));
}

/* Whether as many of the first rules of a shape have these bits as are said, over calls of so many rules. */
static bool counts(uint8_t states, uint8_t width, size_t rules, size_t part, const size_t *said)
{
    uint8_t bytes[ROOM];
    size_t counted[6] = {0};
    for (size_t first = 0; first < rules; first += part) {
        if (ca_verdict_bytes(states, width, 0, first, bytes, part) != CA_FAULT_NONE)
            return false;
        for (size_t at = 0; at < part; at++)
            for (int bit = 0; bit < 6; bit++)
                counted[bit] += bytes[at] >> bit & 1;
    }
    return memcmp(counted, said, sizeof counted) == 0;
}

/* Whether a call writes nothing, for this fault. */
static bool writes_nothing(uint8_t states, uint8_t width, uint64_t high, uint64_t low,
                           size_t length, int fault)
{
    uint8_t bytes[ROOM];
    memset(bytes, FILLING, sizeof bytes);
    return ca_verdict_bytes(states, width, high, low, bytes, length) == fault
        && is_kept(bytes, 0, sizeof bytes);
}

static void test_verdict_bytes(void)
{
    static const size_t elementary[6] = {30, 6, 22, 22, 14, 5};
    static const size_t width_4[6] = {582, 16, 314, 314, 46, 22};
    static const size_t three_states[6] = {420, 48, 240, 240, 60, 4};
    is("all rules of 2 states and width 3", counts(2, 3, 256, 256, elementary));
    is("all rules of 2 states and width 4", counts(2, 4, 65536, 4096, width_4));
    is("all rules of 3 states and width 2", counts(3, 2, 19683, 729, three_states));
    uint8_t byte = FILLING;
    is("the byte of rule 184",
       ca_verdict_bytes(2, 3, 0, 184, &byte, 1) == CA_FAULT_NONE && byte == CA_BIT_CONSERVING);
    is("the byte of the last rule, which gives 1",
       ca_verdict_bytes(2, 3, 0, 255, &byte, 1) == CA_FAULT_NONE && byte == 0);
    is("the byte of the rule that shifts",
       ca_verdict_bytes(2, 3, 0, 170, &byte, 1) == CA_FAULT_NONE && byte == 63);
    is("a number of more than 64 bits",
       ca_verdict_bytes(6, 2, 1, 0, &byte, 1) == CA_FAULT_NONE && byte == 0);
    is("bytes for one state", writes_nothing(1, 2, 0, 0, 1, CA_FAULT_STATES));
    is("bytes for width 6", writes_nothing(2, 6, 0, 0, 1, CA_FAULT_WIDTH));
    is("bytes for 27 nodes", writes_nothing(3, 4, 0, 0, 1, CA_FAULT_NODES));
    is("bytes for seven states", writes_nothing(7, 2, 0, 0, 1, CA_FAULT_KIND));
    is("bytes past the last number", writes_nothing(2, 3, 0, 255, 2, CA_FAULT_NUMBER));
    is("bytes past all numbers", writes_nothing(2, 3, UINT64_MAX, UINT64_MAX, 2, CA_FAULT_NUMBER));
    is("no bytes", writes_nothing(7, 7, 0, 0, 0, CA_FAULT_NONE));
}

/* How many rules ca_next_rule finds one after another that begin so, each of a greater rank than the one before, and each
 * with the property by ca_verdicts; -1 where one isn't so, or the calls end in another way. */
static int rules(int property, uint8_t states, uint8_t width, const uint8_t *begin, size_t given)
{
    uint8_t order[256], table[256] = {0}, last[256];
    size_t size = 1;
    int count = 0;
    for (int place = 0; place < width; place++)
        size *= states;
    if (ca_window_order((uint8_t)property, states, width, order, size) != CA_FAULT_NONE)
        return -1;
    for (;; count++) {
        memcpy(last, table, size);
        int code = ca_next_rule((uint8_t)property, states, width, order, size, begin, given, count > 0, table, size);
        if (code != CA_FAULT_NONE)
            return code == CA_FAULT_NO_RULE && memcmp(last, table, size) == 0 ? count : -1;
        size_t first = 0;
        while (first < size && last[order[first]] == table[order[first]])
            first++;
        if (count > 0 && (first == size || last[order[first]] > table[order[first]]))
            return -1;
        struct ca_rule_verdicts v = ca_verdicts(states, width, table, size);
        int bits = v.surjective * CA_BIT_SURJECTIVE + v.injective * CA_BIT_INJECTIVE + v.right * CA_BIT_RIGHT
            + v.left * CA_BIT_LEFT + v.is_open * CA_BIT_OPEN + v.conserving * CA_BIT_CONSERVING;
        if (v.fault != CA_FAULT_NONE || !(bits & property))
            return -1;
        for (size_t at = 0; at < given; at++)
            if (begin[at] < states && table[at] != begin[at])
                return -1;
    }
}

/* Whether each property of a shape, in the order of their bits, is that of so many rules. */
static bool lists(uint8_t states, uint8_t width, const int *said)
{
    for (int bit = 0; bit < 6; bit++)
        if (rules(1 << bit, states, width, (const uint8_t *)"", 0) != said[bit])
            return false;
    return true;
}

/* Whether a call finds no rule, for this reason, and writes nothing. */
static bool finds_none(int property, uint8_t states, uint8_t width, const uint8_t *order, size_t order_length,
                       size_t given, uint8_t letter, size_t length, int reason)
{
    uint8_t table[ROOM];
    memset(table, letter, sizeof table);
    int code = ca_next_rule((uint8_t)property, states, width, order, order_length, (const uint8_t *)"\0\0\0\0\0", given,
                            false, table, length);
    for (size_t at = 0; at < sizeof table; at++)
        if (table[at] != letter)
            return false;
    return code == reason;
}

/* Whether no order is written, for this reason. */
static bool orders_nothing(int property, uint8_t states, uint8_t width, size_t length, int reason)
{
    uint8_t order[ROOM];
    memset(order, FILLING, sizeof order);
    return ca_window_order((uint8_t)property, states, width, order, length) == reason
        && is_kept(order, 0, sizeof order);
}

static void test_next_rule(void)
{
    static const int elementary[6] = {30, 6, 22, 22, 14, 5};
    static const int width_4[6] = {582, 16, 314, 314, 46, 22};
    static const int three_states[6] = {420, 48, 240, 240, 60, 4};
    static const uint8_t zero[1] = {0}, one[1] = {1}, shifts[8] = {0, 1, 0, 1, 0, 1, 0, 1}, last_is_0[4] = {9, 9, 9, 0};
    static const uint8_t by_value[4] = {0, 1, 2, 3}, twice[4] = {0, 1, 1, 3}, past[4] = {0, 1, 2, 4};
    is("lists of 2 states and width 3", lists(2, 3, elementary));
    is("lists of 2 states and width 4", lists(2, 4, width_4));
    is("lists of 3 states and width 2", lists(3, 2, three_states));
    is("the injective rules that begin with 0", rules(CA_BIT_INJECTIVE, 2, 3, zero, 1) == 3);
    is("the injective rules that begin with 1", rules(CA_BIT_INJECTIVE, 2, 3, one, 1) == 3);
    is("the one that shifts", rules(CA_BIT_INJECTIVE, 2, 3, shifts, 8) == 1);
    is("the surjective rules that end in 0, by a letter behind three open windows",
       rules(CA_BIT_SURJECTIVE, 2, 2, last_is_0, 4) == 3);
    is("rules of one state", finds_none(1, 1, 2, by_value, 4, 0, 0, 4, CA_FAULT_STATES));
    is("rules of width 6", finds_none(1, 2, 6, by_value, 4, 0, 0, 64, CA_FAULT_WIDTH));
    is("rules of 27 nodes", finds_none(1, 3, 4, by_value, 4, 0, 0, 81, CA_FAULT_NODES));
    is("a table of three letters", finds_none(1, 2, 2, by_value, 4, 0, 0, 3, CA_FAULT_LENGTH));
    is("a table with a letter that is too great", finds_none(1, 2, 2, by_value, 4, 0, 2, 4, CA_FAULT_LETTER));
    is("no property", finds_none(0, 2, 2, by_value, 4, 0, 0, 4, CA_FAULT_PROPERTY));
    is("two properties", finds_none(3, 2, 2, by_value, 4, 0, 0, 4, CA_FAULT_PROPERTY));
    is("an order of three windows", finds_none(1, 2, 2, by_value, 3, 0, 0, 4, CA_FAULT_ORDER));
    is("an order with a window twice", finds_none(1, 2, 2, twice, 4, 0, 0, 4, CA_FAULT_ORDER));
    is("an order with a window that there isn't", finds_none(1, 2, 2, past, 4, 0, 0, 4, CA_FAULT_ORDER));
    is("five letters for four windows", finds_none(1, 2, 2, by_value, 4, 5, 0, 4, CA_FAULT_BEGIN));
    is("a beginning that no rule has", finds_none(2, 2, 2, by_value, 4, 4, 0, 4, CA_FAULT_NO_RULE));
    is("an order of one state", orders_nothing(1, 1, 2, 1, CA_FAULT_STATES));
    is("an order of width 6", orders_nothing(1, 2, 6, 64, CA_FAULT_WIDTH));
    is("an order of 27 nodes", orders_nothing(1, 3, 4, 81, CA_FAULT_NODES));
    is("an order for no property", orders_nothing(64, 2, 2, 4, CA_FAULT_PROPERTY));
    is("an order in too much room", orders_nothing(1, 2, 2, 5, CA_FAULT_LENGTH));
}

/* The sums that an elementary rule keeps. */
static struct ca_kept_sums sums_of(int number, uint8_t range)
{
    uint8_t table[8];
    struct ca_kept_sums sums;
    for (int window = 0; window < 8; window++)
        table[window] = number >> window & 1;
    if (ca_kept_sums(2, 3, table, sizeof table, range, &sums) != CA_FAULT_NONE)
        abort();
    return sums;
}

/* Whether there is a row in a place, with 1 there and else zeros. */
static bool has_unit(const struct ca_kept_sums *sums, int place)
{
    for (int word = 0; word < 16; word++)
        if (sums->rows[place][word] != (word == place))
            return false;
    return sums->counts[place] == 0;
}

/* Whether there is the ring of the one letter 1 in a place. */
static bool has_ring_1(const struct ca_kept_sums *sums, int place)
{
    return sums->counts[place] == 1 && sums->rings[place][0] == 1 && sums->rows[place][place] == 0;
}

/* How many elementary rules keep a sum of words of so many letters that isn't trivial. */
static int keeping(uint8_t range)
{
    int rules = 0;
    for (int number = 0; number < 256; number++) {
        struct ca_kept_sums sums = sums_of(number, range);
        int rows = 0;
        for (int place = 0; place < 16; place++)
            rows += sums.rows[place][place] > 0;
        rules += rows > 0;
    }
    return rules;
}

/* Whether a call finds no sums, and writes nothing, for this fault. */
static bool finds_no_sums(uint8_t states, uint8_t width, const uint8_t *table, size_t length, uint8_t range, int fault)
{
    struct ca_kept_sums sums;
    memset(&sums, FILLING, sizeof sums);
    return ca_kept_sums(states, width, table, length, range, &sums) == fault
        && is_kept((const uint8_t *)&sums, 0, sizeof sums);
}

static void test_kept_sums(void)
{
    static const uint8_t zeros[64];
    static const uint8_t two[4] = {0, 1, 1, 2};
    struct ca_kept_sums cars = sums_of(184, 1), letters = sums_of(14, 1), words = sums_of(14, 2);
    is("rule 184 keeps the number of 1", has_unit(&cars, 1));
    is("rule 14 keeps no sum of letters", has_ring_1(&letters, 1));
    is("rule 14 keeps the number of 10", has_unit(&words, 2) && has_ring_1(&words, 3));
    is("elementary rules that keep a sum of letters", keeping(1) == 5);
    is("elementary rules that keep a sum of words of 2 letters", keeping(2) == 38);
    is("elementary rules that keep a sum of words of 3 letters", keeping(3) == 66);
    is("elementary rules that keep a sum of words of 4 letters", keeping(4) == 88);
    is("sums of one state", finds_no_sums(1, 2, zeros, 1, 1, CA_FAULT_STATES));
    is("sums of width 6", finds_no_sums(2, 6, zeros, 64, 1, CA_FAULT_WIDTH));
    is("sums of a table of seven letters", finds_no_sums(2, 3, zeros, 7, 0, CA_FAULT_LENGTH));
    is("sums of a letter that is too great", finds_no_sums(2, 2, two, 4, 1, CA_FAULT_LETTER));
    is("sums of words of no letter", finds_no_sums(2, 3, zeros, 8, 0, CA_FAULT_RANGE));
    is("sums of 32 words", finds_no_sums(2, 3, zeros, 8, 5, CA_FAULT_WORDS));
    is("sums of 27 words", finds_no_sums(3, 2, zeros, 9, 3, CA_FAULT_WORDS));
    is("sums of words of 255 letters", finds_no_sums(2, 3, zeros, 8, 255, CA_FAULT_WORDS));
}

/* Whether the flux of a row of an elementary rule has this number at one word, and zeros else. */
static bool has_flux(int number, uint8_t range, int row, int word, int64_t value)
{
    uint8_t table[8];
    int64_t numbers[128];
    struct ca_kept_sums sums = sums_of(number, range);
    for (int window = 0; window < 8; window++)
        table[window] = number >> window & 1;
    memset(numbers, FILLING, sizeof numbers);
    if (ca_flux(2, 3, table, sizeof table, range, sums.rows[row], numbers) != CA_FAULT_NONE)
        return false;
    for (int at = 0; at < 128; at++)
        if (numbers[at] != (at == word ? value : 0))
            return false;
    return true;
}

/* Whether a call finds no flux, and writes nothing, for this fault. */
static bool finds_no_flux(uint8_t states, const uint8_t *table, size_t length, uint8_t range, int64_t weight, int fault)
{
    int64_t weights[16] = {0, weight}, numbers[128];
    memset(numbers, FILLING, sizeof numbers);
    return ca_flux(states, 3, table, length, range, weights, numbers) == fault
        && is_kept((const uint8_t *)numbers, 0, sizeof numbers);
}

static void test_flux(void)
{
    static const uint8_t zeros[8], cars[8] = {0, 0, 0, 1, 1, 1, 0, 1};
    is("what flows under rule 184", has_flux(184, 1, 1, 3, -1));
    is("flux of one state", finds_no_flux(1, zeros, 8, 1, 1, CA_FAULT_STATES));
    is("flux of a table of seven letters", finds_no_flux(2, zeros, 7, 0, 1, CA_FAULT_LENGTH));
    is("flux of words of no letter", finds_no_flux(2, zeros, 8, 0, 1, CA_FAULT_RANGE));
    is("flux of 32 words", finds_no_flux(2, zeros, 8, 5, 1, CA_FAULT_WORDS));
    is("flux of a weight that is too great", finds_no_flux(2, cars, 8, 1, ((int64_t)1 << 56) + 1, CA_FAULT_WEIGHT));
    is("flux of a weight that is too little", finds_no_flux(2, cars, 8, 1, INT64_MIN, CA_FAULT_WEIGHT));
    is("flux of a sum that isn't kept", finds_no_flux(2, zeros, 8, 1, 1, CA_FAULT_LOST));

    int64_t weights[CA_MOST_WORDS], numbers[CA_MOST_FLUX];
    for (int at = 0; at < CA_MOST_WORDS; at++)
        weights[at] = at < 2 ? at : INT64_MAX;
    is("great numbers behind the weights of two words",
       ca_flux(2, 3, cars, 8, 1, weights, numbers) == CA_FAULT_NONE && numbers[3] == -1);
}

/* The letters of a word, as digits. */
static size_t letters_of(const char *digits, uint8_t *letters)
{
    size_t length = strlen(digits);
    for (size_t at = 0; at < length; at++)
        letters[at] = (uint8_t)(digits[at] - '0');
    return length;
}

/* Whether the letters are these digits, and behind them nothing was written. */
static bool are_letters(const uint8_t *letters, const char *digits, size_t room)
{
    uint8_t wanted[16];
    size_t length = letters_of(digits, wanted);
    return memcmp(letters, wanted, length) == 0 && is_kept(letters, length, room);
}

/* The table of an elementary rule. */
static void table_of(int number, uint8_t *table)
{
    for (int window = 0; window < 8; window++)
        table[window] = (uint8_t)(number >> window & 1);
}

/* Whether an elementary rule has this image of a ring, or of a word. */
static bool has_ring_image(int number, const char *ring, const char *image)
{
    uint8_t table[8], letters[16], found[16];
    size_t length = letters_of(ring, letters);
    table_of(number, table);
    memset(found, FILLING, sizeof found);
    return ca_ring_image(2, 3, -1, table, 8, letters, length, found) == CA_FAULT_NONE
        && are_letters(found, image, sizeof found);
}

static bool has_word_image(int number, const char *word, const char *image)
{
    uint8_t table[8], letters[16], found[16];
    size_t length = letters_of(word, letters);
    table_of(number, table);
    memset(found, FILLING, sizeof found);
    return ca_word_image(2, 3, table, 8, letters, length, found) == CA_FAULT_NONE
        && are_letters(found, image, sizeof found);
}

/* A call of ca_image for an elementary rule, with the table and the parts as digits. */
static uint8_t asked_image(uint8_t states, int8_t offset, const char *table, const char *left, const char *middle,
                           const char *right, int64_t first, uint8_t *letters, size_t count)
{
    uint8_t windows[16], parts[3][16];
    size_t size = letters_of(table, windows);
    size_t lengths[3] = {letters_of(left, parts[0]), letters_of(middle, parts[1]), letters_of(right, parts[2])};
    return ca_image(states, 3, offset, windows, size, parts[0], lengths[0], parts[1], lengths[1], parts[2], lengths[2],
                    first, letters, count);
}

/* Whether a rule has these letters of the image of a configuration, from a place on. */
static bool has_image(const char *table, const char *left, const char *middle, const char *right, int64_t first,
                      const char *image)
{
    uint8_t found[16];
    memset(found, FILLING, sizeof found);
    return asked_image(2, -1, table, left, middle, right, first, found, strlen(image)) == CA_FAULT_NONE
        && are_letters(found, image, sizeof found);
}

/* Whether a call has this fault, and writes nothing. */
static bool has_no_image(uint8_t states, int8_t offset, const char *table, const char *left, const char *middle,
                         const char *right, int64_t first, int fault)
{
    uint8_t found[16];
    memset(found, FILLING, sizeof found);
    return asked_image(states, offset, table, left, middle, right, first, found, 4) == fault
        && is_kept(found, 0, sizeof found);
}

#define TABLE_110 "01110110"
#define TABLE_204 "00110011"

static void test_images(void)
{
    const int64_t far = (int64_t)1 << 61;
    is("the image of a word", has_word_image(110, "01100", "110"));
    is("the image of a word of one window", has_word_image(110, "101", "1"));
    is("the image of a word without windows", has_word_image(110, "10", "") && has_word_image(110, "1", ""));
    is("the image of a ring", has_ring_image(184, "0011", "1010"));
    is("the image of the other ring of twins", has_ring_image(184, "0101", "1010"));
    is("the image of a ring of one letter", has_ring_image(110, "1", "0"));
    is("the image of a configuration", has_image(TABLE_110, "0", "1", "0", -2, "01100"));
    is("a configuration, by the rule that copies it", has_image(TABLE_204, "011", "01", "0", -3, "011010"));
    is("a configuration far to the left", has_image(TABLE_204, "011", "01", "0", -far, "110"));
    is("a configuration far to the right", has_image(TABLE_204, "0", "", "011", far, "101"));
    is("no letters of an image", has_image(TABLE_110, "0", "1", "0", 0, ""));
    is("an image under no rule", has_no_image(1, -1, TABLE_110, "0", "1", "0", 0, CA_FAULT_STATES));
    is("an image by an offset", has_no_image(2, -17, TABLE_110, "0", "1", "0", 0, CA_FAULT_OFFSET));
    is("an image by seven windows", has_no_image(2, -1, "0111011", "0", "1", "0", 0, CA_FAULT_LENGTH));
    is("an image by a letter of the table", has_no_image(2, -1, "01120110", "0", "1", "0", 0, CA_FAULT_LETTER));
    is("an image without a left period", has_no_image(2, -1, TABLE_110, "", "2", "0", 0, CA_FAULT_PERIOD));
    is("an image without a right period", has_no_image(2, -1, TABLE_110, "0", "1", "", 0, CA_FAULT_PERIOD));
    is("an image of other letters on the left", has_no_image(2, -1, TABLE_110, "02", "1", "0", INT64_MIN, CA_FAULT_CELL));
    is("an image of other letters", has_no_image(2, -1, TABLE_110, "0", "12", "0", 0, CA_FAULT_CELL));
    is("an image of other letters on the right", has_no_image(2, -1, TABLE_110, "0", "1", "02", 0, CA_FAULT_CELL));
    is("an image too far on the left", has_no_image(2, -1, TABLE_110, "0", "1", "0", -far - 1, CA_FAULT_PLACE));
    is("an image at the first of all places", has_no_image(2, -1, TABLE_110, "0", "1", "0", INT64_MIN, CA_FAULT_PLACE));
    is("an image too far on the right", has_no_image(2, -1, TABLE_110, "0", "1", "0", far + 1, CA_FAULT_PLACE));
}

/* Whether the configurations that an elementary rule only moves have these windows, a bit for each, and this least ring. */
static bool is_moved(int number, int8_t by, unsigned windows, const char *ring)
{
    uint8_t table[8], letters[CA_MOST_NODES] = {0};
    struct ca_moved_configs moved;
    unsigned found = 0;
    size_t length = letters_of(ring, letters);
    table_of(number, table);
    memset(&moved, FILLING, sizeof moved);
    if (ca_moved(2, 3, -1, table, sizeof table, by, &moved) != CA_FAULT_NONE)
        return false;
    for (unsigned node = 0; node < CA_MOST_NODES; node++) {
        if (moved.rows[node] >= (node < 4 ? 4 : 1))
            return false;
        found |= node < 4 ? (unsigned)moved.rows[node] << 2 * node : 0;
    }
    return found == windows && moved.length == length && memcmp(moved.ring, letters, sizeof letters) == 0;
}

/* Whether a call finds no moved configurations, and writes nothing, for this fault. */
static bool moves_nothing(uint8_t states, uint8_t width, int8_t offset, const uint8_t *table, size_t length, int8_t by,
                          int fault)
{
    struct ca_moved_configs moved;
    memset(&moved, FILLING, sizeof moved);
    return ca_moved(states, width, offset, table, length, by, &moved) == fault
        && is_kept((const uint8_t *)&moved, 0, sizeof moved);
}

/* How many elementary rules move no configuration by so many cells. */
static int moving_none(int8_t by)
{
    int rules = 0;
    for (int number = 0; number < 256; number++)
        rules += is_moved(number, by, 0, "");
    return rules;
}

static void test_moved(void)
{
    static const uint8_t zeros[64];
    static const uint8_t two[4] = {0, 1, 1, 2};
    is("rule 184 moves single cars to the right", is_moved(184, -1, 0xb7, "0"));
    is("rule 184 leaves cars that wait", is_moved(184, 0, 0x8b, "0"));
    is("rule 30 leaves zeros and period 2", is_moved(30, 0, 0x25, "0"));
    is("rule 204 leaves all", is_moved(204, 0, 0xff, "0"));
    is("rule 51 moves period 2", is_moved(51, 1, 0x24, "01"));
    is("rule 105 leaves a ring of four cells", is_moved(105, 0, 0x5a, "0011"));
    is("rule 1 leaves nothing", is_moved(1, 0, 0, ""));
    is("elementary rules that leave nothing, and move nothing by a cell",
       moving_none(0) == 39 && moving_none(-1) == 39 && moving_none(1) == 39);
    is("moved under one state", moves_nothing(1, 2, 0, zeros, 1, 9, CA_FAULT_STATES));
    is("moved under width 6", moves_nothing(2, 6, 0, zeros, 64, 0, CA_FAULT_WIDTH));
    is("moved under 17 nodes", moves_nothing(5, 3, 0, zeros, 64, 0, CA_FAULT_NODES));
    is("moved under a far offset", moves_nothing(2, 3, 15, zeros, 8, 0, CA_FAULT_OFFSET));
    is("moved under a table of seven letters", moves_nothing(2, 3, -1, zeros, 7, 0, CA_FAULT_LENGTH));
    is("moved under a letter that is too great", moves_nothing(2, 2, 0, two, 4, 9, CA_FAULT_LETTER));
    is("moved past the window on the left", moves_nothing(2, 3, -1, zeros, 8, -2, CA_FAULT_BY));
    is("moved past the window on the right", moves_nothing(2, 3, -1, zeros, 8, 2, CA_FAULT_BY));
    is("moved by the least and the greatest number", moves_nothing(2, 3, -1, zeros, 8, INT8_MIN, CA_FAULT_BY)
                                                         && moves_nothing(2, 3, -1, zeros, 8, INT8_MAX, CA_FAULT_BY));
}

/* A pointer may be NULL if the length beside it is 0. */
static void test_null(void)
{
    static const uint8_t table[8] = {0, 1, 1, 1, 0, 1, 1, 0};
    uint8_t order[8], rule[8] = {0};
    struct ca_report report;
    size_t length;
    is("ca_run, NULL", ca_run(NULL, 0, NULL, 0, NULL, 0, &length) == CA_CODE_SHORT && length == strlen("usage error\n"));
    is("ca_run_json, NULL", ca_run_json(NULL, 0, NULL, 0, NULL, 0, &length) == CA_CODE_SHORT && length == strlen(USAGE_JSON));
    is("check of NULL", answers(WORDS("check\0"), NULL, 0, ROOM, CA_CODE_REFUSED, "refused format notjson\n"));
    is("ca_verdicts, NULL", ca_verdicts(2, 3, NULL, 0).fault == CA_FAULT_LENGTH);
    is("ca_report, NULL for the table", ca_report(2, 3, -1, NULL, 0, NULL, 0, &report, NULL, 0, &length) == CA_CODE_DONE
                                            && report.fault == CA_FAULT_LENGTH && length == 0);
    is("ca_report, NULL for weights and letters",
       ca_report(2, 3, -1, table, 8, NULL, 0, &report, NULL, 0, &length) == CA_CODE_SHORT && length > 0);
    is("ca_verdict_bytes, NULL", ca_verdict_bytes(2, 3, 0, 0, NULL, 0) == CA_FAULT_NONE);
    is("ca_window_order, NULL", ca_window_order(CA_BIT_OPEN, 2, 3, NULL, 0) == CA_FAULT_LENGTH);
    is("ca_next_rule, NULL for the order",
       ca_next_rule(CA_BIT_OPEN, 2, 3, NULL, 0, NULL, 0, 0, rule, 8) == CA_FAULT_ORDER);
    is("ca_next_rule, NULL for the beginning", ca_window_order(CA_BIT_OPEN, 2, 3, order, 8) == CA_FAULT_NONE
           && ca_next_rule(CA_BIT_OPEN, 2, 3, order, 8, NULL, 0, 0, rule, 8) == CA_FAULT_NONE);
    is("ca_next_rule, NULL for the table",
       ca_next_rule(CA_BIT_OPEN, 2, 3, order, 8, NULL, 0, 0, NULL, 0) == CA_FAULT_LENGTH);
    is("ca_kept_sums, NULL", ca_kept_sums(2, 3, NULL, 0, 1, &(struct ca_kept_sums){0}) == CA_FAULT_LENGTH);
    is("ca_image, NULL for the table",
       ca_image(2, 3, -1, NULL, 0, table, 1, NULL, 0, table, 1, 0, order, 8) == CA_FAULT_LENGTH);
    is("ca_image, NULL for the periods", ca_image(2, 3, -1, table, 8, NULL, 0, NULL, 0, NULL, 0, 0, NULL, 0) == CA_FAULT_PERIOD);
    is("ca_image, NULL for the letters", ca_image(2, 3, -1, table, 8, table, 1, NULL, 0, table, 1, 0, NULL, 0) == CA_FAULT_NONE);
    is("ca_moved, NULL", ca_moved(2, 3, -1, NULL, 0, 0, &(struct ca_moved_configs){0}) == CA_FAULT_LENGTH);
    is("ca_flux, NULL", ca_flux(2, 3, NULL, 0, 1, (int64_t[CA_MOST_WORDS]){0}, (int64_t[CA_MOST_FLUX]){0}) == CA_FAULT_LENGTH);
}

/* Whether ca_read_rule says of a text what the program says: the same rule, or a fault of the same kind. */
static bool is_read(const char *text)
{
    static const char *const kinds[] = {"", "states", "width", "nodes", "offset", "length", "letter", "kind", "number", "form"};
    uint8_t words[700] = "decide", said[ROOM];
    char wanted[700];
    struct ca_rule rule, before;
    size_t length;
    memset(&rule, FILLING, sizeof rule);
    before = rule;
    const uint8_t fault = ca_read_rule(text, &rule);
    memcpy(words + 7, text, strlen(text) + 1);
    const int code = ca_run(words, strlen(text) + 8, NOTHING, said, ROOM, &length);
    if (fault != CA_FAULT_NONE) {
        snprintf(wanted, sizeof wanted, "rule fault 1 %s", fault <= CA_FAULT_FORM ? kinds[fault] : "?");
        return code == CA_CODE_RULE_FAULT && memcmp(said, wanted, strlen(wanted)) == 0
            && (said[strlen(wanted)] == '\n' || said[strlen(wanted)] == ' ') && memcmp(&rule, &before, sizeof rule) == 0;
    }
    int end = snprintf(wanted, sizeof wanted, "rule %d:%d:%d:t", rule.states, rule.width, rule.offset);
    for (int window = 0; window < rule.table_length; window++)
        wanted[end++] = "0123456789abcdef"[rule.table[window]];
    wanted[end++] = '\n';
    for (int window = rule.table_length; window < CA_MOST_WINDOWS; window++)
        if (rule.table[window] != 0)
            return false;
    return code == CA_CODE_DONE && length > (size_t)end && memcmp(said, wanted, (size_t)end) == 0;
}

static const char *const TEXTS[] = {
    "110", "0", "255", "256", "000000000000000000000000000000000000110", "0000000000000000000000000000000000000110",
    "2:3:-1:w110", "2:3:-1:t01110110", "02:03:-01:t01110110", "2:3:-0:w90", "3:2:0:t012120201", "3:2:0:T012120201", "4:2:-3:w4294967295",
    "4:2:-3:w4294967296", "4:3:0:w340282366920938463463374607431768211455", "4:3:0:w340282366920938463463374607431768211456",
    "6:2:1:w10314424798490535546171949055", "6:2:1:w10314424798490535546171949056", "7:2:0:w0", "16:2:0:w0", "17:2:0:w0",
    "1:2:0:t00", "0:2:0:t", "2:1:0:t01", "2:6:0:t0", "3:4:0:w0", "5:3:0:w0", "16:3:0:t0", "2:3:14:w30", "2:3:15:w30", "2:3:-16:w30",
    "2:3:-17:w30", "2:3:99:w30", "2:3:-1:t0111011", "2:3:-1:t011101100", "2:3:-1:t01120110", "2:3:-1:t0111011g", "2:3:-1:t",
    "2:3:-1:w", "2:3:-1:", "2:3:-1", "2:3:-", "2:3:", "2:3", "2:", "2", "", ":", "-1", "+1", " 110", "110 ", "110x", "x110", "1a", "2:3:--1:t0",
    "2:3:+1:w110", "2:3:1-:w110", "002:3:0:w110", "2:003:0:w110", "2:3:000:w110", "2:-3:0:w110", "-2:3:0:w110", "2:3:-1:x0",
    "2:3:-1:w1a", "2:3:-1:w0000000000000000000000000000000000000110", "2:3:-1:w000000000000000000000000000000000000110"};

static void test_read_rule(void)
{
    char text[600] = "11:2:0:t";
    for (size_t at = 0; at < sizeof TEXTS / sizeof TEXTS[0]; at++)
        is(TEXTS[at], is_read(TEXTS[at]));
    for (int number = 0; number < 256; number++) {
        snprintf(text, sizeof text, "2:3:%d:w%d", number % 29 - 16, number);
        is(text, is_read(text));
    }
    for (int letters = 0; letters < 500; letters++) {
        snprintf(text, sizeof text, "%s", "11:2:0:t");
        for (int at = 0; at < letters; at++)
            text[8 + at] = "0123456789aABcdefF"[(at + letters) % (at == letters - 5 && letters % 7 == 0 ? 18 : 12)];
        text[8 + letters] = '\0';
        is("a table of many digits", is_read(text));
    }
    struct ca_rule rule;
    is("a rule that is read and asked", ca_read_rule("184", &rule) == CA_FAULT_NONE
           && ca_verdicts(rule.states, rule.width, rule.table, rule.table_length).conserving);
}

/* Each fault has a text of its own, and no other number has one. */
static void test_fault_texts(void)
{
    const char *none = ca_fault_text(255);
    for (int fault = 0; fault <= CA_FAULT_BY; fault++) {
        if (fault == CA_CODE_NO_ROOM) /* this number is a code */
            continue;
        is("the text of a fault", strcmp(ca_fault_text((uint8_t)fault), none) != 0);
        for (int other = 0; other < fault; other++)
            is("texts of two faults", strcmp(ca_fault_text((uint8_t)fault), ca_fault_text((uint8_t)other)) != 0);
    }
}

/* The text of a command over a room. */
static bool answers_in(struct ca_room *room, const uint8_t *words, size_t words_length, uint8_t code, const char *text)
{
    uint8_t output[ROOM];
    size_t length = 0;
    memset(output, FILLING, sizeof output);
    return ca_run_in(room, words, words_length, NOTHING, output, sizeof output, &length) == code
        && length == strlen(text) && memcmp(output, text, length) == 0 && is_kept(output, length, sizeof output);
}

/* Calls over rooms answer as calls without rooms do, whatever the room served before. */
static void test_rooms(void)
{
    static struct ca_report alone, over;
    static uint8_t alone_letters[CA_MOST_REPORT_LETTERS], over_letters[CA_MOST_REPORT_LETTERS];
    struct ca_room closed = {false, NULL};
    struct ca_room *const room = ca_room_new();
    size_t length, over_length;
    if (room == NULL)
        abort();
    is("a text over a room", answers_in(room, WORDS("decide\0" "110\0"), CA_CODE_DONE, REPORT_110));
    is("a shorter text over the same room", answers_in(room, WORDS("orphan\0" "90\0"), CA_CODE_DONE, "surjective yes\n"));
    is("no command over a room", answers_in(room, NULL, 0, CA_CODE_USAGE, "usage error\n"));
    is("the text over the room again", answers_in(room, WORDS("decide\0" "110\0"), CA_CODE_DONE, REPORT_110));
    is("no words over a room", answers_in(room, WORDS("orphan\0" "90"), CA_CODE_NO_WORDS, ""));
    for (int number = 0; number < 256; number++) {
        uint8_t table[8];
        for (int at = 0; at < 8; at++)
            table[at] = (uint8_t)(number >> at & 1);
        memset(&alone, 0, sizeof alone);
        memset(&over, FILLING, sizeof over);
        is("a report", ca_report(2, 3, -1, table, 8, OWN, &alone, alone_letters, sizeof alone_letters, &length)
               == CA_CODE_DONE);
        is("a report over a room", ca_report_in(room, 2, 3, -1, table, 8, OWN, &over, over_letters, sizeof over_letters,
               &over_length) == CA_CODE_DONE);
        is("the same report", memcmp(&alone, &over, sizeof alone) == 0);
        is("the same letters", length == over_length && memcmp(alone_letters, over_letters, length) == 0);
        if (length > 0) {
            memset(over_letters, FILLING, length);
            is("a short buffer over a room", ca_report_in(room, 2, 3, -1, table, 8, OWN, &over, over_letters, length - 1,
                   &over_length) == CA_CODE_SHORT && over_length == length && is_kept(over_letters, 0, length));
        }
    }
    is("a rule with a fault over a room", ca_report_in(room, 2, 3, -1, NULL, 0, OWN, &over, NULL, 0, &over_length)
           == CA_CODE_DONE && over.fault == CA_FAULT_LENGTH && over_length == 0);
    is("an open room is opened again", ca_room_open(room) == CA_CODE_DONE
           && answers_in(room, WORDS("orphan\0" "90\0"), CA_CODE_DONE, "surjective yes\n"));
    ca_room_free(room);
    ca_room_free(NULL);

    is("a command over a closed room", answers_in(&closed, WORDS("orphan\0" "90\0"), CA_CODE_NO_ROOM, ""));
    memset(&over, FILLING, sizeof over);
    length = 1;
    is("a report over a closed room", ca_report_in(&closed, 2, 3, -1, NULL, 0, OWN, &over, NULL, 0, &length)
           == CA_CODE_NO_ROOM && length == 0 && is_kept((const uint8_t *)&over, 0, sizeof over));
    ca_room_close(&closed);
    is("a closed room is closed again", !closed.is_open);
    is("a closed room is opened", ca_room_open(&closed) == CA_CODE_DONE && closed.is_open
           && answers_in(&closed, WORDS("orphan\0" "90\0"), CA_CODE_DONE, "surjective yes\n"));
    ca_room_close(&closed);
    is("it is closed again", answers_in(&closed, WORDS("orphan\0" "90\0"), CA_CODE_NO_ROOM, ""));
}

/* A rule of width 3 and what ca_degree must give for it, found by listing the preimages of all words of at most seven letters. */
struct degree_row {
    uint8_t number, degree, right, left, right_multiplier, left_multiplier;
    uint16_t right_nodes, left_nodes;
    const char *right_word, *left_word;
};

static const struct degree_row DEGREES[] = {
    {15, 1, 4, 1, 4, 1, 15, 8, "", "00"},     {30, 1, 4, 1, 4, 1, 15, 8, "", "0010"},
    {60, 2, 4, 2, 2, 1, 15, 9, "", "0"},      {90, 4, 4, 4, 1, 1, 15, 15, "", ""},
    {106, 1, 1, 4, 1, 4, 1, 15, "0100", ""},  {110, 0, 0, 0, 0, 0, 0, 0, "01010", "01010"},
    {170, 1, 1, 4, 1, 4, 1, 15, "00", ""},    {204, 1, 2, 2, 2, 2, 3, 5, "0", "0"},
    {240, 1, 4, 1, 4, 1, 15, 1, "", "00"},    {0, 0, 0, 0, 0, 0, 0, 0, "1", "1"},
};

/* The degree of a rule, alone, over a room, in a buffer that is too short, and over a closed room. */
static void test_degree_of(const struct degree_row *row, struct ca_room *room)
{
    struct ca_rule_degree found, over;
    uint8_t letters[64], table[8];
    size_t length = 0, over_length = 0;
    struct ca_room closed = {false, NULL};
    for (int at = 0; at < 8; at++)
        table[at] = (uint8_t)(row->number >> at & 1);
    memset(letters, FILLING, sizeof letters);
    memset(&found, FILLING, sizeof found);
    is("a degree", ca_degree(2, 3, -1, table, 8, &found, letters, sizeof letters, &length) == CA_CODE_DONE
           && found.fault == CA_FAULT_NONE && length == strlen(row->right_word) + strlen(row->left_word)
           && is_kept(letters, length, sizeof letters));
    is("the numbers of a degree", found.degree == row->degree && found.right == row->right && found.left == row->left
           && found.right_multiplier == row->right_multiplier && found.left_multiplier == row->left_multiplier);
    is("the nodes of a degree", found.right_nodes == row->right_nodes && found.left_nodes == row->left_nodes);
    is("the words of a degree", is_word(letters, found.right_word, row->right_word)
           && is_word(letters, found.left_word, row->left_word));
    memset(&over, FILLING, sizeof over);
    is("a degree over a room", ca_degree_in(room, 2, 3, -1, table, 8, &over, letters, sizeof letters, &over_length)
           == CA_CODE_DONE && over_length == length && memcmp(&over, &found, sizeof over) == 0);
    if (length > 0) {
        memset(letters, FILLING, sizeof letters);
        memset(&over, FILLING, sizeof over);
        is("a short buffer for a degree", ca_degree(2, 3, -1, table, 8, &over, letters, length - 1, &over_length)
               == CA_CODE_SHORT && over_length == length && is_kept(letters, 0, sizeof letters)
               && is_kept((const uint8_t *)&over, 0, sizeof over));
    }
    memset(&over, FILLING, sizeof over);
    over_length = 1;
    is("a degree over a closed room", ca_degree_in(&closed, 2, 3, -1, table, 8, &over, letters, sizeof letters, &over_length)
           == CA_CODE_NO_ROOM && over_length == 0 && is_kept((const uint8_t *)&over, 0, sizeof over));
}

static void test_degree(void)
{
    static const uint8_t table[8] = {0, 1, 2, 0, 0, 0, 0, 0};
    struct ca_room *const room = ca_room_new();
    struct ca_rule_degree found;
    size_t length = 1;
    if (room == NULL)
        abort();
    for (size_t at = 0; at < sizeof DEGREES / sizeof DEGREES[0]; at++)
        test_degree_of(&DEGREES[at], room);
    is("the degree of a table with a letter too many", ca_degree(2, 3, -1, table, 8, &found, NULL, 0, &length) == CA_CODE_DONE
           && found.fault == CA_FAULT_LETTER && found.degree == 0 && found.right_word.length == 0 && length == 0);
    is("the degree of a window out of reach", ca_degree_in(room, 2, 3, 15, table, 8, &found, NULL, 0, &length) == CA_CODE_DONE
           && found.fault == CA_FAULT_OFFSET && length == 0);
    is("the degree without a table", ca_degree(2, 3, -1, NULL, 0, &found, NULL, 0, &length) == CA_CODE_DONE
           && found.fault == CA_FAULT_LENGTH);
    ca_room_free(room);
}

static void *call_often(void *right)
{
    struct ca_room *const room = ca_room_new();
    for (int call = 0; call < CALLS; call++)
        if (answers(WORDS("decide\0" "110\0"), NOTHING, ROOM, CA_DONE, REPORT_110) && room != NULL
            && answers_in(room, WORDS("decide\0" "110\0"), CA_CODE_DONE, REPORT_110))
            ++*(int *)right;
    ca_room_free(room);
    return NULL;
}

/* The stack that a call may take, as the header says, and the stack of the thread in which that is measured. */
enum { STACK = 320 * 1024, WHOLE_STACK = 1024 * 1024 };

/* What a thread comes to: whether its calls answer as they must, and where its stack was before the first one. */
struct stacked {
    bool right;
    const volatile uint8_t *begin;
};

/* Writes a key of a JSON object, of two or three characters, and the text behind it. Returns how many bytes these are. */
static size_t write_key(uint8_t *text, int key, bool is_long, const char *behind)
{
    static const char digits[] = "0123456789abcdefghijklmnopqrstuvwxyzABCDEFGHIJKLMNOPQRSTUVWXYZ";
    const char name[] = {digits[key / 3844], digits[key / 62 % 62], digits[key % 62], 0};
    return (size_t)sprintf((char *)text, "\"%s\":%s", name + !is_long, behind);
}

/* Writes the text for which check takes the most stack, of all texts that a search found, and returns its length: objects in
 * objects, 127 deep. The more keys an object has, the more stack is taken to drop it, by steps at some 24, 144, 1,100 and 8,600
 * keys. With 8,600 keys in each object the text would be too long, so 52 objects have 8,600, and the others 1,100. */
static size_t write_worst(uint8_t *text)
{
    size_t used = 0;
    for (int depth = 0; depth < 127; depth++) {
        const int keys = depth < 52 ? 8600 : 1100;
        text[used++] = '{';
        for (int key = keys - 2; key >= 0; key--)
            used += write_key(text + used, key, keys > 3844, "0,");
        used += write_key(text + used, keys - 1, keys > 3844, "");
    }
    text[used++] = '0';
    memset(text + used, '}', 127);
    return used + 127;
}

/* The calls that take the most stack: certificates that are nested deeply, also with many keys in each object, and long ones. */
static void *call_on_a_stack(void *stacked)
{
    struct stacked *const found = stacked;
    static uint8_t objects[2400000], lists[4000000], many[4200000], text[ROOM], letters[CA_MOST_REPORT_LETTERS];
    static const uint8_t table[8] = {0, 1, 1, 1, 0, 1, 1, 0};
    static struct ca_report report;
    static struct ca_kept_sums sums;
    static struct ca_moved_configs moved;
    struct ca_rule_degree degree;
    size_t length;
    uint8_t order[8], rule[8] = {0};
    volatile uint8_t begin = 0;
    struct ca_room *room;
    found->begin = &begin;
    room = ca_room_new();
    for (size_t at = 0; at < sizeof objects; at++)
        objects[at] = (uint8_t)"{\"a\":"[at % 5];
    memset(lists, '[', sizeof lists);
    const size_t used = write_worst(many);
    found->right = ca_run(WORDS("check\0"), objects, sizeof objects, text, ROOM, &length) == CA_CODE_REFUSED
        && ca_run(WORDS("check\0"), lists, sizeof lists, text, ROOM, &length) == CA_CODE_REFUSED
        && ca_run_json(WORDS("check\0"), objects, sizeof objects, text, ROOM, &length) == CA_CODE_REFUSED
        && ca_run_json(WORDS("check\0"), many, used, text, ROOM, &length) == CA_CODE_REFUSED
        && ca_run(WORDS("certify\0" "90\0"), NOTHING, text, ROOM, &length) == CA_CODE_DONE
        && ca_run_json(WORDS("decide\0" "110\0"), NOTHING, text, ROOM, &length) == CA_CODE_DONE
        && ca_run(WORDS("language\0" "110\0"), NOTHING, text, ROOM, &length) == CA_CODE_DONE
        && ca_run(WORDS("preimage\0" "110\0" "0|101|0\0"), NOTHING, text, ROOM, &length) == CA_CODE_DONE
        && ca_report(2, 3, -1, table, 8, NULL, 0, &report, letters, sizeof letters, &length) == CA_CODE_DONE
        && room != NULL && ca_run_in(room, WORDS("certify\0" "90\0"), NOTHING, text, ROOM, &length) == CA_CODE_DONE
        && ca_report_in(room, 2, 3, -1, table, 8, NULL, 0, &report, letters, sizeof letters, &length) == CA_CODE_DONE
        && ca_degree(2, 3, -1, table, 8, &degree, letters, sizeof letters, &length) == CA_CODE_DONE
        && ca_degree_in(room, 2, 3, -1, table, 8, &degree, letters, sizeof letters, &length) == CA_CODE_DONE
        && ca_window_order(CA_BIT_INJECTIVE, 2, 3, order, 8) == CA_FAULT_NONE
        && ca_next_rule(CA_BIT_INJECTIVE, 2, 3, order, 8, NULL, 0, 0, rule, 8) == CA_FAULT_NONE
        && ca_kept_sums(2, 3, table, 8, 2, &sums) == CA_FAULT_NONE
        && ca_moved(2, 3, -1, table, 8, 0, &moved) == CA_FAULT_NONE;
    ca_room_free(room);
    return NULL;
}

/* Fills a stack, has a thread call on it, and looks how far down another byte stands. */
static void test_stack(void)
{
    pthread_t thread;
    pthread_attr_t attributes;
    struct stacked found = {false, NULL};
    uint8_t *const stack = mmap(NULL, WHOLE_STACK, PROT_READ | PROT_WRITE, MAP_PRIVATE | MAP_ANONYMOUS, -1, 0);
    if (stack == MAP_FAILED)
        abort();
    memset(stack, FILLING, WHOLE_STACK);
    if (pthread_attr_init(&attributes) != 0 || pthread_attr_setstack(&attributes, stack, WHOLE_STACK) != 0
        || pthread_create(&thread, &attributes, call_on_a_stack, &found) != 0)
        abort();
    pthread_join(thread, NULL);
    pthread_attr_destroy(&attributes);
    is("calls on a stack of their own", found.right);
    const volatile uint8_t *deepest = stack;
    while (deepest < found.begin && *deepest == FILLING)
        deepest++;
    printf("library_test: the calls took %ld bytes of stack\n", (long)(found.begin - deepest));
    is("the stack that calls take", found.begin - deepest > 1024 && found.begin - deepest <= STACK);
    munmap(stack, WHOLE_STACK);
}

static void test_threads(void)
{
    pthread_t threads[THREADS];
    int right[THREADS] = {0};
    for (int at = 0; at < THREADS; at++)
        if (pthread_create(&threads[at], NULL, call_often, &right[at]) != 0)
            abort();
    for (int at = 0; at < THREADS; at++) {
        pthread_join(threads[at], NULL);
        is("calls of several threads at once", right[at] == CALLS);
    }
}

int main(void)
{
    is("the version", ca_version() == CA_VERSION);
    is("the size of the verdicts", sizeof(struct ca_rule_verdicts) == 7);
    is("the size of a report", sizeof(struct ca_report) == 8 + 4 * 4 + 16 * 4 + (1 + 2 + 1 + 2 * 6) * 16 + 8 * 4);
    is("the size of a degree", sizeof(struct ca_rule_degree) == 16 + 2 * 16);
    is("the size of a room", sizeof(struct ca_room) == 16);
    is("the size of the sums", sizeof(struct ca_kept_sums) == 16 * 16 * 8 + 16 + 16 * 15);
    is("the size of moved configurations", sizeof(struct ca_moved_configs) == 16 * 2 + 16 + 2);
    test_commands();
    test_words();
    test_room();
    test_input();
    test_json();
    test_verdicts();
    test_report();
    test_rooms();
    test_degree();
    test_verdict_bytes();
    test_next_rule();
    test_kept_sums();
    test_flux();
    test_images();
    test_moved();
    test_null();
    test_read_rule();
    test_fault_texts();
    test_stack();
    test_threads();
    printf("%d passed, %d failed\n", passed, failed);
    return failed != 0;
}
