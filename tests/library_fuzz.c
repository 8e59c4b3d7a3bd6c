/*
 * Calls the library for C with words, inputs, tables and buffers that are drawn, for so many seconds:
 *
 *   library_fuzz [SECONDS [SEED]]
 *
 * Each buffer ends before a page that can't be touched, so that a step past its end stops the program, also in code that
 * no sanitizer has seen. After each call it looks at what include/ca.h says of codes, lengths and bytes. The last line has
 * the counts.
 */
#define _GNU_SOURCE
#include "ca.h"

#include <stdio.h>
#include <stdlib.h>
#include <string.h>
#include <sys/mman.h>
#include <time.h>
#include <unistd.h>

#define COUNT(list) (sizeof(list) / sizeof(list)[0])

enum { MOST_TEXT = 4096, MOST_OUTPUT = 1 << 19, MOST_TABLE = 300, MOST_LETTERS = 72712, FILLING = 0xa5 };

static unsigned long passed;
static unsigned long failed;
static uint64_t state;

static void is(const char *name, bool holds)
{
    if (holds) {
        passed++;
    } else {
        failed++;
        fprintf(stderr, "library_fuzz: %s\n", name);
    }
}

/* A number below the bound. */
static size_t below(size_t bound)
{
    state = state * 6364136223846793005u + 1442695040888963407u;
    return (size_t)(state >> 33) % bound;
}

/* The end of so much memory and more, where a page begins that can't be touched. */
static uint8_t *fence(size_t size)
{
    size_t page = (size_t)sysconf(_SC_PAGESIZE);
    size_t room = (size / page + 1) * page;
    uint8_t *begin = (uint8_t *)mmap(NULL, room + page, PROT_READ | PROT_WRITE, MAP_PRIVATE | MAP_ANONYMOUS, -1, 0);
    if (begin == MAP_FAILED || mprotect(begin + room, page, PROT_NONE) != 0)
        abort();
    return begin + room;
}

/* Bytes that are drawn, or put together. */
struct text {
    uint8_t bytes[MOST_TEXT];
    size_t length;
};

static void add(struct text *text, const char *bytes, size_t length)
{
    if (length > MOST_TEXT - text->length)
        length = MOST_TEXT - text->length;
    memcpy(text->bytes + text->length, bytes, length);
    text->length += length;
}

static void add_any(struct text *text, size_t length)
{
    for (size_t at = 0; at < length; at++) {
        char byte = (char)below(256);
        add(text, &byte, 1);
    }
}

static void add_of(struct text *text, size_t length, const char *letters, size_t count)
{
    for (size_t at = 0; at < length; at++)
        add(text, letters + below(count), 1);
}

/* Turns up to so many bits. */
static void turn(struct text *text, size_t most)
{
    for (size_t count = text->length == 0 ? 0 : below(most + 1); count > 0; count--)
        text->bytes[below(text->length)] ^= (uint8_t)(1u << below(8));
}

/* A rule's text, whose table seldom has a letter that is too great. */
static void add_rule(struct text *text)
{
    char head[32];
    int states = 2 + (int)below(15);
    int width = 2 + (int)below(states == 2 ? 4 : states < 5 ? 2 : 1);
    size_t size = 1;
    for (int place = 0; place < width; place++)
        size *= (size_t)states;
    add(text, head, (size_t)snprintf(head, sizeof head, "%d:%d:%d:t", states, width, (int)below(33) - 16));
    add_of(text, size, "0123456789abcdefg", (size_t)states + (below(50) == 0));
    add(text, "", 1);
}

static const char *const NAMES[] = {
    "decide", "orphan", "number", "survey", "sample", "classes", "certify", "brief", "check", "language", "same",
    "preimage", "erase", "inverse", "compose", "trim", "widen", "shift", "reflect", "permute", "least", "lift", "unlift"};

static const char *const OPERANDS[] = {
    "110", "90", "0", "255", "256", "2:3:-1:t01110110", "2:2:0:t0110", "3:2:0:w0", "4:3:0:w1", "2:5:0:w4294967295",
    "5:2:16:w7", "16:2:0:t0", "0|1|0", "0|101|0", "01|0|10", "|", "||", "1,4", "0,2", "0,1,2", "-1", "-16", "4096",
    "10", "0123", "3", "5", "\xff", "\xc3\xa9", ":", "t", "2:", "-", ""};

/* A command with up to four operands. */
static void add_command(struct text *text)
{
    const char *name = NAMES[below(COUNT(NAMES))];
    add(text, name, strlen(name) + 1);
    for (size_t count = below(5); count > 0; count--) {
        const char *operand = OPERANDS[below(COUNT(OPERANDS))];
        if (below(4) == 0)
            add_rule(text);
        else
            add(text, operand, strlen(operand) + 1);
    }
}

/* Words: any bytes, letters of operands, or a command; now and then with a few bits turned, or without the last byte. */
static void draw_words(struct text *words)
{
    static const char letters[] = "0123456789:tw|-,\0";
    words->length = 0;
    switch (below(6)) {
    case 0: add_any(words, below(300)); break;
    case 1: add_of(words, below(64), letters, sizeof letters); break;
    default: add_command(words);
    }
    if (below(3) == 0)
        turn(words, 3);
    if (below(30) == 0 && words->length > 0)
        words->length--;
}

static const char *const CERTIFICATES[] = {
    "{\"conserving\":{\"ring\":\"1\"},\"injective\":{\"twins\":[\"0\",\"1\"]},\"left\":{\"ahead\":1},\"ranks\":"
    "{\"backward\":[null,null,null,null],\"forward\":[null,null,null,null]},\"right\":{\"ahead\":1},"
    "\"rule\":\"2:2:0:t0110\",\"surjective\":{\"sets\":[3]},\"version\":2}",
    "{\"conserving\":{\"flux\":[0,-2]},\"injective\":{\"c\":1,\"n\":1},\"left\":{\"ahead\":2},\"ranks\":"
    "{\"backward\":[null,0,0,null],\"forward\":[null,null,null,null]},\"right\":{\"ahead\":1},"
    "\"rule\":\"2:2:0:t0101\",\"surjective\":{\"sets\":[3,1,2]},\"version\":2,\"weights\":[0,2]}",
    "{\"conserving\":{\"flux\":[0,0]},\"injective\":{\"c\":0,\"n\":1},\"left\":{\"ahead\":1},\"ranks\":"
    "{\"backward\":[null,null,null,null],\"forward\":[null,0,0,null]},\"right\":{\"ahead\":2},"
    "\"rule\":\"2:2:0:t0011\",\"surjective\":{\"pairs\":[1,2]},\"version\":3}"};

/* A certificate with up to three changes: a byte made another one or left out, or all that follows a place cut or put
 * there once more. */
static void draw_certificate(struct text *input)
{
    const char *text = CERTIFICATES[below(COUNT(CERTIFICATES))];
    struct text rest;
    input->length = 0;
    add(input, text, strlen(text));
    for (size_t count = below(4); count > 0 && input->length > 0; count--) {
        size_t at = below(input->length);
        switch (below(4)) {
        case 0: input->bytes[at] = (uint8_t)"0123456789[]{},:\"n"[below(18)]; break;
        case 1: memmove(input->bytes + at, input->bytes + at + 1, --input->length - at); break;
        case 2: input->length = below(5) == 0 ? at : input->length; break;
        default:
            rest = *input;
            add(input, (const char *)rest.bytes + at, rest.length - at);
        }
    }
    turn(input, 1);
}

/* Whether the bytes right before an end are as they were filled. */
static bool is_kept(const uint8_t *end, size_t length)
{
    for (size_t at = 1; at <= length; at++)
        if (end[-(ptrdiff_t)at] != FILLING)
            return false;
    return true;
}

/* Where buffers end. */
static uint8_t *words_end, *input_end, *output_end, *table_end, *report_end;

/* ca_run or ca_run_json. */
typedef uint8_t run_function(const uint8_t *, size_t, const uint8_t *, size_t, uint8_t *, size_t, size_t *);

/* Calls one of them, and looks at the code and at all bytes that it was passed. */
static uint8_t run_by(run_function *run, const struct text *words, const struct text *input, size_t room, size_t *length)
{
    memcpy(words_end - words->length, words->bytes, words->length);
    memcpy(input_end - input->length, input->bytes, input->length);
    memset(output_end - room, FILLING, room);
    *length = 12345;
    uint8_t code = run(words_end - words->length, words->length, input_end - input->length, input->length,
                       output_end - room, room, length);
    is("the words are kept", memcmp(words_end - words->length, words->bytes, words->length) == 0);
    is("the input is kept", memcmp(input_end - input->length, input->bytes, input->length) == 0);
    if (code <= CA_CODE_TOO_LONG)
        is("the output fits, and the rest is kept", *length <= room && is_kept(output_end, room - *length));
    else if (code == CA_CODE_SHORT)
        is("the output doesn't fit, and the buffer is kept", *length > room && is_kept(output_end, room));
    else
        is("no words or no memory, and the buffer is kept",
           (code == CA_CODE_NO_WORDS || code == CA_CODE_MEMORY) && *length == 0 && is_kept(output_end, room));
    return code;
}

/* The same with so much room, and where that is too short with a byte too few and with just room enough. */
static uint8_t run_until(run_function *run, const struct text *words, const struct text *input, size_t *room, size_t *length)
{
    size_t again;
    uint8_t code = run_by(run, words, input, *room, length);
    if (code != CA_CODE_SHORT || *length > MOST_OUTPUT)
        return code;
    *room = *length;
    code = run_by(run, words, input, *room - 1, &again);
    is("a byte too few is too few", code == CA_CODE_SHORT && again == *length);
    code = run_by(run, words, input, *room, &again);
    is("just room enough is enough", code <= CA_CODE_TOO_LONG && again == *length);
    return code;
}

/* Whether bytes are one object without blanks that has the status of this code. */
static bool is_json(const uint8_t *bytes, size_t length, uint8_t code)
{
    static const char *const statuses[] = {"done", "refused", "usage", "rulefault", "notfit", "toolong"};
    char status[32];
    size_t status_length = (size_t)snprintf(status, sizeof status, "\"status\":\"%s\"", statuses[code]);
    for (size_t at = 0; at < length; at++)
        if (bytes[at] <= ' ' || bytes[at] > '~')
            return false;
    return length > 2 && bytes[0] == '{' && bytes[length - 1] == '}' && memmem(bytes, length, status, status_length) != NULL;
}

/* Calls of both with one command: the codes are the same, and the JSON says which it is. */
static void call_run(void)
{
    static struct text words, input;
    size_t length, json_length, room = below(3) != 0 ? below(600) : below(100000), json_room = room;
    input.length = 0;
    if (below(4) == 0) {
        words.length = 0;
        add(&words, "check", 6);
        draw_certificate(&input);
    } else {
        draw_words(&words);
    }
    uint8_t code = run_until(ca_run, &words, &input, &room, &length);
    uint8_t json_code = run_until(ca_run_json, &words, &input, &json_room, &json_length);
    if (code != CA_CODE_SHORT && json_code != CA_CODE_SHORT)
        is("JSON has the code of the output", json_code == code);
    if (json_code <= CA_CODE_TOO_LONG)
        is("JSON is an object with the status", is_json(output_end - json_room, json_length, json_code));
}

/* The first fault of a table of these states and this width, as the header lists them. */
static int fault_of(uint8_t states, uint8_t width, const uint8_t *table, size_t length)
{
    size_t nodes = 1;
    if (states < 2 || states > 16)
        return CA_FAULT_STATES;
    if (width < 2 || width > 5)
        return CA_FAULT_WIDTH;
    for (int place = 1; place < width; place++)
        nodes *= states;
    if (nodes > 16)
        return CA_FAULT_NODES;
    if (length != nodes * states)
        return CA_FAULT_LENGTH;
    for (size_t at = 0; at < length; at++)
        if (table[at] >= states)
            return CA_FAULT_LETTER;
    return CA_FAULT_NONE;
}

/* Draws states, a width and a table, which seldom has a letter that is too great; gives the length of the table. */
static size_t draw_table(uint8_t *states, uint8_t *width)
{
    bool any = below(8) == 0;
    *states = (uint8_t)below(any ? 256 : 18);
    *width = (uint8_t)below(any ? 256 : 7);
    size_t length = 1;
    for (int place = 0; place < *width && length <= MOST_TABLE; place++)
        length *= *states;
    if (length > MOST_TABLE || below(8) == 0)
        length = below(MOST_TABLE);
    for (uint8_t *letter = table_end - length; letter < table_end; letter++)
        *letter = (uint8_t)(*states == 0 || below(400) == 0 ? *states + below(2) * below(256) : below(*states));
    return length;
}

/* A call of ca_verdicts: its fault is the first one, and its verdicts are such as a rule can have. */
static void call_verdicts(void)
{
    uint8_t states, width;
    size_t length = draw_table(&states, &width);
    uint8_t *table = table_end - length;
    struct ca_rule_verdicts found = ca_verdicts(states, width, table, length);
    is("the first fault", found.fault == fault_of(states, width, table, length));
    if (found.fault != CA_FAULT_NONE)
        is("no verdict where there is a fault", !(found.surjective || found.injective || found.right || found.left
                                                  || found.is_open || found.conserving));
    is("open is both sides", found.is_open == (found.right && found.left));
    is("an injective rule is open", !found.injective || found.is_open);
    is("a closing rule is surjective", !(found.right || found.left) || found.surjective);
}

/* What is asked of ca_report. */
struct asked {
    uint8_t states, width;
    int8_t offset;
    size_t length, weights_length;
};

/* Asks for a report in so much room, and looks at the code and at what must be kept. */
static uint8_t report_in(const struct asked *a, size_t room, size_t *length)
{
    struct ca_report *report = (struct ca_report *)(void *)report_end - 1;
    memset(report, FILLING, sizeof *report);
    memset(output_end - room, FILLING, room);
    *length = 12345;
    uint8_t code = ca_report(a->states, a->width, a->offset, table_end - a->length, a->length,
                             words_end - a->weights_length, a->weights_length, report, output_end - room, room, length);
    if (code == CA_CODE_DONE)
        is("the letters fit, and the rest is kept", *length <= room && is_kept(output_end, room - *length));
    else
        is("a report that isn't written is kept, and so is the buffer",
           (code == CA_CODE_SHORT ? *length > room : code == CA_CODE_MEMORY && *length == 0)
               && is_kept(output_end, room) && is_kept(report_end, sizeof *report));
    return code;
}

/* Whether a row lies in the letters and has as many as it must: some where there is a word, else none. */
static bool is_row(struct ca_row row, size_t length, bool some)
{
    return row.begin <= length && row.length <= length - row.begin && (row.length != 0) == some;
}

/* Whether the rows of two configurations lie in the letters; a middle may be empty. */
static bool are_tails(const struct ca_split *split, size_t length, bool some)
{
    const struct ca_tail *tails[2] = {&split->x, &split->y};
    for (int at = 0; at < 2; at++)
        if (!is_row(tails[at]->left, length, some) || !is_row(tails[at]->right, length, some)
            || !is_row(tails[at]->middle, length, some && tails[at]->middle.length != 0))
            return false;
    return true;
}

/* Looks at a report with so many letters, which begin here: it agrees with ca_verdicts, and has a word where it must. */
static void look_at(const struct asked *a, const uint8_t *letters, size_t length)
{
    const struct ca_report *v = (const struct ca_report *)(const void *)report_end - 1;
    struct ca_rule_verdicts found = ca_verdicts(a->states, a->width, table_end - a->length, a->length);
    bool below_states = true;
    for (size_t at = 0; at < length; at++)
        below_states = below_states && letters[at] < a->states;
    is("letters are below the states", below_states);
    is("the verdicts are those of ca_verdicts", v->surjective == found.surjective && v->injective == found.injective
                                                    && v->right == found.right && v->left == found.left
                                                    && v->is_open == found.is_open);
    is("with own weights so is conserving", a->weights_length != 0 || v->conserving == found.conserving);
    is("each word is there, or none", is_row(v->orphan, length, !v->surjective) && is_row(v->ring, length, !v->conserving)
                                          && is_row(v->twins.x, length, !v->injective)
                                          && is_row(v->twins.y, length, !v->injective)
                                          && are_tails(&v->right_split, length, !v->right)
                                          && are_tails(&v->left_split, length, !v->left));
    is("each number is there, or none", (v->window != 0) == v->injective && (v->right_ahead != 0) == v->right
                                            && (v->left_ahead != 0) == v->left && (v->nodes != 0) == v->conserving
                                            && v->nodes <= 16 && v->flux[0] == 0);
}

/* The first fault of a report, as the header lists them. */
static int report_fault(const struct asked *a)
{
    int fault = fault_of(a->states, a->width, table_end - a->length, a->length);
    bool shaped = fault != CA_FAULT_STATES && fault != CA_FAULT_WIDTH && fault != CA_FAULT_NODES;
    if (shaped && (a->offset < -16 || a->offset + a->width - 1 > 16))
        return CA_FAULT_OFFSET;
    if (fault == CA_FAULT_NONE && a->weights_length != 0 && a->weights_length != a->states)
        return CA_FAULT_WEIGHTS;
    return fault;
}

/* A call of ca_report, and where the buffer is too short one with a byte too few and one with just room enough. */
static void call_report(void)
{
    struct asked a;
    size_t length, again, room = below(3) != 0 ? below(64) : below(MOST_LETTERS);
    a.length = draw_table(&a.states, &a.width);
    a.offset = (int8_t)(below(8) == 0 ? (int)below(256) - 128 : (int)below(29) - 16);
    a.weights_length = below(2) == 0 ? 0 : below(8) == 0 ? below(300) : a.states;
    for (size_t at = 1; at <= a.weights_length; at++)
        words_end[-(ptrdiff_t)at] = (uint8_t)below(256);
    uint8_t code = report_in(&a, room, &length);
    if (code == CA_CODE_SHORT) {
        is("the letters of any rule fit", length <= MOST_LETTERS);
        room = length <= MOST_LETTERS ? length : MOST_LETTERS;
        is("a letter too few is too few", report_in(&a, room - 1, &again) == CA_CODE_SHORT && again == length);
        code = report_in(&a, room, &again);
        is("just room enough is enough", code == CA_CODE_DONE && again == length);
    }
    const struct ca_report *v = (const struct ca_report *)(const void *)report_end - 1;
    if (code != CA_CODE_DONE)
        return;
    is("the first fault of a report", v->fault == report_fault(&a));
    if (v->fault == CA_FAULT_NONE)
        look_at(&a, output_end - room, length);
}

/* Asks for a degree in so much room, and looks at the code and at what must be kept. */
static uint8_t degree_in(const struct asked *a, size_t room, size_t *length)
{
    struct ca_rule_degree *degree = (struct ca_rule_degree *)(void *)report_end - 1;
    memset(degree, FILLING, sizeof *degree);
    memset(output_end - room, FILLING, room);
    *length = 12345;
    uint8_t code = ca_degree(a->states, a->width, a->offset, table_end - a->length, a->length, degree, output_end - room,
                             room, length);
    if (code == CA_CODE_DONE)
        is("the letters of a degree fit, and the rest is kept", *length <= room && is_kept(output_end, room - *length));
    else
        is("a degree that isn't written is kept, and so is the buffer",
           (code == CA_CODE_SHORT ? *length > room : code == CA_CODE_MEMORY && *length == 0)
               && is_kept(output_end, room) && is_kept(report_end, sizeof *degree));
    return code;
}

/* How many bits of the number are 1. */
static int ones(unsigned number)
{
    int count = 0;
    for (; number != 0; number &= number - 1)
        count++;
    return count;
}

/* Looks at a degree with so many letters: its numbers agree with each other and with ca_verdicts. */
static void look_at_degree(const struct asked *a, const uint8_t *letters, size_t length)
{
    const struct ca_rule_degree *v = (const struct ca_rule_degree *)(const void *)report_end - 1;
    const struct ca_rule_verdicts found = ca_verdicts(a->states, a->width, table_end - a->length, a->length);
    const int nodes = (int)(a->length / a->states);
    bool below_states = true;
    for (size_t at = 0; at < length; at++)
        below_states = below_states && letters[at] < a->states;
    is("letters of a degree are below the states", below_states);
    is("the words of a degree are all letters", v->right_word.begin == 0 && v->left_word.begin == v->right_word.length
                                                    && v->right_word.length + v->left_word.length == length);
    is("as many nodes as are counted", ones(v->right_nodes) == v->right && ones(v->left_nodes) == v->left
                                           && (v->right_nodes | v->left_nodes) >> (nodes - 1) <= 1);
    is("a degree is 0 if the rule isn't surjective", (v->degree != 0) == found.surjective
                                                         && (v->right != 0) == found.surjective
                                                         && (v->left != 0) == found.surjective);
    is("the product of the counts", v->right * v->left == v->degree * nodes);
    if (found.surjective)
        is("the multipliers", v->right_multiplier * v->left == nodes && v->left_multiplier * v->right == nodes);
    is("an injective rule is open and has degree 1", found.injective == (found.is_open && v->degree == 1));
}

/* A call of ca_degree, and if the buffer is too short one with a byte too few and one with just room enough. */
static void call_degree(void)
{
    struct asked a;
    size_t length, again, room = below(3) != 0 ? below(24) : below(CA_MOST_DEGREE_LETTERS);
    a.length = draw_table(&a.states, &a.width);
    a.offset = (int8_t)(below(8) == 0 ? (int)below(256) - 128 : (int)below(29) - 16);
    a.weights_length = 0;
    uint8_t code = degree_in(&a, room, &length);
    if (code == CA_CODE_SHORT) {
        is("the letters of any degree fit", length <= CA_MOST_DEGREE_LETTERS);
        room = length <= CA_MOST_DEGREE_LETTERS ? length : CA_MOST_DEGREE_LETTERS;
        is("a letter of a degree too few is too few", degree_in(&a, room - 1, &again) == CA_CODE_SHORT && again == length);
        code = degree_in(&a, room, &again);
        is("just room enough for a degree is enough", code == CA_CODE_DONE && again == length);
    }
    const struct ca_rule_degree *v = (const struct ca_rule_degree *)(const void *)report_end - 1;
    if (code != CA_CODE_DONE)
        return;
    is("the first fault of a degree", v->fault == report_fault(&a));
    if (v->fault == CA_FAULT_NONE)
        look_at_degree(&a, output_end - room, length);
}

/* Whether a list has each window once. */
static bool is_order(const uint8_t *order, size_t length, size_t size)
{
    bool seen[256] = {false};
    for (size_t at = 0; at < length; at++) {
        if (order[at] >= size || seen[order[at]])
            return false;
        seen[order[at]] = true;
    }
    return length == size;
}

/* Whether a table is behind another one, in an order of the windows. */
static bool is_behind(const uint8_t *table, const uint8_t *last, const uint8_t *order, size_t size)
{
    for (size_t at = 0; at < size; at++)
        if (table[order[at]] != last[order[at]])
            return table[order[at]] > last[order[at]];
    return false;
}

/* Whether the rule of a table has a property. */
static bool has(int property, uint8_t states, uint8_t width, const uint8_t *table, size_t size)
{
    struct ca_rule_verdicts v = ca_verdicts(states, width, table, size);
    return property == CA_BIT_SURJECTIVE ? v.surjective : property == CA_BIT_INJECTIVE ? v.injective
        : property == CA_BIT_RIGHT ? v.right : property == CA_BIT_LEFT ? v.left : property == CA_BIT_OPEN ? v.is_open
        : v.conserving;
}

/* What is asked of ca_next_rule. */
struct question {
    uint8_t property, states, width;
    size_t size, order_length, begin_length, length;
    uint8_t order[MOST_TABLE], begin[MOST_TABLE], table[MOST_TABLE];
    bool after;
};

/* A question of any shape: each letter is fixed, or up to nine windows are in it, so that each answer comes soon. In one of
 * four something is out of its range. */
static void draw_question(struct question *q)
{
    q->states = (uint8_t)(2 + below(15));
    q->width = (uint8_t)(2 + below(q->states == 2 ? 4 : q->states < 5 ? 2 : 1));
    q->property = (uint8_t)(1u << below(6));
    q->after = below(2) == 0;
    q->size = 1;
    for (int place = 0; place < q->width; place++)
        q->size *= q->states;
    q->order_length = q->begin_length = q->length = q->size;
    bool open = q->size <= 9;
    for (size_t at = 0; at < MOST_TABLE; at++) {
        q->order[at] = (uint8_t)at;
        q->begin[at] = (uint8_t)(open && below(3) != 0 ? q->states + below(250 - q->states) : below(q->states));
        q->table[at] = (uint8_t)below(q->states);
    }
    for (size_t at = q->size - 1; at > 0; at--) {
        size_t other = below(at + 1);
        uint8_t window = q->order[at];
        q->order[at] = q->order[other];
        q->order[other] = window;
    }
    if (below(2) == 0)
        ca_window_order(q->property, q->states, q->width, q->order, q->size);
    if (open)
        q->begin_length = below(q->size + 1);
    if (below(4) != 0)
        return;
    switch (below(6)) {
    case 0: q->property = (uint8_t)below(256); break;
    case 1: q->order[below(q->size)] = (uint8_t)below(256); break;
    case 2: q->order_length = below(MOST_TABLE); break;
    case 3: q->begin_length = q->size + 1 + below(MOST_TABLE - q->size); break;
    case 4: q->length = below(MOST_TABLE); break;
    default: q->table[below(q->size)] = (uint8_t)below(256);
    }
}

/* The first reason for which there is no rule but that there is no further one, as the header lists them. */
static int reason(const struct question *q)
{
    int fault = fault_of(q->states, q->width, q->table, q->length);
    if (fault != CA_FAULT_NONE)
        return fault;
    if (q->property == 0 || q->property > CA_BIT_CONSERVING || (q->property & (q->property - 1)) != 0)
        return CA_FAULT_PROPERTY;
    if (!is_order(q->order, q->order_length, q->size))
        return CA_FAULT_ORDER;
    return q->begin_length > q->size ? CA_FAULT_BEGIN : CA_FAULT_NONE;
}

/* A call of ca_next_rule: the reason is the first one, and what is found has the property and the fixed letters, and is
 * behind the table; where each letter is fixed it is found if it can be. */
static void call_next_rule(void)
{
    static struct question q;
    draw_question(&q);
    uint8_t *order = input_end - q.order_length, *begin = words_end - q.begin_length, *table = table_end - q.length;
    memcpy(order, q.order, q.order_length);
    memcpy(begin, q.begin, q.begin_length);
    memcpy(table, q.table, q.length);
    int wanted = reason(&q);
    int code = ca_next_rule(q.property, q.states, q.width, order, q.order_length, begin, q.begin_length, q.after, table,
                            q.length);
    is("the order and the beginning are kept", memcmp(order, q.order, q.order_length) == 0
                                                   && memcmp(begin, q.begin, q.begin_length) == 0);
    if (code != CA_FAULT_NONE)
        is("without a rule the table is kept", memcmp(table, q.table, q.length) == 0);
    if (wanted != CA_FAULT_NONE) {
        is("the first reason", code == wanted);
        return;
    }
    is("a rule, or none", code == CA_FAULT_NONE || code == CA_FAULT_NO_RULE);
    bool fixed = q.begin_length == q.size;
    for (size_t at = 0; at < q.begin_length; at++) {
        fixed = fixed && q.begin[at] < q.states;
        if (code == CA_FAULT_NONE)
            is("a fixed letter stands", q.begin[at] >= q.states || table[at] == q.begin[at]);
    }
    if (code == CA_FAULT_NONE) {
        is("it has the property", has(q.property, q.states, q.width, table, q.size));
        is("it is behind the table", !q.after || is_behind(table, q.table, q.order, q.size));
    } else if (fixed) {
        is("there is none", !has(q.property, q.states, q.width, q.begin, q.size)
                                || (q.after && !is_behind(q.begin, q.table, q.order, q.size)));
    }
}

/* So many letters below a bound, which end where the buffer ends; seldom one is not below it. Gives where they begin. */
static uint8_t *draw_letters(uint8_t *end, size_t length, uint8_t states)
{
    for (uint8_t *letter = end - length; letter < end; letter++)
        *letter = (uint8_t)(below(400) == 0 ? below(256) : below(states == 0 ? 1 : states));
    return end - length;
}

/* A configuration: three words, of which the middle begins at cell 0. */
struct configuration {
    const uint8_t *left, *middle, *right;
    size_t left_length, middle_length, right_length;
};

/* The letter of a cell. */
static uint8_t cell(const struct configuration *c, int64_t place)
{
    const int64_t left = (int64_t)c->left_length, middle = (int64_t)c->middle_length;
    if (place < 0)
        return c->left[(place % left + left) % left];
    return place < middle ? c->middle[place] : c->right[(place - middle) % (int64_t)c->right_length];
}

/* Whether each letter of the parts is below the states. */
static bool are_letters(const struct configuration *c, uint8_t states)
{
    bool all = true;
    for (size_t at = 0; at < c->left_length; at++)
        all = all && c->left[at] < states;
    for (size_t at = 0; at < c->middle_length; at++)
        all = all && c->middle[at] < states;
    for (size_t at = 0; at < c->right_length; at++)
        all = all && c->right[at] < states;
    return all;
}

/* The first fault of an image, as the header lists them. */
static int image_fault(const struct asked *a, const struct configuration *c, int64_t first)
{
    const int64_t far = (int64_t)1 << 61;
    const int fault = report_fault(a);
    if (fault != CA_FAULT_NONE)
        return fault;
    if (c->left_length == 0 || c->right_length == 0)
        return CA_FAULT_PERIOD;
    if (!are_letters(c, a->states))
        return CA_FAULT_CELL;
    return first < -far || first > far ? CA_FAULT_PLACE : CA_FAULT_NONE;
}

/* A call of ca_image: its fault is the first one, and each letter is what the table has for the window of its cell. */
static void call_image(void)
{
    struct asked a;
    struct configuration c;
    static const int64_t places[] = {(int64_t)1 << 61, INT64_MAX, INT64_MIN, -((int64_t)1 << 61), ((int64_t)1 << 61) + 1};
    const size_t count = below(40);
    const int64_t first = below(20) == 0 ? places[below(COUNT(places))] : (int64_t)below(60) - 30;
    uint8_t *letters = output_end - count;
    a.length = draw_table(&a.states, &a.width);
    a.offset = (int8_t)(below(8) == 0 ? (int)below(256) - 128 : (int)below(29) - 16);
    a.weights_length = 0;
    c.left_length = below(30) == 0 ? 0 : 1 + below(5);
    c.middle_length = below(20);
    c.right_length = below(30) == 0 ? 0 : 1 + below(5);
    c.left = draw_letters(words_end, c.left_length, a.states);
    c.middle = draw_letters(input_end, c.middle_length, a.states);
    c.right = draw_letters(report_end, c.right_length, a.states);
    memset(letters, FILLING, count);
    const int wanted = image_fault(&a, &c, first);
    const int code = ca_image(a.states, a.width, a.offset, table_end - a.length, a.length, c.left, c.left_length, c.middle,
                              c.middle_length, c.right, c.right_length, first, letters, count);
    is("the first fault of an image", code == wanted);
    if (code != CA_FAULT_NONE) {
        is("without an image the letters are kept", is_kept(output_end, count));
        return;
    }
    for (size_t at = 0; at < count; at++) {
        size_t window = 0;
        for (int place = 0; place < a.width; place++)
            window = window * a.states + cell(&c, first + (int64_t)at + a.offset + place);
        is("a letter of an image", letters[at] == (table_end - a.length)[window]);
    }
}

/* A text for ca_read_rule: a rule's text, or one of the operands, with up to three letters changed, put in or left out. */
static void draw_rule_text(struct text *text)
{
    static const char letters[] = "0123456789:twaF-+ xg";
    text->length = 0;
    if (below(2) == 0) {
        add_rule(text);
    } else {
        const char *operand = OPERANDS[below(COUNT(OPERANDS))];
        add(text, operand, strlen(operand) + 1);
    }
    for (size_t count = below(4); count > 0 && text->length > 1; count--) {
        const size_t at = below(text->length - 1);
        switch (below(3)) {
        case 0: text->bytes[at] = (uint8_t)letters[below(sizeof letters - 1)]; break;
        case 1: memmove(text->bytes + at, text->bytes + at + 1, --text->length - at); break;
        default:
            add(text, "", 1);
            memmove(text->bytes + at + 1, text->bytes + at, text->length - 1 - at);
            text->bytes[at] = (uint8_t)letters[below(sizeof letters - 1)];
        }
    }
}

/* A call of ca_read_rule, whose text ends before a page that can't be touched: it says what `trim` says, a rule or a fault of
 * that kind. */
static void call_read_rule(void)
{
    static const char *const kinds[] = {"", "states", "width", "nodes", "offset", "length", "letter", "kind", "number", "form"};
    static struct text text, words;
    struct ca_rule rule;
    char wanted[32];
    size_t length;
    draw_rule_text(&text);
    if (memchr(text.bytes, '\0', text.length) != text.bytes + text.length - 1)
        return;
    const char *place = (const char *)memcpy(output_end - text.length, text.bytes, text.length);
    const int fault = ca_read_rule(place, &rule);
    words.length = 0;
    add(&words, "trim", 5);
    add(&words, (const char *)text.bytes, text.length);
    const uint8_t code = ca_run(words.bytes, words.length, NULL, 0, input_end - MOST_TEXT, MOST_TEXT, &length);
    if (code == CA_CODE_NO_WORDS) {
        is("a text that isn't UTF-8 is no rule", fault == CA_FAULT_FORM);
        return;
    }
    is("a rule that is read is one", (code == CA_CODE_DONE) == (fault == CA_FAULT_NONE));
    if (code == CA_CODE_RULE_FAULT && fault <= CA_FAULT_FORM) {
        const int end = snprintf(wanted, sizeof wanted, "rule fault 1 %s", kinds[fault]);
        is("the fault of a text", memcmp(input_end - MOST_TEXT, wanted, (size_t)end) == 0);
    }
    if (fault == CA_FAULT_NONE)
        is("the table of a text", fault_of(rule.states, rule.width, rule.table, rule.table_length) == CA_FAULT_NONE);
}

/* The window that begins at a place of a ring. */
static size_t ring_window(const struct asked *a, const uint8_t *ring, size_t length, size_t begin)
{
    size_t window = 0;
    for (size_t place = 0; place < a->width; place++)
        window = window * a->states + ring[(begin + place) % length];
    return window;
}

/* Whether the windows of the rows keep their letter at a place, and each has one that follows and one that leads to it. */
static bool are_moved(const struct asked *a, const struct ca_moved_configs *moved, const uint8_t *table, size_t place,
                      size_t *count)
{
    size_t nodes = a->length / a->states, power = 1;
    for (size_t at = place + 1; at < a->width; at++)
        power *= a->states;
    *count = 0;
    for (size_t window = 0; window < CA_MOST_NODES * 16; window++) {
        const size_t node = window / 16, letter = window % 16, next = (node * a->states + letter) % nodes;
        if (!(moved->rows[node] >> letter & 1))
            continue;
        ++*count;
        if (node >= nodes || letter >= a->states)
            return false;
        const size_t value = node * a->states + letter;
        bool before = false;
        for (size_t first = 0; first < a->states; first++) {
            const size_t into = first * nodes + node;
            before = before || (moved->rows[into / a->states] >> into % a->states & 1);
        }
        if (table[value] != value / power % a->states || moved->rows[next] == 0 || !before)
            return false;
    }
    return true;
}

/* A call of ca_moved: its fault is the first one, each window is kept and goes on to both sides, and the ring is moved. */
static void call_moved(void)
{
    struct asked a;
    size_t count = 0;
    a.length = draw_table(&a.states, &a.width);
    a.offset = (int8_t)(below(8) == 0 ? (int)below(256) - 128 : (int)below(29) - 16);
    a.weights_length = 0;
    const int8_t by = (int8_t)(below(8) == 0 ? (int)below(256) - 128 : a.offset + (int)below(6));
    const uint8_t *table = table_end - a.length;
    struct ca_moved_configs *moved = (struct ca_moved_configs *)(void *)report_end - 1;
    memset(moved, FILLING, sizeof *moved);
    int wanted = report_fault(&a);
    if (wanted == CA_FAULT_NONE && (by < a.offset || by >= a.offset + a.width))
        wanted = CA_FAULT_BY;
    const int code = ca_moved(a.states, a.width, a.offset, table, a.length, by, moved);
    is("the first fault of moved configurations", code == wanted);
    if (code != CA_FAULT_NONE) {
        is("without moved configurations the struct is kept", is_kept(report_end, sizeof *moved));
        return;
    }
    const size_t place = (size_t)(by - a.offset);
    is("windows that are moved", are_moved(&a, moved, table, place, &count));
    is("a ring or no window", moved->length <= a.length / a.states && (moved->length != 0) == (count != 0));
    for (size_t at = 0; at < CA_MOST_NODES; at++) {
        if (at >= moved->length) {
            is("zeros after the ring", moved->ring[at] == 0);
            continue;
        }
        const size_t window = ring_window(&a, moved->ring, moved->length, at);
        is("a ring that is moved", table[window] == moved->ring[(at + place) % moved->length]
                                       && (moved->rows[window / a.states] >> window % a.states & 1));
    }
}

static double now(void)
{
    struct timespec time;
    clock_gettime(CLOCK_MONOTONIC, &time);
    return (double)time.tv_sec + 1e-9 * (double)time.tv_nsec;
}

int main(int argc, char **argv)
{
    double end = now() + (argc > 1 ? atof(argv[1]) : 10);
    state = argc > 2 ? strtoull(argv[2], NULL, 10) : 1;
    words_end = fence(MOST_TEXT);
    input_end = fence(MOST_TEXT);
    output_end = fence(MOST_OUTPUT);
    table_end = fence(MOST_TABLE);
    report_end = fence(sizeof(struct ca_report));
    while (now() < end) {
        call_run();
        call_report();
        call_degree();
        for (int call = 0; call < 8; call++) {
            call_verdicts();
            call_next_rule();
            call_image();
            call_moved();
            call_read_rule();
        }
    }
    printf("%lu passed, %lu failed\n", passed, failed);
    return failed != 0;
}
