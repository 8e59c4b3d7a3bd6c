/*
 * The decider for one-dimensional cellular automata as a C library.
 *
 * ./library builds libca_c.a and libca_c.so in crates/ca_c/out/library, and prints their paths. ./install PREFIX installs
 * them as libca.a and libca.so, with this header and ca.pc for pkg-config. crates/ca_c/src has the functions, and their
 * contracts say what is proved about them. The structs have these names in the sources: RuleVerdicts in
 * crates/c_structs/src/table_verdicts.rt; RuleParts in rule_parts.rt, MovedConfigs in moved.rt, RuleDegree in rule_degrees.rt,
 * RuleReport in rule_reports.rt and the structs of letter_rows.rt, all of the same folder; KeptSums in
 * crates/kept_sums/src/kept.rt; and RoomHandle in crates/room_handles/src/handles.rt. Tests compare this header with these
 * sources, but no proof does.
 *
 * Pointers. If you pass a pointer with a length, the pointer must point to as many bytes as the length says. The pointer
 * may be NULL if the length is 0. Any other pointer must point to a whole object of its type, and must not be NULL. A call
 * keeps no pointer, and the caller has nothing to free but rooms. A call doesn't write to const arguments. It writes to the
 * buffer, to *length and to a room, and these must not overlap another argument.
 *
 * Numbers. An argument is converted to its type without a warning: if you pass 258 as a uint8_t, it becomes 2. Check the range
 * of an int before you pass it.
 *
 * Stack. A call takes up to 320 KiB of stack. Give 384 KiB to a thread that calls the library. Of the texts that we tried,
 * the worst one takes 245,000 to 286,000 bytes, by the compiler: check of objects that are nested 127 deep and have
 * thousands of keys.
 *
 * Memory. The command check takes up to 750 MB for a text of 4,194,304 bytes that was made to take much: objects that are
 * nested 126 deep and have one key each. The largest certificate, with two million listed sets, takes 90 MB.
 *
 * Threads. A call keeps no state but in a room. So several threads may call the library at once, if each thread has its own
 * buffer, its own length and its own room. Threads may share arguments that calls only read. A call waits for nothing and
 * starts no thread. It takes memory by malloc, realloc and free of your program, which must be safe for threads. It frees all
 * of this memory before it returns, except for the memory of a room. Don't call the library from a signal handler. If a
 * process with several threads forks, don't call the library in the child.
 *
 * Example. This program prints `conserving`:
 *
 *     #include <ca.h>
 *     #include <stdio.h>
 *
 *     int main(void)
 *     {
 *         struct ca_rule rule;
 *         const uint8_t fault = ca_read_rule("184", &rule);
 *         if (fault != CA_FAULT_NONE) {
 *             puts(ca_fault_text(fault));
 *             return 1;
 *         }
 *         const bool keeps = ca_verdicts(rule.states, rule.width, rule.table, rule.table_length).conserving;
 *         puts(keeps ? "conserving" : "not conserving");
 *         return 0;
 *     }
 *
 * After ./install PREFIX, this line compiles it:
 *
 *     PKG_CONFIG_PATH=PREFIX/lib/pkgconfig sh -c 'cc -o cars cars.c $(pkg-config --cflags --libs ca)'
 *
 * If the system doesn't look for libraries in PREFIX/lib, set LD_LIBRARY_PATH=PREFIX/lib when you run the program. If a C++
 * compiler should not warn about casts in this header, pass the folder of the header by -isystem.
 */
#ifndef CA_H
#define CA_H

#include <stdbool.h>
#include <stddef.h>
#include <stdint.h>
#include <stdlib.h>
#include <string.h>

#ifdef __cplusplus
extern "C" {
#endif

/* The version of this interface. ca_version returns the version of the linked library. */
#define CA_VERSION 2

/* How many of these things there are at most. Use these numbers as the sizes of arrays. */
#define CA_MOST_WINDOWS 256         /* letters of a table, and windows of an order */
#define CA_MOST_NODES 16            /* words of width - 1 letters, numbers in the flux of a report, letters of a moved ring */
#define CA_MOST_REPORT_LETTERS 72712 /* letters of all words of a report together */
#define CA_MOST_DEGREE_LETTERS 131070 /* letters of both words of a struct ca_rule_degree together */
#define CA_MOST_WORDS 16            /* words of range letters, and their weights */
#define CA_MOST_FLUX 128            /* words of width + range - 2 letters, and numbers of their flux */
#define CA_MOST_RING_LETTERS 15     /* letters of a ring that shows that a rule doesn't keep a sum */

/* The codes that ca_run and ca_run_json return. If the code is at most CA_CODE_TOO_LONG, there is an output. ca_report and
 * ca_degree return only CA_CODE_DONE, CA_CODE_MEMORY or CA_CODE_SHORT, and ca_room_open only CA_CODE_DONE or CA_CODE_MEMORY.
 * Only ca_run_in, ca_report_in and ca_degree_in return CA_CODE_NO_ROOM. */
enum ca_code {
    CA_CODE_DONE = 0,       /* the command was carried out */
    CA_CODE_REFUSED = 1,    /* check refused the input */
    CA_CODE_USAGE = 2,      /* the words aren't a command */
    CA_CODE_RULE_FAULT = 3, /* a rule operand or a shape is refused */
    CA_CODE_NOT_FIT = 4,    /* the command has no answer for these operands */
    CA_CODE_TOO_LONG = 5,   /* the input of check has more than 4,194,304 bytes */
    CA_CODE_MEMORY = 8,     /* there was no memory */
    CA_CODE_NO_WORDS = 9,   /* a word isn't UTF-8, or the last word has no 0 byte after it */
    CA_CODE_SHORT = 10,     /* the buffer is too short for the output */
    CA_CODE_NO_ROOM = 22,   /* the room is closed */

    /* Other names of the same codes, for older programs. */
    CA_DONE = CA_CODE_DONE,
    CA_REFUSED = CA_CODE_REFUSED,
    CA_USAGE = CA_CODE_USAGE,
    CA_RULE_FAULT = CA_CODE_RULE_FAULT,
    CA_NOT_FIT = CA_CODE_NOT_FIT,
    CA_TOO_LONG = CA_CODE_TOO_LONG,
    CA_MEMORY = CA_CODE_MEMORY,
    CA_NO_WORDS = CA_CODE_NO_WORDS,
    CA_SHORT = CA_CODE_SHORT
};

/* Why a call returns no verdicts, report, order, rule, sums, flux, image or moved configurations. A call returns the first
 * fault that applies. */
enum ca_fault {
    CA_FAULT_NONE = 0,   /* there is no fault */
    CA_FAULT_STATES = 1, /* there are not 2 to 16 states */
    CA_FAULT_WIDTH = 2,  /* the width is not 2 to 5 */
    CA_FAULT_NODES = 3,  /* there are more than 16 words of width - 1 letters */
    CA_FAULT_OFFSET = 4, /* the window reaches further than 16 cells to the left or to the right */
    CA_FAULT_LENGTH = 5, /* the table, or the room for the order, doesn't have one byte for each window */
    CA_FAULT_LETTER = 6, /* a letter of the table is not below states */
    CA_FAULT_KIND = 7,   /* there are more than six states, so rules have no numbers */
    CA_FAULT_NUMBER = 8, /* a number isn't the number of a rule */
    CA_FAULT_FORM = 9,   /* a text isn't the text of a rule; only ca_rule_of returns this */

    CA_FAULT_PROPERTY = 10, /* the property isn't a value of enum ca_bit */
    CA_FAULT_ORDER = 11,    /* the order doesn't have each window once */
    CA_FAULT_BEGIN = 12,    /* more letters are fixed than there are windows */
    CA_FAULT_NO_RULE = 13,  /* there is no further rule */

    CA_FAULT_RANGE = 14,  /* range is 0, so words would have no letter */
    CA_FAULT_WORDS = 15,  /* there are more than 16 words of range letters */
    CA_FAULT_WEIGHT = 16, /* a weight isn't from -2^56 to 2^56 */
    CA_FAULT_LOST = 17,   /* the rule doesn't keep the sum */

    CA_FAULT_WEIGHTS = 18, /* there isn't one weight for each letter */

    CA_FAULT_PERIOD = 19, /* a period of the configuration has no letter */
    CA_FAULT_CELL = 20,   /* a letter of the configuration is not below states */
    CA_FAULT_PLACE = 21,  /* first is not from -2^61 to 2^61, or count is more than 2^61 */

    CA_FAULT_BY = 23 /* the window of cell 0 doesn't have the cell by */
};

/* The meaning of a fault, in English and without a full stop. */
static inline const char *ca_fault_text(uint8_t fault)
{
    switch (fault) {
    case CA_FAULT_NONE: return "no fault";
    case CA_FAULT_STATES: return "there must be 2 to 16 states";
    case CA_FAULT_WIDTH: return "the width must be 2 to 5";
    case CA_FAULT_NODES: return "there must be at most 16 words of width - 1 letters";
    case CA_FAULT_OFFSET: return "the window must be within 16 cells on both sides";
    case CA_FAULT_LENGTH: return "the table or the order must have one byte for each window";
    case CA_FAULT_LETTER: return "each letter of the table must be less than the number of states";
    case CA_FAULT_KIND: return "rules of more than six states have no numbers";
    case CA_FAULT_NUMBER: return "the number must be that of a rule";
    case CA_FAULT_FORM: return "the text must be a rule, such as 110 or 2:3:-1:t01110110";
    case CA_FAULT_PROPERTY: return "the property must be one of enum ca_bit";
    case CA_FAULT_ORDER: return "the order must have each window once";
    case CA_FAULT_BEGIN: return "no more letters can be fixed than there are windows";
    case CA_FAULT_NO_RULE: return "there is no further rule";
    case CA_FAULT_RANGE: return "words must have at least one letter";
    case CA_FAULT_WORDS: return "there must be at most 16 words of so many letters";
    case CA_FAULT_WEIGHT: return "each weight must be from -2^56 to 2^56";
    case CA_FAULT_LOST: return "the rule doesn't keep the sum";
    case CA_FAULT_WEIGHTS: return "there must be one weight for each letter";
    case CA_FAULT_PERIOD: return "each period must have a letter";
    case CA_FAULT_CELL: return "each letter of the configuration must be less than the number of states";
    case CA_FAULT_PLACE: return "the first place must be from -2^61 to 2^61, with at most 2^61 letters";
    case CA_FAULT_BY: return "the window of cell 0 must have the cell by which configurations are moved";
    default: return "no fault has this number";
    }
}

/* ca_verdict_bytes gives a rule a byte: the sum of the bits of the verdicts that are yes. struct ca_rule_verdicts explains the
 * verdicts. ca_window_order and ca_next_rule take one of these bits as a property. */
enum ca_bit {
    CA_BIT_SURJECTIVE = 1,
    CA_BIT_INJECTIVE = 2,
    CA_BIT_RIGHT = 4,
    CA_BIT_LEFT = 8,
    CA_BIT_OPEN = 16,
    CA_BIT_CONSERVING = 32
};

/* The verdicts of a rule. */
struct ca_rule_verdicts {
    uint8_t fault;   /* an enum ca_fault; if it isn't CA_FAULT_NONE, all other fields are false */
    bool surjective; /* every word has a preimage */
    bool injective;  /* no two different configurations have the same image */
    bool right;      /* no two different configurations that agree on the left have the same image: right-closing */
    bool left;       /* no two different configurations that agree on the right have the same image: left-closing */
    bool is_open;    /* right and left are true */
    bool conserving; /* every ring has the same sum of letters as its image */
};

/* A word of a report or of a degree. Its letters are length bytes of the buffer for letters, beginning at place begin. If there is no word,
 * both numbers are 0. */
struct ca_row {
    size_t begin;
    size_t length;
};

/* A configuration: its period on the left, its middle, which begins at cell 0, and its period on the right. */
struct ca_tail {
    struct ca_row left;
    struct ca_row middle;
    struct ca_row right;
};

/* Two words, each of which is closed to a ring. */
struct ca_twins {
    struct ca_row x;
    struct ca_row y;
};

/* Two configurations. */
struct ca_split {
    struct ca_tail x;
    struct ca_tail y;
};

/*
 * The verdicts of a rule, each with its least evidence. A verdict is 1 for yes and 0 for no. A yes and a no have different
 * fields for their evidence, and the fields of the other verdict are 0. In C++ the function ca_report is called
 * ca::ca_report.
 */
struct ca_report {
    uint8_t fault;      /* an enum ca_fault; if it isn't CA_FAULT_NONE, there is no report, and all other fields are 0 */
    uint8_t surjective; /* every word has a preimage. If not, orphan is the least word without a preimage */
    uint8_t injective;  /* no two different configurations have the same image. If so, let a word have an image of as many
                           letters as the field window says. This image determines the letter of the word at place, counted
                           from 0. If not, the rings of the two words in twins have the same image */
    uint8_t right;      /* no two different configurations that agree on the left have the same image. If so, the
                           first width - 1 letters of a word and the first right_ahead letters of its image determine the
                           next letter of the word. If not, right_split has two such configurations */
    uint8_t left;       /* no two different configurations that agree on the right have the same image. If so, left_ahead is
                           the right_ahead of the mirrored rule. If not, left_split has two such configurations */
    uint8_t is_open;    /* right and left are 1 */
    uint8_t conserving; /* every ring has the same sum of weights as its image. If so, flux shows this. If not, ring is the
                           least ring whose image has another sum */
    uint8_t nodes;      /* the number of words of width - 1 letters. flux has an entry for each, at the place of its value */
    uint32_t window;
    uint32_t place;
    uint32_t right_ahead;
    uint32_t left_ahead;
    int32_t flux[CA_MOST_NODES]; /* the entries, and zeros after the last entry */
    struct ca_row orphan;
    struct ca_twins twins;
    struct ca_row ring;
    struct ca_split right_split;
    struct ca_split left_split;
    uint32_t reserved[8]; /* zeros */
};

/*
 * How many preimages a typical configuration has, and how many first and last letters the preimages of a word have at least
 * (Hedlund 1969; docs/DEGREE.md). A node is a word of width - 1 letters. A last node of a word is the last width - 1 letters
 * of one of its preimages, and a first node is the first width - 1 letters of one of its preimages. A node is at the cut
 * between two words if it is a last node of the first word and a first node of the second word.
 *
 * If the rule is surjective and there are n nodes, right * left = degree * n, right_multiplier = n / left, and
 * left_multiplier = n / right. If the rule is also open, each configuration has `degree` preimages.
 */
struct ca_rule_degree {
    uint8_t fault;            /* an enum ca_fault; if it isn't CA_FAULT_NONE, all other fields are 0 */
    uint8_t degree;           /* the least number of preimages of a periodic configuration; 0 if the rule isn't surjective */
    uint8_t right;            /* the least number of last nodes that a word has; 0 if the rule isn't surjective */
    uint8_t left;             /* the least number of first nodes that a word has; 0 if the rule isn't surjective */
    uint8_t right_multiplier; /* the greatest number of last nodes of the preimages of a word that begin with one node;
                                 0 if the rule isn't surjective */
    uint8_t left_multiplier;  /* the same for the mirrored rule */
    uint16_t right_nodes;     /* the last nodes of right_word: bit u is the node with the value u */
    uint16_t left_nodes;      /* the first nodes of left_word */
    uint8_t reserved[6];      /* zeros */
    struct ca_row right_word; /* the least word with `right` last nodes; the least orphan if the rule isn't surjective */
    struct ca_row left_word;  /* the word with `left` first nodes that is least if words are read from right to left */
};

/*
 * The sums that a rule keeps, for weights of words of range letters (docs/SUMS.md).
 *
 * The place of a word is its value: the number that its letters form in base states, with the leftmost letter as the most
 * significant digit. If a word doesn't begin with 0, its place has either a row or a ring. The place has a ring if its
 * entry in counts isn't 0. All other places have neither a row nor a ring. In C++ the function ca_kept_sums is called
 * ca::ca_kept_sums.
 */
struct ca_kept_sums {
    int64_t rows[CA_MOST_WORDS][CA_MOST_WORDS]; /* if the place has a row: the weights of the words. Otherwise zeros. The
                                                   first number of a row that isn't 0 is at the row's own place. This
                                                   number is positive, and all other rows have 0 at this place */
    uint8_t counts[CA_MOST_WORDS];              /* the number of letters of the ring, or 0 if the place has no ring */
    uint8_t rings[CA_MOST_WORDS][CA_MOST_RING_LETTERS]; /* the letters of the ring. The bytes after them mean nothing */
};

/*
 * The configurations that a rule only moves by some number of cells: their windows, and the least ring that repeats to such a
 * configuration.
 */
struct ca_moved_configs {
    uint16_t rows[CA_MOST_NODES]; /* the windows that occur in these configurations. Bit a of rows[u] is 1 if the window
                                     occurs whose first width - 1 letters have the value u and whose last letter is a. All
                                     other bits are 0 */
    uint8_t ring[CA_MOST_NODES];  /* the letters of the least ring: the shortest, and among the shortest the first in
                                     dictionary order. Then zeros */
    uint8_t length;               /* the number of letters of the ring, or 0 if there is no such configuration */
};

/* A rule. Its fields are the arguments that the calls below need. */
struct ca_rule {
    uint8_t states;
    uint8_t width;
    int8_t offset;
    uint16_t table_length;
    uint8_t table[CA_MOST_WINDOWS]; /* the letter for each window, by the window's value, and then zeros */
};

/*
 * Reads the text of a rule. docs/COMMANDS.md describes these texts. For example, "110", "2:3:-1:w110" and
 * "2:3:-1:t01110110" are the same rule.
 *
 * If the text is a rule, it returns CA_FAULT_NONE and fills *rule. Otherwise it doesn't change *rule, and returns the first
 * of these faults that applies: CA_FAULT_FORM, CA_FAULT_STATES to CA_FAULT_OFFSET, CA_FAULT_KIND, CA_FAULT_LENGTH,
 * CA_FAULT_LETTER, CA_FAULT_NUMBER.
 */
uint8_t ca_rule_of(const uint8_t *text, size_t text_length, struct ca_rule *rule);

/* Reads the text of a rule by ca_rule_of. The text has a 0 byte after it. */
static inline uint8_t ca_read_rule(const char *text, struct ca_rule *rule)
{
    return ca_rule_of((const uint8_t *)text, strlen(text), rule);
}

/* Returns the version of the interface of the linked library. */
uint32_t ca_version(void);

/*
 * A room: memory of some 17 MB, which ca_run_in, ca_report_in and ca_degree_in use again and again. So a call over a room
 * takes less time. ca_room_new makes a room, and ca_room_free drops it. No result depends on earlier calls over the room. A
 * room serves one call at a time, so make one for each thread. Don't read or write its fields, and don't copy it.
 *
 * Without ca_room_new, begin with {false, NULL}, which is a closed room: a room without memory. ca_room_open opens it, and
 * ca_room_close closes it and frees its memory.
 */
struct ca_room {
    bool is_open;
    void *memory;
};

/* Opens a room. If it is open already, its memory is freed once there is new memory. Returns CA_CODE_DONE, or CA_CODE_MEMORY if
 * there is no memory. With CA_CODE_MEMORY the room stays as it was. */
uint8_t ca_room_open(struct ca_room *room);

/* Closes a room. Nothing happens if the room is closed already. */
void ca_room_close(struct ca_room *room);

/* Makes a room and opens it. Returns NULL if there is no memory. */
static inline struct ca_room *ca_room_new(void)
{
    struct ca_room *const room = (struct ca_room *)malloc(sizeof *room);
    if (room != NULL) {
        room->is_open = false;
        room->memory = NULL;
        if (ca_room_open(room) != CA_CODE_DONE) {
            free(room);
            return NULL;
        }
    }
    return room;
}

/* Closes a room of ca_room_new and frees it. Nothing happens if room is NULL. */
static inline void ca_room_free(struct ca_room *room)
{
    if (room != NULL) {
        ca_room_close(room);
        free(room);
    }
}

/*
 * Carries out a command, as the program ca does.
 *
 * words has the words of the command line without the name of the program. Each word is in UTF-8, with one 0 byte after it:
 * "orphan\0" "110\0" are 11 bytes. If words_length is 0, there are no words. docs/COMMANDS.md describes the commands and their
 * outputs.
 *
 * input is the certificate for the command check. All other commands don't read input.
 *
 * It returns an enum ca_code, and always sets *length:
 *
 *   up to CA_CODE_TOO_LONG  The first *length bytes of the buffer output have the output of the command, without a 0 byte
 *                           after it. The other bytes of the buffer don't change.
 *   CA_CODE_SHORT           The output has *length bytes, which are more than room. The buffer doesn't change. A second call
 *                           with enough room computes the output again.
 *   CA_CODE_MEMORY and CA_CODE_NO_WORDS
 *                           *length is 0, and the buffer doesn't change.
 */
uint8_t ca_run(const uint8_t *words, size_t words_length, const uint8_t *input, size_t input_length,
               uint8_t *output, size_t room, size_t *length);

/*
 * Carries out a command as ca_run does, over a room. Only certify, brief, classes and check can return
 * CA_CODE_MEMORY. If the room is closed, it returns CA_CODE_NO_ROOM, *length is 0, and the buffer doesn't change.
 */
uint8_t ca_run_in(struct ca_room *room, const uint8_t *words, size_t words_length, const uint8_t *input,
                  size_t input_length, uint8_t *output, size_t output_room, size_t *length);

/*
 * Carries out a command as ca_run does, but writes the reply as JSON: one object in ASCII, without blanks and without a
 * line end. docs/ANSWERS.md describes it. The value of its key "status" is "done", "refused", "usage", "rulefault",
 * "notfit" or "toolong", for the codes 0 to 5. The codes, *length and the buffer have the same meaning as for ca_run.
 */
uint8_t ca_run_json(const uint8_t *words, size_t words_length, const uint8_t *input, size_t input_length,
                    uint8_t *output, size_t room, size_t *length);

/*
 * Decides the verdicts of a rule, and needs no memory. Each letter weighs its own value.
 *
 * The rule has the letters 0 to states - 1. Cell i of an image has the letter that the table gives for the window of the
 * cells i to i + width - 1. table has one byte for each window, in the order of the values of the windows. The value of a
 * window is the number that its letters form in base states. The leftmost letter is the most significant digit.
 */
struct ca_rule_verdicts ca_verdicts(uint8_t states, uint8_t width, const uint8_t *table,
                                    size_t table_length);

/*
 * Returns the report of a rule as numbers and letters. The command `decide` of docs/COMMANDS.md prints the same report.
 *
 * The rule is given as for ca_verdicts, but the window of cell i begins at cell i + offset. offset must be at least -16, and
 * offset + width - 1 must be at most 16. weights has the weight of each letter, beginning with the letter 0. If
 * weights_length is 0, each letter weighs its own value.
 *
 * It returns CA_CODE_DONE, CA_CODE_SHORT or CA_CODE_MEMORY, and always sets *length:
 *
 *   CA_CODE_DONE    *report is filled. The first *length bytes of the buffer letters have the letters of the report's words,
 *                   one byte for each letter. The other bytes of the buffer don't change. If the rule or the weights have a
 *                   fault, there is no report. Then the field fault of *report is the first of CA_FAULT_STATES to
 *                   CA_FAULT_LETTER and CA_FAULT_WEIGHTS that applies, and *length is 0.
 *   CA_CODE_SHORT   The words have *length letters together, which are more than room. *report and the buffer don't change.
 *                   A second call with enough room computes the report again. docs/COMMANDS.md says how long each word can
 *                   be. CA_MOST_REPORT_LETTERS letters are enough for every rule.
 *   CA_CODE_MEMORY  *length is 0, and *report and the buffer don't change.
 *
 * Test report->fault too: if the rule has a fault, the code is still CA_CODE_DONE, and all verdicts of the report are 0.
 */
#ifdef __cplusplus
namespace ca {
#endif
uint8_t ca_report(uint8_t states, uint8_t width, int8_t offset, const uint8_t *table, size_t table_length,
                  const uint8_t *weights, size_t weights_length, struct ca_report *report, uint8_t *letters,
                  size_t room, size_t *length);
#ifdef __cplusplus
}
#endif

/*
 * Returns the report of a rule as ca_report does, over a room. It never returns CA_CODE_MEMORY. If the room is closed, it
 * returns CA_CODE_NO_ROOM, *length is 0, and *report and the buffer don't change.
 */
uint8_t ca_report_in(struct ca_room *room, uint8_t states, uint8_t width, int8_t offset, const uint8_t *table,
                     size_t table_length, const uint8_t *weights, size_t weights_length, struct ca_report *report,
                     uint8_t *letters, size_t letters_room, size_t *length);

/*
 * Returns the degree of a rule, its multipliers, and the words with the fewest last and first nodes. The rule is given as for
 * ca_report. The memory of the call is some 1 MB.
 *
 * It returns CA_CODE_DONE, CA_CODE_SHORT or CA_CODE_MEMORY, and always sets *length:
 *
 *   CA_CODE_DONE    *degree is filled. The first *length bytes of the buffer letters have the letters of right_word and then
 *                   of left_word. The other bytes of the buffer don't change. If the rule has a fault, the field fault of
 *                   *degree is the first of CA_FAULT_STATES to CA_FAULT_LETTER that applies, and *length is 0.
 *   CA_CODE_SHORT   The words have *length letters together, which are more than room. *degree and the buffer don't change.
 *                   CA_MOST_DEGREE_LETTERS letters are enough for every rule.
 *   CA_CODE_MEMORY  *length is 0, and *degree and the buffer don't change.
 */
uint8_t ca_degree(uint8_t states, uint8_t width, int8_t offset, const uint8_t *table, size_t table_length,
                  struct ca_rule_degree *degree, uint8_t *letters, size_t room, size_t *length);

/*
 * Returns the degree of a rule as ca_degree does, over a room. It never returns CA_CODE_MEMORY. If the room is closed, it
 * returns CA_CODE_NO_ROOM, *length is 0, and *degree and the buffer don't change.
 */
uint8_t ca_degree_in(struct ca_room *room, uint8_t states, uint8_t width, int8_t offset, const uint8_t *table,
                     size_t table_length, struct ca_rule_degree *degree, uint8_t *letters, size_t letters_room,
                     size_t *length);

/*
 * Applies a rule once to a configuration, writes letters of the image, and needs no memory. With this call you can check the
 * evidence of a report by hand. The rule is given as for ca_report.
 *
 * The middle of the configuration begins at cell 0. To the right of the middle the letters of right are repeated without
 * end, and to the left of it the letters of left. The call writes count letters: letter i is the letter of the image at
 * cell first + i. The image of a periodic configuration is periodic too. To get the image as a configuration, ask for one
 * period on each side, and for the cells between them whose windows meet the middle.
 *
 * If there is no fault, it returns CA_FAULT_NONE. Otherwise it returns the first of CA_FAULT_STATES to CA_FAULT_LETTER,
 * CA_FAULT_PERIOD, CA_FAULT_CELL and CA_FAULT_PLACE that applies, and letters doesn't change. The call looks at each letter
 * of the configuration once, and then at one window for each letter of the image.
 */
uint8_t ca_image(uint8_t states, uint8_t width, int8_t offset, const uint8_t *table, size_t table_length,
                 const uint8_t *left, size_t left_length, const uint8_t *middle, size_t middle_length,
                 const uint8_t *right, size_t right_length, int64_t first, uint8_t *letters, size_t count);

/*
 * Writes the image of a ring by ca_image. The image has ring_length letters. Letter i is the letter for the window that
 * begins at place i + offset, counted around the ring. The ring is passed as a configuration: both periods are the ring,
 * and the middle is empty.
 */
static inline uint8_t ca_ring_image(uint8_t states, uint8_t width, int8_t offset, const uint8_t *table,
                                    size_t table_length, const uint8_t *ring, size_t ring_length, uint8_t *letters)
{
    return ca_image(states, width, offset, table, table_length, ring, ring_length, NULL, 0, ring, ring_length, 0,
                    letters, ring_length);
}

/*
 * Writes the image of a word by ca_image. The image has one letter for each window of the word, which are width - 1 letters
 * fewer than the word has. If the word has fewer letters than width, the image has no letter.
 */
static inline uint8_t ca_word_image(uint8_t states, uint8_t width, const uint8_t *table, size_t table_length,
                                    const uint8_t *word, size_t word_length, uint8_t *letters)
{
    const uint8_t zero = 0;
    return ca_image(states, width, 0, table, table_length, &zero, 1, word, word_length, &zero, 1, 0, letters,
                    word_length < width ? 0 : word_length - width + 1);
}

/*
 * Decides the verdicts of many rules with consecutive numbers, and needs no memory.
 *
 * The number of the first rule is first_high * 2^64 + first_low, and there is one rule for each byte. Byte i gets the
 * verdicts of rule i as a sum of enum ca_bit. The number of rule i is the first number plus i. All rules have the given
 * states, the given width, and the offset 0. To get the table of a rule, write the number of the rule in base states. The
 * letter at place v of the table is digit v, and digit 0 is the least significant digit.
 *
 * If there is no fault, it returns CA_FAULT_NONE. Otherwise it returns the first of CA_FAULT_STATES, CA_FAULT_WIDTH,
 * CA_FAULT_NODES, CA_FAULT_KIND and CA_FAULT_NUMBER that applies, and the bytes don't change. If bytes_length is 0, it
 * returns CA_FAULT_NONE.
 */
uint8_t ca_verdict_bytes(uint8_t states, uint8_t width, uint64_t first_high, uint64_t first_low,
                         uint8_t *bytes, size_t bytes_length);

/*
 * Writes an order of the windows, and needs no memory. With this order ca_next_rule finds rules with the given property
 * soon.
 *
 * property is a value of enum ca_bit. order has room for one byte for each window. The number of windows is states to the
 * power of width. The call writes the values of the windows. The order is the same in every call; docs/LISTS.md describes
 * it.
 *
 * If there is no fault, it returns CA_FAULT_NONE. Otherwise it returns the first of CA_FAULT_STATES, CA_FAULT_WIDTH,
 * CA_FAULT_NODES, CA_FAULT_PROPERTY and CA_FAULT_LENGTH that applies, and order doesn't change.
 */
uint8_t ca_window_order(uint8_t property, uint8_t states, uint8_t width, uint8_t *order,
                        size_t order_length);

/*
 * Finds the next rule of a shape that has a property, and needs no memory.
 *
 * Rules come in dictionary order of their tables. For this, a table is read in the order of the windows that the caller
 * passes. This may be the order of ca_window_order, or any other order that has each window once. If after is 0, the call
 * finds the first rule. Otherwise it finds the first rule after the given table. The given table needn't have the property.
 * So this loop finds each rule once:
 *
 *     uint8_t order[27], table[27] = {0};
 *     ca_window_order(CA_BIT_INJECTIVE, 3, 3, order, 27);
 *     for (int after = 0; ca_next_rule(CA_BIT_INJECTIVE, 3, 3, order, 27, NULL, 0, after, table, 27)
 *                         == CA_FAULT_NONE; after = 1)
 *         print(table);
 *
 * after is a flag. Don't pass a count: the count 256 becomes 0 as a uint8_t, and then the call finds the first rule again.
 *
 * begin fixes the first begin_length letters of the table. The call finds only rules with these letters. If a byte of begin
 * isn't below states, the letter at its place is free. So you can ask for parts of a shape in parallel.
 *
 * Before the call, table must have a letter below states for each window. If you ask for the first rule, these may be any
 * letters. If the call finds a rule, it returns CA_FAULT_NONE, and table has the table of this rule. Otherwise it returns
 * the first of CA_FAULT_STATES, CA_FAULT_WIDTH, CA_FAULT_NODES, CA_FAULT_LENGTH, CA_FAULT_LETTER, CA_FAULT_PROPERTY,
 * CA_FAULT_ORDER, CA_FAULT_BEGIN and CA_FAULT_NO_RULE that applies, and table doesn't change. docs/LISTS.md says for which
 * shapes lists were made. For many other shapes, a call takes longer than anyone can wait, and nothing can interrupt it.
 */
uint8_t ca_next_rule(uint8_t property, uint8_t states, uint8_t width, const uint8_t *order,
                     size_t order_length, const uint8_t *begin, size_t begin_length, uint8_t after,
                     uint8_t *table, size_t table_length);

/*
 * Finds all sums that a rule keeps, and needs no memory. The rule is given as for ca_verdicts.
 *
 * Each word of range letters has an integer as its weight. The sum on a ring adds up the weights of the words that begin at
 * each place of the ring. A rule keeps the sum if each ring, however long, has the same sum as its image. A sum is trivial
 * if there are a number c and a function phi such that each word weighs c + phi(its first range - 1 letters) - phi(its last
 * range - 1 letters). Then the sum on a ring is c times its number of letters, so every rule keeps a trivial sum. For each
 * sum that the rule keeps, some multiple is an integer combination of the rows, plus a trivial sum. The rings prove that
 * the rule keeps no other sums: if a sum is the same on each of these rings as on its image, some multiple of this sum is
 * such a combination too.
 *
 * If there is no fault, it returns CA_FAULT_NONE. Otherwise it returns the first of CA_FAULT_STATES to CA_FAULT_NODES,
 * CA_FAULT_LENGTH, CA_FAULT_LETTER, CA_FAULT_RANGE and CA_FAULT_WORDS that applies, and *sums doesn't change.
 */
#ifdef __cplusplus
namespace ca {
#endif
uint8_t ca_kept_sums(uint8_t states, uint8_t width, const uint8_t *table, size_t table_length, uint8_t range,
                     struct ca_kept_sums *sums);
#ifdef __cplusplus
}
#endif

/*
 * Finds the flux of a sum, which proves that the rule keeps the sum, and needs no memory. The rule is given as for
 * ca_verdicts. weights has the weight of each word of range letters, at the place of the word's value. For example, you can
 * pass a row of struct ca_kept_sums. The call doesn't look at the weights after the weight of the last word.
 *
 * A flux F has a number F(u) for each word u of width + range - 2 letters. The flux meets one condition for each word w of
 * width + range - 1 letters: the weight of the image of w, minus the weight of the first range letters of w, is F(w without
 * its last letter) - F(w without its first letter). Only one flux is 0 for the word of zeros. The call writes this flux
 * into numbers: the number of each word at the place of the word's value, and then zeros.
 *
 * If the rule keeps the sum, it returns CA_FAULT_NONE. Otherwise it returns the first of CA_FAULT_STATES to CA_FAULT_NODES,
 * CA_FAULT_LENGTH, CA_FAULT_LETTER, CA_FAULT_RANGE, CA_FAULT_WORDS, CA_FAULT_WEIGHT and CA_FAULT_LOST that applies, and
 * numbers doesn't change.
 */
uint8_t ca_flux(uint8_t states, uint8_t width, const uint8_t *table, size_t table_length, uint8_t range,
                const int64_t weights[CA_MOST_WORDS], int64_t numbers[CA_MOST_FLUX]);

/*
 * Finds the configurations that a rule only moves by so many cells, and needs no memory. The rule is given as for ca_report.
 *
 * A rule only moves a configuration by by cells if each cell i of the image has the letter of cell i + by of the
 * configuration. If by is 0, the rule leaves the configuration as it is. If by is -1, each step moves it one cell to the
 * right. A configuration is moved so if and only if all of its windows are in rows, and each window in rows occurs in some
 * configuration that is moved so. If there is any such configuration, there is a ring of at most CA_MOST_NODES letters.
 *
 * If there is no fault, it returns CA_FAULT_NONE. Otherwise it returns the first of CA_FAULT_STATES to CA_FAULT_LETTER and
 * CA_FAULT_BY that applies, and *moved doesn't change. CA_FAULT_BY applies if by isn't from offset to offset + width - 1.
 */
uint8_t ca_moved(uint8_t states, uint8_t width, int8_t offset, const uint8_t *table, size_t table_length, int8_t by,
                 struct ca_moved_configs *moved);

#ifdef __cplusplus
}
#endif

#endif
