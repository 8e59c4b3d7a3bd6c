/* Runs command lines over one room while every request for memory is refused. Each line of standard input has the words of a
 * command line, with a tab between two words. The code and the output must be those of a call without a room, made before, and no
 * memory may be asked for. Afterwards `certify` must be refused memory. The last line has the counts. */
#include "ca.h"

#include <stdio.h>
#include <stdlib.h>
#include <string.h>

void *__libc_malloc(size_t size);
void *__libc_realloc(void *block, size_t size);

enum { LINE = 16384, OUTPUT = 7000000 };

static bool refuses;
static long requests;
static int passed;
static int failed;

void *malloc(size_t size)
{
    requests++;
    return refuses ? NULL : __libc_malloc(size);
}

void *realloc(void *block, size_t size)
{
    requests++;
    return refuses ? NULL : __libc_realloc(block, size);
}

static void is(const char *name, bool holds)
{
    if (holds) {
        passed++;
    } else {
        failed++;
        fprintf(stderr, "library_memory: %s\n", name);
    }
}

/* Runs the command of a block over the room while memory is refused, and returns the code. */
static uint8_t run_refused(struct ca_room *room, const uint8_t *words, size_t words_length, uint8_t *output, size_t *length)
{
    requests = 0;
    refuses = true;
    uint8_t code = ca_run_in(room, words, words_length, NULL, 0, output, OUTPUT, length);
    refuses = false;
    return code;
}

int main(void)
{
    static char line[LINE];
    static uint8_t words[LINE], wanted[OUTPUT], output[OUTPUT];
    static const uint8_t certify[] = "certify\0" "110";
    struct ca_room *const room = ca_room_new();
    size_t length, wanted_length;
    if (room == NULL)
        abort();
    while (fgets(line, sizeof line, stdin) != NULL) {
        size_t words_length = strcspn(line, "\n");
        line[words_length] = 0;
        for (size_t at = 0; at <= words_length; at++)
            words[at] = line[at] == '\t' ? 0 : (uint8_t)line[at];
        if (words_length > 0)
            words_length++;
        uint8_t code = ca_run(words, words_length, NULL, 0, wanted, OUTPUT, &wanted_length);
        is(line, run_refused(room, words, words_length, output, &length) == code && length == wanted_length
               && memcmp(output, wanted, length) == 0 && requests == 0);
    }
    is("certify needs memory", run_refused(room, certify, sizeof certify, output, &length) == CA_CODE_MEMORY && requests > 0);
    ca_room_free(room);
    printf("%d passed, %d failed\n", passed, failed);
    return failed != 0;
}
