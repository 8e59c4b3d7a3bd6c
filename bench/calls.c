/*
 * Makes the calls of a file over one room, and prints how many bytes the answers have.
 *
 *     ./library                      # prints where the static library is
 *     cc -std=c11 -O2 -Iinclude bench/calls.c crates/ca_c/out/library/libca_c.a -o /tmp/calls
 *     /tmp/calls FILE
 *
 * Each line of the file is the words of one call, with one blank between two words. bench/calls counts the instructions.
 */
#include "ca.h"

#include <stdio.h>
#include <string.h>

int main(int count, char **names)
{
    static char words[4096];
    static uint8_t output[1 << 23];
    struct ca_room *const room = ca_room_new();
    FILE *const file = count == 2 ? fopen(names[1], "r") : NULL;
    size_t calls = 0, bytes = 0;
    if (room == NULL || file == NULL)
        return 2;
    while (fgets(words, sizeof words, file) != NULL) {
        const size_t letters = strcspn(words, "\n");
        size_t length = 0;
        for (size_t at = 0; at <= letters; at++)
            if (words[at] == ' ' || at == letters)
                words[at] = '\0';
        if (ca_run_in(room, (const uint8_t *)words, letters + 1, NULL, 0, output, sizeof output, &length) > CA_CODE_TOO_LONG)
            return 1;
        calls++;
        bytes += length;
    }
    fclose(file);
    ca_room_free(room);
    printf("%zu calls, %zu bytes\n", calls, bytes);
    return 0;
}
