/*
 * How long reports of drawn elementary rules take, over one room and without one.
 *
 *     ./library                      # prints where the static library is
 *     cc -std=c11 -O2 -Iinclude bench/reports.c crates/ca_c/out/library/libca_c.a -o /tmp/reports
 *     /tmp/reports room 1000         # or: alone 1000
 *
 * It prints the sum of the letters of all reports, which is the same in both ways, and the seconds. To count instructions,
 * run it by `valgrind --tool=callgrind`.
 */
#define _POSIX_C_SOURCE 200809L
#include "ca.h"

#include <stdio.h>
#include <string.h>
#include <time.h>

int main(int count, char **words)
{
    static struct ca_report report;
    static uint8_t letters[CA_MOST_REPORT_LETTERS], table[8];
    const bool over = count == 3 && strcmp(words[1], "room") == 0;
    struct ca_room *const room = over ? ca_room_new() : NULL;
    const long calls = count == 3 ? strtol(words[2], NULL, 10) : 0;
    size_t length = 0, sum = 0;
    uint64_t state = 1;
    struct timespec begin, end;
    if (count != 3 || (over && room == NULL))
        return 2;
    clock_gettime(CLOCK_MONOTONIC, &begin);
    for (long call = 0; call < calls; call++) {
        uint8_t code;
        state = state * 6364136223846793005u + 1442695040888963407u;
        for (int at = 0; at < 8; at++)
            table[at] = (uint8_t)(state >> (40 + at) & 1);
        code = over ? ca_report_in(room, 2, 3, -1, table, 8, NULL, 0, &report, letters, sizeof letters, &length)
                    : ca_report(2, 3, -1, table, 8, NULL, 0, &report, letters, sizeof letters, &length);
        if (code != CA_CODE_DONE)
            return 1;
        for (size_t at = 0; at < length; at++)
            sum += letters[at] + 1u;
    }
    clock_gettime(CLOCK_MONOTONIC, &end);
    ca_room_free(room);
    printf("%zu letters and ones, %.3f seconds\n", sum,
           (double)(end.tv_sec - begin.tv_sec) + (double)(end.tv_nsec - begin.tv_nsec) / 1e9);
    return 0;
}
