/*
 * How long the degree of a rule takes, and for comparison its report.
 *
 *     ./library                      # prints where the static library is
 *     cc -std=c11 -O2 -Iinclude bench/degrees.c crates/ca_c/out/library/libca_c.a -o /tmp/degrees
 *     /tmp/degrees degree 1 RULE     # or: report 1 RULE; none 1 RULE
 *
 * It makes as many calls over one room as the number says, and prints the letters of the last answer and the seconds. To count
 * instructions, run it by `valgrind --tool=callgrind`, and take away those of `none`.
 */
#define _POSIX_C_SOURCE 200809L
#include "ca.h"

#include <stdio.h>
#include <string.h>
#include <time.h>

int main(int count, char **words)
{
    static struct ca_report report;
    static struct ca_rule_degree degree;
    static uint8_t letters[CA_MOST_DEGREE_LETTERS];
    struct ca_room *const room = ca_room_new();
    struct ca_rule rule;
    struct timespec begin, end;
    size_t length = 0;
    if (count != 4 || room == NULL || ca_read_rule(words[3], &rule) != CA_FAULT_NONE)
        return 2;
    clock_gettime(CLOCK_MONOTONIC, &begin);
    for (long calls = strtol(words[2], NULL, 10); calls > 0 && strcmp(words[1], "none") != 0; calls--) {
        const uint8_t code =
            strcmp(words[1], "degree") == 0
                ? ca_degree_in(room, rule.states, rule.width, rule.offset, rule.table, rule.table_length, &degree, letters,
                               sizeof letters, &length)
                : ca_report_in(room, rule.states, rule.width, rule.offset, rule.table, rule.table_length, NULL, 0, &report, letters,
                               sizeof letters, &length);
        if (code != CA_CODE_DONE)
            return 1;
    }
    clock_gettime(CLOCK_MONOTONIC, &end);
    ca_room_free(room);
    printf("degree %d, right %d, left %d, %zu letters, %.4f seconds\n", degree.degree, degree.right, degree.left, length,
           (double)(end.tv_sec - begin.tv_sec) + (double)(end.tv_nsec - begin.tv_nsec) / 1e9);
    return 0;
}
