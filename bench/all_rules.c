/*
 * How long all rules of a shape take, with how many of them have each property.
 *
 *     ./library                      # prints where the static library is
 *     cc -std=c11 -O2 -pthread -Iinclude bench/all_rules.c crates/ca_c/out/library/libca_c.a -o /tmp/all_rules
 *     /tmp/all_rules 2 5 1           # states, width, threads; a fourth operand is how many numbers, from 0 on
 *
 * Threads take pieces of 2^20 numbers in turn. It prints the totals, the seconds, and the nanoseconds of a
 * processor for a rule. No thread does anything but count the bytes of its pieces.
 */
#define _POSIX_C_SOURCE 200809L
#include "ca.h"

#include <pthread.h>
#include <stdatomic.h>
#include <stdio.h>
#include <stdlib.h>
#include <time.h>

enum { PIECE = 1 << 20, MOST_THREADS = 256, BITS = 6 };

static const char *const names[BITS] = {"surjective", "injective", "right", "left", "open", "conserving"};

static uint8_t states;
static uint8_t width;
static uint64_t rules;
static atomic_uint_fast64_t next;

/* How often each byte was given to one thread. */
struct part {
    uint64_t bytes[64];
};

static void *count_pieces(void *argument)
{
    struct part *part = argument;
    uint8_t *bytes = malloc(PIECE);
    if (bytes == NULL)
        abort();
    for (;;) {
        uint64_t first = atomic_fetch_add(&next, PIECE);
        if (first >= rules)
            break;
        size_t length = rules - first < PIECE ? (size_t)(rules - first) : PIECE;
        if (ca_verdict_bytes(states, width, 0, first, bytes, length) != CA_FAULT_NONE)
            abort();
        for (size_t at = 0; at < length; at++)
            part->bytes[bytes[at]]++;
    }
    free(bytes);
    return NULL;
}

/* How many rules of a shape there are, or 0 where there are none or more than 2^64 - 1. */
static uint64_t rules_of(unsigned k, unsigned m)
{
    uint8_t byte;
    if (k > 255 || m > 255 || ca_verdict_bytes((uint8_t)k, (uint8_t)m, 0, 0, &byte, 1) != CA_FAULT_NONE)
        return 0;
    uint64_t size = 1, count = 1;
    for (unsigned at = 0; at < m; at++)
        size *= k;
    for (uint64_t at = 0; at < size; at++) {
        if (count > UINT64_MAX / k)
            return 0;
        count *= k;
    }
    return count;
}

int main(int argc, char **argv)
{
    if (argc < 4 || argc > 5) {
        fprintf(stderr, "usage: all_rules STATES WIDTH THREADS [RULES]\n");
        return 2;
    }
    unsigned k = (unsigned)strtoul(argv[1], NULL, 10), m = (unsigned)strtoul(argv[2], NULL, 10);
    unsigned long threads = strtoul(argv[3], NULL, 10);
    rules = rules_of(k, m);
    if (argc == 5) {
        uint64_t asked = strtoull(argv[4], NULL, 10);
        rules = rules == 0 || asked < rules ? asked : rules;
    }
    if (rules == 0 || threads < 1 || threads > MOST_THREADS) {
        fprintf(stderr, "all_rules: no such rules, too many, or 1 to %d threads\n", MOST_THREADS);
        return 2;
    }
    states = (uint8_t)k;
    width = (uint8_t)m;
    static struct part parts[MOST_THREADS];
    pthread_t ids[MOST_THREADS];
    struct timespec begun, ended;
    clock_gettime(CLOCK_MONOTONIC, &begun);
    for (unsigned long at = 0; at < threads; at++)
        if (pthread_create(&ids[at], NULL, count_pieces, &parts[at]) != 0)
            abort();
    for (unsigned long at = 0; at < threads; at++)
        pthread_join(ids[at], NULL);
    clock_gettime(CLOCK_MONOTONIC, &ended);
    printf("rules %llu\n", (unsigned long long)rules);
    for (int bit = 0; bit < BITS; bit++) {
        uint64_t count = 0;
        for (unsigned long at = 0; at < threads; at++)
            for (unsigned byte = 0; byte < 64; byte++)
                if (byte >> bit & 1)
                    count += parts[at].bytes[byte];
        printf("%s %llu\n", names[bit], (unsigned long long)count);
    }
    double seconds = (double)(ended.tv_sec - begun.tv_sec) + (double)(ended.tv_nsec - begun.tv_nsec) / 1e9;
    printf("seconds %.2f\nnanoseconds a rule, of one processor %.1f\n", seconds, seconds * 1e9 * (double)threads / (double)rules);
    return 0;
}
