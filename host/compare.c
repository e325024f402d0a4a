/*
 * Nanoseconds per request of two versions of the library in one process: before_request is
 * storage_unit_request of the older one, renamed. Batches of requests, at random addresses and
 * lengths, go to both in turns, the same to both. They are long, and new in each turn, so that the
 * processor cannot learn their branches. The medians of the batches and the median of the ratios of
 * neighbouring batches are printed. host/compare builds and runs it.
 */
#define _POSIX_C_SOURCE 199309L
#include "storage_unit.h"

#include <stdio.h>
#include <stdlib.h>
#include <string.h>
#include <time.h>

#define STORAGE_LENGTH 1048576u
#define REQUESTS       65536u
#define ROUNDS         51u

typedef uint64_t Function(uint32_t, uint8_t *, size_t, uint8_t *, size_t, uint8_t *, size_t, uint32_t,
                          uint32_t, uint32_t, uint32_t, uint8_t *, size_t);

Function before_request;

enum { ANYWHERE, ONE_UNIT, TWO_UNITS };

/* A kind of request. `count` 0 is a random count; `number` is what each answers with, or KEYED. */
struct row {
    const char *name;
    uint32_t settings;
    uint32_t operation;
    uint32_t count;
    int place;
    uint8_t psw_key;
    uint32_t number;
};

#define DONE STORAGE_UNIT_NUMBER_COMPLETED
#define KEYED UINT32_MAX /* completed, or refused by the key */
#define K2   STORAGE_UNIT_EXTENSIONS
#define K4   (STORAGE_UNIT_EXTENSIONS | STORAGE_UNIT_4K)

static const struct row rows[] = {
    {"fetch 4 bytes", K2, STORAGE_UNIT_FETCH, 4, ONE_UNIT, 8, DONE},
    {"fetch 16 bytes", K2, STORAGE_UNIT_FETCH, 16, ONE_UNIT, 8, DONE},
    {"fetch 256 bytes", K2, STORAGE_UNIT_FETCH, 256, ONE_UNIT, 8, DONE},
    {"fetch 1 to 256 bytes", K2, STORAGE_UNIT_FETCH, 0, ANYWHERE, 8, DONE},
    {"fetch 256 bytes over two units", K2, STORAGE_UNIT_FETCH, 256, TWO_UNITS, 8, DONE},
    {"store 4 bytes", K2, STORAGE_UNIT_STORE, 4, ONE_UNIT, 8, DONE},
    {"store 16 bytes", K2, STORAGE_UNIT_STORE, 16, ONE_UNIT, 8, DONE},
    {"store 256 bytes", K2, STORAGE_UNIT_STORE, 256, ONE_UNIT, 8, DONE},
    {"store 1 to 256 bytes", K2, STORAGE_UNIT_STORE, 0, ANYWHERE, 8, DONE},
    {"store 256 bytes over two units", K2, STORAGE_UNIT_STORE, 256, TWO_UNITS, 8, DONE},
    {"store 16 bytes, refused", K2, STORAGE_UNIT_STORE, 16, ONE_UNIT, 3, STORAGE_UNIT_NUMBER_PROTECTION},
    {"fetch 16 bytes, random keys", K2, STORAGE_UNIT_FETCH, 16, ONE_UNIT, 8, KEYED},
    {"store 16 bytes, random keys", K2, STORAGE_UNIT_STORE, 16, ONE_UNIT, 8, KEYED},
    {"ISK", K2, STORAGE_UNIT_ISK, 0, ANYWHERE, 8, DONE},
    {"SSK", K2, STORAGE_UNIT_SSK, 0, ANYWHERE, 8, DONE},
    {"RRB", K2, STORAGE_UNIT_RRB, 0, ANYWHERE, 8, DONE},
    {"ISKE", K2, STORAGE_UNIT_ISKE, 0, ANYWHERE, 8, DONE},
    {"SSKE", K2, STORAGE_UNIT_SSKE, 0, ANYWHERE, 8, DONE},
    {"RRBE", K2, STORAGE_UNIT_RRBE, 0, ANYWHERE, 8, DONE},
    {"ISK, 4K units", K4, STORAGE_UNIT_ISK, 0, ANYWHERE, 8, DONE},
    {"RRB, 4K units", K4, STORAGE_UNIT_RRB, 0, ANYWHERE, 8, DONE},
    {"ISKE, 4K units", K4, STORAGE_UNIT_ISKE, 0, ANYWHERE, 8, DONE},
    {"RRBE, 4K units", K4, STORAGE_UNIT_RRBE, 0, ANYWHERE, 8, DONE},
    {"SET PREFIX", K2, STORAGE_UNIT_SET_PREFIX, 0, ANYWHERE, 8, DONE},
    {"STORE PREFIX", K2, STORAGE_UNIT_STORE_PREFIX, 0, ANYWHERE, 8, DONE},
};

static uint8_t storage[STORAGE_LENGTH];
static uint8_t keys[STORAGE_LENGTH / STORAGE_UNIT_KEY_UNIT_2K];
static uint8_t records[STORAGE_UNIT_RECORDS_LENGTH];
static uint8_t buffer[STORAGE_UNIT_ACCESS_MAXIMUM];
static uint32_t first[REQUESTS];
static uint32_t second[REQUESTS];

/* A random number below `bound`, by a generator of 64 bits (xorshift). */
static uint32_t below(uint32_t bound)
{
    static uint64_t state = UINT64_C(88172645463325252);

    state ^= state << 13;
    state ^= state >> 7;
    state ^= state << 17;
    return (uint32_t)(state >> 32) % bound;
}

static uint32_t address_of(const struct row *row, uint32_t count)
{
    uint32_t unit = STORAGE_UNIT_KEY_UNIT_2K;

    switch (row->place) {
    case ONE_UNIT:
        return below(STORAGE_LENGTH / unit) * unit + below(unit - count + 1);
    case TWO_UNITS:
        return (below(STORAGE_LENGTH / unit - 1) + 1) * unit - 1 - below(count - 1);
    default:
        return below(STORAGE_LENGTH - count + 1);
    }
}

/* The operands of request i. A key instruction has any R1 and an address whose last four bits are zero. */
static void make(const struct row *row, size_t i)
{
    uint32_t count = row->count != 0 ? row->count : below(STORAGE_UNIT_ACCESS_MAXIMUM) + 1;

    switch (row->operation) {
    case STORAGE_UNIT_FETCH:
    case STORAGE_UNIT_STORE:
        first[i] = address_of(row, count);
        second[i] = count;
        break;
    case STORAGE_UNIT_SET_PREFIX:
        first[i] = below(STORAGE_LENGTH);
        second[i] = 0;
        break;
    default:
        first[i] = below(UINT32_MAX);
        second[i] = below(STORAGE_LENGTH) & ~UINT32_C(15);
    }
}

/*
 * Keys with access control 8, random in reference and change bit; where keys decide, in the
 * fetch-protection bit too, and half of them with access control 9.
 */
static void make_keys(const struct row *row)
{
    uint32_t random_bits = row->number == KEYED ? 0x1E : 0x06;
    size_t i;

    for (i = 0; i < sizeof keys; i++) {
        keys[i] = (uint8_t)(0x80 | (below(32) & random_bits));
    }
}

/* Keys, requests, and processor 0 with prefix 65,536 and CR0 bit 7 one. */
static void start(const struct row *row)
{
    size_t i;

    make_keys(row);
    for (i = 0; i < REQUESTS; i++) {
        make(row, i);
    }
    memset(records, 0, sizeof records);
    storage_unit_put_record(records, row->psw_key, STORAGE_UNIT_KEY_CONTROL, 0, 65536);
}

static double now(void)
{
    struct timespec time;

    clock_gettime(CLOCK_MONOTONIC, &time);
    return (double)time.tv_sec * 1e9 + (double)time.tv_nsec;
}

/* An answer with this number is one that the row asks for. */
static int expected(const struct row *row, uint32_t number)
{
    if (row->number == KEYED) {
        return number == DONE || number == STORAGE_UNIT_NUMBER_PROTECTION;
    }
    return number == row->number;
}

/* Nanoseconds for each request of a batch. Every answer is one that its row asks for. */
static double batch(Function *function, const struct row *row)
{
    size_t key_count = storage_unit_key_count(row->settings, STORAGE_LENGTH);
    size_t other = 0;
    double begun = now(), ended;
    size_t i;

    for (i = 0; i < REQUESTS; i++) {
        uint64_t answer = function(row->settings, storage, sizeof storage, keys, key_count, records,
                                   sizeof records, 0, row->operation, first[i], second[i], buffer,
                                   sizeof buffer);
        other += !expected(row, storage_unit_number(answer));
    }
    ended = now();
    if (other != 0) {
        fprintf(stderr, "%s: %zu answers of another number\n", row->name, other);
        exit(1);
    }
    return (ended - begun) / REQUESTS;
}

static int by_size(const void *a, const void *b)
{
    double x = *(const double *)a, y = *(const double *)b;

    return (x > y) - (x < y);
}

static double median(double *values)
{
    qsort(values, ROUNDS, sizeof *values, by_size);
    return values[ROUNDS / 2];
}

static void compare(const struct row *row)
{
    static double before[ROUNDS], after[ROUNDS], ratio[ROUNDS];
    size_t i;

    for (i = 0; i < ROUNDS; i++) {
        start(row);
        if (i % 2 == 0) {
            before[i] = batch(before_request, row);
        }
        after[i] = batch(storage_unit_request, row);
        if (i % 2 != 0) {
            before[i] = batch(before_request, row);
        }
        ratio[i] = after[i] / before[i];
    }
    printf("%-34s%8.2f%8.2f%8.3f\n", row->name, median(before), median(after), median(ratio));
}

int main(void)
{
    size_t i;

    printf("%-34s%8s%8s%8s\n", "nanoseconds per request", "before", "after", "ratio");
    for (i = 0; i < sizeof rows / sizeof rows[0]; i++) {
        compare(&rows[i]);
    }
    return 0;
}
