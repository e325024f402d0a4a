/*
 * A channel reads a block of a tape into a region's 2K unit, under the region's key, and writes the
 * first record of it to a second tape. Under the key of another region the same program is refused.
 * Done CCW by CCW, a processor stores between two of them. A program that goes round by a transfer
 * in channel ends with the grant.
 */
#include "storage_unit.h"

#include <stdio.h>
#include <string.h>

#define STORAGE_LENGTH 65536u
#define PROGRAM        4096u /* the CCWs, in a unit that every key may fetch from */
#define REGION         8192u /* the region's unit */
#define REGION_KEY     8u
#define OTHER_KEY      9u

#define RECORD_LENGTH 80u
#define BLOCK_LENGTH  800u /* ten sample records */
#define SHOWN         12u  /* bytes shown of a record */

/* What this program owns and lends. */
static struct memory {
    uint8_t storage[STORAGE_LENGTH];
    uint8_t keys[STORAGE_LENGTH / STORAGE_UNIT_KEY_UNIT_2K];
    uint8_t records[STORAGE_UNIT_RECORDS_LENGTH];
} memory, before;

/* The block that comes from the tape, and room for what goes to the second tape. */
static uint8_t block[BLOCK_LENGTH];
static uint8_t second_tape[RECORD_LENGTH];

/* The sample records of the block: a number and points. */
static void make_block(void)
{
    unsigned number;

    memset(block, '.', sizeof block);
    for (number = 0; number < BLOCK_LENGTH / RECORD_LENGTH; number++) {
        char text[SHOWN + 1];

        snprintf(text, sizeof text, "SAMPLE %u", number % 100 + 1);
        memcpy(block + number * RECORD_LENGTH, text, strlen(text));
    }
}

/* A machine with 2K units, storage full of points, and the region's key on its unit. Processor 1
 * runs the region. */
static struct storage_unit_machine start(void)
{
    struct storage_unit_machine machine;

    machine.settings = 0;
    machine.storage = memory.storage;
    machine.storage_length = sizeof memory.storage;
    machine.keys = memory.keys;
    machine.keys_length = sizeof memory.keys;
    machine.records = memory.records;
    machine.records_length = sizeof memory.records;

    memset(memory.storage, '.', sizeof memory.storage);
    memset(memory.keys, 0, sizeof memory.keys);
    memset(memory.records, 0, sizeof memory.records);
    memset(second_tape, '.', sizeof second_tape);
    storage_unit_put_record(storage_unit_record(memory.records, 1), REGION_KEY,
                            STORAGE_UNIT_PROBLEM, 0, 0);
    storage_unit_ssk(&machine, 0, REGION_KEY << 4, REGION);
    return machine;
}

/* Two CCWs: the block into the region, and its first record to the second tape. */
static void put_copying(void)
{
    storage_unit_put_ccw(memory.storage + PROGRAM, STORAGE_UNIT_CCW_READ, REGION,
                         STORAGE_UNIT_CCW_CHAIN_COMMAND, BLOCK_LENGTH);
    storage_unit_put_ccw(memory.storage + PROGRAM + STORAGE_UNIT_CCW_LENGTH,
                         STORAGE_UNIT_CCW_WRITE, REGION, 0, RECORD_LENGTH);
}

/* Two CCWs that go round: the next record into the region, and back. */
static void put_round(void)
{
    storage_unit_put_ccw(memory.storage + PROGRAM, STORAGE_UNIT_CCW_READ, REGION,
                         STORAGE_UNIT_CCW_CHAIN_COMMAND, RECORD_LENGTH);
    storage_unit_put_ccw(memory.storage + PROGRAM + STORAGE_UNIT_CCW_LENGTH,
                         STORAGE_UNIT_CCW_TRANSFER, PROGRAM, 0, 0);
}

/* The program at PROGRAM with a key and a grant. */
static struct storage_unit_program program(uint32_t key, uint32_t grant)
{
    struct storage_unit_program made;

    made.key = key;
    made.first = PROGRAM;
    made.grant = grant;
    made.from = block;
    made.from_length = sizeof block;
    made.room = second_tape;
    made.room_length = sizeof second_tape;
    return made;
}

/* Prints an answer, and how far the program has come. */
static void report(uint64_t answer, const struct storage_unit_progress *progress)
{
    uint32_t number = storage_unit_number(answer);

    printf("%s (number %u)\n", storage_unit_channel_message(number), (unsigned)number);
    printf("    CCWs fetched: %u, bytes from the tape: %u, to the second tape: %u\n",
           (unsigned)progress->fetched, (unsigned)progress->taken, (unsigned)progress->given);
}

/* The key of the unit at an address. */
static void show_key(uint32_t address, const char *whose)
{
    uint8_t key = memory.keys[address / STORAGE_UNIT_KEY_UNIT_2K];

    printf("  the %s key has access control %u, reference bit %s, change bit %s\n", whose,
           (key & STORAGE_UNIT_KEY_ACCESS_CONTROL) >> 4,
           (key & STORAGE_UNIT_KEY_REFERENCE) != 0 ? "one" : "zero",
           (key & STORAGE_UNIT_KEY_CHANGE) != 0 ? "one" : "zero");
}

/* The first bytes of the region and of the second tape. */
static void show_bytes(void)
{
    printf("  the region begins with \"%.*s\", the second tape with \"%.*s\"\n", (int)SHOWN,
           (const char *)memory.storage + REGION, (int)SHOWN, (const char *)second_tape);
}

/* What has changed since `before`: the bytes of storage, and each key. */
static void show_changes(void)
{
    uint32_t unit;

    printf("  %s of storage has changed; keys that have:",
           memcmp(before.storage, memory.storage, sizeof before.storage) == 0 ? "no byte"
                                                                              : "SOMETHING");
    for (unit = 0; unit < sizeof memory.keys; unit++) {
        if (before.keys[unit] != memory.keys[unit]) {
            printf(" that of the unit at %u, from %02X to %02X",
                   (unsigned)(unit * STORAGE_UNIT_KEY_UNIT_2K), before.keys[unit],
                   memory.keys[unit]);
        }
    }
    printf("\n");
}

/* The whole program under a key. */
static void run_whole(uint32_t key)
{
    struct storage_unit_machine machine = start();
    struct storage_unit_program copying = program(key, STORAGE_UNIT_GRANT_MAXIMUM);
    struct storage_unit_progress progress;

    put_copying();
    before = memory;
    printf("The program under key %u: ", (unsigned)key);
    report(storage_unit_run_program(&machine, &copying, &progress), &progress);
    show_bytes();
}

/* The same CCW by CCW. Between the two, the region stores over what the second will write. */
static void run_steps(void)
{
    struct storage_unit_machine machine = start();
    struct storage_unit_program copying = program(REGION_KEY, STORAGE_UNIT_GRANT_MAXIMUM);
    struct storage_unit_progress progress;
    uint64_t answer;

    put_copying();
    memset(&progress, 0, sizeof progress);
    printf("Step by step under key %u:\n  first step: ", REGION_KEY);
    report(storage_unit_step_program(&machine, &copying, &progress), &progress);
    answer = storage_unit_store_bytes(&machine, 1, REGION, (const uint8_t *)"TESTED", 6);
    printf("  processor 1 stores \"TESTED\" at address %u: %s\n", REGION,
           storage_unit_message(storage_unit_number(answer)));
    printf("  second step: ");
    report(storage_unit_step_program(&machine, &copying, &progress), &progress);
    show_bytes();
}

/* The program that goes round, with six CCWs granted. */
static void run_round(void)
{
    struct storage_unit_machine machine = start();
    struct storage_unit_program going_round = program(REGION_KEY, 6);
    struct storage_unit_progress progress;

    put_round();
    printf("Going round, with a grant of %u: ", (unsigned)going_round.grant);
    report(storage_unit_run_program(&machine, &going_round, &progress), &progress);
    show_bytes();
}

int main(void)
{
    make_block();
    printf("A block of ten sample records, 800 bytes, is on a tape. The region with key 8 has the 2K\n"
           "unit from 8192 to 10239. Two CCWs at 4096 read the block to 8192, and write its first\n"
           "record, 80 bytes, to a second tape.\n\n");
    run_whole(REGION_KEY);
    show_key(REGION, "region's");
    show_key(PROGRAM, "CCWs'");
    printf("\n");
    run_whole(OTHER_KEY);
    show_changes();
    printf("The first CCW was fetched, as its unit's key says; the transfer of its data is forbidden.\n\n");
    run_steps();
    printf("What the second CCW wrote is what the processor had stored.\n\n");
    printf("Now two CCWs read one record to 8192 and go back, by a transfer in channel.\n\n");
    run_round();
    printf("Of six CCWs three were transfers in channel, and three records were read.\n");
    return 0;
}
