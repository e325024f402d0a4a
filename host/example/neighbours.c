/*
 * A job that stores past the end of its region. The same four requests are made on a machine with 2K
 * key units, where the job's store is refused, and on one with 4K key units, where a single key covers
 * the job's region and its neighbour's, and the store overwrites the neighbour's bytes.
 */
#include "storage_unit.h"

#include <stdio.h>
#include <string.h>

#define STORAGE_LENGTH  65536u
#define JOB_BLOCK       8192u  /* the job's 2K block */
#define NEIGHBOUR_BLOCK 10240u /* the next one, its neighbour's */
#define SHOWN           8u     /* bytes shown on each side of the boundary */

/* Processor 0 runs the control program, processor 1 the regions. */
enum { CONTROL_PROGRAM, REGIONS };

/* What this program owns and lends to each request. Half of the keys serve 4K units. */
static struct memory {
    uint8_t storage[STORAGE_LENGTH];
    uint8_t keys[STORAGE_LENGTH / STORAGE_UNIT_KEY_UNIT_2K];
    uint8_t records[STORAGE_UNIT_RECORDS_LENGTH];
} memory, before;

/* A machine with these settings, its storage full of points. */
static struct storage_unit_machine start(uint32_t settings)
{
    struct storage_unit_machine machine;

    machine.settings = settings;
    machine.storage = memory.storage;
    machine.storage_length = sizeof memory.storage;
    machine.keys = memory.keys;
    machine.keys_length = storage_unit_key_count(settings, sizeof memory.storage);
    machine.records = memory.records;
    machine.records_length = sizeof memory.records;

    memset(memory.storage, '.', sizeof memory.storage);
    memset(memory.keys, 0, sizeof memory.keys);
    storage_unit_put_record(storage_unit_record(memory.records, CONTROL_PROGRAM), 0,
                            STORAGE_UNIT_KEY_CONTROL, 0, 0);
    storage_unit_put_record(storage_unit_record(memory.records, REGIONS), 0,
                            STORAGE_UNIT_PROBLEM, 0, 0);
    return machine;
}

/* Prints an answer. `address` is that of the request, and `before` what it found. */
static void report(uint64_t answer, uint32_t address)
{
    uint32_t number = storage_unit_number(answer);
    uint32_t place = storage_unit_place(answer);

    if (number == STORAGE_UNIT_NUMBER_COMPLETED) {
        printf("%s\n", storage_unit_message(number));
        return;
    }
    printf("refused\n    %s (number %u)", storage_unit_message(number), (unsigned)number);
    if (number == STORAGE_UNIT_NUMBER_PROTECTION || number == STORAGE_UNIT_NUMBER_ADDRESSING) {
        printf(", first at place %u, which is address %u", (unsigned)place,
               (unsigned)(address + place));
    }
    printf("\n    %s of storage, keys and records has changed\n",
           memcmp(&before, &memory, sizeof before) == 0 ? "no byte" : "SOMETHING");
}

/* The control program sets the access control of a block. */
static void set_key(const struct storage_unit_machine *machine, uint32_t block,
                    uint32_t access_control, const char *whose)
{
    printf("  SSK, access control %u for the %s block at address %u: ", (unsigned)access_control,
           whose, (unsigned)block);
    before = memory;
    report(storage_unit_ssk(machine, CONTROL_PROGRAM, access_control << 4, block), block);
}

/* A region with this PSW key stores a text. */
static void store(const struct storage_unit_machine *machine, uint8_t psw_key, uint32_t address,
                  const char *text)
{
    storage_unit_put_psw_key(storage_unit_record(memory.records, REGIONS), psw_key);
    printf("  store with PSW key %u, \"%s\" at address %u: ", psw_key, text, (unsigned)address);
    before = memory;
    report(storage_unit_store_bytes(machine, REGIONS, address, (const uint8_t *)text,
                                    strlen(text)),
           address);
}

/* Bytes at an address, and the key of their unit. */
static void show(const struct storage_unit_machine *machine, uint32_t address, const char *whose)
{
    uint8_t key = machine->keys[address / storage_unit_key_unit(machine->settings)];

    printf("  the %s bytes at address %u are \"%.*s\"\n", whose, (unsigned)address, (int)SHOWN,
           (const char *)machine->storage + address);
    printf("    their key has access control %u, reference bit %s, change bit %s\n",
           (key & STORAGE_UNIT_KEY_ACCESS_CONTROL) >> 4,
           (key & STORAGE_UNIT_KEY_REFERENCE) != 0 ? "one" : "zero",
           (key & STORAGE_UNIT_KEY_CHANGE) != 0 ? "one" : "zero");
}

static void run(uint32_t settings)
{
    struct storage_unit_machine machine = start(settings);

    printf("Key units of %u bytes:\n", (unsigned)storage_unit_key_unit(settings));
    set_key(&machine, NEIGHBOUR_BLOCK, 9, "neighbour's");
    store(&machine, 9, NEIGHBOUR_BLOCK, "ACCOUNTS");
    set_key(&machine, JOB_BLOCK, 8, "job's");
    store(&machine, 8, NEIGHBOUR_BLOCK - SHOWN, "SAMPLE 1SAMPLE 2");
    show(&machine, NEIGHBOUR_BLOCK - SHOWN, "job's");
    show(&machine, NEIGHBOUR_BLOCK, "neighbour's");
}

int main(void)
{
    printf("A sampling job has the 2K block from 8192 to 10239, its neighbour the one from 10240\n"
           "to 12287. The job stores 16 bytes at 10232, eight of them past the end of its block.\n\n");
    run(0);
    printf("Address 10240 is the first byte of the neighbour's block.\n\n");
    run(STORAGE_UNIT_4K);
    printf("One key covers both blocks: the second SSK replaced the key of the first, and the job's\n"
           "store went over its neighbour's bytes. A routine that takes the key unit for 4096 bytes\n"
           "where it is 2048 does this on the first machine.\n\n"
           "Next, install the storage unit with host/install PREFIX and build a program of your own\n"
           "with it, as host/README.md shows.\n");
    return 0;
}
