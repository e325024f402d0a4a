/*
 * Which pages has a program used? A program in C99 that is built outside the repository, with the
 * installed storage unit. The control program gives pages of 4096 bytes to a program that runs on the
 * other processor, and finds out by RRBE which of them it has referenced and changed.
 */
#include <storage_unit.h>

#include <stdio.h>
#include <stdlib.h>

#define PAGE        4096u
#define PAGES       4u
#define PROGRAM_KEY 5u /* PSW key of the program, and the access control of its own pages */

/* The processors. */
enum { CONTROL, PROGRAM };

static uint8_t storage[PAGES * PAGE];
static uint8_t keys[PAGES * PAGE / STORAGE_UNIT_KEY_UNIT_2K];
static uint8_t records[STORAGE_UNIT_RECORDS_LENGTH];

static const struct storage_unit_machine machine = {
    .settings = STORAGE_UNIT_EXTENSIONS,
    .storage = storage,
    .storage_length = sizeof storage,
    .keys = keys,
    .keys_length = sizeof keys,
    .records = records,
    .records_length = sizeof records,
};

/* Prints an answer: its number in words, and where there is one the place. */
static void report(const char *what, uint64_t answer)
{
    uint32_t number = storage_unit_number(answer);

    printf("  %s: %s", what, storage_unit_message(number));
    if (number == STORAGE_UNIT_NUMBER_ADDRESSING || number == STORAGE_UNIT_NUMBER_PROTECTION) {
        printf(", first at byte %u", (unsigned)storage_unit_place(answer));
    }
    printf("\n");
}

/* The pages at 4096 and 8192 are the program's. It may fetch from the one at 12288. */
static void give_pages(void)
{
    uint32_t page;

    for (page = 0; page < PAGES; page++) {
        uint32_t key = page == 1 || page == 2 ? PROGRAM_KEY << 4 : 0x90u;

        storage_unit_sske(&machine, CONTROL, key, page * PAGE);
    }
    storage_unit_put_record(storage_unit_record(records, PROGRAM), PROGRAM_KEY,
                            STORAGE_UNIT_PROBLEM, 0, 0);
}

static void run_program(void)
{
    static const uint8_t total[4] = {0x00, 0x01, 0x23, 0x4C};
    uint8_t bytes[4];

    report("store of 4 bytes at 8190",
           storage_unit_store_bytes(&machine, PROGRAM, 8190, total, sizeof total));
    report("fetch of 4 bytes at 12288",
           storage_unit_fetch_bytes(&machine, PROGRAM, 12288, bytes, sizeof bytes));
    report("store of 4 bytes at 12286",
           storage_unit_store_bytes(&machine, PROGRAM, 12286, total, sizeof total));
    report("fetch of 4 bytes at 16381",
           storage_unit_fetch_bytes(&machine, PROGRAM, 16381, bytes, sizeof bytes));
    report("SET PREFIX", storage_unit_set_prefix(&machine, PROGRAM, 8192));
}

/* RRBE leaves 2 x reference bit + change bit as the condition code. */
static void show_page(uint32_t page)
{
    uint8_t code;

    storage_unit_rrbe(&machine, CONTROL, page * PAGE);
    code = storage_unit_code(storage_unit_record(records, CONTROL));
    printf("  page at %u: %s, %s\n", (unsigned)(page * PAGE),
           (code & 2u) != 0 ? "referenced" : "not referenced",
           (code & 1u) != 0 ? "changed" : "not changed");
}

int main(void)
{
    uint32_t page;

    if (storage_unit_version() != STORAGE_UNIT_VERSION) {
        printf("The library is not of the header's version, %s.\n", STORAGE_UNIT_VERSION_TEXT);
        return EXIT_FAILURE;
    }
    give_pages();
    printf("A program in problem state with PSW key 5:\n");
    run_program();
    printf("The control program after it:\n");
    for (page = 0; page < PAGES; page++) {
        show_page(page);
    }
    report("STORE PREFIX of processor 2", storage_unit_store_prefix(&machine, 2));
    return EXIT_SUCCESS;
}
