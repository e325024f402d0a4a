/* The constants and functions of storage_unit.h, held against the library: C99, and C++ as well. */
#include "storage_unit.h"

#include <stdio.h>
#include <string.h>

#if STORAGE_UNIT_VERSION < 400
#error "the preprocessor does not read STORAGE_UNIT_VERSION as 400 or more"
#endif

#define STORAGE_LENGTH 8192u

static int failures;

#define CHECK(condition) \
    do { \
        if (!(condition)) { \
            printf("%s:%d: %s\n", __FILE__, __LINE__, #condition); \
            failures++; \
        } \
    } while (0)

static uint8_t storage[STORAGE_LENGTH];
static uint8_t keys[STORAGE_LENGTH / STORAGE_UNIT_KEY_UNIT_2K];
static uint8_t records[STORAGE_UNIT_RECORDS_LENGTH];
static uint8_t buffer[STORAGE_UNIT_ACCESS_MAXIMUM + 1];

/* Zero storage and keys; processor 0 in supervisor state with PSW key 0; a buffer of bytes hex EE. */
static void start(void)
{
    memset(storage, 0, sizeof storage);
    memset(keys, 0, sizeof keys);
    memset(records, 0, sizeof records);
    memset(buffer, 0xEE, sizeof buffer);
}

/* A request of processor 0. */
static uint64_t request(uint32_t settings, uint32_t operation, uint32_t first, uint32_t second)
{
    return storage_unit_request(settings, storage, sizeof storage, keys,
                                storage_unit_key_count(settings, sizeof storage), records,
                                sizeof records, 0, operation, first, second, buffer, sizeof buffer);
}

/* The same with 2K units and the extensions; it completes, and its word comes back. */
static uint32_t completed(uint32_t operation, uint32_t first, uint32_t second)
{
    uint64_t answer = request(STORAGE_UNIT_EXTENSIONS, operation, first, second);

    CHECK(storage_unit_number(answer) == STORAGE_UNIT_NUMBER_COMPLETED);
    CHECK(storage_unit_place(answer) == 0);
    return storage_unit_word(answer);
}

static uint32_t number(uint32_t settings, uint32_t operation, uint32_t first, uint32_t second)
{
    return storage_unit_number(request(settings, operation, first, second));
}

/* The version, as three numbers, as a text, and in the library. */
static void version(void)
{
    char text[64];

    snprintf(text, sizeof text, "%u.%u.%u", STORAGE_UNIT_VERSION_MAJOR, STORAGE_UNIT_VERSION_MINOR,
             STORAGE_UNIT_VERSION_PATCH);
    CHECK(strcmp(text, STORAGE_UNIT_VERSION_TEXT) == 0);
    CHECK(storage_unit_version() == STORAGE_UNIT_VERSION);
}

/* Every number of an answer, in the order of the header. */
static const uint32_t all_numbers[] = {
    STORAGE_UNIT_NUMBER_CONFIGURATION,
    STORAGE_UNIT_NUMBER_RECORD,
    STORAGE_UNIT_NUMBER_OPERAND,
    STORAGE_UNIT_NUMBER_OPERATION,
    STORAGE_UNIT_NUMBER_PRIVILEGED,
    STORAGE_UNIT_NUMBER_SPECIAL_OPERATION,
    STORAGE_UNIT_NUMBER_SPECIFICATION,
    STORAGE_UNIT_NUMBER_ADDRESSING,
    STORAGE_UNIT_NUMBER_PROTECTION,
    STORAGE_UNIT_NUMBER_COMPLETED,
};

#define NUMBERS (sizeof all_numbers / sizeof all_numbers[0])

/* A text for each number, with its name at the start, and one text for all other numbers. */
static void messages(void)
{
    static const char *const names[NUMBERS] = {
        "configuration: ",
        "record: ",
        "operand: ",
        "operation exception",
        "privileged-operation exception",
        "special-operation exception",
        "specification exception",
        "addressing exception",
        "protection exception",
        "completed",
    };
    const char *other = storage_unit_message(UINT32_MAX);
    size_t i;
    uint32_t n;

    for (i = 0; i < NUMBERS; i++) {
        CHECK(strncmp(storage_unit_message(all_numbers[i]), names[i], strlen(names[i])) == 0);
    }
    for (n = 0; n < 1000; n++) {
        for (i = 0; i < NUMBERS && all_numbers[i] != n; i++) {
        }
        CHECK((strcmp(storage_unit_message(n), other) == 0) == (i == NUMBERS));
    }
}

static void answers(void)
{
    uint64_t answer = UINT64_C(0x001303FE8899AABB);

    CHECK(storage_unit_number(answer) == STORAGE_UNIT_NUMBER_SPECIAL_OPERATION);
    CHECK(storage_unit_place(answer) == 0xFE);
    CHECK(storage_unit_word(answer) == 0x8899AABB);
    CHECK(storage_unit_rule(answer) == STORAGE_UNIT_RULE_UNCHANGED);
}

static void sizes(void)
{
    CHECK(storage_unit_key_unit(STORAGE_UNIT_EXTENSIONS) == STORAGE_UNIT_KEY_UNIT_2K);
    CHECK(storage_unit_key_unit(STORAGE_UNIT_4K) == STORAGE_UNIT_KEY_UNIT_4K);
    CHECK(storage_unit_key_count(0, STORAGE_UNIT_STORAGE_MAXIMUM) == 8192);
    CHECK(storage_unit_key_count(STORAGE_UNIT_4K, STORAGE_UNIT_STORAGE_MULTIPLE) == 1);
}

/* Which lengths of storage are right. */
static void lengths(void)
{
    static uint8_t large[STORAGE_UNIT_STORAGE_MAXIMUM + STORAGE_UNIT_STORAGE_MULTIPLE];
    static uint8_t large_keys[sizeof large / STORAGE_UNIT_KEY_UNIT_2K];
    static const struct {
        size_t length;
        uint32_t number;
    } cases[] = {
        {0, STORAGE_UNIT_NUMBER_CONFIGURATION},
        {STORAGE_UNIT_STORAGE_MULTIPLE - 1, STORAGE_UNIT_NUMBER_CONFIGURATION},
        {STORAGE_UNIT_STORAGE_MULTIPLE, STORAGE_UNIT_NUMBER_COMPLETED},
        {STORAGE_UNIT_STORAGE_MAXIMUM, STORAGE_UNIT_NUMBER_COMPLETED},
        {STORAGE_UNIT_STORAGE_MAXIMUM + STORAGE_UNIT_STORAGE_MULTIPLE, STORAGE_UNIT_NUMBER_CONFIGURATION},
    };
    size_t i;

    start();
    for (i = 0; i < sizeof cases / sizeof cases[0]; i++) {
        uint64_t answer = storage_unit_request(0, large, cases[i].length, large_keys,
                                               storage_unit_key_count(0, cases[i].length), records,
                                               sizeof records, 0, STORAGE_UNIT_STORE_PREFIX, 0, 0,
                                               NULL, 0);
        CHECK(storage_unit_number(answer) == cases[i].number);
    }
}

static void record_fields(void)
{
    static const uint8_t expected[STORAGE_UNIT_RECORDS_LENGTH]
        = {0xEE, 0xEE, 0xEE, 0xEE, 0xEE, 0xEE, 0xEE, 0xEE, 0x0A, 0x06, 0x03, 0x00, 0x00, 0xB0, 0xCD, 0x12};
    uint8_t *record = storage_unit_record(records, 1);

    memset(records, 0xEE, sizeof records);
    storage_unit_put_record(record, 10, STORAGE_UNIT_LOW_PROTECTION | STORAGE_UNIT_KEY_CONTROL, 3,
                            0x12CDB000);
    CHECK(memcmp(records, expected, sizeof records) == 0);
    CHECK(storage_unit_psw_key(record) == 10);
    CHECK(storage_unit_controls(record) == (STORAGE_UNIT_LOW_PROTECTION | STORAGE_UNIT_KEY_CONTROL));
    CHECK(storage_unit_code(record) == 3);
    CHECK(storage_unit_prefix(record) == 0x12CDB000);
}

/* Completed requests of each operation, with what they leave. */
static void operations(void)
{
    start();
    completed(STORAGE_UNIT_STORE, 2047, 2);
    CHECK(storage[2046] == 0 && storage[2047] == 0xEE && storage[2048] == 0xEE && storage[2049] == 0);
    CHECK(keys[0] == (STORAGE_UNIT_KEY_REFERENCE | STORAGE_UNIT_KEY_CHANGE) && keys[1] == keys[0]);
    completed(STORAGE_UNIT_FETCH, 4096, STORAGE_UNIT_ACCESS_MAXIMUM);
    CHECK(buffer[255] == 0 && buffer[256] == 0xEE && keys[2] == STORAGE_UNIT_KEY_REFERENCE);
    completed(STORAGE_UNIT_SSK, 0x8F, 0x1800);
    CHECK(keys[3] == 0x8E);
    CHECK(completed(STORAGE_UNIT_ISK, 0x12345678, 0x1800) == 0x1234568E);
    completed(STORAGE_UNIT_RRB, 0, 0x1800);
    CHECK(keys[3] == 0x8A && storage_unit_code(records) == 3);
    completed(STORAGE_UNIT_SSKE, 0x36, 0x1000);
    CHECK(keys[2] == 0x36 && keys[3] == 0x36);
    completed(STORAGE_UNIT_RRBE, 0, 0x1000);
    CHECK(keys[2] == 0x32 && keys[3] == 0x32);
    CHECK(completed(STORAGE_UNIT_ISKE, 0, 0x1000) == 0x32);
    keys[2] = 0x84;
    keys[3] = 0x52;
    storage_unit_put_code(records, 0);
    completed(STORAGE_UNIT_RRBE, 0, 0x1000);
    CHECK(keys[2] == 0x80 && keys[3] == 0x52 && storage_unit_code(records) == 3);
    completed(STORAGE_UNIT_SET_PREFIX, 0x1000, 0);
    CHECK(storage_unit_prefix(records) == 0x1000);
    CHECK(completed(STORAGE_UNIT_STORE_PREFIX, 0, 0) == 0x1000);
}

/* The rule of a request with 2K units and the extensions. */
static uint32_t rule(uint32_t operation, uint32_t first, uint32_t second)
{
    return storage_unit_rule(request(STORAGE_UNIT_EXTENSIONS, operation, first, second));
}

/* Each rule that is given; place and word beside a rule. */
static void rules(void)
{
    start();
    CHECK(rule(STORAGE_UNIT_FETCH, 4, 1) == STORAGE_UNIT_RULE_ZERO);
    CHECK(rule(STORAGE_UNIT_FETCH, 4096, 1) == STORAGE_UNIT_RULE_UNCHANGED);
    CHECK(storage_unit_place(request(0, STORAGE_UNIT_FETCH, 4096, 1)) == 0);
    CHECK(rule(STORAGE_UNIT_SET_PREFIX, 4096, 0) == STORAGE_UNIT_RULE_NONE);
    CHECK(rule(STORAGE_UNIT_STORE_PREFIX, 0, 0) == STORAGE_UNIT_RULE_NONE);
    CHECK(rule(STORAGE_UNIT_STORE, 4095, 2) == STORAGE_UNIT_RULE_ZERO);
    CHECK(rule(STORAGE_UNIT_STORE, 4096, 2) == STORAGE_UNIT_RULE_PREFIX);
    CHECK(rule(STORAGE_UNIT_RRB, 0, 0xFFF) == STORAGE_UNIT_RULE_ZERO);
    CHECK(rule(STORAGE_UNIT_ISKE, 0, 0x80001FFF) == STORAGE_UNIT_RULE_PREFIX);
    CHECK(rule(STORAGE_UNIT_FETCH, STORAGE_LENGTH - 1, 2) == STORAGE_UNIT_RULE_NONE);
    CHECK(completed(STORAGE_UNIT_ISKE, 0x12345678, 0x1000) == 0x12345606);
}

/* Each number that is given. */
static void numbers(void)
{
    uint64_t answer;

    start();
    CHECK(number(4, STORAGE_UNIT_FETCH, 0, 1) == STORAGE_UNIT_NUMBER_CONFIGURATION);
    CHECK(number(0, 10, 0, 1) == STORAGE_UNIT_NUMBER_OPERAND);
    CHECK(number(0, STORAGE_UNIT_FETCH, 0, STORAGE_UNIT_ACCESS_MAXIMUM + 1) == STORAGE_UNIT_NUMBER_OPERAND);
    CHECK(number(0, STORAGE_UNIT_ISKE, 0, 0) == STORAGE_UNIT_NUMBER_OPERATION);
    CHECK(number(STORAGE_UNIT_4K, STORAGE_UNIT_SSK, 0, 0) == STORAGE_UNIT_NUMBER_SPECIAL_OPERATION);
    CHECK(number(0, STORAGE_UNIT_SSK, 0, 1) == STORAGE_UNIT_NUMBER_SPECIFICATION);
    answer = request(0, STORAGE_UNIT_FETCH, STORAGE_LENGTH - 3, 4);
    CHECK(storage_unit_number(answer) == STORAGE_UNIT_NUMBER_ADDRESSING && storage_unit_place(answer) == 3);

    storage_unit_put_psw_key(records, 3);
    keys[0] = 0x3F & STORAGE_UNIT_KEY_ACCESS_CONTROL;
    keys[1] = 0x40 | STORAGE_UNIT_KEY_FETCH_PROTECTION;
    CHECK(keys[0] == 0x30 && keys[1] == 0x48);
    answer = request(0, STORAGE_UNIT_FETCH, 2046, 4);
    CHECK(storage_unit_number(answer) == STORAGE_UNIT_NUMBER_PROTECTION && storage_unit_place(answer) == 2);

    storage_unit_put_controls(records, STORAGE_UNIT_LOW_PROTECTION);
    CHECK(number(0, STORAGE_UNIT_STORE, 511, 1) == STORAGE_UNIT_NUMBER_PROTECTION);
    CHECK(number(0, STORAGE_UNIT_STORE, 512, 1) == STORAGE_UNIT_NUMBER_COMPLETED);
    storage_unit_put_controls(records, STORAGE_UNIT_PROBLEM);
    CHECK(number(0, STORAGE_UNIT_STORE_PREFIX, 0, 0) == STORAGE_UNIT_NUMBER_PRIVILEGED);
    storage_unit_put_controls(records, STORAGE_UNIT_KEY_CONTROL);
    CHECK(number(STORAGE_UNIT_4K, STORAGE_UNIT_SSK, 0, 0) == STORAGE_UNIT_NUMBER_COMPLETED);

    storage_unit_put_code(records, 4);
    CHECK(number(0, STORAGE_UNIT_FETCH, 0, 1) == STORAGE_UNIT_NUMBER_RECORD);
    storage_unit_put_record(records, 0, 0, 0, STORAGE_LENGTH);
    CHECK(number(0, STORAGE_UNIT_FETCH, 0, 1) == STORAGE_UNIT_NUMBER_RECORD);
    storage_unit_put_prefix(records, 0);
    CHECK(number(0, STORAGE_UNIT_FETCH, 0, 1) == STORAGE_UNIT_NUMBER_COMPLETED);
}

/* A fetch and a store of processor 0 by the short way in. */
static uint64_t fetch(uint32_t settings, uint32_t address, uint8_t *bytes, size_t count)
{
    return storage_unit_fetch(settings, storage, sizeof storage, keys,
                              storage_unit_key_count(settings, sizeof storage),
                              storage_unit_record_value(records), address, bytes, count);
}

static uint64_t store(uint32_t settings, uint32_t address, const uint8_t *bytes, size_t count)
{
    return storage_unit_store(settings, storage, sizeof storage, keys,
                              storage_unit_key_count(settings, sizeof storage),
                              storage_unit_record_value(records), address, bytes, count);
}

/* What they leave, each number that they give, and a record as a value. */
static void short_way(void)
{
    static const uint8_t text[4] = {0xC1, 0xC2, 0xC3, 0xC4};
    uint64_t answer;

    start();
    storage_unit_put_record(records, 3, STORAGE_UNIT_LOW_PROTECTION, 2, 0x1000);
    CHECK(storage_unit_record_value(records) == UINT64_C(0x0000100000020203));
    keys[0] = 0x30;
    keys[1] = 0x30;
    answer = store(0, 0x1000 + 2046, text, sizeof text);
    CHECK(storage_unit_number(answer) == STORAGE_UNIT_NUMBER_COMPLETED);
    CHECK(storage_unit_rule(answer) == STORAGE_UNIT_RULE_PREFIX);
    CHECK(memcmp(storage + 2046, text, sizeof text) == 0 && storage[2045] == 0 && storage[2050] == 0);
    CHECK(keys[0] == 0x36 && keys[1] == 0x36);
    answer = fetch(0, 0x1000 + 2047, buffer, 2);
    CHECK(storage_unit_number(answer) == STORAGE_UNIT_NUMBER_COMPLETED);
    CHECK(buffer[0] == 0xC2 && buffer[1] == 0xC3 && buffer[2] == 0xEE);

    CHECK(storage_unit_number(fetch(4, 0, buffer, 1)) == STORAGE_UNIT_NUMBER_CONFIGURATION);
    CHECK(storage_unit_number(fetch(0, 0, NULL, 0)) == STORAGE_UNIT_NUMBER_OPERAND);
    CHECK(storage_unit_number(store(0, 0, buffer, sizeof buffer)) == STORAGE_UNIT_NUMBER_OPERAND);
    keys[2] = 0x30;
    CHECK(storage_unit_number(store(0, 511, text, 1)) == STORAGE_UNIT_NUMBER_PROTECTION);
    CHECK(storage_unit_number(store(0, 512, text, 1)) == STORAGE_UNIT_NUMBER_COMPLETED);
    answer = fetch(0, STORAGE_LENGTH - 1, buffer, 2);
    CHECK(storage_unit_number(answer) == STORAGE_UNIT_NUMBER_ADDRESSING && storage_unit_place(answer) == 1);
    keys[1] = 0x40;
    answer = store(0, 0x1800 - 1, text, 2);
    CHECK(storage_unit_number(answer) == STORAGE_UNIT_NUMBER_PROTECTION && storage_unit_place(answer) == 1);
    records[STORAGE_UNIT_RESERVED_AT] = 1;
    CHECK(storage_unit_number(fetch(0, 0x1000, buffer, 1)) == STORAGE_UNIT_NUMBER_RECORD);
}

/* A store from bytes and a fetch from storage that are in read-only memory. */
static void constant_bytes(void)
{
    static const uint8_t constant[STORAGE_UNIT_STORAGE_MULTIPLE] = {0xC1, 0xC2, 0xC3, 0xC4};
    uint64_t answer;

    start();
    answer = storage_unit_fetch(0, constant, sizeof constant, keys,
                                storage_unit_key_count(0, sizeof constant), 0, 1, buffer, 2);
    CHECK(storage_unit_number(answer) == STORAGE_UNIT_NUMBER_COMPLETED);
    CHECK(buffer[0] == 0xC2 && buffer[1] == 0xC3 && buffer[2] == 0xEE);
    CHECK(storage_unit_number(store(0, 16, constant, 4)) == STORAGE_UNIT_NUMBER_COMPLETED);
    CHECK(memcmp(storage + 16, constant, 4) == 0 && storage[20] == 0);
}

/* The storage of the tests above as a machine, with 2K units and the extensions. */
static struct storage_unit_machine machine_of_tests(void)
{
    struct storage_unit_machine machine;

    machine.settings = STORAGE_UNIT_EXTENSIONS;
    machine.storage = storage;
    machine.storage_length = sizeof storage;
    machine.keys = keys;
    machine.keys_length = sizeof keys;
    machine.records = records;
    machine.records_length = sizeof records;
    return machine;
}

static int is_completed(uint64_t answer)
{
    return storage_unit_number(answer) == STORAGE_UNIT_NUMBER_COMPLETED;
}

/* Each function of a machine, with its operands and what it leaves. */
static void machine_functions(void)
{
    static const uint8_t text[2] = {0xC1, 0xC2};
    struct storage_unit_machine machine = machine_of_tests();
    uint64_t answer;

    start();
    CHECK(is_completed(storage_unit_store_bytes(&machine, 1, 2047, text, sizeof text)));
    CHECK(storage[2046] == 0 && storage[2047] == 0xC1 && storage[2048] == 0xC2 && storage[2049] == 0);
    CHECK(is_completed(storage_unit_fetch_bytes(&machine, 0, 2048, buffer, 1)));
    CHECK(buffer[0] == 0xC2 && buffer[1] == 0xEE);
    CHECK(is_completed(storage_unit_ssk(&machine, 0, 0x8F, 0x1800)));
    CHECK(keys[2] == 0 && keys[3] == 0x8E);
    answer = storage_unit_isk(&machine, 0, 0x12345678, 0x1800);
    CHECK(is_completed(answer) && storage_unit_word(answer) == 0x1234568E);
    CHECK(is_completed(storage_unit_rrb(&machine, 1, 0x1FFF)));
    CHECK(keys[3] == 0x8A && storage_unit_code(storage_unit_record(records, 1)) == 3);
    CHECK(is_completed(storage_unit_sske(&machine, 0, 0x36, 0x1000)));
    CHECK(keys[2] == 0x36 && keys[3] == 0x36);
    answer = storage_unit_iske(&machine, 0, 0xFF, 0x1000);
    CHECK(is_completed(answer) && storage_unit_word(answer) == 0x36);
    CHECK(is_completed(storage_unit_rrbe(&machine, 0, 0x1FFF)));
    CHECK(keys[2] == 0x32 && keys[3] == 0x32 && storage_unit_code(records) == 3);
    CHECK(is_completed(storage_unit_set_prefix(&machine, 1, 0xFF001FFF)));
    CHECK(storage_unit_prefix(storage_unit_record(records, 1)) == 0x1000);
    CHECK(storage_unit_word(storage_unit_store_prefix(&machine, 1)) == 0x1000);
    CHECK(storage_unit_word(storage_unit_store_prefix(&machine, 0)) == 0);
}

/* ---- Playing a recording. */

#define OUTPUT_LENGTH 200u

/* A fetch, a remark, a store outside storage, SET PREFIX of processor 1, a fetch of processor 2. */
static const uint8_t recording[] = {
    9, 0, 1, 0, 0, 0, 0, 0, 0, 1, 0,
    4, 0, 255, 0, 'A', 'B',
    11, 0, 2, 0, 1, 0xFF, 0x1F, 0, 0, 2, 0, 0xC1, 0xC2,
    8, 0, 4, 0, 1, 0, 0, 0x10, 0, 0,
    9, 0, 1, 0, 2, 0, 0, 0, 0, 1, 0,
};
static const char recording_lines[] = "1 0 0\n2 5 1\n3 0 0\n4 65 0\n";

static uint8_t output[OUTPUT_LENGTH];

static struct storage_unit_player new_player(void)
{
    struct storage_unit_player player;

    memset(&player, 0, sizeof player);
    memset(output, 0xEE, sizeof output);
    return player;
}

/* The last call has written this text, and has kept the rest of the output. */
static int has_written(const struct storage_unit_player *player, const char *text)
{
    size_t i = strlen(text);

    if (player->written != i || memcmp(output, text, i) != 0) {
        return 0;
    }
    while (i < sizeof output && output[i] == 0xEE) {
        i++;
    }
    return i == sizeof output;
}

/* Recordings that are played by one call. */
static void play_whole(void)
{
    struct storage_unit_machine machine = machine_of_tests();
    struct storage_unit_player player = new_player();

    CHECK(sizeof player == STORAGE_UNIT_PLAYER_LENGTH);
    start();
    CHECK(storage_unit_play_piece(&machine, &player, recording, sizeof recording, 1, output,
                                  sizeof output) == STORAGE_UNIT_PLAY_ENDED);
    CHECK(has_written(&player, recording_lines));
    CHECK(player.read == sizeof recording && player.requests == 4 && player.records_read == 5);
    CHECK(keys[0] == STORAGE_UNIT_KEY_REFERENCE && keys[3] == 0);
    CHECK(storage_unit_prefix(storage_unit_record(records, 1)) == 0x1000);
    CHECK(memcmp(player.records, records, sizeof records) == 0);

    player = new_player();
    CHECK(storage_unit_play_piece(&machine, &player, NULL, 0, 1, output, sizeof output)
          == STORAGE_UNIT_PLAY_ENDED);
    CHECK(has_written(&player, ""));
    player = new_player();
    CHECK(storage_unit_play_piece(&machine, &player, recording, 12, 1, output, sizeof output)
          == STORAGE_UNIT_PLAY_ENDED);
    CHECK(has_written(&player, "1 0 0\nbad record 2\n"));
}

/* One byte more with each call, and the same with an output that has room for one line. */
static void play_pieces(void)
{
    struct storage_unit_machine machine = machine_of_tests();
    struct storage_unit_player player = new_player();
    char lines[sizeof output] = "";
    size_t begin = 0, end = 0;
    uint32_t result;

    start();
    machine.records = player.records;
    do {
        end += end < sizeof recording ? 1 : 0;
        memset(output, 0xEE, sizeof output);
        result = storage_unit_play_piece(&machine, &player, recording + begin, end - begin,
                                         end == sizeof recording, output, sizeof output);
        strncat(lines, (const char *)output, (size_t)player.written);
        begin += (size_t)player.read;
    } while (result == STORAGE_UNIT_PLAY_MORE && begin <= end);
    CHECK(result == STORAGE_UNIT_PLAY_ENDED && begin == sizeof recording);
    CHECK(strcmp(lines, recording_lines) == 0);
    CHECK(storage_unit_prefix(storage_unit_record(player.records, 1)) == 0x1000);

    player = new_player();
    start();
    begin = 0;
    lines[0] = '\0';
    do {
        result = storage_unit_play_piece(&machine, &player, recording + begin,
                                         sizeof recording - begin, 1, output,
                                         STORAGE_UNIT_PLAY_OUTPUT_MINIMUM);
        strncat(lines, (const char *)output, (size_t)player.written);
        begin += (size_t)player.read;
    } while (result == STORAGE_UNIT_PLAY_ROOM && begin <= sizeof recording);
    CHECK(result == STORAGE_UNIT_PLAY_ENDED && strcmp(lines, recording_lines) == 0);
}

/* Plays these first bytes of the recording from the start, with an output of this length. */
static uint32_t play_first(struct storage_unit_player *player, size_t count, int last,
                           size_t output_length)
{
    struct storage_unit_machine machine = machine_of_tests();

    start();
    *player = new_player();
    return storage_unit_play_piece(&machine, player, recording, count, last, output,
                                   output_length);
}

/* At the end of a run, unread bytes are a bad record and what is behind it. */
static void play_ends(void)
{
    static const size_t ends[] = {0, 11, 17, 30, 40, 51};
    static const uint8_t bad[] = {
        4, 0, 255, 0, 'A', 'B',
        2, 0, 5, 0,
        9, 0, 1, 0, 0, 0, 0, 0, 0, 1, 0,
    };
    static const uint8_t over[] = {1, 2};
    struct storage_unit_machine machine = machine_of_tests();
    struct storage_unit_player player;
    size_t count, whole = 0;

    CHECK(sizeof recording == 51);
    for (count = 0; count <= sizeof recording; count++) {
        if (count == ends[whole + 1]) {
            whole++;
        }
        CHECK(play_first(&player, count, 1, sizeof output) == STORAGE_UNIT_PLAY_ENDED);
        CHECK(player.read == ends[whole]);
        CHECK(player.records_read == whole + (count == ends[whole] ? 0u : 1u));
        CHECK((memchr(output, 'b', (size_t)player.written) != NULL) == (player.read < count));
        CHECK(play_first(&player, count, 0, sizeof output) == STORAGE_UNIT_PLAY_MORE);
        CHECK(player.read == ends[whole] && player.records_read == whole);
    }
    /* A kind that there is not, as soon as it is there, and a length over 512. */
    for (count = 10; count <= sizeof bad; count++) {
        player = new_player();
        CHECK(storage_unit_play_piece(&machine, &player, bad, count, count % 2 == 0, output,
                                      sizeof output) == STORAGE_UNIT_PLAY_ENDED);
        CHECK(has_written(&player, "bad record 2\n"));
        CHECK(player.read == 6 && player.records_read == 2 && player.requests == 0);
    }
    player = new_player();
    CHECK(storage_unit_play_piece(&machine, &player, over, sizeof over, 0, output, sizeof output)
          == STORAGE_UNIT_PLAY_ENDED);
    CHECK(has_written(&player, "bad record 1\n") && player.read == 0);
}

/* ROOM is first and LIMIT is next, also where nothing is left. */
static void play_room(void)
{
    struct storage_unit_machine machine = machine_of_tests();
    struct storage_unit_player player;
    size_t length;
    int last;

    for (length = 0; length <= STORAGE_UNIT_PLAY_OUTPUT_MINIMUM; length++) {
        uint32_t expected = length < STORAGE_UNIT_PLAY_OUTPUT_MINIMUM ? STORAGE_UNIT_PLAY_ROOM
                                                                      : STORAGE_UNIT_PLAY_ENDED;

        CHECK(play_first(&player, 0, 1, length) == expected && has_written(&player, ""));
        CHECK(play_first(&player, 12, 1, length) == STORAGE_UNIT_PLAY_ROOM);
        CHECK(player.read == (length < STORAGE_UNIT_PLAY_OUTPUT_MINIMUM ? 0u : 11u));
        CHECK(keys[0] == (length < STORAGE_UNIT_PLAY_OUTPUT_MINIMUM ? 0u : 4u));
    }
    /* Behind the last line, of six bytes, 63 are left. */
    CHECK(play_first(&player, 11, 1, 69) == STORAGE_UNIT_PLAY_ROOM);
    CHECK(has_written(&player, "1 0 0\n") && player.read == 11);
    CHECK(storage_unit_play_piece(&machine, &player, NULL, 0, 1, output, 69)
          == STORAGE_UNIT_PLAY_ENDED);
    CHECK(player.read == 0 && player.written == 0 && player.records_read == 1);
    CHECK(play_first(&player, 11, 1, 70) == STORAGE_UNIT_PLAY_ENDED);

    for (last = 0; last <= 1; last++) {
        player = new_player();
        player.requests = UINT64_MAX;
        CHECK(storage_unit_play_piece(&machine, &player, NULL, 0, last, output, 63)
              == STORAGE_UNIT_PLAY_ROOM);
        CHECK(storage_unit_play_piece(&machine, &player, NULL, 0, last, output, 64)
              == STORAGE_UNIT_PLAY_LIMIT);
        CHECK(has_written(&player, "") && player.read == 0);
    }
}

/* The longest record, behind a remark, through a buffer that has room for just one such record. */
static void play_short_buffer(void)
{
    static uint8_t all[4 + STORAGE_UNIT_PLAY_RECORD_MAXIMUM] = {
        2, 0, 255, 0, 0, 2, 2, 0, 0, 0, 0, 0, 0, 0xF7, 1,
    };
    static uint8_t piece[STORAGE_UNIT_PLAY_RECORD_MAXIMUM];
    struct storage_unit_machine machine = machine_of_tests();
    struct storage_unit_player player = new_player();
    size_t held = 0, given = 0;
    uint32_t result;
    int last = 0;

    start();
    do {
        result = storage_unit_play_piece(&machine, &player, piece, held, last, output,
                                         sizeof output);
        held -= (size_t)player.read;
        memmove(piece, piece + player.read, held);
        if (result == STORAGE_UNIT_PLAY_MORE) {
            size_t count = sizeof piece - held;

            CHECK(count > 0);
            count = count < sizeof all - given ? count : sizeof all - given;
            memcpy(piece + held, all + given, count);
            given += count;
            held += count;
            last = count == 0;
        }
    } while (result == STORAGE_UNIT_PLAY_MORE && failures == 0);
    CHECK(result == STORAGE_UNIT_PLAY_ENDED && held == 0 && last);
    CHECK(player.requests == 1 && player.records_read == 2);
    CHECK(memcmp(output, "1 66 0\n\xEE", 8) == 0);
}

/* What is refused changes nothing. At the greatest ordinal nothing is played. */
static void play_refused(void)
{
    struct storage_unit_machine machine = machine_of_tests();
    struct storage_unit_player player, before;
    size_t length;

    start();
    memset(&before, 0x77, sizeof before);
    player = before;
    memset(output, 0xEE, sizeof output);
    for (length = 0; length < 60; length++) {
        uint32_t settings = length == sizeof player ? 4u : STORAGE_UNIT_EXTENSIONS;
        uint8_t bytes[60];

        memset(bytes, 0x77, sizeof bytes);
        CHECK(storage_unit_play(settings, storage, sizeof storage, keys, sizeof keys, bytes, length,
                                recording, sizeof recording, 1, output, sizeof output)
              == STORAGE_UNIT_PLAY_REFUSED);
        CHECK(memcmp(bytes, &before, sizeof before) == 0);
    }
    machine.settings = 4;
    CHECK(storage_unit_play_piece(&machine, &player, recording, sizeof recording, 1, output,
                                  sizeof output) == STORAGE_UNIT_PLAY_REFUSED);
    machine = machine_of_tests();
    machine.records_length = 8;
    CHECK(storage_unit_play_piece(&machine, &player, recording, sizeof recording, 1, output,
                                  sizeof output) == STORAGE_UNIT_PLAY_REFUSED);
    CHECK(memcmp(&player, &before, sizeof before) == 0);
    CHECK(keys[0] == 0 && output[0] == 0xEE);

    machine = machine_of_tests();
    player = new_player();
    player.requests = UINT64_MAX - 1;
    CHECK(storage_unit_play_piece(&machine, &player, recording, sizeof recording, 1, output,
                                  sizeof output) == STORAGE_UNIT_PLAY_LIMIT);
    CHECK(has_written(&player, "18446744073709551615 0 0\n"));
    CHECK(player.requests == UINT64_MAX);
}

/* ---- Channel programs. */

#define CCWS        4096u /* where programs stand: in unit 2 */
#define DEVICE_SIZE 16u

/* The bytes from the device are in read-only memory. */
static const uint8_t from_device[DEVICE_SIZE] = {
    0xE0, 0xE1, 0xE2, 0xE3, 0xE4, 0xE5, 0xE6, 0xE7, 0xE8, 0xE9, 0xEA, 0xEB, 0xEC, 0xED, 0xEE, 0xEF,
};
static uint8_t to_device[DEVICE_SIZE];

/* All that a channel program may write, its progress apart. */
struct channel_state {
    uint8_t storage[STORAGE_LENGTH];
    uint8_t keys[STORAGE_LENGTH / STORAGE_UNIT_KEY_UNIT_2K];
    uint8_t to_device[DEVICE_SIZE];
};

static void save(struct channel_state *state)
{
    memcpy(state->storage, storage, sizeof storage);
    memcpy(state->keys, keys, sizeof keys);
    memcpy(state->to_device, to_device, sizeof to_device);
}

static void restore(const struct channel_state *state)
{
    memcpy(storage, state->storage, sizeof storage);
    memcpy(keys, state->keys, sizeof keys);
    memcpy(to_device, state->to_device, sizeof to_device);
}

static int is_as_saved(const struct channel_state *state)
{
    return memcmp(storage, state->storage, sizeof storage) == 0
           && memcmp(keys, state->keys, sizeof keys) == 0
           && memcmp(to_device, state->to_device, sizeof to_device) == 0;
}

/* Zero storage, keys hex 31, which have the bit on that a written key has not, room of bytes hex CC. */
static void channel_start(void)
{
    start();
    memset(keys, 0x31, sizeof keys);
    memset(to_device, 0xCC, sizeof to_device);
}

/* The CCW with this number, counted from 0. */
static void ccw(uint32_t n, uint8_t command, uint32_t address, uint8_t flags, uint16_t count)
{
    storage_unit_put_ccw(storage + CCWS + STORAGE_UNIT_CCW_LENGTH * n, command, address, flags, count);
}

/* The program at CCWS under key 3, with the greatest grant. */
static struct storage_unit_program program_of_tests(void)
{
    struct storage_unit_program program;

    program.key = 3;
    program.first = CCWS;
    program.grant = STORAGE_UNIT_GRANT_MAXIMUM;
    program.from = from_device;
    program.from_length = sizeof from_device;
    program.room = to_device;
    program.room_length = sizeof to_device;
    return program;
}

/* A progress of bytes that no call looks at before a whole program, and one that is not begun. */
static struct storage_unit_progress progress_of(int byte)
{
    struct storage_unit_progress progress;

    memset(&progress, byte, sizeof progress);
    return progress;
}

/* Place, word and rule are 0; the number comes back. */
static uint32_t channel_number(uint64_t answer)
{
    CHECK(storage_unit_place(answer) == 0 && storage_unit_word(answer) == 0);
    CHECK(storage_unit_rule(answer) == STORAGE_UNIT_RULE_NONE);
    return storage_unit_number(answer);
}

/* The status of a progress behind an answer or a step with this number. */
static uint8_t status_of(uint32_t answered)
{
    switch (answered) {
    case STORAGE_UNIT_NUMBER_COMPLETED:
        return STORAGE_UNIT_PROGRESS_ENDED;
    case STORAGE_UNIT_NUMBER_UNDER_WAY:
        return STORAGE_UNIT_PROGRESS_UNDER_WAY;
    default:
        return (uint8_t)answered;
    }
}

/*
 * Runs a program as a whole, and from the same start step by step, which answers and leaves the
 * same. The number comes back. A further step gives it again and changes nothing.
 */
static uint32_t run_both(const struct storage_unit_machine *machine,
                         const struct storage_unit_program *program,
                         struct storage_unit_progress *progress)
{
    static struct channel_state at_start, at_end;
    struct storage_unit_progress stepped = progress_of(0);
    uint32_t whole, steps = 0, one;

    save(&at_start);
    *progress = progress_of(0x77);
    whole = channel_number(storage_unit_run_program(machine, program, progress));
    CHECK(progress->status == status_of(whole));
    CHECK(progress->zeros[0] == 0 && progress->zeros[1] == 0);
    CHECK(progress->more_zeros[0] == 0 && progress->more_zeros[1] == 0);
    CHECK(progress->more_zeros[2] == 0 && progress->more_zeros[3] == 0);
    save(&at_end);

    restore(&at_start);
    do {
        one = channel_number(storage_unit_step_program(machine, program, &stepped));
        steps++;
        CHECK(stepped.status == status_of(one));
        CHECK(one != STORAGE_UNIT_NUMBER_UNDER_WAY || stepped.fetched == steps);
    } while (one == STORAGE_UNIT_NUMBER_UNDER_WAY && steps <= STORAGE_UNIT_GRANT_MAXIMUM);
    CHECK(one == whole && is_as_saved(&at_end));
    CHECK(memcmp(&stepped, progress, sizeof stepped) == 0);
    CHECK(steps == stepped.fetched || steps == stepped.fetched + 1);

    CHECK(channel_number(storage_unit_step_program(machine, program, &stepped)) == whole);
    CHECK(is_as_saved(&at_end) && memcmp(&stepped, progress, sizeof stepped) == 0);
    return whole;
}

/* A text for each number of a channel program, and one text for all other numbers. */
static void channel_messages(void)
{
    static const struct {
        uint32_t number;
        const char *text;
    } texts[] = {
        {STORAGE_UNIT_NUMBER_COMPLETED, "completed"},
        {STORAGE_UNIT_NUMBER_CONFIGURATION, "configuration: "},
        {STORAGE_UNIT_NUMBER_CHANNEL_KEY, "the key of the channel is over 15"},
        {STORAGE_UNIT_NUMBER_GRANT, "the grant is not 1 to 256"},
        {STORAGE_UNIT_NUMBER_PROGRAM, "program check"},
        {STORAGE_UNIT_NUMBER_FORBIDDEN, "protection check"},
        {STORAGE_UNIT_NUMBER_DEVICE, "too few bytes from the device"},
        {STORAGE_UNIT_NUMBER_GRANT_USED, "the granted CCWs are used up"},
        {STORAGE_UNIT_NUMBER_UNDER_WAY, "under way"},
    };
    const size_t count = sizeof texts / sizeof texts[0];
    const char *other = storage_unit_channel_message(UINT32_MAX);
    uint32_t n;
    size_t i;

    CHECK(strcmp(other, storage_unit_message(UINT32_MAX)) == 0);
    for (n = 0; n < 1000; n++) {
        const char *text = storage_unit_channel_message(n);

        for (i = 0; i < count && texts[i].number != n; i++) {
        }
        CHECK((strcmp(text, other) == 0) == (i == count));
        CHECK(i == count || strncmp(text, texts[i].text, strlen(texts[i].text)) == 0);
    }
}

/* The bytes of a CCW, and those of a progress. */
static void channel_bytes(void)
{
    static const uint8_t made[STORAGE_UNIT_CCW_LENGTH] = {0x02, 0x34, 0x56, 0x78, 0x40, 0, 0xAB, 0xCD};
    static const uint8_t left[STORAGE_UNIT_PROGRESS_LENGTH] = {
        0x18, 0x10, 0, 0, STORAGE_UNIT_CHAINING_COMMAND, STORAGE_UNIT_NUMBER_GRANT_USED, 0, 0,
        3, 0, 0, 0, 0, 0, 0, 0, 4, 0, 0, 0, 0, 0, 0, 0, 3, 0, 0, 0, 0, 0, 0, 0,
    };
    struct storage_unit_machine machine = machine_of_tests();
    struct storage_unit_program program = program_of_tests();
    struct storage_unit_progress progress;
    uint8_t bytes[STORAGE_UNIT_CCW_LENGTH];

    memset(bytes, 0xEE, sizeof bytes);
    storage_unit_put_ccw(bytes, STORAGE_UNIT_CCW_READ, 0x12345678, STORAGE_UNIT_CCW_CHAIN_COMMAND,
                         0xABCD);
    CHECK(memcmp(bytes, made, sizeof bytes) == 0);

    CHECK(sizeof progress == STORAGE_UNIT_PROGRESS_LENGTH);
    channel_start();
    ccw(0, STORAGE_UNIT_CCW_READ, 0, STORAGE_UNIT_CCW_CHAIN_COMMAND, 4);
    ccw(1, STORAGE_UNIT_CCW_WRITE, 0, STORAGE_UNIT_CCW_CHAIN_COMMAND, 2);
    ccw(2, STORAGE_UNIT_CCW_WRITE, 0, STORAGE_UNIT_CCW_CHAIN_COMMAND, 1);
    program.grant = 3;
    CHECK(run_both(&machine, &program, &progress) == STORAGE_UNIT_NUMBER_GRANT_USED);
    CHECK(memcmp(&progress, left, sizeof progress) == 0);
}

/* A program that reads over the end of a unit, goes on by a transfer in channel, and writes. */
static void channel_completed(void)
{
    struct storage_unit_machine machine = machine_of_tests();
    struct storage_unit_program program = program_of_tests();
    struct storage_unit_progress progress;
    uint64_t answer;

    channel_start();
    ccw(0, STORAGE_UNIT_CCW_READ, 2046, STORAGE_UNIT_CCW_CHAIN_COMMAND, 4);
    ccw(1, 0xF0 | STORAGE_UNIT_CCW_TRANSFER, CCWS + 24, 0xFF, 0);
    ccw(3, STORAGE_UNIT_CCW_WRITE, 2047, STORAGE_UNIT_CCW_CHAIN_COMMAND, 2);
    ccw(4, STORAGE_UNIT_CCW_READ, STORAGE_LENGTH - 1, 0, 1);
    CHECK(run_both(&machine, &program, &progress) == STORAGE_UNIT_NUMBER_COMPLETED);
    CHECK(progress.address == CCWS + 40 && progress.chaining == STORAGE_UNIT_CHAINING_ENDED);
    CHECK(progress.fetched == 4 && progress.taken == 5 && progress.given == 2);
    CHECK(storage[2045] == 0 && storage[2046] == 0xE0 && storage[2049] == 0xE3 && storage[2050] == 0);
    CHECK(storage[STORAGE_LENGTH - 1] == 0xE4);
    CHECK(to_device[0] == 0xE1 && to_device[1] == 0xE2 && to_device[2] == 0xCC);
    CHECK(keys[0] == 0x36 && keys[1] == 0x36 && keys[2] == 0x34 && keys[3] == 0x36);

    /* Each step of it. */
    channel_start();
    ccw(0, STORAGE_UNIT_CCW_READ, 2046, STORAGE_UNIT_CCW_CHAIN_COMMAND, 4);
    ccw(1, STORAGE_UNIT_CCW_TRANSFER, CCWS + 24, 0, 0);
    ccw(3, STORAGE_UNIT_CCW_WRITE, 2047, 0, 2);
    progress = progress_of(0);
    answer = storage_unit_step_program(&machine, &program, &progress);
    CHECK(channel_number(answer) == STORAGE_UNIT_NUMBER_UNDER_WAY);
    CHECK(progress.address == CCWS + 8 && progress.chaining == STORAGE_UNIT_CHAINING_COMMAND);
    CHECK(progress.fetched == 1 && progress.taken == 4 && progress.given == 0);
    answer = storage_unit_step_program(&machine, &program, &progress);
    CHECK(channel_number(answer) == STORAGE_UNIT_NUMBER_UNDER_WAY);
    CHECK(progress.address == CCWS + 24 && progress.chaining == STORAGE_UNIT_CHAINING_TRANSFER);
    CHECK(progress.fetched == 2 && progress.taken == 4 && progress.given == 0);
    answer = storage_unit_step_program(&machine, &program, &progress);
    CHECK(channel_number(answer) == STORAGE_UNIT_NUMBER_COMPLETED);
    CHECK(progress.fetched == 3 && progress.given == 2);

    /* With 4K units, whose keys are half as many. */
    channel_start();
    ccw(0, STORAGE_UNIT_CCW_READ, 2046, 0, 4);
    machine.settings = STORAGE_UNIT_4K;
    machine.keys_length = 2;
    CHECK(run_both(&machine, &program, &progress) == STORAGE_UNIT_NUMBER_COMPLETED);
    CHECK(keys[0] == 0x36 && keys[1] == 0x34 && keys[2] == 0x31);
}

/*
 * The program is refused with this number after so many CCWs. Nothing has changed but the key of
 * the CCWs' unit, and that only if one was fetched.
 */
static void refused(const struct storage_unit_machine *machine,
                    const struct storage_unit_program *program, uint32_t expected, uint32_t fetched)
{
    static struct channel_state state;
    struct storage_unit_progress progress;

    save(&state);
    CHECK(run_both(machine, program, &progress) == expected);
    CHECK(progress.fetched == fetched && progress.address == program->first);
    CHECK(progress.chaining == STORAGE_UNIT_CHAINING_FIRST);
    CHECK(progress.taken == 0 && progress.given == 0);
    if (fetched > 0) {
        state.keys[CCWS / STORAGE_UNIT_KEY_UNIT_2K] &= 0xFE;
        state.keys[CCWS / STORAGE_UNIT_KEY_UNIT_2K] |= STORAGE_UNIT_KEY_REFERENCE;
    }
    CHECK(is_as_saved(&state));
}

/* The same for a program of one CCW. */
static void refused_ccw(uint8_t command, uint32_t address, uint8_t flags, uint16_t count,
                        uint32_t expected)
{
    struct storage_unit_machine machine = machine_of_tests();
    struct storage_unit_program program = program_of_tests();

    channel_start();
    keys[0] = 0x40;
    keys[1] = 0x40 | STORAGE_UNIT_KEY_FETCH_PROTECTION;
    ccw(0, command, address, flags, count);
    refused(&machine, &program, expected, 1);
}

/* Each number that is given, and the order of them. */
static void channel_numbers(void)
{
    struct storage_unit_machine machine = machine_of_tests(), other;
    struct storage_unit_program program = program_of_tests(), wrong;
    struct storage_unit_progress progress;

    channel_start();
    ccw(0, STORAGE_UNIT_CCW_READ, 0, 0, 1);
    wrong = program;
    wrong.key = STORAGE_UNIT_CHANNEL_KEY_MAXIMUM + 1;
    wrong.grant = STORAGE_UNIT_GRANT_MAXIMUM + 1;
    wrong.first = 1;
    other = machine;
    other.keys_length--;
    refused(&other, &wrong, STORAGE_UNIT_NUMBER_CONFIGURATION, 0);
    other = machine;
    other.storage_length--;
    refused(&other, &wrong, STORAGE_UNIT_NUMBER_CONFIGURATION, 0);
    refused(&machine, &wrong, STORAGE_UNIT_NUMBER_CHANNEL_KEY, 0);
    wrong.key = STORAGE_UNIT_CHANNEL_KEY_MAXIMUM;
    refused(&machine, &wrong, STORAGE_UNIT_NUMBER_GRANT, 0);
    wrong.grant = 0;
    refused(&machine, &wrong, STORAGE_UNIT_NUMBER_GRANT, 0);
    wrong.grant = STORAGE_UNIT_GRANT_MAXIMUM;
    refused(&machine, &wrong, STORAGE_UNIT_NUMBER_PROGRAM, 0);
    wrong.first = STORAGE_LENGTH;
    refused(&machine, &wrong, STORAGE_UNIT_NUMBER_PROGRAM, 0);
    wrong.first = STORAGE_UNIT_STORAGE_MAXIMUM + CCWS;
    refused(&machine, &wrong, STORAGE_UNIT_NUMBER_PROGRAM, 0);
    keys[2] = 0x41 | STORAGE_UNIT_KEY_FETCH_PROTECTION;
    refused(&machine, &program, STORAGE_UNIT_NUMBER_FORBIDDEN, 0);

    /* Keys 4 of units 0 and 1, of which unit 1 has fetch protection, forbid key 3. */
    refused_ccw(0x03, 0, 0, 1, STORAGE_UNIT_NUMBER_PROGRAM);
    refused_ccw(0x04, 0, 0, 1, STORAGE_UNIT_NUMBER_PROGRAM);
    refused_ccw(STORAGE_UNIT_CCW_TRANSFER, CCWS, 0, 1, STORAGE_UNIT_NUMBER_PROGRAM);
    refused_ccw(STORAGE_UNIT_CCW_READ, CCWS, 0x80, 1, STORAGE_UNIT_NUMBER_PROGRAM);
    refused_ccw(STORAGE_UNIT_CCW_READ, CCWS, 0, 0, STORAGE_UNIT_NUMBER_PROGRAM);
    refused_ccw(STORAGE_UNIT_CCW_READ, STORAGE_LENGTH - 16, 0, 17, STORAGE_UNIT_NUMBER_PROGRAM);
    refused_ccw(STORAGE_UNIT_CCW_WRITE, 0xFFFFFF, 0, STORAGE_UNIT_CCW_COUNT_MAXIMUM,
                STORAGE_UNIT_NUMBER_PROGRAM);
    refused_ccw(STORAGE_UNIT_CCW_READ, 0, 0, DEVICE_SIZE + 1, STORAGE_UNIT_NUMBER_DEVICE);
    refused_ccw(STORAGE_UNIT_CCW_WRITE, 2048, 0, DEVICE_SIZE + 1, STORAGE_UNIT_NUMBER_DEVICE);
    refused_ccw(STORAGE_UNIT_CCW_READ, 0, 0, DEVICE_SIZE, STORAGE_UNIT_NUMBER_FORBIDDEN);
    refused_ccw(STORAGE_UNIT_CCW_WRITE, 2047, 0, 2, STORAGE_UNIT_NUMBER_FORBIDDEN);
    refused_ccw(STORAGE_UNIT_CCW_READ, CCWS - 1, 0, 2, STORAGE_UNIT_NUMBER_FORBIDDEN);

    /* The granted CCWs, in a row and in a loop; what was done stands. */
    channel_start();
    ccw(0, STORAGE_UNIT_CCW_READ, 0, STORAGE_UNIT_CCW_CHAIN_COMMAND, 1);
    ccw(1, STORAGE_UNIT_CCW_TRANSFER, CCWS, 0, 0);
    program.grant = 1;
    CHECK(run_both(&machine, &program, &progress) == STORAGE_UNIT_NUMBER_GRANT_USED);
    CHECK(progress.fetched == 1 && progress.address == CCWS + 8 && storage[0] == 0xE0);
    program.grant = 20;
    CHECK(run_both(&machine, &program, &progress) == STORAGE_UNIT_NUMBER_GRANT_USED);
    CHECK(progress.fetched == 20 && progress.taken == 10 && storage[0] == 0xE9);
    CHECK(progress.address == CCWS && progress.chaining == STORAGE_UNIT_CHAINING_TRANSFER);
    program.grant = STORAGE_UNIT_GRANT_MAXIMUM;
    CHECK(run_both(&machine, &program, &progress) == STORAGE_UNIT_NUMBER_DEVICE);
    CHECK(progress.fetched == 33 && progress.taken == 16 && storage[0] == 0xEF);
}

typedef uint64_t channel_function(const struct storage_unit_machine *machine,
                                  const struct storage_unit_program *program, uint8_t *progress,
                                  size_t progress_length);

static uint64_t whole_of(const struct storage_unit_machine *machine,
                         const struct storage_unit_program *program, uint8_t *progress,
                         size_t progress_length)
{
    return storage_unit_channel(machine->settings, machine->storage, machine->storage_length,
                                machine->keys, machine->keys_length, program->key, program->first,
                                program->grant, program->from, program->from_length, program->room,
                                program->room_length, progress, progress_length);
}

static uint64_t step_of(const struct storage_unit_machine *machine,
                        const struct storage_unit_program *program, uint8_t *progress,
                        size_t progress_length)
{
    return storage_unit_channel_step(machine->settings, machine->storage, machine->storage_length,
                                     machine->keys, machine->keys_length, program->key,
                                     program->first, program->grant, program->from,
                                     program->from_length, program->room, program->room_length,
                                     progress, progress_length);
}

/* A call with this progress answers with this number, and changes nothing, not even the progress. */
static void changes_nothing(channel_function *function, const struct storage_unit_machine *machine,
                            const uint8_t *bytes, size_t length, uint32_t expected)
{
    static struct channel_state state;
    struct storage_unit_program program = program_of_tests();
    uint8_t progress[64];

    save(&state);
    memcpy(progress, bytes, sizeof progress);
    CHECK(channel_number(function(machine, &program, progress, length)) == expected);
    CHECK(is_as_saved(&state) && memcmp(progress, bytes, sizeof progress) == 0);
}

/* A progress that is none: 65, or 64 where the lengths are wrong. Settings with another bit on: 64. */
static void channel_wrong_progress(void)
{
    struct storage_unit_machine machine = machine_of_tests(), other;
    uint8_t bytes[64];
    size_t length, place;
    uint32_t byte;

    channel_start();
    ccw(0, STORAGE_UNIT_CCW_READ, 0, 0, 1);
    other = machine;
    other.keys_length--;
    memset(bytes, 0, sizeof bytes);
    for (length = 0; length <= sizeof bytes; length++) {
        if (length == STORAGE_UNIT_PROGRESS_LENGTH) {
            continue;
        }
        changes_nothing(whole_of, &machine, bytes, length, STORAGE_UNIT_NUMBER_CHANNEL_KEY);
        changes_nothing(step_of, &machine, bytes, length, STORAGE_UNIT_NUMBER_CHANNEL_KEY);
        changes_nothing(whole_of, &other, bytes, length, STORAGE_UNIT_NUMBER_CONFIGURATION);
        changes_nothing(step_of, &other, bytes, length, STORAGE_UNIT_NUMBER_CONFIGURATION);
    }
    length = STORAGE_UNIT_PROGRESS_LENGTH;
    for (place = 4; place < 16; place++) {
        if (place >= 8 && place < 12) {
            continue; /* the number of CCWs fetched: any */
        }
        for (byte = 0; byte < 256; byte++) {
            int is_status = byte <= 2 || (byte >= 64 && byte <= 66) || (byte >= 71 && byte <= 74);

            if (place == 4 ? byte <= 3 : place == 5 ? is_status : byte == 0) {
                continue;
            }
            memset(bytes, 0, sizeof bytes);
            bytes[place] = (uint8_t)byte;
            changes_nothing(step_of, &machine, bytes, length, STORAGE_UNIT_NUMBER_CHANNEL_KEY);
            changes_nothing(step_of, &other, bytes, length, STORAGE_UNIT_NUMBER_CONFIGURATION);
        }
    }
    /* A program that has its answer, also where the lengths are wrong. */
    memset(bytes, 0x5A, sizeof bytes);
    memset(bytes + 12, 0, 4);
    bytes[4] = STORAGE_UNIT_CHAINING_ENDED;
    bytes[5] = STORAGE_UNIT_PROGRESS_ENDED;
    bytes[6] = 0;
    bytes[7] = 0;
    changes_nothing(step_of, &machine, bytes, length, STORAGE_UNIT_NUMBER_COMPLETED);
    changes_nothing(step_of, &other, bytes, length, STORAGE_UNIT_NUMBER_COMPLETED);
    bytes[5] = STORAGE_UNIT_NUMBER_DEVICE;
    changes_nothing(step_of, &other, bytes, length, STORAGE_UNIT_NUMBER_DEVICE);

    /* Settings come first, whatever the progress is. */
    for (byte = 4; byte != 0; byte <<= 1) {
        machine.settings = byte;
        changes_nothing(whole_of, &machine, bytes, length, STORAGE_UNIT_NUMBER_CONFIGURATION);
        changes_nothing(step_of, &machine, bytes, length, STORAGE_UNIT_NUMBER_CONFIGURATION);
        changes_nothing(step_of, &machine, bytes, length - 1, STORAGE_UNIT_NUMBER_CONFIGURATION);
    }
}

/* A progress that is made up: a transfer in channel is allowed by chain command and not else. */
static void channel_made_up(void)
{
    struct storage_unit_machine machine = machine_of_tests();
    struct storage_unit_program program = program_of_tests();
    uint8_t chaining;

    for (chaining = 0; chaining <= STORAGE_UNIT_CHAINING_ENDED; chaining++) {
        int allowed = chaining == STORAGE_UNIT_CHAINING_COMMAND;
        struct storage_unit_progress progress = progress_of(0);

        channel_start();
        ccw(0, STORAGE_UNIT_CCW_TRANSFER, CCWS + 8, 0, 0);
        progress.address = CCWS;
        progress.chaining = chaining;
        progress.status = STORAGE_UNIT_PROGRESS_UNDER_WAY;
        progress.taken = UINT64_MAX;
        CHECK(channel_number(storage_unit_step_program(&machine, &program, &progress))
              == (allowed ? STORAGE_UNIT_NUMBER_UNDER_WAY : STORAGE_UNIT_NUMBER_PROGRAM));
        CHECK(progress.chaining == (allowed ? STORAGE_UNIT_CHAINING_TRANSFER : chaining));
        CHECK(progress.fetched == 1 && progress.taken == UINT64_MAX && keys[2] == 0x34);
    }
}

/* Where a length is 0 the pointer may be null. */
static void channel_null(void)
{
    struct storage_unit_machine machine = machine_of_tests();
    struct storage_unit_program program = program_of_tests();
    struct storage_unit_progress progress;

    program.from = NULL;
    program.from_length = 0;
    channel_start();
    ccw(0, STORAGE_UNIT_CCW_WRITE, CCWS, 0, 8);
    CHECK(run_both(&machine, &program, &progress) == STORAGE_UNIT_NUMBER_COMPLETED);
    CHECK(memcmp(to_device, storage + CCWS, 8) == 0 && to_device[8] == 0xCC);
    channel_start();
    ccw(0, STORAGE_UNIT_CCW_READ, 0, 0, 1);
    refused(&machine, &program, STORAGE_UNIT_NUMBER_DEVICE, 1);

    program = program_of_tests();
    program.room = NULL;
    program.room_length = 0;
    channel_start();
    ccw(0, STORAGE_UNIT_CCW_READ, 0, 0, DEVICE_SIZE);
    CHECK(run_both(&machine, &program, &progress) == STORAGE_UNIT_NUMBER_COMPLETED);
    CHECK(memcmp(storage, from_device, sizeof from_device) == 0);
    channel_start();
    ccw(0, STORAGE_UNIT_CCW_WRITE, 0, 0, 1);
    refused(&machine, &program, STORAGE_UNIT_NUMBER_DEVICE, 1);

    CHECK(channel_number(whole_of(&machine, &program, NULL, 0)) == STORAGE_UNIT_NUMBER_CHANNEL_KEY);
    CHECK(channel_number(step_of(&machine, &program, NULL, 0)) == STORAGE_UNIT_NUMBER_CHANNEL_KEY);
    memset(&machine, 0, sizeof machine);
    memset(&program, 0, sizeof program);
    CHECK(channel_number(whole_of(&machine, &program, NULL, 0)) == STORAGE_UNIT_NUMBER_CONFIGURATION);
    CHECK(channel_number(step_of(&machine, &program, NULL, 0)) == STORAGE_UNIT_NUMBER_CONFIGURATION);
}

/* A progress of each alignment, with other bytes around it. */
static void channel_alignment(void)
{
    const size_t length = STORAGE_UNIT_PROGRESS_LENGTH;
    struct storage_unit_machine machine = machine_of_tests();
    struct storage_unit_program program = program_of_tests();
    uint8_t bytes[STORAGE_UNIT_PROGRESS_LENGTH + 8], left[STORAGE_UNIT_PROGRESS_LENGTH];
    size_t at, place;

    channel_start();
    ccw(0, STORAGE_UNIT_CCW_READ, 0, STORAGE_UNIT_CCW_CHAIN_COMMAND, 2);
    ccw(1, STORAGE_UNIT_CCW_WRITE, 0, 0, 2);
    CHECK(channel_number(whole_of(&machine, &program, left, length)) == STORAGE_UNIT_NUMBER_COMPLETED);
    for (at = 0; at <= 8; at++) {
        memset(bytes, 0x77, sizeof bytes);
        CHECK(channel_number(whole_of(&machine, &program, bytes + at, length))
              == STORAGE_UNIT_NUMBER_COMPLETED);
        CHECK(memcmp(bytes + at, left, length) == 0);
        memset(bytes + at, 0, length);
        CHECK(channel_number(step_of(&machine, &program, bytes + at, length))
              == STORAGE_UNIT_NUMBER_UNDER_WAY);
        CHECK(channel_number(step_of(&machine, &program, bytes + at, length))
              == STORAGE_UNIT_NUMBER_COMPLETED);
        CHECK(memcmp(bytes + at, left, length) == 0);
        for (place = 0; place < sizeof bytes; place++) {
            CHECK((place >= at && place < at + length) || bytes[place] == 0x77);
        }
    }
}

/* A processor stores the CCW to come between two steps; and a read of the program does it. */
static void channel_between_steps(void)
{
    static uint8_t stored[2 * STORAGE_UNIT_CCW_LENGTH];
    struct storage_unit_machine machine = machine_of_tests();
    struct storage_unit_program program = program_of_tests();
    struct storage_unit_progress progress = progress_of(0);

    channel_start();
    ccw(0, STORAGE_UNIT_CCW_READ, 0, STORAGE_UNIT_CCW_CHAIN_COMMAND, 2);
    CHECK(channel_number(storage_unit_step_program(&machine, &program, &progress))
          == STORAGE_UNIT_NUMBER_UNDER_WAY);
    storage_unit_put_ccw(stored, STORAGE_UNIT_CCW_WRITE, 1, 0, 1);
    CHECK(is_completed(storage_unit_store_bytes(&machine, 0, CCWS + 8, stored,
                                                STORAGE_UNIT_CCW_LENGTH)));
    CHECK(channel_number(storage_unit_step_program(&machine, &program, &progress))
          == STORAGE_UNIT_NUMBER_COMPLETED);
    CHECK(to_device[0] == 0xE1 && to_device[1] == 0xCC && progress.fetched == 2);
    CHECK(keys[0] == 0x36 && keys[2] == 0x36);

    /* It reads over itself and over the CCW behind it. */
    channel_start();
    storage_unit_put_ccw(stored + STORAGE_UNIT_CCW_LENGTH, STORAGE_UNIT_CCW_WRITE, CCWS + 8, 0, 8);
    ccw(0, STORAGE_UNIT_CCW_READ, CCWS, STORAGE_UNIT_CCW_CHAIN_COMMAND, sizeof stored);
    program.from = stored;
    program.from_length = sizeof stored;
    CHECK(run_both(&machine, &program, &progress) == STORAGE_UNIT_NUMBER_COMPLETED);
    CHECK(progress.fetched == 2 && progress.taken == 16 && progress.given == 8);
    CHECK(memcmp(to_device, stored + STORAGE_UNIT_CCW_LENGTH, STORAGE_UNIT_CCW_LENGTH) == 0);
}

/* ---- Random requests, by storage_unit_request and by the functions of a machine. */

#define RANDOM_LENGTH   12288u
#define RANDOM_REQUESTS 300000u
#define OPERATIONS      10u

/*
 * All that a request is lent, and a key, a record and a byte of the buffer too many. It consists of
 * bytes, so that two of them are equal by memcmp.
 */
struct lent {
    uint8_t storage[RANDOM_LENGTH];
    uint8_t keys[RANDOM_LENGTH / STORAGE_UNIT_KEY_UNIT_2K + 1];
    uint8_t records[STORAGE_UNIT_RECORDS_LENGTH + STORAGE_UNIT_RECORD_LENGTH];
    uint8_t buffer[STORAGE_UNIT_ACCESS_MAXIMUM + 1];
};

struct random_request {
    uint32_t processor_number;
    uint32_t operation;
    uint32_t first;
    uint32_t second;
};

/* A random number below `bound`, by a generator of 64 bits (xorshift). */
static uint32_t below(uint32_t bound)
{
    static uint64_t state = UINT64_C(88172645463325252);

    state ^= state << 13;
    state ^= state >> 7;
    state ^= state << 17;
    return (uint32_t)(state >> 32) % bound;
}

static int one_in(uint32_t n)
{
    return below(n) == 0;
}

static void make_bytes(uint8_t *bytes, size_t count)
{
    size_t i;

    for (i = 0; i < count; i++) {
        bytes[i] = (uint8_t)below(256);
    }
}

/* A random record, mostly a right one. */
static void make_record(uint8_t *record)
{
    storage_unit_put_psw_key(record, (uint8_t)(one_in(64) ? below(256) : below(4)));
    storage_unit_put_controls(record, (uint8_t)(one_in(64) ? below(256) : below(8)));
    storage_unit_put_code(record, (uint8_t)(one_in(64) ? below(256) : below(4)));
    record[STORAGE_UNIT_RESERVED_AT] = (uint8_t)(one_in(64) ? below(256) : 0);
    storage_unit_put_prefix(record, one_in(64) ? below(UINT32_MAX) : below(3) * 4096);
}

/* Random bytes to lend. Access control is 0 to 3 in keys, as in most PSW keys. */
static void make_lent(struct lent *lent)
{
    size_t i;

    make_bytes(lent->storage, sizeof lent->storage);
    make_bytes(lent->keys, sizeof lent->keys);
    for (i = 0; i < sizeof lent->keys; i++) {
        lent->keys[i] &= 0x3F;
    }
    make_record(storage_unit_record(lent->records, 0));
    make_record(storage_unit_record(lent->records, 1));
    make_record(storage_unit_record(lent->records, 2));
}

/* A random machine over these bytes, mostly a right one. */
static struct storage_unit_machine make_machine(struct lent *lent)
{
    struct storage_unit_machine machine;

    machine.settings = one_in(32) ? below(16) : below(4);
    machine.storage = lent->storage;
    machine.storage_length = one_in(32) ? below(RANDOM_LENGTH) : (1 + below(3)) * 4096;
    machine.keys = lent->keys;
    machine.keys_length = storage_unit_key_count(machine.settings, machine.storage_length);
    if (one_in(32)) {
        machine.keys_length += 1;
    }
    machine.records = lent->records;
    machine.records_length = one_in(32) ? below(25) : STORAGE_UNIT_RECORDS_LENGTH;
    return machine;
}

static struct random_request make_request(void)
{
    struct random_request asked;
    uint32_t anywhere = one_in(16) ? below(UINT32_MAX) : below(RANDOM_LENGTH + 256);

    asked.processor_number = one_in(32) ? below(4) : below(2);
    asked.operation = below(OPERATIONS);
    if (asked.operation == STORAGE_UNIT_FETCH || asked.operation == STORAGE_UNIT_STORE) {
        asked.first = anywhere;
        asked.second = one_in(2) ? below(8) : below(STORAGE_UNIT_ACCESS_MAXIMUM + 2);
    } else if (asked.operation == STORAGE_UNIT_SET_PREFIX) {
        asked.first = anywhere;
        asked.second = below(UINT32_MAX);
    } else {
        asked.first = below(UINT32_MAX);
        asked.second = one_in(8) ? anywhere : anywhere & ~UINT32_C(15);
    }
    return asked;
}

static size_t buffer_length(const struct random_request *asked)
{
    return asked->operation <= STORAGE_UNIT_STORE ? asked->second : 0;
}

static uint64_t by_request(const struct storage_unit_machine *machine,
                           const struct random_request *asked, uint8_t *bytes)
{
    return storage_unit_request(machine->settings, machine->storage, machine->storage_length,
                                machine->keys, machine->keys_length, machine->records,
                                machine->records_length, asked->processor_number,
                                asked->operation, asked->first, asked->second, bytes,
                                buffer_length(asked));
}

static uint64_t by_function(const struct storage_unit_machine *machine,
                            const struct random_request *asked, uint8_t *bytes)
{
    uint32_t n = asked->processor_number, first = asked->first, second = asked->second;

    switch (asked->operation) {
    case STORAGE_UNIT_FETCH:
        return storage_unit_fetch_bytes(machine, n, first, bytes, second);
    case STORAGE_UNIT_STORE:
        return storage_unit_store_bytes(machine, n, first, bytes, second);
    case STORAGE_UNIT_ISK:
        return storage_unit_isk(machine, n, first, second);
    case STORAGE_UNIT_SSK:
        return storage_unit_ssk(machine, n, first, second);
    case STORAGE_UNIT_RRB:
        return storage_unit_rrb(machine, n, second);
    case STORAGE_UNIT_ISKE:
        return storage_unit_iske(machine, n, first, second);
    case STORAGE_UNIT_SSKE:
        return storage_unit_sske(machine, n, first, second);
    case STORAGE_UNIT_RRBE:
        return storage_unit_rrbe(machine, n, second);
    case STORAGE_UNIT_SET_PREFIX:
        return storage_unit_set_prefix(machine, n, first);
    default:
        return storage_unit_store_prefix(machine, n);
    }
}

/* How many of these bytes differ. */
static size_t changed(const uint8_t *before, const uint8_t *after, size_t count)
{
    size_t differing = 0, i;

    if (memcmp(before, after, count) != 0) {
        for (i = 0; i < count; i++) {
            differing += before[i] != after[i];
        }
    }
    return differing;
}

/* The absolute address of a real address. */
static uint32_t absolute(uint32_t prefix, uint32_t real)
{
    uint32_t block = real & ~UINT32_C(0xFFF);

    if (block == 0) {
        return real + prefix;
    }
    return block == prefix ? real - prefix : real;
}

/* How many of the bytes that a completed store names differ. */
static size_t changed_bytes_named(const struct random_request *asked, uint32_t prefix,
                                  const struct lent *before, const struct lent *after)
{
    size_t differing = 0;
    uint32_t i;

    for (i = 0; i < asked->second; i++) {
        uint32_t at = absolute(prefix, asked->first + i);

        differing += before->storage[at] != after->storage[at];
    }
    return differing;
}

/* How many of the keys that a completed request names differ. */
static size_t changed_keys_named(uint32_t settings, const struct random_request *asked,
                                 uint32_t prefix, const struct lent *before,
                                 const struct lent *after)
{
    uint32_t from, to; /* real addresses in the first unit and in the last */
    size_t unit = storage_unit_key_unit(settings), one, other;

    switch (asked->operation) {
    case STORAGE_UNIT_FETCH:
    case STORAGE_UNIT_STORE:
        from = asked->first;
        to = asked->first + asked->second - 1;
        break;
    case STORAGE_UNIT_SSK:
    case STORAGE_UNIT_RRB:
        from = asked->second & 0x00FFF800u;
        to = from;
        break;
    case STORAGE_UNIT_SSKE:
    case STORAGE_UNIT_RRBE:
        from = asked->second & 0x7FFFF000u;
        to = from + 2048;
        break;
    default:
        return 0;
    }
    one = absolute(prefix, from) / unit;
    other = absolute(prefix, to) / unit;
    return (size_t)(before->keys[one] != after->keys[one])
           + (size_t)(one != other && before->keys[other] != after->keys[other]);
}

/* What the header says under "What a call never writes": each byte that has changed is named there. */
static void never_written(uint32_t settings, const struct random_request *asked, uint32_t answered,
                          const struct lent *before, const struct lent *after)
{
    size_t of_storage = changed(before->storage, after->storage, sizeof before->storage);
    size_t of_keys = changed(before->keys, after->keys, sizeof before->keys);
    size_t of_records = changed(before->records, after->records, sizeof before->records);
    size_t of_buffer = changed(before->buffer, after->buffer, sizeof before->buffer);
    const uint8_t *own = before->records, *own_after = after->records;
    uint32_t prefix;

    if (answered != STORAGE_UNIT_NUMBER_COMPLETED) {
        CHECK(of_storage == 0 && of_keys == 0 && of_records == 0 && of_buffer == 0);
        return;
    }
    own += STORAGE_UNIT_RECORD_LENGTH * asked->processor_number;
    own_after += STORAGE_UNIT_RECORD_LENGTH * asked->processor_number;
    prefix = storage_unit_prefix(own);
    CHECK(of_keys == changed_keys_named(settings, asked, prefix, before, after));
    switch (asked->operation) {
    case STORAGE_UNIT_FETCH:
        CHECK(of_storage == 0 && of_records == 0);
        CHECK(of_buffer == changed(before->buffer, after->buffer, asked->second));
        break;
    case STORAGE_UNIT_STORE:
        CHECK(of_storage == changed_bytes_named(asked, prefix, before, after));
        CHECK(of_records == 0 && of_buffer == 0);
        break;
    case STORAGE_UNIT_RRB:
    case STORAGE_UNIT_RRBE:
        CHECK(of_storage == 0 && of_buffer == 0);
        CHECK(of_records
              == changed(own + STORAGE_UNIT_CODE_AT, own_after + STORAGE_UNIT_CODE_AT, 1));
        break;
    case STORAGE_UNIT_SET_PREFIX:
        CHECK(of_storage == 0 && of_buffer == 0);
        CHECK(of_records
              == changed(own + STORAGE_UNIT_PREFIX_AT, own_after + STORAGE_UNIT_PREFIX_AT, 4));
        break;
    default:
        CHECK(of_storage == 0 && of_records == 0 && of_buffer == 0);
    }
}

/* The same requests both ways, from equal bytes: equal answers and equal bytes. */
static void random_requests(void)
{
    static struct lent one, other, before;
    struct storage_unit_machine machine = make_machine(&one), same;
    uint32_t given[NUMBERS] = {0}, completions[OPERATIONS] = {0};
    uint32_t i;
    size_t j;

    for (i = 0; i < RANDOM_REQUESTS && failures == 0; i++) {
        struct random_request asked = make_request();
        uint64_t answer;

        if (i % 64 == 0) {
            make_lent(&one);
            machine = make_machine(&one);
        } else if (i % 8 == 0) {
            make_record(storage_unit_record(one.records, below(2)));
        }
        make_bytes(one.buffer, 8);
        before = one;
        other = one;
        same = machine;
        same.storage = other.storage;
        same.keys = other.keys;
        same.records = other.records;
        answer = by_request(&machine, &asked, one.buffer);
        CHECK(by_function(&same, &asked, other.buffer) == answer);
        CHECK(memcmp(&one, &other, sizeof one) == 0);
        never_written(machine.settings, &asked, storage_unit_number(answer), &before, &one);
        for (j = 0; j < NUMBERS; j++) {
            given[j] += all_numbers[j] == storage_unit_number(answer);
        }
        completions[asked.operation] += is_completed(answer) != 0;
    }
    if (failures != 0) {
        return;
    }
    for (j = 0; j < NUMBERS; j++) {
        CHECK(given[j] >= 100);
    }
    for (j = 0; j < OPERATIONS; j++) {
        CHECK(completions[j] >= 1000);
    }
}

int main(void)
{
    version();
    messages();
    answers();
    sizes();
    lengths();
    record_fields();
    operations();
    rules();
    numbers();
    short_way();
    constant_bytes();
    machine_functions();
    play_whole();
    play_pieces();
    play_ends();
    play_room();
    play_short_buffer();
    play_refused();
    channel_messages();
    channel_bytes();
    channel_completed();
    channel_numbers();
    channel_wrong_progress();
    channel_made_up();
    channel_null();
    channel_alignment();
    channel_between_steps();
    random_requests();
    return failures == 0 ? 0 : 1;
}
