/*
 * storage_unit.h: the storage unit of an emulated System/370, for programs in C99 and C++11.
 *
 * The program owns the storage, its storage keys and the records of two processors, and lends them
 * to each call of storage_unit_request. A call takes one request of one processor (fetch, store,
 * one of the six key instructions, SET PREFIX or STORE PREFIX) and gives one answer.
 * storage_unit_fetch and storage_unit_store do the same for a fetch and a store, in less time.
 * storage_unit_play takes a recording, which holds many requests, and writes a line for each.
 * storage_unit_channel runs a channel program, which moves bytes between storage and a device under
 * the same keys, and storage_unit_channel_step one CCW of it.
 *
 * The last part of this header serves most programs: struct storage_unit_machine, which holds what
 * is lent, and a function for each of the ten operations, its operands under their own names, one
 * that plays a recording, and two for channel programs.
 *
 * The functions are in the static library libstorage_unit.a, for x86-64 Linux, which needs memcpy,
 * memmove and memset from the C library and nothing else. What a call answers and leaves is proved;
 * it is defined in the repository, in crates/boundary/specs/Boundary.antt,
 * crates/host_access/specs/ShortWay.antt, crates/host_player/specs/Playing.antt and
 * crates/host_channel/specs/ChannelCalls.antt.
 *
 * "Bit 0" of a register is the leftmost of 32, as in the manual, GA22-7000. The constants below are
 * plain values, to be used with & and |.
 */
#ifndef STORAGE_UNIT_H
#define STORAGE_UNIT_H

#include <stddef.h>
#include <stdint.h>

#ifdef __cplusplus
extern "C" {
#endif

/* ---- The version: 10000 x major + 100 x minor + patch, to be used with #if too. */

#define STORAGE_UNIT_VERSION_MAJOR 0u
#define STORAGE_UNIT_VERSION_MINOR 4u
#define STORAGE_UNIT_VERSION_PATCH 0u
#define STORAGE_UNIT_VERSION_TEXT  "0.4.0"

#define STORAGE_UNIT_VERSION \
    (10000u * STORAGE_UNIT_VERSION_MAJOR + 100u * STORAGE_UNIT_VERSION_MINOR \
     + STORAGE_UNIT_VERSION_PATCH)

/* The version of the library that is linked, by the same rule. */
uint32_t storage_unit_version(void);

/* ---- Settings, the same for both processors. */

#define STORAGE_UNIT_4K         1u /* 4K facility present: a key for each 4096 bytes, else 2048 */
#define STORAGE_UNIT_EXTENSIONS 2u /* ISKE, SSKE and RRBE present */

/*
 * ---- Operations, each with its operands `first` and `second`. An operand shown as - is ignored.
 *
 * The count of FETCH and STORE is the number of bytes, 1 to 256. Addresses are real and are
 * prefixed. R2 of ISK and SSK designates a 2K block by bits 8-20 (hex 00FFF800), and so does the
 * address of RRB. With 4K units the key is that of the unit in which the 2K block lies, and covers
 * the other 2K block of the unit too. R2 of ISKE, SSKE and RRBE designates a 4K block by bits 1-19
 * (hex 7FFFF000), with 2K units both of its keys. The key in R1 is its lowest byte. RRB and RRBE
 * set the condition code to 2 x the old reference bit + the old change bit. Of two keys, RRBE takes
 * the OR of the reference bits and the OR of the change bits; ISKE gives the first key, with its
 * reference and change bits each ORed with those of the second.
 */

#define STORAGE_UNIT_FETCH        0u /* address, count: from storage to the buffer */
#define STORAGE_UNIT_STORE        1u /* address, count: from the buffer to storage */
#define STORAGE_UNIT_ISK          2u /* R1, R2: the answer's word is the new R1 */
#define STORAGE_UNIT_SSK          3u /* R1, R2 */
#define STORAGE_UNIT_RRB          4u /* -, address: sets the condition code */
#define STORAGE_UNIT_ISKE         5u /* R1, R2: the answer's word is the new R1 */
#define STORAGE_UNIT_SSKE         6u /* R1, R2 */
#define STORAGE_UNIT_RRBE         7u /* -, R2: sets the condition code */
#define STORAGE_UNIT_SET_PREFIX   8u /* word, -: bits 8-19 (hex 00FFF000) are the new prefix */
#define STORAGE_UNIT_STORE_PREFIX 9u /* -, -: the answer's word is the prefix */

/*
 * ---- Numbers of answers, in the order in which they are tested: the first that applies is given.
 * Those below 64 are the manual's program interruption codes.
 *
 * configuration      another bit of the settings is on; the length of storage or keys is wrong
 * record             there is no such processor; the records are not 16 bytes; the processor's own
 *                    record is wrong
 * operand            there is no such operation; an access is of 0 bytes, of more than 256 or of
 *                    more than the buffer has; the address of an access or of RRB is 16777216 or
 *                    more
 * operation          ISKE, SSKE or RRBE without the extensions
 * privileged         a key or prefix instruction in problem state
 * special operation  ISK, SSK or RRB with the 4K facility and CR0 bit 7 zero
 * specification      ISK or SSK with any of bits 28-31 of R2 on
 * addressing         a real address, or the block that SET PREFIX would install, is outside storage
 * protection         a byte of an access is forbidden
 * completed          none of these
 */

#define STORAGE_UNIT_NUMBER_CONFIGURATION     64u
#define STORAGE_UNIT_NUMBER_RECORD            65u
#define STORAGE_UNIT_NUMBER_OPERAND           66u
#define STORAGE_UNIT_NUMBER_OPERATION         1u
#define STORAGE_UNIT_NUMBER_PRIVILEGED        2u
#define STORAGE_UNIT_NUMBER_SPECIAL_OPERATION 19u
#define STORAGE_UNIT_NUMBER_SPECIFICATION     6u
#define STORAGE_UNIT_NUMBER_ADDRESSING        5u
#define STORAGE_UNIT_NUMBER_PROTECTION        4u
#define STORAGE_UNIT_NUMBER_COMPLETED         0u

/*
 * ---- Rules of prefixing, as the manual numbers them. Bits 1-19 of an address are the number of
 * its 4K block. With prefix zero, addresses below 4096 go by the first.
 */

#define STORAGE_UNIT_RULE_NONE      0u /* refused, SET PREFIX, STORE PREFIX */
#define STORAGE_UNIT_RULE_ZERO      1u /* bits 1-19 zero: replaced by the prefix's */
#define STORAGE_UNIT_RULE_PREFIX    2u /* bits 1-19 equal to the prefix's: replaced by zeros */
#define STORAGE_UNIT_RULE_UNCHANGED 3u /* otherwise: unchanged */

/* ---- Sizes in bytes. */

#define STORAGE_UNIT_STORAGE_MULTIPLE 4096u /* storage is a multiple of this, and not empty */
#define STORAGE_UNIT_STORAGE_MAXIMUM  16777216u
#define STORAGE_UNIT_ACCESS_MAXIMUM   256u
#define STORAGE_UNIT_KEY_UNIT_2K      2048u /* the storage that shares a key */
#define STORAGE_UNIT_KEY_UNIT_4K      4096u /* the same with the 4K facility */

/* ---- A key byte. Hex 01 is ignored, and is zero in every key that the unit writes. */

#define STORAGE_UNIT_KEY_ACCESS_CONTROL   0xF0u
#define STORAGE_UNIT_KEY_FETCH_PROTECTION 0x08u
#define STORAGE_UNIT_KEY_REFERENCE        0x04u
#define STORAGE_UNIT_KEY_CHANGE           0x02u

/*
 * ---- The records: 8 bytes for processor 0, then 8 for processor 1, of any alignment.
 *
 * byte 0     PSW key, 0 to 15: PSW key 8 is hex 08, while the key byte that it matches is hex 80
 * byte 1     controls; every other bit is zero
 * byte 2     condition code, 0 to 3
 * byte 3     zero
 * bytes 4-7  prefix, the least significant byte first: a multiple of 4096 below the storage length
 *
 * A record of zeros is right: supervisor state, PSW key 0, prefix 0.
 */

#define STORAGE_UNIT_RECORD_LENGTH  8u
#define STORAGE_UNIT_RECORDS_LENGTH 16u

#define STORAGE_UNIT_PSW_KEY_AT  0u
#define STORAGE_UNIT_CONTROLS_AT 1u
#define STORAGE_UNIT_CODE_AT     2u
#define STORAGE_UNIT_RESERVED_AT 3u
#define STORAGE_UNIT_PREFIX_AT   4u

#define STORAGE_UNIT_PROBLEM        0x01u /* problem state, else supervisor state */
#define STORAGE_UNIT_LOW_PROTECTION 0x02u /* CR0 bit 3, low-address protection */
#define STORAGE_UNIT_KEY_CONTROL    0x04u /* CR0 bit 7, storage-key-exception control */

/*
 * ---- Recordings. A recording is a sequence of records, each a request of a processor or a remark.
 * A record is a length of two bytes, which counts what follows it and is at most 512, a kind of two
 * bytes, and, with the number of bytes of each:
 *
 * kind 1    fetch: processor (1), address (4), length (2)
 * kind 2    store: processor (1), address (4), length (2), then as many data bytes
 * kind 3    key instruction: processor (1), instruction (1), R1 (4), R2 or address (4); the
 *           instructions 0 to 5 are ISK, SSK, RRB, ISKE, SSKE and RRBE
 * kind 4    prefix instruction: processor (1), 0 for SET PREFIX or 1 for STORE PREFIX (1), word (4)
 * kind 255  remark, of 0 to 256 bytes
 *
 * All numbers are little-endian. A record of another kind, instruction or prefix instruction, of a
 * wrong length, of a length over 512, or one in which the recording ends, is bad. R1 of RRB and
 * RRBE and the word of STORE PREFIX are there and are ignored.
 *
 * Requests and records are counted from 1. A request is answered as by storage_unit_request, and
 * its line is its ordinal among requests, the number and the place of the answer, in decimal, as
 * in "1 0 0" and "2 5 3". What is wrong with a request and not with its record, as another
 * processor than 0 and 1, or a length of 0 or over 256, is in its answer. A remark has no line. The
 * line of a bad record is "bad record" and its ordinal among all records, and ends the run. A line
 * has one line end, hex 0A.
 */

#define STORAGE_UNIT_PLAY_MORE    0u /* every whole record of the piece is played */
#define STORAGE_UNIT_PLAY_ENDED   1u /* the recording is at its end, or a bad record has its line */
#define STORAGE_UNIT_PLAY_ROOM    2u /* under 64 bytes of the output are left */
#define STORAGE_UNIT_PLAY_LIMIT   3u /* an ordinal is 18446744073709551615, the greatest */
#define STORAGE_UNIT_PLAY_REFUSED 4u /* wrong settings, or a player of a wrong length */

#define STORAGE_UNIT_PLAY_RECORD_MAXIMUM 514u /* bytes of the longest record, its length included */
#define STORAGE_UNIT_PLAY_OUTPUT_MINIMUM 64u  /* bytes of output that any one line has room in */

/*
 * A player: the records of both processors, and how far the run has come. The numbers are zero at
 * the start of a recording. On x86-64 the struct is the 48 bytes that storage_unit_play takes.
 */
struct storage_unit_player {
    uint8_t records[STORAGE_UNIT_RECORDS_LENGTH];
    uint64_t requests;     /* requests so far */
    uint64_t records_read; /* records so far, remarks and a bad record included */
    uint64_t read;         /* bytes of the piece that the call has read */
    uint64_t written;      /* bytes of text that the call has written */
};

#define STORAGE_UNIT_PLAYER_LENGTH 48u

/*
 * ---- Channel programs.
 *
 * A channel moves bytes between storage and a device. It has a key from 0 to 15, under which the
 * storage keys permit or forbid what they do under a PSW key. Its addresses are absolute: there is
 * no prefix, no low-address protection, and no processor's record is looked at. A program is a row
 * of channel command words (CCWs) in storage, each of 8 bytes at a multiple of 8; numbers have the
 * most significant byte first:
 *
 * byte 0        the command: the low bits 01 write to the device, 10 read from it, and the low four
 *               bits 1000 are a transfer in channel: the next CCW is that at its address, and its
 *               flags and count are ignored. The first CCW, and one that a transfer in channel
 *               names, must not be a transfer in channel. Other commands are bad.
 * bytes 1 to 3  the address
 * byte 4        flags: hex 40, chain command, goes on with the CCW behind this one; 0 ends the
 *               program with it. Other flags are bad.
 * byte 5        ignored
 * bytes 6, 7    the count of bytes. 0 is bad.
 *
 * The device is two buffers: the bytes that come from it, which the CCWs that read take one after
 * another from the first on, and room for those that go to it, which is filled from its first byte
 * on. CCWs are fetched one by one, each when its turn comes. In the keys, the fetching of a CCW and
 * data that goes to the device are recorded as a fetch is, data read from it as a store is.
 *
 * The answer of a program is STORAGE_UNIT_NUMBER_COMPLETED where it ended well, else
 * STORAGE_UNIT_NUMBER_CONFIGURATION or one of the numbers 65, 66 and 71 to 74 below; its place,
 * word and rule are 0. 65 and 66 are not what they are for a request: storage_unit_channel_message
 * has the texts. Tested are 64, 65 and 66, and then for each CCW, in this order: 74; 71 for its
 * address; 72 for its fetching; 71 for what it is; 71 for the range of its data; 73; 72 for its
 * data. A CCW that is refused moves nothing and changes no key but that of its own unit, if it was
 * fetched; what the CCWs before it did stands.
 */

#define STORAGE_UNIT_NUMBER_CHANNEL_KEY 65u  /* the channel's key is over 15; a wrong progress */
#define STORAGE_UNIT_NUMBER_GRANT       66u  /* the grant is not 1 to 256 */
#define STORAGE_UNIT_NUMBER_PROGRAM     71u  /* a bad CCW, a bad address, or data outside storage */
#define STORAGE_UNIT_NUMBER_FORBIDDEN   72u  /* a key forbids the fetching of a CCW, or its data */
#define STORAGE_UNIT_NUMBER_DEVICE      73u  /* too few bytes from the device, or too little room */
#define STORAGE_UNIT_NUMBER_GRANT_USED  74u  /* the granted number of CCWs is used up */
#define STORAGE_UNIT_NUMBER_UNDER_WAY   255u /* no answer: the program is under way */

#define STORAGE_UNIT_CCW_LENGTH        8u
#define STORAGE_UNIT_CCW_WRITE         0x01u /* commands: storage to device */
#define STORAGE_UNIT_CCW_READ          0x02u /* device to storage */
#define STORAGE_UNIT_CCW_TRANSFER      0x08u /* transfer in channel */
#define STORAGE_UNIT_CCW_CHAIN_COMMAND 0x40u /* the flag */
#define STORAGE_UNIT_CCW_COUNT_MAXIMUM 65535u

#define STORAGE_UNIT_CHANNEL_KEY_MAXIMUM 15u
#define STORAGE_UNIT_GRANT_MAXIMUM       256u

/*
 * How far a program has come. Zeros begin one, and so does any progress with the status 0, whatever
 * its address, chaining, fetched, taken and given are. In every progress the chaining is at most 3,
 * the status is 0, 1, 2 or the number of a refusal, 64 to 66 or 71 to 74, and the bytes of zeros
 * and more_zeros are zero. Where a CCW was refused, address, chaining, taken and given are as they
 * were before it, and fetched counts it if it was fetched. On x86-64 the struct is the 32 bytes
 * that the functions take.
 */
struct storage_unit_progress {
    uint32_t address;    /* of the CCW to come; after the last, that behind it */
    uint8_t chaining;    /* how control comes to it, STORAGE_UNIT_CHAINING_... */
    uint8_t status;      /* STORAGE_UNIT_PROGRESS_..., else the number of the refusal */
    uint8_t zeros[2];
    uint32_t fetched;    /* how many CCWs were fetched, transfers in channel included */
    uint8_t more_zeros[4];
    uint64_t taken;      /* how many bytes were taken from the device */
    uint64_t given;      /* how many bytes were given to it */
};

#define STORAGE_UNIT_PROGRESS_LENGTH 32u

#define STORAGE_UNIT_PROGRESS_NOT_BEGUN 0u
#define STORAGE_UNIT_PROGRESS_UNDER_WAY 1u
#define STORAGE_UNIT_PROGRESS_ENDED     2u /* the program ended well */

#define STORAGE_UNIT_CHAINING_FIRST    0u /* it is the first */
#define STORAGE_UNIT_CHAINING_COMMAND  1u /* by chain command */
#define STORAGE_UNIT_CHAINING_TRANSFER 2u /* by a transfer in channel */
#define STORAGE_UNIT_CHAINING_ENDED    3u /* there is none: the program ended */

/*
 * ---- What a call never writes. "Never" is proved for all numbers and bytes: after the call each
 * such byte has the value that it had before.
 *
 *                storage         keys            own record       buffer
 * refused        never           never           never            never
 * FETCH          never           units touched   never            the first `count` bytes
 * STORE          bytes named     units touched   never            never
 * ISK, ISKE      never           never           never            never
 * SSK, SSKE      never           of the block    never            never
 * RRB, RRBE      never           of the block    condition code   never
 * SET PREFIX     never           never           prefix           never
 * STORE PREFIX   never           never           never            never
 *
 * The record of the other processor is never written. Where the table names bytes, the others are
 * never written: bytes of storage that a store does not name, keys of other units, the rest of the
 * record and of the buffer. In a key, a fetch sets the reference bit, a store the reference bit and
 * the change bit, RRB and RRBE set the reference bit to zero; SSK and SSKE replace the key. Hex 01
 * of a key that is written becomes zero.
 *
 * A clean unit is an untouched unit. Over any calls on one storage, of all these functions and in
 * any order, with the same settings and where the program itself writes neither storage nor keys
 * between them: a unit whose change bit is zero after the last, and to which no completed SSK or
 * SSKE was applied, holds the bytes that it held before the first. So a copy of the storage from
 * before them is brought up to date with the units whose change bits are on and those to which a
 * completed SSK or SSKE was applied: such an instruction can set a change bit to zero after a store.
 *
 * storage_unit_play writes storage, keys and records as the requests that it plays do; of the
 * player also the four numbers behind the records; of the output the first `written` bytes and
 * never those behind them; the piece never. Refused, it writes nothing at all.
 *
 * storage_unit_channel and storage_unit_channel_step write of storage the bytes that completed CCWs
 * read into it, of the keys those of the units of fetched CCWs and of completed data, of the room
 * the bytes that completed CCWs give, and of the progress every byte; the bytes from the device
 * never. Where the settings or the progress are wrong, they write nothing at all.
 *
 * Bytes behind a pointer to const are only read, and may be in read-only memory: the storage of
 * storage_unit_fetch, the bytes of storage_unit_store, the piece of storage_unit_play, the bytes
 * from the device of a channel. Other memory that is lent must be writable: an instruction puts a
 * condition code into its record also where it stays the same.
 */

/*
 * storage_unit_request: one request of one processor.
 *
 * settings          STORAGE_UNIT_4K, STORAGE_UNIT_EXTENSIONS, both or 0. Another bit: 64, before
 *                   all else.
 * storage           The bytes of absolute addresses 0 to storage_length - 1. The length is a
 *                   multiple of 4096 from 4096 to 16777216. Another length: 64.
 * keys              One byte for each unit of absolute addresses, storage_unit_key_count(settings,
 *                   storage_length) bytes in all. Another length: 64.
 * records           The records of both processors, 16 bytes. Another length: 65.
 * processor_number  The number of the processor that asks, 0 or 1. Another number: 65. A wrong
 *                   value in its own record, or a reserved bit that is on: 65. The other record
 *                   may hold anything.
 * operation         STORAGE_UNIT_FETCH to STORAGE_UNIT_STORE_PREFIX. Another number: 66.
 * first             The operands, as listed at the operations. An access goes on at address 0
 * second            after 16777215.
 * buffer            A fetch writes its first bytes, a store reads them, as many as the count of
 *                   the access, and the rest stays as it is. A shorter buffer: 66. Other
 *                   operations do not use it, and its length may be 0.
 *
 * Returns number, place, word and rule in one value, for storage_unit_number, storage_unit_place,
 * storage_unit_word and storage_unit_rule to take apart. Test the number, not the value: the value
 * of a completed request need not be 0.
 *
 * With any number but STORAGE_UNIT_NUMBER_COMPLETED the request is refused: nothing has changed.
 *
 * The caller must see to this:
 * - Each pointer is valid for reads and, unless it is to const, writes of as many bytes as the
 *   length after it, whatever the operation. Where the length is 0, the pointer is not used and
 *   may be null.
 * - Storage, keys, records and buffer do not overlap. In particular, no buffer lies in the storage.
 * - Nothing else reads or writes these bytes during the call. The function keeps no state of its
 *   own, so threads that lend different bytes may call it at the same time; calls for two
 *   processors of one storage take turns.
 */
uint64_t storage_unit_request(uint32_t settings,
                              uint8_t *storage, size_t storage_length,
                              uint8_t *keys, size_t keys_length,
                              uint8_t *records, size_t records_length,
                              uint32_t processor_number,
                              uint32_t operation, uint32_t first, uint32_t second,
                              uint8_t *buffer, size_t buffer_length);

/*
 * storage_unit_fetch and storage_unit_store: a fetch and a store by a shorter way in. They answer
 * and leave what storage_unit_request does with STORAGE_UNIT_FETCH or STORAGE_UNIT_STORE, `count`
 * as the second operand and a buffer of `count` bytes.
 *
 * settings, storage, keys  As for storage_unit_request. A fetch only reads storage.
 * record                   The processor's own record as a value, by storage_unit_record_value. An
 *                          access never changes it. A wrong value or a reserved bit that is on: 65.
 * address                  The real address of the first byte.
 * bytes                    A fetch writes them all, a store only reads them: the access is of as
 *                          many bytes as their number, `count`. 0 or more than 256: 66.
 *
 * The result, what it changes and what the caller must see to are as for storage_unit_request.
 */
uint64_t storage_unit_fetch(uint32_t settings,
                            const uint8_t *storage, size_t storage_length,
                            uint8_t *keys, size_t keys_length,
                            uint64_t record, uint32_t address,
                            uint8_t *bytes, size_t count);

uint64_t storage_unit_store(uint32_t settings,
                            uint8_t *storage, size_t storage_length,
                            uint8_t *keys, size_t keys_length,
                            uint64_t record, uint32_t address,
                            const uint8_t *bytes, size_t count);

/*
 * storage_unit_play: plays the next bytes of a recording.
 *
 * settings       As for storage_unit_request. Another bit: refused.
 * storage, keys  As for storage_unit_request. A wrong length is in the answer to every request.
 * player         A struct storage_unit_player, by its bytes: 48. Another length: refused. The call
 *                goes on from its records and ordinals, leaves them as they are then, and leaves
 *                the number of bytes that it has read and written. A wrong record is in the answer
 *                to every request of its processor.
 * piece          The next bytes of the recording, as many as the caller likes. First those that
 *                the call before has not read, up to 513: the buffer has at least 514 bytes,
 *                STORAGE_UNIT_PLAY_RECORD_MAXIMUM, or there may be no room for a next byte.
 * last           Not 0: nothing comes behind the piece.
 * output         Room for the lines, which the call puts at its start: at least 64 bytes,
 *                STORAGE_UNIT_PLAY_OUTPUT_MINIMUM. With fewer, each call plays nothing and
 *                gives ROOM.
 *
 * Before each record, and where none is left, ROOM is tested first, then LIMIT. Each record is
 * played, or ends the run as bad, as soon as all that its length counts is there; a length over 512
 * ends it at once. A record that is not whole waits for more bytes, or is bad if the piece is the
 * last. Returns
 *
 * STORAGE_UNIT_PLAY_MORE     Put the unread rest of the piece, which is under 514 bytes, in front
 *                            of the next bytes, and call again. Never where the piece is the last.
 * STORAGE_UNIT_PLAY_ENDED    The run is at its end, which the player does not keep: call no more.
 *                            `read` is under the length of the piece: a bad record begins at the
 *                            first unread byte, its line is the last, nothing behind it is played.
 *                            `read` is the whole piece: the recording ends without a bad record.
 * STORAGE_UNIT_PLAY_ROOM     Take the lines from the output and call again, with the unread rest of
 *                            the piece and the same `last`, also where the rest is empty.
 * STORAGE_UNIT_PLAY_LIMIT    The requests or the records can be counted no further: call no more.
 * STORAGE_UNIT_PLAY_REFUSED  Nothing has changed, not even the player: its `read` and `written` are
 *                            those from before the call.
 *
 * What the caller must see to is as for storage_unit_request: storage, keys, player, piece and
 * output do not overlap.
 */
uint32_t storage_unit_play(uint32_t settings,
                           uint8_t *storage, size_t storage_length,
                           uint8_t *keys, size_t keys_length,
                           uint8_t *player, size_t player_length,
                           const uint8_t *piece, size_t piece_length,
                           uint32_t last,
                           uint8_t *output, size_t output_length);

/*
 * storage_unit_channel: a whole channel program.
 *
 * settings       As for storage_unit_request. Another bit: 64, before all else, and nothing
 *                changes, not even the progress.
 * storage, keys  As for storage_unit_request. A wrong length: 64.
 * key            The channel's key, 0 to 15; 8 matches a key byte of hex 80. A greater number: 65.
 * first          The address of the first CCW. Any number: a wrong one is 71.
 * grant          How many CCWs may be fetched, 1 to 256. Another number: 66.
 * from           The bytes from the device, as many as there are. They are only read.
 * room           The room for bytes to the device. Bytes behind those given stay as they are.
 * progress       A struct storage_unit_progress, by its bytes: 32. Another length: 65, or 64 where
 *                that applies, and nothing changes. Whatever it holds, the program runs from its
 *                start; at its end the call leaves there how far it came, with the number of CCWs
 *                fetched, also where it is refused.
 *
 * Returns the answer in one value, for storage_unit_number to take apart. What the caller must see
 * to is as for storage_unit_request: storage, keys, from, room and progress do not overlap; the
 * progress may have any alignment; calls for processors and channels of one storage take turns. And
 * the caller must see to a stack with 64 KB left; the call takes under 420 bytes of it for each
 * transfer in channel, of which there are at most 128. A step takes under 1 KB.
 *
 * storage_unit_channel_step: one step of a program, which is one CCW. Give it a progress of zeros
 * at first and then as the step before left it. While the program is under way, the number is
 * STORAGE_UNIT_NUMBER_UNDER_WAY. A program takes a step for each CCW that it fetches, and one more
 * where the last step fetches none.
 *
 * Between two steps the host may do anything: make requests of processors, do steps of another
 * program with a progress of its own, change storage and keys. A later step may have longer
 * buffers, or buffers elsewhere: taken and given count from their first bytes. Lengths, key and
 * grant are tested at each step of a program under way, and a step with others than the first can
 * be refused with 64, 65 or 66, which ends the program; first is used by the first step alone. A
 * step of a program that has its answer changes nothing and gives the answer again, whatever the
 * lengths and operands are.
 *
 * Two things are tested before all this, at any step. Settings with another bit on: 64. Bytes that
 * are no progress (another length, a chaining over 3, another status, a byte of the zeros that is
 * not zero): 65, or 64 where the length of storage or keys is wrong. Then nothing changes, not even
 * the progress.
 */
uint64_t storage_unit_channel(uint32_t settings,
                              uint8_t *storage, size_t storage_length,
                              uint8_t *keys, size_t keys_length,
                              uint32_t key, uint32_t first, uint32_t grant,
                              const uint8_t *from, size_t from_length,
                              uint8_t *room, size_t room_length,
                              uint8_t *progress, size_t progress_length);

uint64_t storage_unit_channel_step(uint32_t settings,
                                   uint8_t *storage, size_t storage_length,
                                   uint8_t *keys, size_t keys_length,
                                   uint32_t key, uint32_t first, uint32_t grant,
                                   const uint8_t *from, size_t from_length,
                                   uint8_t *room, size_t room_length,
                                   uint8_t *progress, size_t progress_length);

/* The number of an answer: one of STORAGE_UNIT_NUMBER_... */
static inline uint32_t storage_unit_number(uint64_t answer)
{
    return (uint32_t)(answer >> 48);
}

/*
 * A text for the number of an answer to a request, with the manual's name; another text for any
 * other number.
 */
static inline const char *storage_unit_message(uint32_t number)
{
    switch (number) {
    case STORAGE_UNIT_NUMBER_CONFIGURATION:
        return "configuration: wrong settings, or a wrong length of storage or keys";
    case STORAGE_UNIT_NUMBER_RECORD:
        return "record: no such processor, a wrong record, or records of a wrong length";
    case STORAGE_UNIT_NUMBER_OPERAND:
        return "operand: no such operation, or a wrong count, address or buffer";
    case STORAGE_UNIT_NUMBER_OPERATION:
        return "operation exception";
    case STORAGE_UNIT_NUMBER_PRIVILEGED:
        return "privileged-operation exception";
    case STORAGE_UNIT_NUMBER_SPECIAL_OPERATION:
        return "special-operation exception";
    case STORAGE_UNIT_NUMBER_SPECIFICATION:
        return "specification exception";
    case STORAGE_UNIT_NUMBER_ADDRESSING:
        return "addressing exception";
    case STORAGE_UNIT_NUMBER_PROTECTION:
        return "protection exception";
    case STORAGE_UNIT_NUMBER_COMPLETED:
        return "completed";
    default:
        return "not a number of an answer";
    }
}

/* The same for the number of an answer to a channel program, or of one that is under way. */
static inline const char *storage_unit_channel_message(uint32_t number)
{
    switch (number) {
    case STORAGE_UNIT_NUMBER_CONFIGURATION:
        return "configuration: wrong settings, or a wrong length of storage or keys";
    case STORAGE_UNIT_NUMBER_CHANNEL_KEY:
        return "the key of the channel is over 15, or its progress is wrong";
    case STORAGE_UNIT_NUMBER_GRANT:
        return "the grant is not 1 to 256";
    case STORAGE_UNIT_NUMBER_PROGRAM:
        return "program check";
    case STORAGE_UNIT_NUMBER_FORBIDDEN:
        return "protection check";
    case STORAGE_UNIT_NUMBER_DEVICE:
        return "too few bytes from the device, or too little room";
    case STORAGE_UNIT_NUMBER_GRANT_USED:
        return "the granted CCWs are used up";
    case STORAGE_UNIT_NUMBER_COMPLETED:
        return "completed";
    case STORAGE_UNIT_NUMBER_UNDER_WAY:
        return "under way";
    default:
        return "not a number of an answer";
    }
}

/*
 * The place of an answer. For 5 and 4 of an access it is the offset of the first such byte from the
 * start of the access, else 0.
 */
static inline uint32_t storage_unit_place(uint64_t answer)
{
    return (uint32_t)(answer >> 32) & 0xFFu;
}

/* The word of an answer: the result of a completed ISK, ISKE or STORE PREFIX, else 0. */
static inline uint32_t storage_unit_word(uint64_t answer)
{
    return (uint32_t)(answer & 0xFFFFFFFFu);
}

/*
 * The rule of an answer. For a completed fetch, store or key instruction it is the rule of
 * prefixing for the first address that it names: that of the first byte of an access, or that of
 * the block of a key instruction. One of STORAGE_UNIT_RULE_...; STORAGE_UNIT_RULE_NONE for every
 * other answer.
 */
static inline uint32_t storage_unit_rule(uint64_t answer)
{
    return (uint32_t)(answer >> 40) & 0xFFu;
}

/* The number of storage bytes that share a key. */
static inline size_t storage_unit_key_unit(uint32_t settings)
{
    return (settings & STORAGE_UNIT_4K) != 0u ? STORAGE_UNIT_KEY_UNIT_4K : STORAGE_UNIT_KEY_UNIT_2K;
}

/* The number of key bytes for a storage of this length. */
static inline size_t storage_unit_key_count(uint32_t settings, size_t storage_length)
{
    return storage_length / storage_unit_key_unit(settings);
}

/* The record of processor 0 or 1. */
static inline uint8_t *storage_unit_record(uint8_t *records, uint32_t processor_number)
{
    return records + STORAGE_UNIT_RECORD_LENGTH * processor_number;
}

/* Reading a field of a record. */
static inline uint8_t storage_unit_psw_key(const uint8_t *record)
{
    return record[STORAGE_UNIT_PSW_KEY_AT];
}

static inline uint8_t storage_unit_controls(const uint8_t *record)
{
    return record[STORAGE_UNIT_CONTROLS_AT];
}

static inline uint8_t storage_unit_code(const uint8_t *record)
{
    return record[STORAGE_UNIT_CODE_AT];
}

static inline uint32_t storage_unit_prefix(const uint8_t *record)
{
    const uint8_t *prefix = record + STORAGE_UNIT_PREFIX_AT;
    return (uint32_t)prefix[0] | (uint32_t)prefix[1] << 8 | (uint32_t)prefix[2] << 16
           | (uint32_t)prefix[3] << 24;
}

/* A record as a value, for storage_unit_fetch and storage_unit_store. */
static inline uint64_t storage_unit_record_value(const uint8_t *record)
{
    return (uint64_t)record[STORAGE_UNIT_PSW_KEY_AT]
           | (uint64_t)record[STORAGE_UNIT_CONTROLS_AT] << 8
           | (uint64_t)record[STORAGE_UNIT_CODE_AT] << 16
           | (uint64_t)record[STORAGE_UNIT_RESERVED_AT] << 24
           | (uint64_t)storage_unit_prefix(record) << 32;
}

/* Writing a field of a record. No value is tested here; a wrong one is answered with 65. */
static inline void storage_unit_put_psw_key(uint8_t *record, uint8_t psw_key)
{
    record[STORAGE_UNIT_PSW_KEY_AT] = psw_key;
}

static inline void storage_unit_put_controls(uint8_t *record, uint8_t controls)
{
    record[STORAGE_UNIT_CONTROLS_AT] = controls;
}

static inline void storage_unit_put_code(uint8_t *record, uint8_t code)
{
    record[STORAGE_UNIT_CODE_AT] = code;
}

static inline void storage_unit_put_prefix(uint8_t *record, uint32_t prefix)
{
    uint8_t *bytes = record + STORAGE_UNIT_PREFIX_AT;
    bytes[0] = (uint8_t)(prefix & 0xFFu);
    bytes[1] = (uint8_t)(prefix >> 8 & 0xFFu);
    bytes[2] = (uint8_t)(prefix >> 16 & 0xFFu);
    bytes[3] = (uint8_t)(prefix >> 24);
}

/* Writing a whole record, the reserved byte included. */
static inline void storage_unit_put_record(uint8_t *record, uint8_t psw_key, uint8_t controls,
                                           uint8_t code, uint32_t prefix)
{
    storage_unit_put_psw_key(record, psw_key);
    storage_unit_put_controls(record, controls);
    storage_unit_put_code(record, code);
    record[STORAGE_UNIT_RESERVED_AT] = 0u;
    storage_unit_put_prefix(record, prefix);
}

/*
 * ---- A machine: the settings, and the bytes that the program lends, with their lengths. It owns
 * nothing, and may be made anew for each call.
 */
struct storage_unit_machine {
    uint32_t settings;
    uint8_t *storage;
    size_t storage_length;
    uint8_t *keys;
    size_t keys_length; /* storage_unit_key_count(settings, storage_length) */
    uint8_t *records;
    size_t records_length; /* STORAGE_UNIT_RECORDS_LENGTH */
};

/*
 * ---- A function for each operation. It answers and leaves what storage_unit_request does with the
 * machine's settings and bytes, and asks the same of the caller. An instruction's function has the
 * name of its operation; those of fetch and store end in _bytes, since the shorter names are the
 * library's. The buffer of a fetch or store is its `count` bytes.
 */

/* For the functions below: a request without a buffer. */
static inline uint64_t storage_unit_machine_request(const struct storage_unit_machine *machine,
                                                    uint32_t processor_number, uint32_t operation,
                                                    uint32_t first, uint32_t second)
{
    return storage_unit_request(machine->settings,
                                machine->storage, machine->storage_length,
                                machine->keys, machine->keys_length,
                                machine->records, machine->records_length,
                                processor_number, operation, first, second, NULL, 0);
}

/* For the functions below: the processor has a record. Without one, each request is 64 or 65. */
static inline int storage_unit_machine_has_record(const struct storage_unit_machine *machine,
                                                  uint32_t processor_number)
{
    return machine->records_length == STORAGE_UNIT_RECORDS_LENGTH && processor_number < 2u;
}

/* FETCH: `count` bytes from the real address on. */
static inline uint64_t storage_unit_fetch_bytes(const struct storage_unit_machine *machine,
                                                uint32_t processor_number, uint32_t address,
                                                uint8_t *bytes, size_t count)
{
    if (!storage_unit_machine_has_record(machine, processor_number)) {
        return storage_unit_machine_request(machine, processor_number, STORAGE_UNIT_FETCH, 0u, 0u);
    }
    return storage_unit_fetch(machine->settings,
                              machine->storage, machine->storage_length,
                              machine->keys, machine->keys_length,
                              storage_unit_record_value(
                                  storage_unit_record(machine->records, processor_number)),
                              address, bytes, count);
}

/* STORE: `count` bytes from the real address on. */
static inline uint64_t storage_unit_store_bytes(const struct storage_unit_machine *machine,
                                                uint32_t processor_number, uint32_t address,
                                                const uint8_t *bytes, size_t count)
{
    if (!storage_unit_machine_has_record(machine, processor_number)) {
        return storage_unit_machine_request(machine, processor_number, STORAGE_UNIT_STORE, 0u, 0u);
    }
    return storage_unit_store(machine->settings,
                              machine->storage, machine->storage_length,
                              machine->keys, machine->keys_length,
                              storage_unit_record_value(
                                  storage_unit_record(machine->records, processor_number)),
                              address, bytes, count);
}

/* INSERT STORAGE KEY: the answer's word is R1 with the key of the 2K block that R2 designates. */
static inline uint64_t storage_unit_isk(const struct storage_unit_machine *machine,
                                        uint32_t processor_number, uint32_t r1, uint32_t r2)
{
    return storage_unit_machine_request(machine, processor_number, STORAGE_UNIT_ISK, r1, r2);
}

/* SET STORAGE KEY: the key in R1 becomes that of the 2K block that R2 designates. */
static inline uint64_t storage_unit_ssk(const struct storage_unit_machine *machine,
                                        uint32_t processor_number, uint32_t r1, uint32_t r2)
{
    return storage_unit_machine_request(machine, processor_number, STORAGE_UNIT_SSK, r1, r2);
}

/* RESET REFERENCE BIT of the 2K block in which the address lies: sets the condition code. */
static inline uint64_t storage_unit_rrb(const struct storage_unit_machine *machine,
                                        uint32_t processor_number, uint32_t address)
{
    return storage_unit_machine_request(machine, processor_number, STORAGE_UNIT_RRB, 0u, address);
}

/* INSERT STORAGE KEY EXTENDED: as ISK, with the 4K block that R2 designates; of two keys the first,
 * with its reference and change bits each ORed with those of the second. */
static inline uint64_t storage_unit_iske(const struct storage_unit_machine *machine,
                                         uint32_t processor_number, uint32_t r1, uint32_t r2)
{
    return storage_unit_machine_request(machine, processor_number, STORAGE_UNIT_ISKE, r1, r2);
}

/* SET STORAGE KEY EXTENDED: as SSK, with the 4K block that R2 designates. */
static inline uint64_t storage_unit_sske(const struct storage_unit_machine *machine,
                                         uint32_t processor_number, uint32_t r1, uint32_t r2)
{
    return storage_unit_machine_request(machine, processor_number, STORAGE_UNIT_SSKE, r1, r2);
}

/* RESET REFERENCE BIT EXTENDED: as RRB, with the 4K block that R2 designates. */
static inline uint64_t storage_unit_rrbe(const struct storage_unit_machine *machine,
                                         uint32_t processor_number, uint32_t r2)
{
    return storage_unit_machine_request(machine, processor_number, STORAGE_UNIT_RRBE, 0u, r2);
}

/* SET PREFIX: bits 8-19 of the word are the new prefix. */
static inline uint64_t storage_unit_set_prefix(const struct storage_unit_machine *machine,
                                               uint32_t processor_number, uint32_t word)
{
    return storage_unit_machine_request(machine, processor_number, STORAGE_UNIT_SET_PREFIX, word,
                                        0u);
}

/* STORE PREFIX: the answer's word is the prefix. */
static inline uint64_t storage_unit_store_prefix(const struct storage_unit_machine *machine,
                                                 uint32_t processor_number)
{
    return storage_unit_machine_request(machine, processor_number, STORAGE_UNIT_STORE_PREFIX, 0u,
                                        0u);
}

/* For the function below: copies the records of both processors. */
static inline void storage_unit_copy_records(uint8_t *to, const uint8_t *from)
{
    size_t i;

    for (i = 0; i < STORAGE_UNIT_RECORDS_LENGTH; i++) {
        to[i] = from[i];
    }
}

/*
 * Plays the next bytes of a recording on the machine, as storage_unit_play does. The records are
 * those of the machine: the call copies them to the player and back, and they may be the player's
 * own. Machine records of another length than 16: refused.
 */
static inline uint32_t storage_unit_play_piece(const struct storage_unit_machine *machine,
                                               struct storage_unit_player *player,
                                               const uint8_t *piece, size_t piece_length,
                                               int last, uint8_t *output, size_t output_length)
{
    uint32_t result;

    /* Before the player is written: refused, it stays as it is. */
    if (machine->settings > (STORAGE_UNIT_4K | STORAGE_UNIT_EXTENSIONS)
        || machine->records_length != STORAGE_UNIT_RECORDS_LENGTH) {
        return STORAGE_UNIT_PLAY_REFUSED;
    }
    storage_unit_copy_records(player->records, machine->records);
    result = storage_unit_play(machine->settings,
                               machine->storage, machine->storage_length,
                               machine->keys, machine->keys_length,
                               (uint8_t *)player, sizeof *player,
                               piece, piece_length, last != 0 ? 1u : 0u,
                               output, output_length);
    storage_unit_copy_records(machine->records, player->records);
    return result;
}

/*
 * Writes a CCW: command, address, flags (STORAGE_UNIT_CCW_CHAIN_COMMAND or 0), count. Of the
 * address the low 24 bits are written, and nothing is tested here.
 */
static inline void storage_unit_put_ccw(uint8_t *ccw, uint8_t command, uint32_t address,
                                        uint8_t flags, uint16_t count)
{
    ccw[0] = command;
    ccw[1] = (uint8_t)(address >> 16);
    ccw[2] = (uint8_t)(address >> 8);
    ccw[3] = (uint8_t)address;
    ccw[4] = flags;
    ccw[5] = 0;
    ccw[6] = (uint8_t)(count >> 8);
    ccw[7] = (uint8_t)count;
}

/* A channel program: its operands, and the two buffers of the device. */
struct storage_unit_program {
    uint32_t key;
    uint32_t first;
    uint32_t grant;
    const uint8_t *from;
    size_t from_length;
    uint8_t *room;
    size_t room_length;
};

/*
 * Runs a channel program on the machine, as storage_unit_channel does. Machine, program and
 * progress are not null.
 */
static inline uint64_t storage_unit_run_program(const struct storage_unit_machine *machine,
                                                const struct storage_unit_program *program,
                                                struct storage_unit_progress *progress)
{
    return storage_unit_channel(machine->settings,
                                machine->storage, machine->storage_length,
                                machine->keys, machine->keys_length,
                                program->key, program->first, program->grant,
                                program->from, program->from_length,
                                program->room, program->room_length,
                                (uint8_t *)progress, sizeof *progress);
}

/*
 * Does one CCW of a channel program on the machine, as storage_unit_channel_step does. Machine,
 * program and progress are not null.
 */
static inline uint64_t storage_unit_step_program(const struct storage_unit_machine *machine,
                                                 const struct storage_unit_program *program,
                                                 struct storage_unit_progress *progress)
{
    return storage_unit_channel_step(machine->settings,
                                     machine->storage, machine->storage_length,
                                     machine->keys, machine->keys_length,
                                     program->key, program->first, program->grant,
                                     program->from, program->from_length,
                                     program->room, program->room_length,
                                     (uint8_t *)progress, sizeof *progress);
}

#ifdef __cplusplus
}
#endif

#endif
