/*
 * every_call.c - every function of moortinker.h on the worked examples of
 * docs/RULES.md (W1 to W14), on the event frames that document 000 prints and
 * the Railbus packets that document 001 prints, on small captures, and on its
 * edges; and what the header has beside functions, its version and its texts.
 *
 * Each call prints a line with what it gave. What it gave is compared with
 * what they say; a difference is printed below the line. The last line
 * counts both. Exit status 1 if anything differs.
 */
#include "moortinker.h"

#include <stdio.h>
#include <string.h>

/* ---- The layout of the answers, as the Rust crate has it ----------------- */

#define SIZE(type, size) _Static_assert(sizeof(type) == (size), #type)
#define AT(type, field, place) \
    _Static_assert(offsetof(type, field) == (place), #type "." #field)

SIZE(moor_written, 24);
AT(moor_written, number, 0);
AT(moor_written, place, 8);
AT(moor_written, length, 16);

SIZE(moor_logical, 24);
AT(moor_logical, number, 0);
AT(moor_logical, byte, 1);
AT(moor_logical, place, 8);
AT(moor_logical, next, 16);

SIZE(moor_telegram, 64);
AT(moor_telegram, number, 0);
AT(moor_telegram, place, 8);
AT(moor_telegram, length, 16);
AT(moor_telegram, last, 24);
AT(moor_telegram, next, 32);
AT(moor_telegram, bytes, 40);

SIZE(moor_judged, 24);
AT(moor_judged, number, 0);
AT(moor_judged, kind, 1);
AT(moor_judged, command_attempts, 2);
AT(moor_judged, reply_attempts, 3);
AT(moor_judged, place, 8);
AT(moor_judged, read, 16);

SIZE(moor_listening, 128);
AT(moor_listening, start, 0);
AT(moor_listening, place, 8);
AT(moor_listening, due, 16);
AT(moor_listening, number, 17);
AT(moor_listening, held, 18);
AT(moor_listening, command_attempts, 19);
AT(moor_listening, reply_attempts, 20);
AT(moor_listening, command_length, 21);
AT(moor_listening, reply_1_length, 22);
AT(moor_listening, reply_2_length, 23);
AT(moor_listening, raw, 24);
AT(moor_listening, kept, 70);

SIZE(moor_fed, 136);
AT(moor_fed, state, 0);
AT(moor_fed, used, 128);

SIZE(moor_closed, 152);
AT(moor_closed, judged, 0);
AT(moor_closed, state, 24);

SIZE(moor_stretch, 16);
AT(moor_stretch, start, 0);
AT(moor_stretch, end, 8);

SIZE(moor_part, 24);
AT(moor_part, attempt, 0);
AT(moor_part, start, 8);
AT(moor_part, length, 16);

SIZE(moor_request_read, 16);
AT(moor_request_read, number, 0);
AT(moor_request_read, request, 1);
AT(moor_request_read, place, 8);

SIZE(moor_answer_read, 24);
AT(moor_answer_read, number, 0);
AT(moor_answer_read, answer, 1);
AT(moor_answer_read, address, 2);
AT(moor_answer_read, serial, 4);
AT(moor_answer_read, place, 8);
AT(moor_answer_read, skipped, 16);

SIZE(moor_decided, 16);
AT(moor_decided, key, 0);
AT(moor_decided, dominant, 8);

SIZE(moor_scanned, 40);
AT(moor_scanned, number, 0);
AT(moor_scanned, end, 1);
AT(moor_scanned, place, 8);
AT(moor_scanned, requests, 16);
AT(moor_scanned, found, 24);
AT(moor_scanned, skipped, 32);

SIZE(moor_event_request_read, 16);
AT(moor_event_request_read, number, 0);
AT(moor_event_request_read, minimum, 1);
AT(moor_event_request_read, most, 2);
AT(moor_event_request_read, confirmed, 3);
AT(moor_event_request_read, flag, 4);
AT(moor_event_request_read, place, 8);

SIZE(moor_events_read, 40);
AT(moor_events_read, number, 0);
AT(moor_events_read, answer, 1);
AT(moor_events_read, sender, 2);
AT(moor_events_read, flag, 3);
AT(moor_events_read, queued, 4);
AT(moor_events_read, size, 5);
AT(moor_events_read, place, 8);
AT(moor_events_read, listed, 16);
AT(moor_events_read, first, 24);
AT(moor_events_read, skipped, 32);

SIZE(moor_event, 24);
AT(moor_event, whole, 0);
AT(moor_event, kind, 1);
AT(moor_event, size, 2);
AT(moor_event, identifier, 4);
AT(moor_event, start, 8);
AT(moor_event, next, 16);

SIZE(moor_added, 16);
AT(moor_added, number, 0);
AT(moor_added, place, 8);

SIZE(moor_polled, 32);
AT(moor_polled, number, 0);
AT(moor_polled, answer, 1);
AT(moor_polled, sender, 2);
AT(moor_polled, flag, 3);
AT(moor_polled, events, 4);
AT(moor_polled, place, 8);
AT(moor_polled, length, 16);
AT(moor_polled, skipped, 24);

SIZE(moor_railbus_read, 24);
AT(moor_railbus_read, number, 0);
AT(moor_railbus_read, letter, 1);
AT(moor_railbus_read, address, 2);
AT(moor_railbus_read, reg, 3);
AT(moor_railbus_read, checked, 4);
AT(moor_railbus_read, data, 8);
AT(moor_railbus_read, place, 16);

SIZE(moor_remembered, 8);
AT(moor_remembered, phase, 0);
AT(moor_remembered, reg, 1);
AT(moor_remembered, data, 4);

SIZE(moor_relayed, 32);
AT(moor_relayed, number, 0);
AT(moor_relayed, write, 4);
AT(moor_relayed, place, 16);
AT(moor_relayed, length, 24);

/* ---- Counting ------------------------------------------------------------ */

static unsigned held;
static unsigned differ;

#define EXPECT(condition) expect((condition), #condition, __LINE__)

static void expect(bool holds, const char *condition, int line)
{
    if (holds) {
        held++;
        return;
    }
    differ++;
    printf("    differs, line %d: %s\n", line, condition);
}

/* ---- Bytes handed in, lent and printed ----------------------------------- */

typedef struct {
    const uint8_t *start;
    size_t length;
} bytes;

#define BYTES(...) \
    ((bytes){(const uint8_t[]){__VA_ARGS__}, sizeof((const uint8_t[]){__VA_ARGS__})})

/* No bytes: a null pointer with length 0. */
static const bytes none = {NULL, 0};

/* What lent outputs hold before a call. */
#define FILL 0x5A

/* Lent outputs: calls are lent the first bytes, and must keep to them. */
#define MOST 128
static uint8_t out[MOST];

static void fill(uint8_t *buffer)
{
    memset(buffer, FILL, MOST);
}

/* Whether a buffer starts with these bytes and is as it was behind them. */
static bool starts(const uint8_t *buffer, bytes with)
{
    for (size_t i = 0; i < MOST; i++) {
        if (buffer[i] != (i < with.length ? with.start[i] : FILL))
            return false;
    }
    return true;
}

static void print_bytes(bytes shown)
{
    for (size_t i = 0; i < shown.length; i++)
        printf(" %02X", shown.start[i]);
}

static void print_call(const char *name, bytes input)
{
    printf("%s", name);
    print_bytes(input);
    printf(" -> ");
}

static void print_refused(uint8_t number, size_t place)
{
    printf("refused %u at %zu\n", number, place);
}

/* What a call that writes must give. */
typedef struct {
    uint8_t number;
    size_t place;
    bytes wrote;
} outcome;

#define WROTE(...) ((outcome){MOOR_ACCEPTED, 0, BYTES(__VA_ARGS__)})
#define REFUSED(number, place) ((outcome){(number), (place), none})
static const outcome nothing_written = {MOOR_ACCEPTED, 0, {NULL, 0}};

/* Prints what a call wrote to `out`, and holds it to what it must give. */
static void written(moor_written got, outcome must)
{
    if (got.number != MOOR_ACCEPTED) {
        print_refused(got.number, got.place);
    } else {
        printf("%zu bytes:", got.length);
        print_bytes((bytes){out, got.length < MOST ? got.length : MOST});
        printf("\n");
    }
    EXPECT(got.number == must.number);
    EXPECT(got.place == must.place);
    EXPECT(got.length == must.wrote.length);
    EXPECT(starts(out, must.wrote));
}

/* ---- Version and texts --------------------------------------------------- */

static void version(void)
{
    char joined[32];
    snprintf(joined, sizeof joined, "%d.%d.%d", MOOR_VERSION_MAJOR, MOOR_VERSION_MINOR,
             MOOR_VERSION_PATCH);
    printf("MOOR_VERSION -> %s\n", MOOR_VERSION);
    EXPECT(strcmp(joined, MOOR_VERSION) == 0);
}

static void text(uint8_t number, const char *must)
{
    const char *got = moor_text(number);
    printf("moor_text %u -> %s\n", number, got);
    EXPECT(strcmp(got, must) == 0);
}

static void texts(void)
{
    const char *other = "no such number";
    text(MOOR_ACCEPTED, "accepted");
    text(MOOR_OUTPUT_SHORT, "output too short");
    text(MOOR_BUS_ERROR, "bus error");
    text(MOOR_FILL_OVER, "over 32 FF");
    text(20, other);
    text(25, other);
    text(MOOR_DIGIT_WRONG, "no hex digit");
    text(27, other);
    text(255, other);
}

/* ---- Checks -------------------------------------------------------------- */

static void ebus_check(bytes logical, uint8_t must)
{
    uint8_t got = moor_ebus_check(logical.start, logical.length);
    print_call("moor_ebus_check", logical);
    printf("%02X\n", got);
    EXPECT(got == must);
}

static void modbus_check(bytes input, uint16_t must)
{
    uint16_t got = moor_modbus_check(input.start, input.length);
    print_call("moor_modbus_check", input);
    printf("%04X\n", got);
    EXPECT(got == must);
}

static void checks(void)
{
    ebus_check(BYTES(0x10, 0x08, 0xB5, 0x11, 0x01, 0x01), 0x89); /* W1 */
    ebus_check(BYTES(0xAA), 0xEC);                               /* W2 */
    ebus_check(BYTES(0xA9), 0xED);                               /* W3 */
    ebus_check(none, 0x00);                                      /* W4 */
    modbus_check(BYTES(0xFD, 0x46, 0x01), 0x9013);
    modbus_check(none, 0xFFFF);
}

/* ---- Addresses ----------------------------------------------------------- */

static void address(uint8_t asked, bool initiator, bool reserved, uint8_t kind)
{
    bool got_initiator = moor_is_initiator(asked);
    printf("moor_is_initiator %02X -> %s\n", asked, got_initiator ? "yes" : "no");
    EXPECT(got_initiator == initiator);
    bool got_reserved = moor_is_reserved(asked);
    printf("moor_is_reserved %02X -> %s\n", asked, got_reserved ? "yes" : "no");
    EXPECT(got_reserved == reserved);
    uint8_t got_kind = moor_kind(asked);
    printf("moor_kind %02X -> %u\n", asked, got_kind);
    EXPECT(got_kind == kind);
}

static void addresses(void)
{
    address(0xFE, false, false, MOOR_BROADCAST);          /* W6 */
    address(0x10, true, false, MOOR_INITIATOR_INITIATOR); /* W6 */
    address(0x08, false, false, MOOR_INITIATOR_TARGET);   /* W6 */
    address(0xFF, true, false, MOOR_INITIATOR_INITIATOR);
    address(0xA8, false, false, MOOR_INITIATOR_TARGET);
    address(0xA9, false, true, MOOR_INITIATOR_TARGET);
    address(0xAA, false, true, MOOR_INITIATOR_TARGET);
    address(0xAB, false, false, MOOR_INITIATOR_TARGET);
    unsigned initiators = 0;
    for (unsigned i = 0; i < 256; i++)
        initiators += moor_is_initiator((uint8_t)i);
    printf("moor_is_initiator, each of 256 -> %u\n", initiators);
    EXPECT(initiators == 25);
}

/* ---- Escapes ------------------------------------------------------------- */

static void logical_at(bytes run, size_t at, moor_logical must)
{
    moor_logical got = moor_logical_at(run.start, run.length, at);
    print_call("moor_logical_at", run);
    printf("at %zu: ", at);
    if (got.number != MOOR_ACCEPTED)
        print_refused(got.number, got.place);
    else
        printf("%02X, next %zu\n", got.byte, got.next);
    EXPECT(got.number == must.number);
    EXPECT(got.byte == must.byte);
    EXPECT(got.place == must.place);
    EXPECT(got.next == must.next);
}

#define MEANT(value, behind) ((moor_logical){.byte = (value), .next = (behind)})
#define NOT_MEANT(why, where) ((moor_logical){.number = (why), .place = (where)})

static void logical_bytes(void)
{
    bytes run = BYTES(0x10, 0xA9, 0x00, 0xA9, 0x01, 0xAA, 0xA9, 0x55, 0xA9);
    logical_at(run, 0, MEANT(0x10, 1));
    logical_at(run, 1, MEANT(0xA9, 3));
    logical_at(run, 3, MEANT(0xAA, 5));
    logical_at(run, 5, NOT_MEANT(MOOR_SYN_EARLY, 5));
    logical_at(run, 6, NOT_MEANT(MOOR_ESCAPE_WRONG, 7));
    logical_at(run, 8, NOT_MEANT(MOOR_RUN_ENDED, 9));
    logical_at(run, 9, NOT_MEANT(MOOR_RUN_ENDED, 9));
    logical_at(run, SIZE_MAX, NOT_MEANT(MOOR_RUN_ENDED, 9));
    logical_at(BYTES(0xA9, 0xAA), 0, NOT_MEANT(MOOR_SYN_EARLY, 1));
    logical_at(none, 0, NOT_MEANT(MOOR_RUN_ENDED, 0));
}

static void expand(bytes logical, size_t room, outcome must)
{
    fill(out);
    moor_written got = moor_expand(logical.start, logical.length, out, room);
    print_call("moor_expand", logical);
    written(got, must);
}

static void undo(bytes raw, size_t room, outcome must)
{
    fill(out);
    moor_written got = moor_undo(raw.start, raw.length, out, room);
    print_call("moor_undo", raw);
    written(got, must);
}

static void escapes(void)
{
    expand(BYTES(0xA9, 0xAA), MOST, WROTE(0xA9, 0x00, 0xA9, 0x01)); /* W5 */
    expand(BYTES(0xA9, 0xAA), 4, WROTE(0xA9, 0x00, 0xA9, 0x01));
    expand(BYTES(0xA9, 0xAA), 3, REFUSED(MOOR_OUTPUT_SHORT, 0));
    expand(none, 0, nothing_written);
    undo(BYTES(0xA9, 0x00, 0xA9, 0x01), 2, WROTE(0xA9, 0xAA));
    undo(BYTES(0xA9, 0x00, 0xA9, 0x01), 1, REFUSED(MOOR_OUTPUT_SHORT, 0));
    undo(BYTES(0x10, 0xA9), MOST, REFUSED(MOOR_RUN_ENDED, 2));
    undo(BYTES(0x10, 0xA9, 0x02), 0, REFUSED(MOOR_ESCAPE_WRONG, 2));
    undo(BYTES(0x10, 0xA9, 0xAA), 0, REFUSED(MOOR_SYN_EARLY, 2));
    undo(BYTES(0x10, 0xAA), MOST, REFUSED(MOOR_SYN_EARLY, 1));
    undo(none, 0, nothing_written);
}

/* ---- Telegrams ----------------------------------------------------------- */

/* What reading a telegram must give. */
typedef struct {
    uint8_t number;
    size_t place;
    bytes read;
    size_t last;
    size_t next;
} telegram;

#define READ(last, next, ...) ((telegram){MOOR_ACCEPTED, 0, BYTES(__VA_ARGS__), (last), (next)})
#define UNREAD(number, place) ((telegram){(number), (place), none, 0, 0})

static bool telegram_bytes(moor_telegram got, bytes must)
{
    for (size_t i = 0; i < sizeof got.bytes; i++) {
        if (got.bytes[i] != (i < must.length ? must.start[i] : 0))
            return false;
    }
    return true;
}

static void telegram_at(bytes run, bool command, size_t at, telegram must)
{
    moor_telegram got = moor_telegram_at(run.start, run.length, command, at);
    print_call("moor_telegram_at", run);
    printf("%s at %zu: ", command ? "command" : "reply", at);
    if (got.number != MOOR_ACCEPTED) {
        print_refused(got.number, got.place);
    } else {
        printf("%zu bytes:", got.length);
        print_bytes((bytes){got.bytes, got.length <= 22 ? got.length : 22});
        printf(", check at %zu, next %zu\n", got.last, got.next);
    }
    EXPECT(got.number == must.number);
    EXPECT(got.place == must.place);
    EXPECT(got.length == must.read.length);
    EXPECT(got.last == must.last);
    EXPECT(got.next == must.next);
    EXPECT(telegram_bytes(got, must.read));
}

static void commands_read(void)
{
    telegram_at(BYTES(0x10, 0x08, 0xB5, 0x11, 0x01, 0x01, 0x89, 0x00), true, 0,
                READ(6, 7, 0x10, 0x08, 0xB5, 0x11, 0x01, 0x01, 0x89));
    telegram_at(BYTES(0xAA, 0x10, 0x08, 0xB5, 0x11, 0x02, 0xA9, 0x00, 0xA9, 0x01, 0x57), true, 1,
                READ(10, 11, 0x10, 0x08, 0xB5, 0x11, 0x02, 0xA9, 0xAA, 0x57));
    telegram_at(none, true, 0, UNREAD(MOOR_RUN_ENDED, 0));
    telegram_at(BYTES(0x10, 0x08, 0xB5, 0x11), true, 0, UNREAD(MOOR_RUN_ENDED, 4));
    telegram_at(BYTES(0xA9, 0x55), true, 0, UNREAD(MOOR_ESCAPE_WRONG, 1));
    telegram_at(BYTES(0x10, 0xAA), true, 0, UNREAD(MOOR_SYN_EARLY, 1));
    telegram_at(BYTES(0x12, 0x08), true, 0, UNREAD(MOOR_SOURCE_WRONG, 0));
    telegram_at(BYTES(0xA9, 0x00), true, 0, UNREAD(MOOR_SOURCE_WRONG, 0));
    telegram_at(BYTES(0x10, 0xA9, 0x01), true, 0, UNREAD(MOOR_DESTINATION_WRONG, 1));
    telegram_at(BYTES(0x10, 0x08, 0xB5, 0x11, 0x11), true, 0, UNREAD(MOOR_LENGTH_OVER, 4));
}

static void replies_read(void)
{
    telegram_at(BYTES(0x01, 0x2A, 0xB1), false, 0, READ(2, 3, 0x01, 0x2A, 0xB1));
    telegram_at(BYTES(0x00, 0x00), false, 0, READ(1, 2, 0x00, 0x00));
    telegram_at(BYTES(0x11), false, 0, UNREAD(MOOR_LENGTH_OVER, 0));
    telegram_at(BYTES(0x01, 0x2A, 0xB1), false, 3, UNREAD(MOOR_RUN_ENDED, 3));
}

static void check_right(bytes telegram, bool must)
{
    bool got = moor_check_right(telegram.start, telegram.length);
    print_call("moor_check_right", telegram);
    printf("%s\n", got ? "yes" : "no");
    EXPECT(got == must);
}

static void checks_of_telegrams(void)
{
    check_right(BYTES(0x10, 0x08, 0xB5, 0x11, 0x01, 0x01, 0x89), true);
    check_right(BYTES(0x10, 0x08, 0xB5, 0x11, 0x01, 0x01, 0x88), false);
    check_right(BYTES(0xAA, 0xEC), true);
    check_right(BYTES(0x00), true);
    check_right(none, false);
}

/* ---- Writing telegrams --------------------------------------------------- */

static void write_command(uint8_t source, uint8_t destination, bytes data, size_t room,
                          outcome must)
{
    fill(out);
    moor_written got = moor_write_command(source, destination, 0xB5, 0x11, data.start,
                                          data.length, out, room);
    printf("moor_write_command %02X %02X B5 11", source, destination);
    print_call(", data", data);
    written(got, must);
}

static void write_reply(bytes data, size_t room, outcome must)
{
    fill(out);
    moor_written got = moor_write_reply(data.start, data.length, out, room);
    print_call("moor_write_reply", data);
    written(got, must);
}

#define SIXTEEN 0, 1, 2, 3, 4, 5, 6, 7, 8, 9, 10, 11, 12, 13, 14, 15

static void telegrams_written(void)
{
    bytes seventeen = BYTES(SIXTEEN, 16);
    outcome command = WROTE(0x10, 0x08, 0xB5, 0x11, 0x01, 0x01, 0x89);
    write_command(0x10, 0x08, BYTES(0x01), MOST, command);
    write_command(0x10, 0x08, BYTES(0x01), 7, command);
    write_command(0x10, 0x08, BYTES(0x01), 6, REFUSED(MOOR_OUTPUT_SHORT, 0));
    write_command(0x10, 0x08, BYTES(0xA9, 0xAA), 10,
                  WROTE(0x10, 0x08, 0xB5, 0x11, 0x02, 0xA9, 0x00, 0xA9, 0x01, 0x57));
    write_command(0x10, 0x08, none, 5, REFUSED(MOOR_OUTPUT_SHORT, 0));
    write_command(0x10, 0xFE, BYTES(SIXTEEN), 22,
                  WROTE(0x10, 0xFE, 0xB5, 0x11, 0x10, SIXTEEN, 0x30));
    write_command(0x12, 0xAA, seventeen, 0, REFUSED(MOOR_SOURCE_WRONG, 0));
    write_command(0x10, 0xAA, seventeen, 0, REFUSED(MOOR_DESTINATION_WRONG, 0));
    write_command(0x10, 0x08, seventeen, 0, REFUSED(MOOR_LENGTH_OVER, 0));
    write_reply(BYTES(0x2A), 3, WROTE(0x01, 0x2A, 0xB1));
    write_reply(BYTES(0x2A), 2, REFUSED(MOOR_OUTPUT_SHORT, 0));
    write_reply(BYTES(SIXTEEN), 18, WROTE(0x10, SIXTEEN, 0x6E));
    write_reply(seventeen, 0, REFUSED(MOOR_LENGTH_OVER, 0));
    write_reply(none, 2, WROTE(0x00, 0x00));
}

/* ---- Exchanges ----------------------------------------------------------- */

static uint8_t command[MOST], reply_1[MOST], reply_2[MOST];

/* What judging a run must give. */
typedef struct {
    moor_judged answer;
    bytes command, reply_1, reply_2;
} exchange;

#define JUDGED(kind, commands, replies, read) \
    ((moor_judged){MOOR_ACCEPTED, (kind), (commands), (replies), 0, (read)})
#define NOT_JUDGED(why, where) \
    ((exchange){{.number = (why), .place = (where)}, none, none, none})

static void fill_exchange(void)
{
    fill(command);
    fill(reply_1);
    fill(reply_2);
}

/* Prints what a judging gave, and holds it and the buffers to what it must
 * give. */
static void judged(moor_judged got, exchange must)
{
    if (got.number != MOOR_ACCEPTED)
        print_refused(got.number, got.place);
    else
        printf("kind %u, attempts %u and %u, %zu bytes read\n", got.kind,
               got.command_attempts, got.reply_attempts, got.read);
    EXPECT(got.number == must.answer.number);
    EXPECT(got.kind == must.answer.kind);
    EXPECT(got.command_attempts == must.answer.command_attempts);
    EXPECT(got.reply_attempts == must.answer.reply_attempts);
    EXPECT(got.place == must.answer.place);
    EXPECT(got.read == must.answer.read);
    EXPECT(starts(command, must.command));
    EXPECT(starts(reply_1, must.reply_1));
    EXPECT(starts(reply_2, must.reply_2));
}

static void judge_within(bytes run, size_t room, size_t room_1, size_t room_2, exchange must)
{
    fill_exchange();
    moor_judged got = moor_judge(run.start, run.length, command, room, reply_1, room_1,
                                 reply_2, room_2);
    print_call("moor_judge", run);
    judged(got, must);
}

static void judge(bytes run, exchange must)
{
    judge_within(run, MOOR_COMMAND_ROOM, MOOR_REPLY_ROOM, MOOR_REPLY_ROOM, must);
}

static void reply_data(bytes first, bytes second, uint8_t attempt, moor_part must)
{
    moor_part got = moor_reply_data(first.start, first.length, second.start, second.length,
                                    attempt);
    print_call("moor_reply_data", first);
    print_bytes(second);
    printf(" attempt %u: %zu bytes from %zu of %u\n", attempt, got.length, got.start,
           got.attempt);
    EXPECT(got.attempt == must.attempt);
    EXPECT(got.start == must.start);
    EXPECT(got.length == must.length);
}

#define COMMAND 0x10, 0x08, 0xB5, 0x11, 0x01, 0x01, 0x89
#define WRONG_COMMAND 0x10, 0x08, 0xB5, 0x11, 0x01, 0x01, 0x88
#define REPLY 0x01, 0x2A, 0xB1
#define WRONG_REPLY 0x01, 0x2B, 0xB1
#define ACK 0x00
#define NACK 0xFF
#define SYN 0xAA

static void exchanges_accepted(void)
{
    bytes sent = BYTES(COMMAND), answered = BYTES(REPLY), wrong = BYTES(WRONG_REPLY);
    judge(BYTES(COMMAND, ACK, REPLY, ACK, SYN), /* W7 */
          (exchange){JUDGED(MOOR_INITIATOR_TARGET, 1, 1, 13), sent, answered, none});
    reply_data((bytes){reply_1, MOOR_REPLY_ROOM}, (bytes){reply_2, MOOR_REPLY_ROOM}, 1,
               (moor_part){1, 1, 1});
    EXPECT(reply_1[1] == 0x2A);
    judge(BYTES(COMMAND, ACK, REPLY, ACK, SYN, 0x55),
          (exchange){JUDGED(MOOR_INITIATOR_TARGET, 1, 1, 13), sent, answered, none});
    judge(BYTES(0x10, 0xFE, 0xB5, 0x11, 0x01, 0x01, 0x10, SYN),
          (exchange){JUDGED(MOOR_BROADCAST, 1, 0, 8),
                     BYTES(0x10, 0xFE, 0xB5, 0x11, 0x01, 0x01, 0x10), none, none});
    judge(BYTES(0x10, 0xFE, 0xB5, 0x11, 0x10, SIXTEEN, 0x30, SYN),
          (exchange){JUDGED(MOOR_BROADCAST, 1, 0, 23),
                     BYTES(0x10, 0xFE, 0xB5, 0x11, 0x10, SIXTEEN, 0x30), none, none});
    judge(BYTES(0x10, 0x03, 0xB5, 0x11, 0x01, 0x01, 0x3A, ACK, SYN),
          (exchange){JUDGED(MOOR_INITIATOR_INITIATOR, 1, 0, 9),
                     BYTES(0x10, 0x03, 0xB5, 0x11, 0x01, 0x01, 0x3A), none, none});
    judge(BYTES(WRONG_COMMAND, NACK, COMMAND, ACK, REPLY, ACK, SYN),
          (exchange){JUDGED(MOOR_INITIATOR_TARGET, 2, 1, 21), sent, answered, none});
    judge(BYTES(COMMAND, ACK, WRONG_REPLY, NACK, REPLY, ACK, SYN),
          (exchange){JUDGED(MOOR_INITIATOR_TARGET, 1, 2, 17), sent, wrong, answered});
    reply_data((bytes){reply_1, MOOR_REPLY_ROOM}, (bytes){reply_2, MOOR_REPLY_ROOM}, 2,
               (moor_part){2, 1, 1});
    EXPECT(reply_2[1] == 0x2A);
}

/* SYN before the first command has two logical bytes begins it afresh. */
static void exchanges_behind_idle_time(void)
{
    bytes sent = BYTES(COMMAND), answered = BYTES(REPLY);
    judge(BYTES(SYN, SYN, SYN, COMMAND, ACK, REPLY, ACK, SYN),
          (exchange){JUDGED(MOOR_INITIATOR_TARGET, 1, 1, 16), sent, answered, none});
    judge(BYTES(0x10, SYN, 0xA9, SYN, 0xFF, 0xA9, SYN, COMMAND, ACK, REPLY, ACK, SYN),
          (exchange){JUDGED(MOOR_INITIATOR_TARGET, 1, 1, 20), sent, answered, none});
    judge(BYTES(SYN, WRONG_COMMAND, NACK, COMMAND, ACK, REPLY, ACK, SYN),
          (exchange){JUDGED(MOOR_INITIATOR_TARGET, 2, 1, 22), sent, answered, none});
    judge(BYTES(SYN), NOT_JUDGED(MOOR_RUN_ENDED, 1));
    judge(BYTES(SYN, SYN), NOT_JUDGED(MOOR_RUN_ENDED, 2));
    judge(BYTES(0x10, 0xA9, SYN), NOT_JUDGED(MOOR_RUN_ENDED, 3));
    judge(BYTES(SYN, 0xA9, 0x10), NOT_JUDGED(MOOR_ESCAPE_WRONG, 2));
    judge(BYTES(SYN, 0x10, 0x08, SYN), NOT_JUDGED(MOOR_SYN_EARLY, 3));
    judge(BYTES(SYN, COMMAND, NACK, SYN), NOT_JUDGED(MOOR_SYN_EARLY, 9));
    judge(BYTES(0x02, SYN), NOT_JUDGED(MOOR_SOURCE_WRONG, 0));
    judge(BYTES(SYN, 0x10, 0xA9, 0x00), NOT_JUDGED(MOOR_DESTINATION_WRONG, 2));
    judge(BYTES(SYN, COMMAND, 0x55, REPLY, ACK, SYN), NOT_JUDGED(MOOR_BUS_ERROR, 8));
}

static void exchanges_refused(void)
{
    judge(BYTES(COMMAND, 0x55, REPLY, ACK, SYN), NOT_JUDGED(MOOR_BUS_ERROR, 7)); /* W8 */
    judge(none, NOT_JUDGED(MOOR_RUN_ENDED, 0));
    judge(BYTES(COMMAND, ACK), NOT_JUDGED(MOOR_RUN_ENDED, 8));
    judge(BYTES(0x10, 0x08, 0xB5, 0x11, 0x01, 0xA9, 0x02), NOT_JUDGED(MOOR_ESCAPE_WRONG, 6));
    judge(BYTES(0x10, 0x08, SYN), NOT_JUDGED(MOOR_SYN_EARLY, 2));
    judge(BYTES(WRONG_COMMAND, SYN), NOT_JUDGED(MOOR_SYN_EARLY, 7));
    judge(BYTES(COMMAND, ACK, REPLY, SYN), NOT_JUDGED(MOOR_SYN_EARLY, 11));
    judge(BYTES(0x12, 0x08), NOT_JUDGED(MOOR_SOURCE_WRONG, 0));
    judge(BYTES(0x10, 0xA9, 0x01), NOT_JUDGED(MOOR_DESTINATION_WRONG, 1));
    judge(BYTES(0x10, 0xFE, 0xB5, 0x11, 0x11), NOT_JUDGED(MOOR_LENGTH_OVER, 4));
    judge(BYTES(WRONG_COMMAND, ACK, REPLY, ACK, SYN), NOT_JUDGED(MOOR_CHECK_WRONG, 6));
    judge(BYTES(COMMAND, ACK, WRONG_REPLY, ACK, SYN), NOT_JUDGED(MOOR_CHECK_WRONG, 10));
    judge(BYTES(0x10, 0xFE, 0xB5, 0x11, 0x01, 0x01, 0x11), NOT_JUDGED(MOOR_CHECK_WRONG, 6));
    judge(BYTES(COMMAND, NACK, COMMAND, NACK), NOT_JUDGED(MOOR_COMMAND_NACKED, 15));
    judge(BYTES(COMMAND, ACK, REPLY, NACK, REPLY, NACK), NOT_JUDGED(MOOR_REPLY_NACKED, 15));
    judge(BYTES(COMMAND, ACK, REPLY, ACK, ACK), NOT_JUDGED(MOOR_BUS_ERROR, 12));
    bytes run = BYTES(COMMAND, ACK, REPLY, ACK, SYN);
    judge_within(run, 21, 18, 18, NOT_JUDGED(MOOR_OUTPUT_SHORT, 0));
    judge_within(run, 22, 17, 18, NOT_JUDGED(MOOR_OUTPUT_SHORT, 0));
    judge_within(run, 22, 18, 17, NOT_JUDGED(MOOR_OUTPUT_SHORT, 0));
    judge_within(none, 0, 0, 0, NOT_JUDGED(MOOR_OUTPUT_SHORT, 0));
}

static void data_of_replies(void)
{
    moor_part empty = {1, 0, 0};
    reply_data(BYTES(0x10, SIXTEEN), none, 1, (moor_part){1, 1, 16});
    reply_data(BYTES(0x02, 0x2A), none, 1, empty);
    reply_data(BYTES(0x11, SIXTEEN, 16, 17), none, 1, empty);
    reply_data(BYTES(REPLY), BYTES(WRONG_REPLY), 0, empty);
    reply_data(BYTES(REPLY), BYTES(WRONG_REPLY), 3, empty);
    reply_data(BYTES(REPLY), none, 2, empty);
    reply_data(BYTES(0x00, 0x00), none, 1, (moor_part){1, 1, 0});
    reply_data(BYTES(REPLY), BYTES(0x00, 0x00), 2, (moor_part){2, 1, 0});
    reply_data(none, none, 1, empty);
}

/* ---- Captures ------------------------------------------------------------ */

#define BROADCAST 0x10, 0xFE, 0xB5, 0x11, 0x01, 0x01, 0x10, SYN

static void next_exchange(bytes capture, size_t at, size_t start, size_t end)
{
    moor_stretch got = moor_next_exchange(capture.start, capture.length, at);
    print_call("moor_next_exchange", capture);
    printf("from %zu: %zu to %zu\n", at, got.start, got.end);
    EXPECT(got.start == start);
    EXPECT(got.end == end);
}

static void captures_without_exchanges(void)
{
    next_exchange(none, 0, 0, 0);
    next_exchange(none, 1, 0, 0);
    next_exchange(none, SIZE_MAX, 0, 0);
    next_exchange(BYTES(SYN), 0, 1, 1);
    next_exchange(BYTES(SYN, SYN, SYN), 0, 3, 3);
    next_exchange(BYTES(SYN, SYN, SYN), 2, 3, 3);
    next_exchange(BYTES(BROADCAST), 8, 8, 8);
    next_exchange(BYTES(BROADCAST), 9, 8, 8);
    next_exchange(BYTES(BROADCAST), SIZE_MAX, 8, 8);
    next_exchange(BYTES(0x10, 0xA9, SYN, 0xA9, SYN, 0xFF, SYN), 0, 7, 7);
}

/* The four pieces of idle time, alone and one behind the other. */
static void captures_behind_idle_time(void)
{
    next_exchange(BYTES(BROADCAST), 0, 0, 8);
    next_exchange(BYTES(SYN, BROADCAST), 0, 1, 9);
    next_exchange(BYTES(0xA9, SYN, BROADCAST), 0, 2, 10);
    next_exchange(BYTES(0x31, SYN, BROADCAST), 0, 2, 10);
    next_exchange(BYTES(0x31, 0xA9, SYN, BROADCAST), 0, 3, 11);
    next_exchange(BYTES(SYN, 0xFF, 0xA9, SYN, 0xA9, SYN, 0x00, SYN, SYN, BROADCAST), 0, 9, 17);
    next_exchange(BYTES(0x31, 0xA9, SYN, BROADCAST), 1, 3, 11);
    next_exchange(BYTES(0x31, 0xA9, SYN, BROADCAST), 4, 4, 11);
}

/* What looks like idle time and is none. */
static void captures_without_idle_time(void)
{
    next_exchange(BYTES(0x02, SYN, BROADCAST), 0, 0, 2);       /* no initiator */
    next_exchange(BYTES(0xA9, 0x00, SYN, BROADCAST), 0, 0, 3); /* an escape that is whole */
    next_exchange(BYTES(0xA9, 0xA9, SYN, BROADCAST), 0, 0, 3);
    next_exchange(BYTES(0x10, 0x31, SYN, BROADCAST), 0, 0, 3);
    next_exchange(BYTES(0x10), 0, 0, 1);
    next_exchange(BYTES(SYN, 0xA9), 0, 1, 2);
    next_exchange(BYTES(SYN, 0x10, 0xA9), 0, 1, 3);
}

/* The answer to the bytes of a stretch. */
static moor_judged answer_to(bytes capture, moor_stretch e)
{
    return moor_judge(capture.start + e.start, e.end - e.start, command, MOOR_COMMAND_ROOM,
                      reply_1, MOOR_REPLY_ROOM, reply_2, MOOR_REPLY_ROOM);
}

/* The first exchange of a capture, with its answer. */
static void first_exchange(bytes capture, size_t start, size_t end, uint8_t number, size_t place)
{
    next_exchange(capture, 0, start, end);
    moor_judged got = answer_to(capture, (moor_stretch){start, end});
    EXPECT(got.number == number);
    EXPECT(got.place == place);
    EXPECT(got.read == (number == MOOR_ACCEPTED ? end - start : 0));
}

static void exchanges_of_captures(void)
{
    first_exchange(BYTES(SYN, COMMAND, ACK, REPLY, ACK, SYN, SYN), 1, 14, MOOR_ACCEPTED, 0);
    /* The SYN that decides is the end. */
    first_exchange(BYTES(0x10, 0x08, SYN, BROADCAST), 0, 3, MOOR_SYN_EARLY, 2);
    first_exchange(BYTES(COMMAND, SYN, BROADCAST), 0, 8, MOOR_SYN_EARLY, 7);
    /* Bytes behind the one that decides. */
    first_exchange(BYTES(COMMAND, 0x55, REPLY, ACK, SYN, BROADCAST), 0, 13, MOOR_BUS_ERROR, 7);
    first_exchange(BYTES(WRONG_COMMAND, ACK, REPLY, ACK, SYN), 0, 13, MOOR_CHECK_WRONG, 6);
    first_exchange(BYTES(COMMAND, ACK, REPLY, ACK, 0x55, 0x10, SYN), 0, 15, MOOR_BUS_ERROR, 12);
    /* No SYN. */
    first_exchange(BYTES(SYN, SYN, COMMAND, ACK, 0x01), 2, 11, MOOR_RUN_ENDED, 9);
    first_exchange(BYTES(COMMAND, 0x55, REPLY), 0, 11, MOOR_BUS_ERROR, 7);
}

/* Walks a capture: each byte is passed over, as idle time that judging finds
 * nothing in, or in exactly one of these many exchanges. */
static void walk(bytes capture, unsigned exchanges, unsigned accepted)
{
    unsigned found = 0, taken = 0;
    size_t at = 0;
    print_call("moor_next_exchange, over all of", capture);
    for (;;) {
        moor_stretch e = moor_next_exchange(capture.start, capture.length, at);
        EXPECT(at <= e.start && e.start <= e.end && e.end <= capture.length);
        moor_judged idle = answer_to(capture, (moor_stretch){at, e.start});
        EXPECT(idle.number == MOOR_RUN_ENDED && idle.place == e.start - at);
        EXPECT(e.start == at || capture.start[e.start - 1] == SYN);
        at = e.end;
        if (e.start == e.end)
            break;
        for (size_t i = e.start; i + 1 < e.end; i++)
            EXPECT(capture.start[i] != SYN);
        EXPECT(capture.start[e.end - 1] == SYN || e.end == capture.length);
        found++;
        taken += answer_to(capture, e).number == MOOR_ACCEPTED;
    }
    printf("%u exchanges, %u accepted\n", found, taken);
    EXPECT(at == capture.length);
    EXPECT(found == exchanges);
    EXPECT(taken == accepted);
}

static void captures_walked(void)
{
    walk(BYTES(SYN), 0, 0);
    walk(BYTES(SYN, 0x10, 0xA9, SYN, SYN), 0, 0);
    walk(BYTES(SYN, SYN, COMMAND, ACK, REPLY, ACK, SYN,       /* accepted */
               SYN, COMMAND, 0x55, REPLY, ACK, SYN,           /* a bus error, bytes behind it */
               BROADCAST, 0x10, 0x08, SYN,                    /* accepted; SYN early */
               WRONG_COMMAND, NACK, COMMAND, ACK, REPLY, ACK, /* NACKed once, accepted */
               SYN, 0x31, SYN, BROADCAST,                     /* 31 gave way; accepted */
               0x10, 0x08, 0xB5),                             /* cut off */
         7, 4);
}

/* ---- Bytes as they arrive ------------------------------------------------ */

static moor_listening listen(void)
{
    moor_listening state = moor_listen();
    bool answered = moor_has_answered(state);
    printf("moor_listen -> %s\n", answered ? "answered" : "nothing heard");
    EXPECT(!answered);
    return state;
}

/* Feeds a run to the state: how many bytes it must use, and whether the answer
 * must be known then. */
static void feed(moor_listening *state, bytes run, size_t used, bool answered)
{
    moor_fed got = moor_feed(*state, run.start, run.length);
    *state = got.state;
    bool got_answered = moor_has_answered(got.state);
    print_call("moor_feed", run);
    printf("%zu used\n", got.used);
    printf("moor_has_answered -> %s\n", got_answered ? "yes" : "no");
    EXPECT(got.used == used);
    EXPECT(got_answered == answered);
}

/* Whether two states hold the same; the last byte of their room is none of
 * theirs. */
static bool same_state(const moor_listening *one, const moor_listening *other)
{
    return memcmp(one, other, offsetof(moor_listening, kept) + sizeof one->kept) == 0;
}

/* Closes the state. Buffers that are too short give it back as it was; after
 * every other answer it has answered. */
static void close_within(moor_listening *state, size_t room, size_t room_1, size_t room_2,
                         exchange must)
{
    fill_exchange();
    moor_closed got = moor_close(*state, command, room, reply_1, room_1, reply_2, room_2);
    printf("moor_close -> ");
    judged(got.judged, must);
    if (must.answer.number == MOOR_OUTPUT_SHORT)
        EXPECT(same_state(&got.state, state));
    else
        EXPECT(moor_has_answered(got.state));
    *state = got.state;
}

static void close_state(moor_listening *state, exchange must)
{
    close_within(state, MOOR_COMMAND_ROOM, MOOR_REPLY_ROOM, MOOR_REPLY_ROOM, must);
}

/* A state that has answered uses no more bytes and gives the same again. */
static void stays_closed(moor_listening *state, exchange must)
{
    close_state(state, must);
    feed(state, BYTES(COMMAND, ACK, REPLY, ACK, SYN), 0, true);
    feed(state, none, 0, true);
    close_state(state, must);
}

static void listening_accepted(void)
{
    bytes sent = BYTES(COMMAND), answered = BYTES(REPLY), wrong = BYTES(WRONG_REPLY);
    moor_listening state = listen(); /* W7 */
    feed(&state, BYTES(0x10, 0x08, 0xB5), 3, false);
    feed(&state, none, 0, false);
    feed(&state, BYTES(0x11, 0x01, 0x01, 0x89, ACK, 0x01), 6, false);
    feed(&state, BYTES(0x2A, 0xB1, ACK, SYN, 0x10, 0x08), 4, true);
    stays_closed(&state, (exchange){JUDGED(MOOR_INITIATOR_TARGET, 1, 1, 13), sent, answered,
                                    none});
    state = listen();
    feed(&state, BYTES(WRONG_COMMAND, NACK, 0x10), 9, false);
    feed(&state, BYTES(0x08, 0xB5, 0x11, 0x01, 0x01, 0x89, ACK), 7, false);
    feed(&state, BYTES(WRONG_REPLY, NACK), 4, false);
    feed(&state, BYTES(REPLY, ACK), 4, false);
    feed(&state, BYTES(SYN), 1, true);
    stays_closed(&state, (exchange){JUDGED(MOOR_INITIATOR_TARGET, 2, 2, 25), sent, wrong,
                                    answered});
    state = listen();
    feed(&state, BYTES(0x10, 0xFE, 0xB5, 0x11, 0x01, 0xA9), 6, false);
    feed(&state, BYTES(0x00), 1, false);
    feed(&state, BYTES(0x44), 1, false);
    feed(&state, BYTES(SYN, SYN), 1, true);
    stays_closed(&state, (exchange){JUDGED(MOOR_BROADCAST, 1, 0, 9),
                                    BYTES(0x10, 0xFE, 0xB5, 0x11, 0x01, 0xA9, 0x44), none, none});
}

/* Each run's last byte but the spare one decides. */
static void listening_refused(void)
{
    moor_listening state = listen(); /* W8 */
    feed(&state, BYTES(COMMAND), 7, false);
    feed(&state, BYTES(0x55, REPLY, ACK, SYN), 1, true);
    stays_closed(&state, NOT_JUDGED(MOOR_BUS_ERROR, 7));
    state = listen();
    feed(&state, BYTES(0x10, 0xFE, 0xB5, 0x11, 0x00, 0xA9), 6, false);
    feed(&state, BYTES(0x00, SYN), 1, true);
    stays_closed(&state, NOT_JUDGED(MOOR_CHECK_WRONG, 5));
    state = listen();
    feed(&state, BYTES(0x10, 0xA9), 2, false);
    feed(&state, BYTES(0x01, 0xB5), 1, true);
    stays_closed(&state, NOT_JUDGED(MOOR_DESTINATION_WRONG, 1));
    state = listen();
    feed(&state, BYTES(COMMAND, NACK, COMMAND), 15, false);
    feed(&state, BYTES(NACK, NACK), 1, true);
    stays_closed(&state, NOT_JUDGED(MOOR_COMMAND_NACKED, 15));
}

/* A command that was NACKed, and a broadcast in its place, up to the middle of
 * its check byte. */
static moor_listening broadcast_begun(void)
{
    moor_listening state = listen();
    feed(&state, BYTES(COMMAND, NACK), 8, false);
    feed(&state, BYTES(0x10, 0xFE, 0xB5, 0x05, 0x01, 0x18, 0xA9), 7, false);
    return state;
}

static void listening_within_an_escape(void)
{
    bytes next = BYTES(SYN, 0x10);
    moor_listening state = broadcast_begun();
    feed(&state, BYTES(0x01), 1, false);
    moor_listening closed = state;
    stays_closed(&closed, NOT_JUDGED(MOOR_RUN_ENDED, 16));
    feed(&state, next, 1, true);
    stays_closed(&state, (exchange){JUDGED(MOOR_BROADCAST, 2, 0, 17),
                                    BYTES(0x10, 0xFE, 0xB5, 0x05, 0x01, 0x18, 0xAA), none, none});
    state = broadcast_begun();
    feed(&state, BYTES(0x00), 1, true);
    feed(&state, next, 0, true);
    stays_closed(&state, NOT_JUDGED(MOOR_CHECK_WRONG, 14));
    state = broadcast_begun();
    feed(&state, BYTES(0x55), 1, true);
    stays_closed(&state, NOT_JUDGED(MOOR_ESCAPE_WRONG, 15));
    state = broadcast_begun();
    feed(&state, BYTES(SYN), 1, true);
    stays_closed(&state, NOT_JUDGED(MOOR_SYN_EARLY, 15));
}

/* Up to a reply with a wrong check byte, before it is answered. */
static moor_listening reply_heard(void)
{
    moor_listening state = listen();
    feed(&state, BYTES(COMMAND, ACK, 0x01, 0x2A, 0xB0), 11, false);
    return state;
}

static void listening_to_replies(void)
{
    moor_listening state = reply_heard();
    feed(&state, BYTES(NACK, REPLY, ACK), 5, false);
    feed(&state, BYTES(SYN, SYN), 1, true);
    stays_closed(&state, (exchange){JUDGED(MOOR_INITIATOR_TARGET, 1, 2, 17), BYTES(COMMAND),
                                    BYTES(0x01, 0x2A, 0xB0), BYTES(REPLY)});
    state = reply_heard();
    feed(&state, BYTES(NACK, 0xA9), 2, false);
    feed(&state, BYTES(0x00, SYN), 1, true);
    stays_closed(&state, NOT_JUDGED(MOOR_LENGTH_OVER, 12));
    state = reply_heard();
    feed(&state, BYTES(NACK, REPLY, NACK, ACK), 5, true);
    stays_closed(&state, NOT_JUDGED(MOOR_REPLY_NACKED, 15));
}

/* A wrong byte at the start of a command. */
static void listening_to_wrong_starts(void)
{
    moor_listening state = listen();
    feed(&state, BYTES(0xA9), 1, false);
    feed(&state, BYTES(0x01), 1, true);
    stays_closed(&state, NOT_JUDGED(MOOR_SOURCE_WRONG, 0));
    state = listen();
    feed(&state, BYTES(0x02, SYN), 1, true);
    stays_closed(&state, NOT_JUDGED(MOOR_SOURCE_WRONG, 0));
    state = listen();
    feed(&state, BYTES(0x10, 0xA9), 2, false);
    feed(&state, BYTES(0x00, 0x55), 1, true);
    stays_closed(&state, NOT_JUDGED(MOOR_DESTINATION_WRONG, 1));
    state = listen();
    feed(&state, BYTES(0x10, 0x08), 2, false);
    feed(&state, BYTES(SYN), 1, true);
    stays_closed(&state, NOT_JUDGED(MOOR_SYN_EARLY, 2));
    state = listen();
    feed(&state, BYTES(0x10, 0x08, 0xB5, 0x11, 0x11, 0x00), 5, true);
    stays_closed(&state, NOT_JUDGED(MOOR_LENGTH_OVER, 4));
}

/* Idle time is used and gives no answer, however it is cut. */
static void listening_from_idle_time_on(void)
{
    moor_listening state = listen();
    feed(&state, BYTES(SYN, SYN), 2, false);
    feed(&state, BYTES(0x10, 0xA9), 2, false);
    feed(&state, BYTES(SYN), 1, false);
    feed(&state, BYTES(0xFF), 1, false);
    feed(&state, BYTES(SYN, 0xA9), 2, false);
    feed(&state, BYTES(SYN), 1, false);
    moor_listening closed = state;
    stays_closed(&closed, NOT_JUDGED(MOOR_RUN_ENDED, 9));
    feed(&state, BYTES(COMMAND, ACK, REPLY, ACK, SYN, SYN), 13, true);
    stays_closed(&state, (exchange){JUDGED(MOOR_INITIATOR_TARGET, 1, 1, 22), BYTES(COMMAND),
                                    BYTES(REPLY), none});
    state = listen();
    feed(&state, BYTES(SYN, COMMAND, NACK), 9, false);
    feed(&state, BYTES(SYN, 0x10), 1, true);
    stays_closed(&state, NOT_JUDGED(MOOR_SYN_EARLY, 9));
}

/* A wrong check byte is judged when it is acknowledged. */
static void listening_to_a_wrong_check(void)
{
    moor_listening state = listen();
    feed(&state, BYTES(WRONG_COMMAND), 7, false);
    feed(&state, none, 0, false);
    moor_listening closed = state;
    close_state(&closed, NOT_JUDGED(MOOR_RUN_ENDED, 7));
    feed(&closed, BYTES(ACK), 0, true);
    close_state(&closed, NOT_JUDGED(MOOR_RUN_ENDED, 7));
    feed(&state, BYTES(ACK, 0x01, 0x2A), 1, true);
    close_within(&state, 22, 18, 17, NOT_JUDGED(MOOR_OUTPUT_SHORT, 0));
    stays_closed(&state, NOT_JUDGED(MOOR_CHECK_WRONG, 6));
}

/* Number 3 is given only on closing, and number 1 before any other. */
static void listening_closed(void)
{
    exchange output_short = NOT_JUDGED(MOOR_OUTPUT_SHORT, 0);
    moor_listening state = listen();
    stays_closed(&state, NOT_JUDGED(MOOR_RUN_ENDED, 0));
    state = listen();
    feed(&state, BYTES(0x10, 0x08, 0xB5, 0x11, 0x01, 0xA9), 6, false);
    stays_closed(&state, NOT_JUDGED(MOOR_RUN_ENDED, 6));
    state = listen();
    close_within(&state, 0, 0, 0, output_short);
    feed(&state, BYTES(COMMAND, ACK), 8, false);
    close_within(&state, 21, 18, 18, output_short);
    feed(&state, BYTES(REPLY, ACK), 4, false);
    close_within(&state, 22, 17, 18, output_short);
    feed(&state, BYTES(SYN), 1, true);
    close_within(&state, 22, 18, 17, output_short);
    stays_closed(&state, (exchange){JUDGED(MOOR_INITIATOR_TARGET, 1, 1, 13), BYTES(COMMAND),
                                    BYTES(REPLY), none});
    state = listen();
    feed(&state, BYTES(0x12), 1, true);
    close_within(&state, 21, 18, 18, output_short);
    stays_closed(&state, NOT_JUDGED(MOOR_SOURCE_WRONG, 0));
}

/* Whether a buffer is as it was, from this byte on. */
static bool kept_from(const uint8_t *buffer, size_t first)
{
    for (size_t i = first; i < MOST; i++) {
        if (buffer[i] != FILL)
            return false;
    }
    return true;
}

/* Any bytes in place of a state: the calls return, a state whose `due` is 5 or
 * more uses nothing, and a closing keeps to its buffers, which a refusal
 * leaves. */
static bool keeps_to_its_own(moor_listening state)
{
    bytes run = BYTES(COMMAND, ACK, 0x01, 0xA9, 0x01, NACK, REPLY, ACK, SYN);
    moor_fed fed = moor_feed(state, run.start, run.length);
    fill_exchange();
    moor_closed got = moor_close(fed.state, command, MOOR_COMMAND_ROOM, reply_1,
                                 MOOR_REPLY_ROOM, reply_2, MOOR_REPLY_ROOM);
    bool accepted = got.judged.number == MOOR_ACCEPTED;
    return moor_has_answered(state) == (state.due >= 5) &&
           fed.used <= (state.due >= 5 ? 0 : run.length) &&
           kept_from(command, accepted ? MOOR_COMMAND_ROOM : 0) &&
           kept_from(reply_1, accepted ? MOOR_REPLY_ROOM : 0) &&
           kept_from(reply_2, accepted ? MOOR_REPLY_ROOM : 0);
}

/* A state of random bytes; its `due` is one that is in use, or one behind. */
static moor_listening random_state(uint32_t *random, uint8_t due)
{
    uint8_t content[sizeof(moor_listening)];
    for (size_t i = 0; i < sizeof content; i++) {
        *random = *random * 1664525 + 1013904223;
        content[i] = (uint8_t)(*random >> 24);
    }
    moor_listening state;
    memcpy(&state, content, sizeof state);
    state.due = due;
    return state;
}

static void any_states(void)
{
    moor_listening state;
    unsigned right = 0;
    for (int value = 0; value < 256; value++) {
        memset(&state, value, sizeof state);
        right += keeps_to_its_own(state);
    }
    uint32_t random = 1;
    for (unsigned turn = 0; turn < 9744; turn++) {
        state = random_state(&random, (uint8_t)(turn % 7));
        right += keeps_to_its_own(state);
    }
    printf("moor_feed and moor_close, 10000 states of any bytes -> %u kept to their own\n",
           right);
    EXPECT(right == 10000);
}

/* ---- Frames -------------------------------------------------------------- */

static void read_request(bytes frame, moor_request_read must)
{
    moor_request_read got = moor_read_request(frame.start, frame.length);
    print_call("moor_read_request", frame);
    if (got.number != MOOR_ACCEPTED)
        print_refused(got.number, got.place);
    else
        printf("%s\n", got.request == MOOR_START ? "start" : "continue");
    EXPECT(got.number == must.number);
    EXPECT(got.request == must.request);
    EXPECT(got.place == must.place);
}

static void read_answer(bytes frame, moor_answer_read must)
{
    moor_answer_read got = moor_read_answer(frame.start, frame.length);
    print_call("moor_read_answer", frame);
    if (got.number != MOOR_ACCEPTED)
        print_refused(got.number, got.place);
    else if (got.answer == MOOR_FOUND)
        printf("found %08X at %02X, %zu FF\n", (unsigned)got.serial, got.address, got.skipped);
    else
        printf("end, %zu FF\n", got.skipped);
    EXPECT(got.number == must.number);
    EXPECT(got.answer == must.answer);
    EXPECT(got.address == must.address);
    EXPECT(got.serial == must.serial);
    EXPECT(got.place == must.place);
    EXPECT(got.skipped == must.skipped);
}

#define START_FRAME 0xFD, 0x46, 0x01, 0x13, 0x90
#define CONTINUE_FRAME 0xFD, 0x46, 0x02, 0x53, 0x91
#define END_FRAME 0xFD, 0x46, 0x04, 0xD3, 0x93
#define FOUND_FRAME 0xFD, 0x46, 0x03, 0x00, 0x01, 0xEB, 0x37, 0x0C, 0xCE, 0xDC
#define FF_6 0xFF, 0xFF, 0xFF, 0xFF, 0xFF, 0xFF
#define FF_10 FF_6, 0xFF, 0xFF, 0xFF, 0xFF
#define FF_32 FF_10, FF_10, FF_10, 0xFF, 0xFF
#define NO_REQUEST(why, where) ((moor_request_read){.number = (why), .place = (where)})
#define NO_ANSWER(why, where) ((moor_answer_read){.number = (why), .place = (where)})
#define ENDED(ff) ((moor_answer_read){.answer = MOOR_END, .skipped = (ff)})
#define FOUND_BEHIND(ff) \
    ((moor_answer_read){ \
        .answer = MOOR_FOUND, .address = 0x0C, .serial = 0x0001EB37, .skipped = (ff)})

static void requests_read(void)
{
    read_request(BYTES(START_FRAME), (moor_request_read){.request = MOOR_START});       /* W9 */
    read_request(BYTES(CONTINUE_FRAME), (moor_request_read){.request = MOOR_CONTINUE}); /* W9 */
    read_request(none, NO_REQUEST(MOOR_FRAME_LENGTH, 0));
    read_request(BYTES(0xFD, 0x46, 0x01, 0x13), NO_REQUEST(MOOR_FRAME_LENGTH, 0));
    read_request(BYTES(START_FRAME, 0x00), NO_REQUEST(MOOR_FRAME_LENGTH, 0));
    read_request(BYTES(0xFF, START_FRAME), NO_REQUEST(MOOR_FRAME_HEAD, 0));
    read_request(BYTES(0xFD, 0x47, 0x01, 0x13, 0x90), NO_REQUEST(MOOR_FRAME_HEAD, 1));
    read_request(BYTES(END_FRAME), NO_REQUEST(MOOR_SUBCOMMAND_WRONG, 2));
    read_request(BYTES(0xFD, 0x46, 0x01, 0x13, 0x91), NO_REQUEST(MOOR_FRAME_CHECK, 3));
}

/* An answer with a fault of each kind: a byte too few, FE for FD, 47 for 46, a
 * byte too many, a wrong check, a serial of 2^28. */
#define SHORT_END 0xFD, 0x46, 0x04, 0xD3
#define WRONG_FIRST 0xFE, 0x46, 0x04, 0xD3, 0x93
#define WRONG_SECOND 0xFD, 0x47, 0x04, 0xD3, 0x93
#define LONG_END END_FRAME, 0x00
#define WRONG_CHECK 0xFD, 0x46, 0x04, 0xD3, 0x94
#define SERIAL_OVER 0xFD, 0x46, 0x03, 0x10, 0x00, 0x00, 0x00, 0x01, 0xA9, 0x22

static void answers_read(void)
{
    read_answer(BYTES(END_FRAME), ENDED(0));          /* W10 */
    read_answer(BYTES(FOUND_FRAME), FOUND_BEHIND(0)); /* W11 */
    read_answer(BYTES(0xFF, 0xFF, 0xFF, END_FRAME), ENDED(3));
    read_answer(BYTES(0xFF, FOUND_FRAME), FOUND_BEHIND(1));
    read_answer(none, NO_ANSWER(MOOR_FRAME_LENGTH, 0));
    read_answer(BYTES(FF_6), NO_ANSWER(MOOR_FRAME_LENGTH, 0));
    read_answer(BYTES(0xFF, WRONG_FIRST), NO_ANSWER(MOOR_FRAME_HEAD, 1));
    read_answer(BYTES(0xFF, START_FRAME), NO_ANSWER(MOOR_SUBCOMMAND_WRONG, 3));
    read_answer(BYTES(0xFF, WRONG_CHECK), NO_ANSWER(MOOR_FRAME_CHECK, 4));
    read_answer(BYTES(SERIAL_OVER), NO_ANSWER(MOOR_SERIAL_OVER, 3));
}

static void write_request(uint8_t request, size_t room, outcome must)
{
    fill(out);
    moor_written got = moor_write_request(request, out, room);
    printf("moor_write_request %u -> ", request);
    written(got, must);
}

static void write_found(uint32_t serial, uint8_t address, size_t room, outcome must)
{
    fill(out);
    moor_written got = moor_write_found(serial, address, out, room);
    printf("moor_write_found %08X at %02X -> ", (unsigned)serial, address);
    written(got, must);
}

static void write_end(size_t room, outcome must)
{
    fill(out);
    moor_written got = moor_write_end(out, room);
    printf("moor_write_end -> ");
    written(got, must);
}

static void frames_written(void)
{
    write_request(MOOR_START, 5, WROTE(START_FRAME));       /* W9 */
    write_request(MOOR_CONTINUE, 5, WROTE(CONTINUE_FRAME)); /* W9 */
    write_request(MOOR_START, 4, REFUSED(MOOR_OUTPUT_SHORT, 0));
    write_request(0, 0, REFUSED(MOOR_SUBCOMMAND_WRONG, 0));
    write_request(3, 5, REFUSED(MOOR_SUBCOMMAND_WRONG, 0));
    write_found(0x0001EB37, 0x0C, 10, WROTE(FOUND_FRAME)); /* W11 */
    write_found(0x0001EB37, 0x0C, 9, REFUSED(MOOR_OUTPUT_SHORT, 0));
    write_found(0x0FFFFFFF, 0x01, MOST,
                WROTE(0xFD, 0x46, 0x03, 0x0F, 0xFF, 0xFF, 0xFF, 0x01, 0x7D, 0x34));
    write_found(0x10000000, 0x01, 0, REFUSED(MOOR_SERIAL_OVER, 0));
    write_end(5, WROTE(END_FRAME)); /* W10 */
    write_end(4, REFUSED(MOOR_OUTPUT_SHORT, 0));
}

/* ---- Devices ------------------------------------------------------------- */

/* A device table of three; calls may be lent fewer. */
typedef struct {
    uint32_t serials[3];
    uint8_t addresses[3];
    uint8_t marks[3];
} table;

#define COLUMNS(t) (t).serials, 3, (t).addresses, 3, (t).marks, 3
#define NO_COLUMNS NULL, 0, NULL, 0, NULL, 0

/* The table of W12 and W13. */
static table three(uint8_t mark_0, uint8_t mark_1, uint8_t mark_2)
{
    return (table){{0x0001EB37, 5, 9}, {0x0C, 0x02, 0x03}, {mark_0, mark_1, mark_2}};
}

static bool marked(const table *now, uint8_t mark_0, uint8_t mark_1, uint8_t mark_2)
{
    table must = three(mark_0, mark_1, mark_2);
    return memcmp(now->serials, must.serials, sizeof must.serials) == 0 &&
           memcmp(now->addresses, must.addresses, sizeof must.addresses) == 0 &&
           memcmp(now->marks, must.marks, sizeof must.marks) == 0;
}

#define TABLE_VALID(why, must, ...)                                        \
    do {                                                                   \
        bool got = moor_table_valid(__VA_ARGS__);                          \
        printf("moor_table_valid, %s -> %s\n", why, got ? "yes" : "no");   \
        EXPECT(got == (must));                                             \
    } while (0)

static void tables(void)
{
    static uint32_t serials[248];
    static uint8_t zeros[248];
    for (uint32_t i = 0; i < 248; i++)
        serials[i] = 0x0FFFFFFF - i;
    table t = three(0, 1, 0);
    TABLE_VALID("three devices", true, COLUMNS(t));
    TABLE_VALID("no device", true, NO_COLUMNS);
    TABLE_VALID("247 devices", true, serials, 247, zeros, 247, zeros, 247);
    TABLE_VALID("248 devices", false, serials, 248, zeros, 248, zeros, 248);
    TABLE_VALID("an address less", false, t.serials, 3, t.addresses, 2, t.marks, 3);
    TABLE_VALID("no marks", false, t.serials, 3, t.addresses, 3, NULL, 0);
    TABLE_VALID("no serials", false, NULL, 0, t.addresses, 3, t.marks, 3);
    t = three(0, 2, 0);
    TABLE_VALID("a mark of 2", false, COLUMNS(t));
    t = three(0, 0, 0);
    t.serials[0] = 9;
    TABLE_VALID("a serial twice", false, COLUMNS(t));
    t.serials[0] = 0x0FFFFFFF;
    TABLE_VALID("serial 0FFFFFFF", true, COLUMNS(t));
    t.serials[0] = 0x10000000;
    TABLE_VALID("serial 10000000", false, COLUMNS(t));
}

static void contest(const uint32_t *keys, size_t length, uint32_t key, size_t dominant)
{
    moor_decided got = moor_contest(keys, length);
    printf("moor_contest of %zu -> key %08X, %zu dominant\n", length, (unsigned)got.key,
           got.dominant);
    EXPECT(got.key == key);
    EXPECT(got.dominant == dominant);
}

static void contests(void)
{
    contest((const uint32_t[]){0xF0000005, 0x0001EB37, 0x0101EB37}, 3, 0x0001EB37, 20);
    contest((const uint32_t[]){0xF001EB37}, 1, 0xF001EB37, 16);
    contest((const uint32_t[]){0}, 1, 0, 32);
    contest((const uint32_t[]){0xFFFFFFFF, 0xFFFFFFFF}, 2, 0xFFFFFFFF, 0);
    contest(NULL, 0, 0, 0);
}

static void start(table *t, size_t room, outcome must)
{
    fill(out);
    moor_written got = moor_start(COLUMNS(*t), out, room);
    printf("moor_start -> ");
    written(got, must);
}

static void resume(table *t, size_t room, outcome must)
{
    fill(out);
    moor_written got = moor_resume(COLUMNS(*t), out, room);
    printf("moor_resume -> ");
    written(got, must);
}

static void offer(bytes frame, table *t, size_t room, outcome must)
{
    fill(out);
    moor_written got = moor_offer(frame.start, frame.length, COLUMNS(*t), out, room);
    print_call("moor_offer", frame);
    written(got, must);
}

/* A start and continues: one FF for each zero bit of the winner's key. */
static void requests_answered(void)
{
    table t = three(1, 1, 1);
    outcome end = WROTE(FF_10, FF_10, FF_6, END_FRAME);
    start(&t, 42, WROTE(FF_10, FF_10, FF_10, 0xFD, 0x46, 0x03, 0x00, 0x00, 0x00, 0x05, 0x02,
                        0x2B, 0xB0));
    EXPECT(marked(&t, 0, 1, 0));
    resume(&t, 42, WROTE(FF_10, FF_10, FF_10, 0xFD, 0x46, 0x03, 0x00, 0x00, 0x00, 0x09, 0x03,
                         0xEF, 0x70));
    EXPECT(marked(&t, 0, 1, 1));
    offer(BYTES(CONTINUE_FRAME), &t, 42, WROTE(FF_10, FF_10, FOUND_FRAME));
    EXPECT(marked(&t, 1, 1, 1));
    resume(&t, 42, end);
    offer(BYTES(CONTINUE_FRAME), &t, MOST, end);
    EXPECT(marked(&t, 1, 1, 1));
    offer(BYTES(START_FRAME), &t, 42, WROTE(FF_10, FF_10, FF_10, 0xFD, 0x46, 0x03, 0x00, 0x00,
                                            0x00, 0x05, 0x02, 0x2B, 0xB0));
    EXPECT(marked(&t, 0, 1, 0));
}

static void requests_refused(void)
{
    outcome output_short = REFUSED(MOOR_OUTPUT_SHORT, 0);
    outcome not_valid = REFUSED(MOOR_TABLE_NOT_VALID, 0);
    table t = three(1, 2, 1);
    start(&t, 41, output_short);
    resume(&t, 41, output_short);
    offer(none, &t, 41, output_short);
    start(&t, 42, not_valid);
    resume(&t, 42, not_valid);
    offer(none, &t, 42, not_valid);
    EXPECT(marked(&t, 1, 2, 1));
    t.marks[1] = 1;
    offer(none, &t, 42, REFUSED(MOOR_FRAME_LENGTH, 0));
    offer(BYTES(0xFD, 0x47, 0x01, 0x13, 0x90), &t, 42, REFUSED(MOOR_FRAME_HEAD, 1));
    offer(BYTES(END_FRAME), &t, 42, REFUSED(MOOR_SUBCOMMAND_WRONG, 2));
    offer(BYTES(0xFD, 0x46, 0x01, 0x13, 0x91), &t, 42, REFUSED(MOOR_FRAME_CHECK, 3));
    EXPECT(marked(&t, 1, 1, 1));
}

static void silence(void)
{
    bytes frame = BYTES(START_FRAME);
    fill(out);
    printf("moor_start, no device -> ");
    written(moor_start(NO_COLUMNS, out, 42), nothing_written);
    printf("moor_resume, no device -> ");
    written(moor_resume(NO_COLUMNS, out, 42), nothing_written);
    printf("moor_offer, no device -> ");
    written(moor_offer(frame.start, frame.length, NO_COLUMNS, out, 42), nothing_written);
}

/* ---- Whole scans --------------------------------------------------------- */

static uint32_t found_serials[4];
static uint8_t found_addresses[4];

static void clear_lists(void)
{
    for (size_t i = 0; i < 4; i++) {
        found_serials[i] = FILL;
        found_addresses[i] = FILL;
    }
}

/* Whether the lists hold the devices of W12 in the order heard, `found` of
 * them, and are as they were behind them. */
static bool listed(size_t found)
{
    const uint32_t serials[] = {5, 9, 0x0001EB37};
    const uint8_t addresses[] = {0x02, 0x03, 0x0C};
    for (size_t i = 0; i < 4; i++) {
        if (found_serials[i] != (i < found ? serials[i] : FILL) ||
            found_addresses[i] != (i < found ? addresses[i] : FILL))
            return false;
    }
    return true;
}

static void scanned(moor_scanned got, moor_scanned must)
{
    if (got.number != MOOR_ACCEPTED)
        print_refused(got.number, got.place);
    else
        printf("end %u, %zu requests, %zu found, %zu FF\n", got.end, got.requests, got.found,
               got.skipped);
    EXPECT(got.number == must.number);
    EXPECT(got.end == must.end);
    EXPECT(got.place == must.place);
    EXPECT(got.requests == must.requests);
    EXPECT(got.found == must.found);
    EXPECT(got.skipped == must.skipped);
    EXPECT(listed(must.found));
}

static void scan(table *t, size_t serials, size_t addresses, size_t cap, moor_scanned must)
{
    clear_lists();
    moor_scanned got = moor_scan(COLUMNS(*t), found_serials, serials, found_addresses,
                                 addresses, cap);
    printf("moor_scan, cap %zu -> ", cap);
    scanned(got, must);
}

#define SCANNED(end, requests, found, ff) \
    ((moor_scanned){MOOR_ACCEPTED, (end), 0, (requests), (found), (ff)})

/* The FF of an answer are the zero bits of the winner's key. Of 32 bits 00000005
 * and 00000009 have two ones each, and 30 zeros. 0001EB37 has 1 + 3 + 3 + 2 + 3
 * ones in its digits 1, E, B, 3 and 7, so 20 zeros. The end comes from the
 * smallest key of all that are scanned, F0000005: 4 + 2 ones, 26 zeros. Together
 * 30 + 30 + 20 + 26 = 106, and a cap takes the first of these. */
static void scans(void)
{
    moor_scanned output_short = {.number = MOOR_OUTPUT_SHORT};
    table t = three(0, 0, 0);
    scan(&t, 3, 3, 100, SCANNED(MOOR_COMPLETE, 4, 3, 106)); /* W12 */
    EXPECT(marked(&t, 1, 1, 1));
    scan(&t, 3, 3, 4, SCANNED(MOOR_COMPLETE, 4, 3, 106));
    EXPECT(marked(&t, 1, 1, 1));
    scan(&t, 3, 3, 3, SCANNED(MOOR_UNFINISHED, 3, 3, 80)); /* W13 */
    EXPECT(marked(&t, 1, 1, 1));
    scan(&t, 3, 3, 2, SCANNED(MOOR_UNFINISHED, 2, 2, 60));
    EXPECT(marked(&t, 0, 1, 1));
    scan(&t, 4, 4, 1, SCANNED(MOOR_UNFINISHED, 1, 1, 30));
    EXPECT(marked(&t, 0, 1, 0));
    scan(&t, 3, 3, 0, SCANNED(MOOR_UNFINISHED, 0, 0, 0));
    EXPECT(marked(&t, 0, 1, 0));
    clear_lists();
    printf("moor_scan, no device, cap 1 -> "); /* W14 */
    scanned(moor_scan(NO_COLUMNS, NULL, 0, NULL, 0, 1), SCANNED(MOOR_NOBODY, 1, 0, 0));
    printf("moor_scan, no device, cap 0 -> ");
    scanned(moor_scan(NO_COLUMNS, NULL, 0, NULL, 0, 0), SCANNED(MOOR_UNFINISHED, 0, 0, 0));
    t = three(0, 2, 0);
    scan(&t, 2, 3, 100, output_short);
    scan(&t, 3, 2, 100, output_short);
    scan(&t, 3, 3, 0, (moor_scanned){.number = MOOR_TABLE_NOT_VALID});
    EXPECT(marked(&t, 0, 2, 0));
}

/* A scan of one device alone, before whose two answers so many FF must stand
 * together. */
static void scan_alone(uint32_t serial, size_t skipped)
{
    uint8_t address = 0x0C;
    uint8_t mark = 0;
    moor_scanned got = moor_scan(&serial, 1, &address, 1, &mark, 1, found_serials, 1,
                                 found_addresses, 1, 100);
    printf("moor_scan, %08X alone -> %zu requests, %zu FF\n", (unsigned)serial, got.requests,
           got.skipped);
    EXPECT(got.number == MOOR_ACCEPTED && got.end == MOOR_COMPLETE);
    EXPECT(got.requests == 2 && got.found == 1 && found_serials[0] == serial);
    EXPECT(got.skipped == skipped);
}

/* The keys with the most zero bits and the fewest. Unscanned 00000000 has 32 and
 * scanned F0000000 28; unscanned 0FFFFFFF has 4 and scanned FFFFFFFF none. The
 * first of these puts as many FF on the bus as the reader passes over. */
static void most_and_fewest_fill(void)
{
    table t = {{0}, {0x0C}, {0}};
    scan_alone(0, 32 + 28);
    scan_alone(0x0FFFFFFF, 4 + 0);
    fill(out);
    printf("moor_start, 00000000 alone -> ");
    moor_written got = moor_start(t.serials, 1, t.addresses, 1, t.marks, 1, out, MOOR_ANSWER_ROOM);
    written(got, WROTE(FF_32, 0xFD, 0x46, 0x03, 0x00, 0x00, 0x00, 0x00, 0x0C, 0xA9, 0x24));
    read_answer((bytes){out, got.length},
                (moor_answer_read){.answer = MOOR_FOUND, .address = 0x0C, .skipped = 32});
}

/* ---- Event frames -------------------------------------------------------- */

/* As document 000 prints them, with their checks. */
#define EVENT_REQUEST_FRAME 0xFD, 0x46, 0x10, 0x00, 0x64, 0x0A, 0x01, 0x7E, 0x15
#define CHANGE_FRAME \
    0x05, 0x46, 0x11, 0x01, 0x01, 0x06, 0x02, 0x04, 0x01, 0xD0, 0x04, 0x00, 0x2B, 0xAC
#define NO_EVENTS_FRAME 0xFD, 0x46, 0x12, 0x52, 0x5D

static void read_event_request(bytes frame, moor_event_request_read must)
{
    moor_event_request_read got = moor_read_event_request(frame.start, frame.length);
    print_call("moor_read_event_request", frame);
    if (got.number != MOOR_ACCEPTED)
        print_refused(got.number, got.place);
    else
        printf("from id %u on, at most %u bytes, confirming %u with flag %u\n", got.minimum,
               got.most, got.confirmed, got.flag);
    EXPECT(got.number == must.number);
    EXPECT(got.minimum == must.minimum);
    EXPECT(got.most == must.most);
    EXPECT(got.confirmed == must.confirmed);
    EXPECT(got.flag == must.flag);
    EXPECT(got.place == must.place);
}

static void read_events(bytes frame, moor_events_read must)
{
    moor_events_read got = moor_read_events(frame.start, frame.length);
    print_call("moor_read_events", frame);
    if (got.number != MOOR_ACCEPTED)
        print_refused(got.number, got.place);
    else if (got.answer == MOOR_PACKET)
        printf("%zu of %u events of %u, flag %u, %zu FF\n", got.listed, got.queued, got.sender,
               got.flag, got.skipped);
    else
        printf("no events, %zu FF\n", got.skipped);
    EXPECT(got.number == must.number);
    EXPECT(got.answer == must.answer);
    EXPECT(got.sender == must.sender);
    EXPECT(got.flag == must.flag);
    EXPECT(got.queued == must.queued);
    EXPECT(got.size == must.size);
    EXPECT(got.place == must.place);
    EXPECT(got.listed == must.listed);
    EXPECT(got.first == must.first);
    EXPECT(got.skipped == must.skipped);
}

#define NO_EVENT_REQUEST(why, where) \
    ((moor_event_request_read){.number = (why), .place = (where)})
#define NOTHING_READ(why, where) ((moor_events_read){.number = (why), .place = (where)})
#define NO_EVENTS_BEHIND(ff) ((moor_events_read){.answer = MOOR_NO_EVENTS, .skipped = (ff)})
/* The printed packet: its events start behind six bytes, and the FF before it. */
#define CHANGE_BEHIND(ff)                                                            \
    ((moor_events_read){.answer = MOOR_PACKET, .sender = 5, .flag = 1, .queued = 1,  \
                        .size = 6, .listed = 1, .first = 6 + (ff), .skipped = (ff)})

static void event_requests_read(void)
{
    read_event_request(BYTES(EVENT_REQUEST_FRAME),
                       (moor_event_request_read){.most = 100, .confirmed = 10, .flag = 1});
    read_event_request(BYTES(0xFD, 0x46, 0x10, 0x01, 0x02, 0x03, 0x04, 0x59, 0xA5),
                       (moor_event_request_read){
                           .minimum = 1, .most = 2, .confirmed = 3, .flag = 4});
    read_event_request(none, NO_EVENT_REQUEST(MOOR_FRAME_LENGTH, 0));
    read_event_request(BYTES(0xFD, 0x46, 0x10, 0x00), NO_EVENT_REQUEST(MOOR_FRAME_LENGTH, 0));
    read_event_request(BYTES(0xFD, 0x46, 0x10, 0x00, 0x64, 0x0A, 0x01, 0x7E),
                       NO_EVENT_REQUEST(MOOR_FRAME_LENGTH, 0));
    read_event_request(BYTES(EVENT_REQUEST_FRAME, 0x00), NO_EVENT_REQUEST(MOOR_FRAME_LENGTH, 0));
    read_event_request(BYTES(0xFF, EVENT_REQUEST_FRAME), NO_EVENT_REQUEST(MOOR_FRAME_HEAD, 0));
    read_event_request(BYTES(0xFD, 0x47, 0x10, 0x00, 0x00), NO_EVENT_REQUEST(MOOR_FRAME_HEAD, 1));
    read_event_request(BYTES(START_FRAME), NO_EVENT_REQUEST(MOOR_SUBCOMMAND_WRONG, 2));
    read_event_request(BYTES(0xFD, 0x46, 0x10, 0x00, 0x64, 0x0A, 0x01, 0x7E, 0x16),
                       NO_EVENT_REQUEST(MOOR_FRAME_CHECK, 7));
    read_request(BYTES(EVENT_REQUEST_FRAME), NO_REQUEST(MOOR_SUBCOMMAND_WRONG, 2));
}

static void events_read(void)
{
    read_events(BYTES(CHANGE_FRAME), CHANGE_BEHIND(0));
    read_events(BYTES(NO_EVENTS_FRAME), NO_EVENTS_BEHIND(0));
    read_events(BYTES(0xFF, 0xFF, 0xFF, NO_EVENTS_FRAME), NO_EVENTS_BEHIND(3));
    read_events(BYTES(0xFF, 0xFF, CHANGE_FRAME), CHANGE_BEHIND(2));
    read_events(BYTES(0x05, 0x46, 0x11, 0x00, 0x00, 0x00, 0x8C, 0xBD),
                (moor_events_read){.answer = MOOR_PACKET, .sender = 5, .first = 6});
    read_events(BYTES(0x05, 0x46, 0x11, 0x00, 0x03, 0x09, 0x00, 0x0F, 0x00, 0x00, 0x01, 0x02,
                      0x00, 0x04, 0x01, 0x9E, 0x78),
                (moor_events_read){.answer = MOOR_PACKET, .sender = 5, .queued = 3, .size = 9,
                                   .listed = 2, .first = 6});
}

/* What comes back with a fault of each kind: the sender 00, the subcommand of the
 * other form, one event listed and none queued, a wrong check. */
#define NO_SENDER 0x00, 0x46, 0x11, 0x00, 0x00
#define OTHER_FORM 0xFD, 0x46, 0x11, 0x00, 0x00
#define MORE_THAN_QUEUED \
    0x05, 0x46, 0x11, 0x00, 0x00, 0x04, 0x00, 0x0F, 0x00, 0x00, 0x7B, 0x77
#define NO_EVENTS_WRONG_CHECK 0xFD, 0x46, 0x12, 0x52, 0x5E

static void events_not_read(void)
{
    read_events(none, NOTHING_READ(MOOR_FRAME_LENGTH, 0));
    read_events(BYTES(FF_6), NOTHING_READ(MOOR_FRAME_LENGTH, 0));
    read_events(BYTES(NO_EVENTS_FRAME, 0x00), NOTHING_READ(MOOR_FRAME_LENGTH, 0));
    read_events(BYTES(0x05, 0x46, 0x11, 0x00, 0x00), NOTHING_READ(MOOR_FRAME_LENGTH, 0));
    read_events(BYTES(CHANGE_FRAME, 0x00), NOTHING_READ(MOOR_FRAME_LENGTH, 0));
    /* An event that would reach into the check; one listed, none queued. */
    read_events(BYTES(0x05, 0x46, 0x11, 0x00, 0x01, 0x04, 0x01, 0x0F, 0x00, 0x00, 0x7B, 0x5A),
                NOTHING_READ(MOOR_FRAME_LENGTH, 0));
    read_events(BYTES(MORE_THAN_QUEUED), NOTHING_READ(MOOR_FRAME_LENGTH, 0));
    read_events(BYTES(0xFF, NO_SENDER), NOTHING_READ(MOOR_FRAME_HEAD, 1));
    read_events(BYTES(0xFF, 0xF8, 0x46, 0x11, 0x00, 0x00), NOTHING_READ(MOOR_FRAME_HEAD, 1));
    read_events(BYTES(0xF7, 0x47, 0x11, 0x00, 0x00), NOTHING_READ(MOOR_FRAME_HEAD, 1));
    read_events(BYTES(OTHER_FORM), NOTHING_READ(MOOR_SUBCOMMAND_WRONG, 2));
    read_events(BYTES(0xF7, 0x46, 0x12, 0x00, 0x00), NOTHING_READ(MOOR_SUBCOMMAND_WRONG, 2));
    read_events(BYTES(EVENT_REQUEST_FRAME), NOTHING_READ(MOOR_SUBCOMMAND_WRONG, 2));
    read_events(BYTES(0xFF, NO_EVENTS_WRONG_CHECK), NOTHING_READ(MOOR_FRAME_CHECK, 4));
    read_events(BYTES(0x05, 0x46, 0x11, 0x01, 0x01, 0x06, 0x02, 0x04, 0x01, 0xD0, 0x04, 0x00,
                      0x2C, 0xAC),
                NOTHING_READ(MOOR_FRAME_CHECK, 12));
}

static void event_at(bytes input, size_t at, moor_event must)
{
    moor_event got = moor_event_at(input.start, input.length, at);
    print_call("moor_event_at", input);
    if (got.whole)
        printf("at %zu: type %u of %04X, %u bytes from %zu, next %zu\n", at, got.kind,
               got.identifier, got.size, got.start, got.next);
    else
        printf("at %zu: no whole event\n", at);
    EXPECT(got.whole == must.whole);
    EXPECT(got.kind == must.kind);
    EXPECT(got.size == must.size);
    EXPECT(got.identifier == must.identifier);
    EXPECT(got.start == must.start);
    EXPECT(got.next == must.next);
}

static void events_at(void)
{
    moor_event no_event = {.whole = 0};
    bytes two = BYTES(0x00, 0x0F, 0x00, 0x00, 0x02, 0x04, 0x01, 0xD0, 0x04, 0x00);
    event_at(BYTES(CHANGE_FRAME), 6, (moor_event){1, 4, 2, 0x01D0, 10, 12});
    event_at(two, 0, (moor_event){1, 0x0F, 0, 0, 4, 4});
    event_at(two, 4, (moor_event){1, 4, 2, 0x01D0, 8, 10});
    event_at((bytes){two.start, 9}, 4, no_event);
    event_at(two, 7, no_event);
    event_at(two, 10, no_event);
    event_at(two, SIZE_MAX, no_event);
    event_at(none, 0, no_event);
}

static void write_event_request(uint8_t minimum, uint8_t most, uint8_t confirmed, uint8_t flag,
                                size_t room, outcome must)
{
    fill(out);
    moor_written got = moor_write_event_request(minimum, most, confirmed, flag, out, room);
    printf("moor_write_event_request %u %u %u %u -> ", minimum, most, confirmed, flag);
    written(got, must);
}

static void write_no_events(size_t room, outcome must)
{
    fill(out);
    moor_written got = moor_write_no_events(out, room);
    printf("moor_write_no_events -> ");
    written(got, must);
}

static void event_frames_written(void)
{
    write_event_request(0, 100, 10, 1, 9, WROTE(EVENT_REQUEST_FRAME));
    write_event_request(0, 100, 10, 1, 8, REFUSED(MOOR_OUTPUT_SHORT, 0));
    write_event_request(1, 2, 3, 4, MOST,
                        WROTE(0xFD, 0x46, 0x10, 0x01, 0x02, 0x03, 0x04, 0x59, 0xA5));
    write_no_events(5, WROTE(NO_EVENTS_FRAME));
    write_no_events(4, REFUSED(MOOR_OUTPUT_SHORT, 0));
}

/* ---- FF before answers --------------------------------------------------- */

/* The bytes behind so many FF, together at most MOST. */
static bytes behind(size_t ff, bytes frame)
{
    static uint8_t input[MOST];
    memset(input, 0xFF, ff);
    if (frame.length > 0)
        memcpy(input + ff, frame.start, frame.length);
    return (bytes){input, ff + frame.length};
}

/* 32 FF are passed over and counted, and a 33rd is refused at its place. */
static void fill_before_right_frames(void)
{
    bytes end = BYTES(END_FRAME);
    bytes found = BYTES(FOUND_FRAME);
    bytes no_events = BYTES(NO_EVENTS_FRAME);
    bytes change = BYTES(CHANGE_FRAME);
    for (size_t ff = 0; ff <= 32; ff++) {
        read_answer(behind(ff, end), ENDED(ff));
        read_answer(behind(ff, found), FOUND_BEHIND(ff));
        read_events(behind(ff, no_events), NO_EVENTS_BEHIND(ff));
        read_events(behind(ff, change), CHANGE_BEHIND(ff));
    }
    for (size_t ff = 33; ff <= 41; ff++) {
        read_answer(behind(ff, end), NO_ANSWER(MOOR_FILL_OVER, 32));
        read_answer(behind(ff, found), NO_ANSWER(MOOR_FILL_OVER, 32));
        read_events(behind(ff, no_events), NOTHING_READ(MOOR_FILL_OVER, 32));
        read_events(behind(ff, change), NOTHING_READ(MOOR_FILL_OVER, 32));
    }
    EXPECT(MOOR_MOST_FILL == 32);
}

/* A wrong answer: behind 32 FF its own number, whose place counts them but for
 * that of a wrong length; behind 33 the number of these. */
static void wrong_answer(bytes frame, uint8_t why, size_t where)
{
    read_answer(behind(32, frame), NO_ANSWER(why, where));
    read_answer(behind(33, frame), NO_ANSWER(MOOR_FILL_OVER, 32));
}

static void wrong_events(bytes frame, uint8_t why, size_t where)
{
    read_events(behind(32, frame), NOTHING_READ(why, where));
    read_events(behind(33, frame), NOTHING_READ(MOOR_FILL_OVER, 32));
}

/* What neither reader takes. */
static void wrong_for_both(bytes frame, uint8_t why, size_t where)
{
    wrong_answer(frame, why, where);
    wrong_events(frame, why, where);
}

static void fill_before_wrong_frames(void)
{
    bytes one = BYTES(0xFF);
    read_answer(one, NO_ANSWER(MOOR_FRAME_LENGTH, 0));
    read_events(one, NOTHING_READ(MOOR_FRAME_LENGTH, 0));
    wrong_for_both(none, MOOR_FRAME_LENGTH, 0);
    wrong_for_both(BYTES(SHORT_END), MOOR_FRAME_LENGTH, 0);
    wrong_for_both(BYTES(WRONG_FIRST), MOOR_FRAME_HEAD, 32);
    wrong_for_both(BYTES(WRONG_SECOND), MOOR_FRAME_HEAD, 33);
    wrong_for_both(BYTES(START_FRAME), MOOR_SUBCOMMAND_WRONG, 34);
    wrong_answer(BYTES(LONG_END), MOOR_FRAME_LENGTH, 0);
    wrong_answer(BYTES(WRONG_CHECK), MOOR_FRAME_CHECK, 35);
    wrong_answer(BYTES(SERIAL_OVER), MOOR_SERIAL_OVER, 35);
    wrong_events(BYTES(NO_SENDER), MOOR_FRAME_HEAD, 32);
    wrong_events(BYTES(OTHER_FORM), MOOR_SUBCOMMAND_WRONG, 34);
    wrong_events(BYTES(MORE_THAN_QUEUED), MOOR_FRAME_LENGTH, 0);
    wrong_events(BYTES(NO_EVENTS_WRONG_CHECK), MOOR_FRAME_CHECK, 35);
}

/* ---- Event queues and polls ---------------------------------------------- */

/* A device table of three with its event queues. */
typedef struct {
    uint32_t serials[3];
    uint8_t addresses[3];
    uint8_t marks[3];
    uint8_t flags[3];
    uint8_t lasts[3];
    uint8_t counts[3];
    uint8_t slots[3 * MOOR_SLOTS_LENGTH];
} bus;

#define QUEUES(b)                                                                              \
    (b).serials, 3, (b).addresses, 3, (b).marks, 3, (b).flags, 3, (b).lasts, 3, (b).counts, 3, \
        (b).slots, 3 * MOOR_SLOTS_LENGTH
#define NO_QUEUES NO_COLUMNS, NULL, 0, NULL, 0, NULL, 0, NULL, 0

/* Fresh devices with the ids 5, 10 and 32. */
static bus fresh(void)
{
    bus b = {.serials = {7, 5, 9}, .addresses = {5, 10, 32}};
    memset(b.slots, FILL, sizeof b.slots);
    return b;
}

/* Whether two tables and their queues are the same to the last byte. */
static bool same(const bus *a, const bus *b)
{
    return memcmp(a->serials, b->serials, sizeof a->serials) == 0 &&
           memcmp(a->addresses, b->addresses, sizeof a->addresses) == 0 &&
           memcmp(a->marks, b->marks, sizeof a->marks) == 0 &&
           memcmp(a->flags, b->flags, sizeof a->flags) == 0 &&
           memcmp(a->lasts, b->lasts, sizeof a->lasts) == 0 &&
           memcmp(a->counts, b->counts, sizeof a->counts) == 0 &&
           memcmp(a->slots, b->slots, sizeof a->slots) == 0;
}

/* Whether a device has this flag, so many events in its last packet, and so
 * many queued. */
static bool stands(const bus *b, size_t device, uint8_t flag, uint8_t last, uint8_t count)
{
    return b->flags[device] == flag && b->lasts[device] == last && b->counts[device] == count;
}

static uint8_t *slot_of(bus *b, size_t device, size_t slot)
{
    return b->slots + device * MOOR_SLOTS_LENGTH + slot * MOOR_SLOT_LENGTH;
}

/* Whether a slot starts with these bytes. */
static bool slot_starts(bus *b, size_t device, size_t slot, bytes with)
{
    return memcmp(slot_of(b, device, slot), with.start, with.length) == 0;
}

#define QUEUES_VALID(why, must, ...)                                       \
    do {                                                                   \
        bool got = moor_queues_valid(__VA_ARGS__);                         \
        printf("moor_queues_valid, %s -> %s\n", why, got ? "yes" : "no");  \
        EXPECT(got == (must));                                             \
    } while (0)

static void tables_of_queues(void)
{
    bus b = fresh();
    QUEUES_VALID("three fresh devices", true, QUEUES(b));
    QUEUES_VALID("no device", true, NO_QUEUES);
    QUEUES_VALID("no slots", false, COLUMNS(b), b.flags, 3, b.lasts, 3, b.counts, 3, NULL, 0);
    QUEUES_VALID("a slot's byte less", false, COLUMNS(b), b.flags, 3, b.lasts, 3, b.counts, 3,
                 b.slots, 3 * MOOR_SLOTS_LENGTH - 1);
    QUEUES_VALID("a flag less", false, COLUMNS(b), b.flags, 2, b.lasts, 3, b.counts, 3, b.slots,
                 3 * MOOR_SLOTS_LENGTH);
    QUEUES_VALID("a last packet less", false, COLUMNS(b), b.flags, 3, b.lasts, 2, b.counts, 3,
                 b.slots, 3 * MOOR_SLOTS_LENGTH);
    QUEUES_VALID("no numbers queued", false, COLUMNS(b), b.flags, 3, b.lasts, 3, NULL, 0, b.slots,
                 3 * MOOR_SLOTS_LENGTH);
    b.marks[0] = 2;
    QUEUES_VALID("a mark of 2", false, QUEUES(b));
    b = fresh();
    b.addresses[0] = 10;
    QUEUES_VALID("an id twice", false, QUEUES(b));
    b.addresses[0] = 0;
    QUEUES_VALID("id 0", false, QUEUES(b));
    b.addresses[0] = 247;
    QUEUES_VALID("id 247", true, QUEUES(b));
    b.addresses[0] = 248;
    QUEUES_VALID("id 248", false, QUEUES(b));
}

static void entries_of_queues(void)
{
    bus b = fresh();
    b.flags[1] = 1;
    QUEUES_VALID("a flag of 1", true, QUEUES(b));
    b.flags[1] = 2;
    QUEUES_VALID("a flag of 2", false, QUEUES(b));
    b = fresh();
    memset(slot_of(&b, 1, 0), 0, MOOR_SLOTS_LENGTH);
    b.counts[1] = MOOR_MOST_QUEUED;
    b.lasts[1] = MOOR_MOST_QUEUED;
    QUEUES_VALID("8 events, all of them sent", true, QUEUES(b));
    b.counts[1] = MOOR_MOST_QUEUED + 1;
    QUEUES_VALID("9 events", false, QUEUES(b));
    b.counts[1] = MOOR_MOST_QUEUED - 1;
    QUEUES_VALID("7 events, 8 of them sent", false, QUEUES(b));
    b.lasts[1] = 0;
    slot_of(&b, 1, 6)[0] = 1;
    slot_of(&b, 1, 6)[1] = MOOR_MOST_DATA;
    QUEUES_VALID("an urgent event of 8 bytes", true, QUEUES(b));
    slot_of(&b, 1, 6)[1] = MOOR_MOST_DATA + 1;
    QUEUES_VALID("an event of 9 bytes", false, QUEUES(b));
    slot_of(&b, 1, 6)[1] = 0;
    slot_of(&b, 1, 6)[0] = 2;
    QUEUES_VALID("urgent 2", false, QUEUES(b));
    b.counts[1] = 6;
    QUEUES_VALID("the same behind the queued ones", true, QUEUES(b));
}

/* A new event of type 4. A refusal leaves everything as it was. */
static void add_event(bus *b, uint8_t id, uint8_t urgent, uint16_t identifier, bytes data,
                      uint8_t must)
{
    bus before = *b;
    moor_added got = moor_add_event(QUEUES(*b), id, urgent, 4, identifier, data.start,
                                    data.length);
    printf("moor_add_event for %u, %s, %04X", id, urgent ? "urgent" : "normal", identifier);
    print_call(",", data);
    if (got.number != MOOR_ACCEPTED)
        print_refused(got.number, got.place);
    else
        printf("added\n");
    EXPECT(got.number == must);
    EXPECT(got.place == 0);
    EXPECT(must == MOOR_ACCEPTED || same(b, &before));
}

static void events_added(void)
{
    bus b = fresh();
    bytes eight = BYTES(1, 2, 3, 4, 5, 6, 7, 8);
    bytes nine = BYTES(1, 2, 3, 4, 5, 6, 7, 8, 9);
    add_event(&b, 10, 0, 0x01D0, BYTES(0x04, 0x00), MOOR_ACCEPTED);
    add_event(&b, 10, 0xFF, 0xFFFE, eight, MOOR_ACCEPTED);
    add_event(&b, 10, 0, 3, none, MOOR_ACCEPTED);
    bus must = fresh();
    must.counts[1] = 3;
    memcpy(slot_of(&must, 1, 0), (uint8_t[]){0, 2, 4, 0x01, 0xD0, 0x04, 0x00}, 7);
    memcpy(slot_of(&must, 1, 1), (uint8_t[]){1, 8, 4, 0xFF, 0xFE, 1, 2, 3, 4, 5, 6, 7, 8}, 13);
    memcpy(slot_of(&must, 1, 2), (uint8_t[]){0, 0, 4, 0x00, 0x03}, 5);
    EXPECT(same(&b, &must));
    add_event(&b, 10, 0, 4, nine, MOOR_FRAME_LENGTH);
    add_event(&b, 11, 0, 4, none, MOOR_FRAME_LENGTH);
    add_event(&b, 0, 0, 4, none, MOOR_FRAME_LENGTH);
    for (uint16_t i = 3; i < MOOR_MOST_QUEUED; i++)
        add_event(&b, 10, 0, i, eight, MOOR_ACCEPTED);
    EXPECT(stands(&b, 1, 0, 0, MOOR_MOST_QUEUED));
    add_event(&b, 10, 0, 8, none, MOOR_QUEUE_FULL);
    add_event(&b, 10, 0, 8, nine, MOOR_FRAME_LENGTH);
    add_event(&b, 5, 0, 8, none, MOOR_ACCEPTED);
    b.flags[2] = 2;
    add_event(&b, 10, 0, 8, none, MOOR_TABLE_NOT_VALID);
    add_event(&b, 11, 0, 8, nine, MOOR_TABLE_NOT_VALID);
    moor_added nobody = moor_add_event(NO_QUEUES, 5, 0, 4, 1, NULL, 0);
    printf("moor_add_event, no device -> ");
    print_refused(nobody.number, nobody.place);
    EXPECT(nobody.number == MOOR_FRAME_LENGTH);
}

/* Holds a poll to what it must give: what was heard, and the bytes. */
static void polled(moor_polled got, moor_polled must, bytes wrote)
{
    if (got.number != MOOR_ACCEPTED) {
        print_refused(got.number, got.place);
    } else if (got.answer == 0) {
        printf("silence\n");
    } else {
        printf("%s of %u, flag %u, %u events, %zu bytes, %zu FF:",
               got.answer == MOOR_PACKET ? "packet" : "no events", got.sender, got.flag,
               got.events, got.length, got.skipped);
        print_bytes((bytes){out, got.length < MOST ? got.length : MOST});
        printf("\n");
    }
    EXPECT(got.number == must.number);
    EXPECT(got.answer == must.answer);
    EXPECT(got.sender == must.sender);
    EXPECT(got.flag == must.flag);
    EXPECT(got.events == must.events);
    EXPECT(got.place == must.place);
    EXPECT(got.length == wrote.length);
    EXPECT(got.skipped == must.skipped);
    EXPECT(starts(out, wrote));
}

static void poll_devices(bus *b, uint8_t minimum, uint8_t most, uint8_t confirmed, uint8_t flag,
                         moor_polled must, bytes wrote)
{
    fill(out);
    moor_polled got = moor_poll(minimum, most, confirmed, flag, QUEUES(*b), out, MOOR_POLL_ROOM);
    printf("moor_poll %u %u %u %u -> ", minimum, most, confirmed, flag);
    polled(got, must, wrote);
}

static void offer_poll(bytes frame, bus *b, moor_polled must, bytes wrote)
{
    fill(out);
    moor_polled got = moor_offer_poll(frame.start, frame.length, QUEUES(*b), out, MOOR_POLL_ROOM);
    print_call("moor_offer_poll", frame);
    polled(got, must, wrote);
}

#define SENT(id, which, number_of, ff)                                        \
    ((moor_polled){.answer = MOOR_PACKET, .sender = (id), .flag = (which),    \
                   .events = (number_of), .skipped = (ff)})
#define NOBODY_HAS(id, ff) \
    ((moor_polled){.answer = MOOR_NO_EVENTS, .sender = (id), .skipped = (ff)})
#define NOT_POLLED(why, where) ((moor_polled){.number = (why), .place = (where)})
#define QUIET ((moor_polled){.number = MOOR_ACCEPTED})

/* The printed packet is sent for the printed request, and then confirmed: one
 * FF for each zero bit of 105, and then of F05. */
static void printed_packet_polled(void)
{
    bus b = fresh();
    b.flags[0] = 1;
    add_event(&b, 5, 0, 0x01D0, BYTES(0x04, 0x00), MOOR_ACCEPTED);
    offer_poll(BYTES(EVENT_REQUEST_FRAME), &b, SENT(5, 1, 1, 9),
               BYTES(FF_6, 0xFF, 0xFF, 0xFF, CHANGE_FRAME));
    EXPECT(stands(&b, 0, 1, 1, 1));
    poll_devices(&b, 0, 100, 5, 1, NOBODY_HAS(5, 6), BYTES(FF_6, NO_EVENTS_FRAME));
    EXPECT(stands(&b, 0, 0, 0, 0));
    EXPECT(stands(&b, 1, 0, 0, 0));
    EXPECT(stands(&b, 2, 0, 0, 0));
}

/* Device 5 has two normal events of 4 and 5 bytes, device 32 an urgent one. */
static bus waiting(void)
{
    bus b = fresh();
    add_event(&b, 5, 0, 1, none, MOOR_ACCEPTED);
    add_event(&b, 5, 0, 2, BYTES(0xAB), MOOR_ACCEPTED);
    add_event(&b, 32, 1, 2, BYTES(0xAB), MOOR_ACCEPTED);
    return b;
}

#define URGENT_PACKET 0x20, 0x46, 0x11, 0x00, 0x01, 0x05, 0x01, 0x04, 0x00, 0x02, 0xAB, 0xE3, 0x05
#define FIRST_OF_TWO 0x05, 0x46, 0x11, 0x00, 0x02, 0x04, 0x00, 0x04, 0x00, 0x01, 0xCA, 0x97
#define BOTH_OF_TWO \
    0x05, 0x46, 0x11, 0x00, 0x02, 0x09, 0x00, 0x04, 0x00, 0x01, 0x01, 0x04, 0x00, 0x02, 0xAB, \
        0x59, 0xB1
#define SECOND_OF_TWO 0x05, 0x46, 0x11, 0x01, 0x01, 0x05, 0x01, 0x04, 0x00, 0x02, 0xAB, 0x98, 0xC5
#define FF_9 FF_6, 0xFF, 0xFF, 0xFF

/* Of 12 bits the key 020 has 11 zeros, and 105 has 9. */
static void events_polled(void)
{
    bus b = waiting();
    bytes urgent = BYTES(FF_10, 0xFF, URGENT_PACKET);
    bytes first = BYTES(FF_9, FIRST_OF_TWO);
    poll_devices(&b, 0, 255, 0, 0, SENT(32, 0, 1, 11), urgent);
    /* It comes again until it is confirmed; with another flag it is not. */
    poll_devices(&b, 0, 255, 32, 1, SENT(32, 0, 1, 11), urgent);
    poll_devices(&b, 0, 255, 32, 2, SENT(32, 0, 1, 11), urgent);
    EXPECT(stands(&b, 2, 0, 1, 1));
    poll_devices(&b, 0, 255, 32, 0, SENT(5, 0, 2, 9), BYTES(FF_9, BOTH_OF_TWO));
    EXPECT(stands(&b, 2, 1, 0, 0));
    /* As many as fit; what is sent again is the last packet. */
    poll_devices(&b, 0, 9, 0, 0, SENT(5, 0, 2, 9), BYTES(FF_9, BOTH_OF_TWO));
    poll_devices(&b, 0, 8, 0, 0, SENT(5, 0, 1, 9), first);
    poll_devices(&b, 0, 4, 5, 1, SENT(5, 0, 1, 9), first);
    EXPECT(stands(&b, 0, 0, 1, 2));
    poll_devices(&b, 0, 8, 5, 0, SENT(5, 1, 1, 9), BYTES(FF_9, SECOND_OF_TWO));
    EXPECT(stands(&b, 0, 1, 1, 1));
    EXPECT(slot_starts(&b, 0, 0, BYTES(0, 1, 4, 0x00, 0x02, 0xAB)));
    /* The first packet was confirmed: no flag but 1 confirms now. */
    poll_devices(&b, 0, 8, 5, 0, SENT(5, 1, 1, 9), BYTES(FF_9, SECOND_OF_TWO));
    EXPECT(stands(&b, 0, 1, 1, 1));
}

static void devices_that_do_not_answer(void)
{
    bus b = waiting();
    bytes nobody_10 = BYTES(FF_6, NO_EVENTS_FRAME); /* F0A */
    /* Below the minimum; nothing that fits; both. */
    poll_devices(&b, 33, 255, 0, 0, QUIET, none);
    poll_devices(&b, 6, 255, 0, 0, SENT(32, 0, 1, 11), BYTES(FF_10, 0xFF, URGENT_PACKET));
    poll_devices(&b, 0, 4, 0, 0, SENT(5, 0, 1, 9), BYTES(FF_9, FIRST_OF_TWO));
    poll_devices(&b, 0, 3, 0, 0, NOBODY_HAS(10, 6), nobody_10);
    poll_devices(&b, 11, 4, 0, 0, QUIET, none);
    EXPECT(stands(&b, 0, 0, 1, 2));
    EXPECT(stands(&b, 2, 0, 1, 1));
    /* A confirmation reaches those below the minimum, and comes before silence. */
    poll_devices(&b, 33, 0, 32, 0, QUIET, none);
    EXPECT(stands(&b, 2, 1, 0, 0));
    poll_devices(&b, 6, 0, 5, 0, NOBODY_HAS(10, 6), nobody_10);
    EXPECT(stands(&b, 0, 1, 0, 1));
    /* Nothing was sent since: nothing is confirmed. */
    poll_devices(&b, 6, 0, 5, 1, NOBODY_HAS(10, 6), nobody_10);
    poll_devices(&b, 6, 0, 5, 0, NOBODY_HAS(10, 6), nobody_10);
    EXPECT(stands(&b, 0, 1, 0, 1));
    fill(out);
    printf("moor_poll, no device -> ");
    polled(moor_poll(0, 255, 0, 0, NO_QUEUES, out, MOOR_POLL_ROOM), QUIET, none);
    bytes frame = BYTES(EVENT_REQUEST_FRAME);
    printf("moor_offer_poll, no device -> ");
    polled(moor_offer_poll(frame.start, frame.length, NO_QUEUES, out, MOOR_POLL_ROOM), QUIET,
           none);
}

/* A full queue: the longest packet, and room once it is confirmed. */
static void full_queue_polled(void)
{
    bus b = fresh();
    bytes eight = BYTES(1, 2, 3, 4, 5, 6, 7, 8);
    for (uint16_t i = 0; i < MOOR_MOST_QUEUED; i++)
        add_event(&b, 32, 1, i, eight, MOOR_ACCEPTED);
    fill(out);
    moor_polled got = moor_poll(0, 96, 0, 0, QUEUES(b), out, MOOR_POLL_ROOM);
    printf("moor_poll, a full queue -> %zu bytes\n", got.length);
    EXPECT(got.number == MOOR_ACCEPTED && got.answer == MOOR_PACKET);
    EXPECT(got.events == MOOR_MOST_QUEUED && got.length == 11 + 6 + 96 + 2);
    EXPECT(got.skipped == 11); /* 020 */
    moor_events_read read = moor_read_events(out, got.length);
    EXPECT(read.answer == MOOR_PACKET && read.listed == MOOR_MOST_QUEUED && read.first == 17);
    EXPECT(read.skipped == 11);
    size_t at = read.first;
    for (uint16_t i = 0; i < MOOR_MOST_QUEUED; i++) {
        moor_event event = moor_event_at(out, got.length, at);
        EXPECT(event.identifier == i && event.size == 8);
        at = event.next;
    }
    EXPECT(at + 2 == got.length);
    got = moor_poll(0, 95, 0, 0, QUEUES(b), out, MOOR_POLL_ROOM);
    EXPECT(got.events == MOOR_MOST_QUEUED - 1);
    add_event(&b, 32, 0, 8, none, MOOR_QUEUE_FULL);
    poll_devices(&b, 33, 96, 32, 0, QUIET, none);
    EXPECT(stands(&b, 2, 1, 0, 1));
    EXPECT(slot_starts(&b, 2, 0, BYTES(1, 8, 4, 0x00, 0x07)));
    add_event(&b, 32, 0, 8, none, MOOR_ACCEPTED);
    EXPECT(slot_starts(&b, 2, 1, BYTES(0, 0, 4, 0x00, 0x08)));
}

static void polls_refused(void)
{
    bus b = waiting();
    bus before = b;
    bytes frame = BYTES(EVENT_REQUEST_FRAME);
    moor_polled output_short = NOT_POLLED(MOOR_OUTPUT_SHORT, 0);
    fill(out);
    printf("moor_poll, 115 bytes -> ");
    polled(moor_poll(0, 255, 0, 0, QUEUES(b), out, MOOR_POLL_ROOM - 1), output_short, none);
    printf("moor_offer_poll, 115 bytes -> ");
    polled(moor_offer_poll(NULL, 0, QUEUES(b), out, MOOR_POLL_ROOM - 1), output_short, none);
    printf("moor_poll, no device, 115 bytes -> ");
    polled(moor_poll(0, 255, 0, 0, NO_QUEUES, out, MOOR_POLL_ROOM - 1), output_short, none);
    offer_poll(none, &b, NOT_POLLED(MOOR_FRAME_LENGTH, 0), none);
    offer_poll((bytes){frame.start, 8}, &b, NOT_POLLED(MOOR_FRAME_LENGTH, 0), none);
    offer_poll(BYTES(0xFD, 0x47, 0x10, 0x00, 0x00), &b, NOT_POLLED(MOOR_FRAME_HEAD, 1), none);
    offer_poll(BYTES(START_FRAME), &b, NOT_POLLED(MOOR_SUBCOMMAND_WRONG, 2), none);
    offer_poll(BYTES(0xFD, 0x46, 0x10, 0x00, 0x64, 0x0A, 0x01, 0x7E, 0x16), &b,
               NOT_POLLED(MOOR_FRAME_CHECK, 7), none);
    EXPECT(same(&b, &before));
    b.addresses[1] = 5;
    before = b;
    poll_devices(&b, 0, 255, 0, 0, NOT_POLLED(MOOR_TABLE_NOT_VALID, 0), none);
    offer_poll(none, &b, NOT_POLLED(MOOR_TABLE_NOT_VALID, 0), none);
    fill(out);
    printf("moor_poll, an id twice, 115 bytes -> ");
    polled(moor_poll(0, 255, 0, 0, QUEUES(b), out, MOOR_POLL_ROOM - 1), output_short, none);
    EXPECT(same(&b, &before));
}

/* A scan looks at no queue, and a poll at no mark. */
static void polls_between_scans(void)
{
    bus b = waiting();
    clear_lists();
    moor_scanned got = moor_scan(COLUMNS(b), found_serials, 3, found_addresses, 3, 100);
    printf("moor_scan, events queued -> end %u, %zu requests\n", got.end, got.requests);
    EXPECT(got.end == MOOR_COMPLETE && got.requests == 4);
    EXPECT(got.skipped == 30 + 29 + 30 + 26); /* 5, 7, 9, F0000005 */
    EXPECT(stands(&b, 0, 0, 0, 2) && stands(&b, 2, 0, 0, 1));
    poll_devices(&b, 0, 255, 0, 0, SENT(32, 0, 1, 11), BYTES(FF_10, 0xFF, URGENT_PACKET));
    EXPECT(b.marks[0] == 1 && b.marks[1] == 1 && b.marks[2] == 1);
}

/* ---- Railbus packets ----------------------------------------------------- */

/* The characters of a packet. */
#define TEXT(characters) ((bytes){(const uint8_t *)(characters), sizeof(characters) - 1})

/* A character as it can be printed. */
static char shown(uint8_t character)
{
    return character >= ' ' && character <= '~' ? (char)character : '.';
}

static void print_text(bytes characters)
{
    printf(" ");
    for (size_t i = 0; i < characters.length; i++)
        printf("%c", shown(characters.start[i]));
}

static void print_text_call(const char *name, bytes characters)
{
    printf("%s", name);
    print_text(characters);
    printf(" -> ");
}

static void railbus_check(bytes characters, uint8_t must)
{
    uint8_t got = moor_railbus_check(characters.start, characters.length);
    print_text_call("moor_railbus_check", characters);
    printf("%02X\n", got);
    EXPECT(got == must);
}

static void checksums(void)
{
    railbus_check(TEXT("RPFFR00"), 0x9E);
    railbus_check(TEXT("RPFFK000015002A"), 0xF4);
    railbus_check(TEXT("123456789"), 0xF5);
    railbus_check(BYTES(0xFF), 0xF9);
    railbus_check(BYTES(0x00, 0x00), 0x80);
    railbus_check(none, 0x80);
}

static void read_railbus(bytes packet, moor_railbus_read must)
{
    moor_railbus_read got = moor_read_railbus(packet.start, packet.length);
    print_text_call("moor_read_railbus", packet);
    if (got.number != MOOR_ACCEPTED)
        print_refused(got.number, got.place);
    else
        printf("%c of %02X, register %02X, data %08X, checksum %s\n", got.letter, got.address,
               got.reg, (unsigned)got.data, got.checked ? "right" : "not examined");
    EXPECT(got.number == must.number);
    EXPECT(got.letter == must.letter);
    EXPECT(got.address == must.address);
    EXPECT(got.reg == must.reg);
    EXPECT(got.checked == must.checked);
    EXPECT(got.data == must.data);
    EXPECT(got.place == must.place);
}

#define SAYS(which, from, at, value) \
    ((moor_railbus_read){            \
        .letter = (which), .address = (from), .reg = (at), .checked = 1, .data = (value)})
#define UNEXAMINED(which, from, at, value) \
    ((moor_railbus_read){.letter = (which), .address = (from), .reg = (at), .data = (value)})
#define NOT_SAID(why, where) ((moor_railbus_read){.number = (why), .place = (where)})

/* What document 001 prints, as printed and with checksums. */
static void printed_packets_read(void)
{
    read_railbus(TEXT("RPFFR0000"), UNEXAMINED('R', 0xFF, 0x00, 0));
    read_railbus(TEXT("RPFFK000015002A00"), UNEXAMINED('K', 0xFF, 0x00, 0x0015002A));
    read_railbus(TEXT("RP93W000000001000"), UNEXAMINED('W', 0x93, 0x00, 0x10));
    read_railbus(TEXT("RP93I000000001000"), UNEXAMINED('I', 0x93, 0x00, 0x10));
    read_railbus(TEXT("RP93W010000001000"), UNEXAMINED('W', 0x93, 0x01, 0x10));
    read_railbus(TEXT("RP93I010000001000"), UNEXAMINED('I', 0x93, 0x01, 0x10));
    read_railbus(TEXT("RP93WFD0000E10000"), UNEXAMINED('W', 0x93, 0xFD, 0xE100));
    read_railbus(TEXT("RP93nFD0000000900"), UNEXAMINED('n', 0x93, 0xFD, 0x09));
    read_railbus(TEXT("RPFFR009E"), SAYS('R', 0xFF, 0x00, 0));
    read_railbus(TEXT("RPFFK000015002AF4"), SAYS('K', 0xFF, 0x00, 0x0015002A));
    read_railbus(TEXT("RP93W00000000109F"), SAYS('W', 0x93, 0x00, 0x10));
    read_railbus(TEXT("RP93I0000000010EE"), SAYS('I', 0x93, 0x00, 0x10));
    read_railbus(TEXT("RP93W0100000010A2"), SAYS('W', 0x93, 0x01, 0x10));
    read_railbus(TEXT("RP93I0100000010D3"), SAYS('I', 0x93, 0x01, 0x10));
    read_railbus(TEXT("RP93WFD0000E100E4"), SAYS('W', 0x93, 0xFD, 0xE100));
    read_railbus(TEXT("RP93nFD00000009A4"), SAYS('n', 0x93, 0xFD, 0x09));
}

static void packets_read(void)
{
    read_railbus(TEXT("RP93S00BE"), SAYS('S', 0x93, 0x00, 0));
    read_railbus(TEXT("RP93N0093"), SAYS('N', 0x93, 0x00, 0));
    read_railbus(TEXT("RP01WEFABCDEF98F9"), SAYS('W', 0x01, 0xEF, 0xABCDEF98));
    read_railbus(TEXT("RP00n00FFFFFFFFBC"), SAYS('n', 0x00, 0x00, 0xFFFFFFFF));
    /* With the top bit clear the other seven mean nothing. */
    read_railbus(TEXT("RPFFR001E"), UNEXAMINED('R', 0xFF, 0x00, 0));
    read_railbus(TEXT("RPFFR007F"), UNEXAMINED('R', 0xFF, 0x00, 0));
}

static void lengths_and_marks_not_read(void)
{
    moor_railbus_read wrong_length = NOT_SAID(MOOR_FRAME_LENGTH, 0);
    read_railbus(none, wrong_length);
    read_railbus(TEXT("RPFFR009"), wrong_length);
    read_railbus(TEXT("XXXXXXXX"), wrong_length);
    read_railbus(TEXT("RPFFR009E0"), wrong_length);
    read_railbus(TEXT("RPFFR009E\r\n"), wrong_length);
    read_railbus(TEXT("RPFFR000015002A00"), wrong_length);
    read_railbus(TEXT("RPFFS000015002A00"), wrong_length);
    read_railbus(TEXT("RPFFN000015002A00"), wrong_length);
    read_railbus(TEXT("RPFFK0000"), wrong_length);
    read_railbus(TEXT("RPFFW0000"), wrong_length);
    read_railbus(TEXT("RPFFI0000"), wrong_length);
    read_railbus(TEXT("RPFFn0000"), wrong_length);
    read_railbus(TEXT("RPFFK000015002AF"), wrong_length);
    read_railbus(TEXT("RPFFK000015002AF40"), wrong_length);
    read_railbus(TEXT("rPFFR009E"), NOT_SAID(MOOR_FRAME_HEAD, 0));
    read_railbus(TEXT("RpFFR009E"), NOT_SAID(MOOR_FRAME_HEAD, 1));
    read_railbus(TEXT("PRFFX009E"), NOT_SAID(MOOR_FRAME_HEAD, 0));
    read_railbus(TEXT("RPFFr009E"), NOT_SAID(MOOR_SUBCOMMAND_WRONG, 4));
    read_railbus(TEXT("RPFFX009E0"), NOT_SAID(MOOR_SUBCOMMAND_WRONG, 4));
    read_railbus(TEXT("RPgg\xD2""009E"), NOT_SAID(MOOR_SUBCOMMAND_WRONG, 4));
}

/* The characters beside the digits, at each place where one is due; the first
 * wrong one is named, and before the checksum. */
static void digits_not_read(void)
{
    static const char beside[] = {'/', ':', '@', 'G', '`', 'a', 'f', 'g', ' ', '\0'};
    for (size_t at = 2; at < 17; at += at == 3 ? 2 : 1) {
        for (size_t i = 0; i < sizeof beside; i++) {
            char packet[] = "RPFFK000015002AF4";
            packet[at] = beside[i];
            read_railbus(TEXT(packet), NOT_SAID(MOOR_DIGIT_WRONG, at));
        }
    }
    read_railbus(TEXT("RPFFK000015g02aff"), NOT_SAID(MOOR_DIGIT_WRONG, 11));
    read_railbus(TEXT("RPFFR009e"), NOT_SAID(MOOR_DIGIT_WRONG, 8));
    read_railbus(TEXT("RPFFR00FF"), NOT_SAID(MOOR_FRAME_CHECK, 7));
    read_railbus(TEXT("RPFFR0080"), NOT_SAID(MOOR_FRAME_CHECK, 7));
    read_railbus(TEXT("RPFFK000015002AF5"), NOT_SAID(MOOR_FRAME_CHECK, 15));
    read_railbus(TEXT("RPFFK000015002BF4"), NOT_SAID(MOOR_FRAME_CHECK, 15));
}

static void write_railbus(uint8_t letter, uint8_t address, uint8_t reg, uint32_t data, size_t room,
                          outcome must)
{
    fill(out);
    moor_written got = moor_write_railbus(letter, address, reg, data, out, room);
    printf("moor_write_railbus %c %02X %02X %08X -> ", shown(letter), address, reg,
           (unsigned)data);
    written(got, must);
}

#define WROTE_TEXT(characters) ((outcome){MOOR_ACCEPTED, 0, TEXT(characters)})

static void packets_written(void)
{
    outcome output_short = REFUSED(MOOR_OUTPUT_SHORT, 0);
    outcome no_letter = REFUSED(MOOR_SUBCOMMAND_WRONG, 0);
    write_railbus('R', 0xFF, 0x00, 0, 9, WROTE_TEXT("RPFFR009E"));
    write_railbus('R', 0xFF, 0x00, 0xFFFFFFFF, 17, WROTE_TEXT("RPFFR009E"));
    write_railbus('K', 0xFF, 0x00, 0x0015002A, 17, WROTE_TEXT("RPFFK000015002AF4"));
    write_railbus('W', 0x93, 0x00, 0x10, MOST, WROTE_TEXT("RP93W00000000109F"));
    write_railbus('I', 0x93, 0x01, 0x10, 17, WROTE_TEXT("RP93I0100000010D3"));
    write_railbus('W', 0x93, 0xFD, 0xE100, 17, WROTE_TEXT("RP93WFD0000E100E4"));
    write_railbus('n', 0x93, 0xFD, 0x09, 17, WROTE_TEXT("RP93nFD00000009A4"));
    write_railbus('S', 0x93, 0x00, 0x10, 9, WROTE_TEXT("RP93S00BE"));
    write_railbus('N', 0x93, 0x00, 0x10, 9, WROTE_TEXT("RP93N0093"));
    write_railbus('W', 0x01, 0xEF, 0xABCDEF98, 17, WROTE_TEXT("RP01WEFABCDEF98F9"));
    write_railbus('R', 0xFF, 0x00, 0, 8, output_short);
    write_railbus('n', 0xFF, 0x00, 0, 16, output_short);
    write_railbus('W', 0xFF, 0x00, 0, 0, output_short);
    write_railbus('r', 0xFF, 0x00, 0, MOST, no_letter);
    write_railbus('k', 0xFF, 0x00, 0, 0, no_letter);
    write_railbus(0xD2, 0xFF, 0x00, 0, 17, no_letter);
}

/* ---- Railbus: a relay device --------------------------------------------- */

/* A device with the address 93. */
typedef struct {
    uint32_t registers[MOOR_RELAY_REGISTERS];
    uint8_t access[MOOR_RELAY_REGISTERS];
    moor_remembered write;
} relay;

#define REGISTERS_OF(r) (r).registers, MOOR_RELAY_REGISTERS, (r).access, MOOR_RELAY_REGISTERS

/* Register 1 may be read, 2 written, 3 is absent, and all others may be both.
 * Each holds its number four times. */
static relay fresh_relay(void)
{
    relay r = {.access = {[1] = MOOR_READ, [2] = MOOR_WRITE, [3] = MOOR_ABSENT}};
    for (uint32_t i = 0; i < MOOR_RELAY_REGISTERS; i++) {
        r.registers[i] = i * 0x01010101;
        if (i == 0 || i > 3)
            r.access[i] = MOOR_READ_WRITE;
    }
    return r;
}

static bool same_write(moor_remembered a, moor_remembered b)
{
    return a.phase == b.phase && a.reg == b.reg && a.data == b.data;
}

static bool same_relay(const relay *a, const relay *b)
{
    return memcmp(a->registers, b->registers, sizeof a->registers) == 0 &&
           memcmp(a->access, b->access, sizeof a->access) == 0 && same_write(a->write, b->write);
}

static const moor_remembered no_write = {MOOR_IDLE, 0, 0};
#define RUNNING(at, value) ((moor_remembered){MOOR_RUNNING, (at), (value)})
#define FINISHED(at, value) ((moor_remembered){MOOR_FINISHED, (at), (value)})

/* Holds what a device gives to what it must: a refusal or an answer, and the
 * write that it remembers from then on. */
static void relayed(moor_relayed got, moor_remembered write, outcome must)
{
    if (got.number != MOOR_ACCEPTED) {
        print_refused(got.number, got.place);
    } else if (got.length == 0) {
        printf("no answer\n");
    } else {
        printf("%zu characters:", got.length);
        print_text((bytes){out, got.length < MOST ? got.length : MOST});
        printf("\n");
    }
    EXPECT(got.number == must.number);
    EXPECT(got.place == must.place);
    EXPECT(same_write(got.write, write));
    EXPECT(got.length == must.wrote.length);
    EXPECT(starts(out, must.wrote));
}

/* Offers a packet. The device remembers what it must, and nothing else of it
 * changes. */
static void offer_railbus(relay *r, bytes packet, moor_remembered write, outcome must)
{
    relay before = *r;
    fill(out);
    moor_relayed got = moor_offer_railbus(0x93, packet.start, packet.length, REGISTERS_OF(*r),
                                          r->write, out, MOOR_RELAY_ROOM);
    print_text_call("moor_offer_railbus", packet);
    relayed(got, write, must);
    EXPECT(same_relay(r, &before));
    r->write = write;
}

/* Offers a packet that leaves what is remembered as it is. */
static void offer_unremembered(relay *r, bytes packet, outcome must)
{
    offer_railbus(r, packet, r->write, must);
}

static void finish_railbus(relay *r, moor_remembered write, outcome must)
{
    fill(out);
    moor_relayed got =
        moor_finish_railbus(0x93, REGISTERS_OF(*r), r->write, out, MOOR_RELAY_ROOM);
    printf("moor_finish_railbus -> ");
    relayed(got, write, must);
    r->write = write;
}

#define RELAY_VALID(why, must, ...)                                        \
    do {                                                                   \
        bool got = moor_relay_valid(__VA_ARGS__);                          \
        printf("moor_relay_valid, %s -> %s\n", why, got ? "yes" : "no");   \
        EXPECT(got == (must));                                             \
    } while (0)

static void relays(void)
{
    static const uint32_t registers[257];
    static const uint8_t access[257];
    relay r = fresh_relay();
    RELAY_VALID("256 registers", true, REGISTERS_OF(r));
    RELAY_VALID("all absent", true, registers, 256, access, 256);
    RELAY_VALID("255 registers", false, registers, 255, access, 256);
    RELAY_VALID("257 registers", false, registers, 257, access, 256);
    RELAY_VALID("255 access bytes", false, registers, 256, access, 255);
    RELAY_VALID("257 access bytes", false, registers, 256, access, 257);
    RELAY_VALID("255 of both", false, registers, 255, access, 255);
    RELAY_VALID("no registers", false, NULL, 0, access, 256);
    RELAY_VALID("nothing", false, NULL, 0, NULL, 0);
    r.access[0] = 4;
    RELAY_VALID("a first access byte of 4", false, REGISTERS_OF(r));
    r.access[0] = 3;
    r.access[255] = 255;
    RELAY_VALID("a last access byte of 255", false, REGISTERS_OF(r));
}

#define READ_0 TEXT("RP93R0091")
#define SYNC_0 TEXT("RP93S00BE")
#define SYNC_3 TEXT("RP93S03A5")
#define FIRST TEXT("RP93W00000000109F")
#define OTHER_DATA TEXT("RP93W000000001196")
#define OTHER_REGISTER TEXT("RP93W0400000010E2")
#define HOLDS_0 WROTE_TEXT("RP93K0000000000BC")
#define N_01 WROTE_TEXT("RP93n0000000001A5")
#define N_02 WROTE_TEXT("RP93n0000000002BE")
#define N_03 WROTE_TEXT("RP93n0000000003B7")
#define N_08 WROTE_TEXT("RP93n0000000008E4")
#define N_10 WROTE_TEXT("RP93n0000000010A7")

/* Absent and forbidden registers, in every phase: the answer is the same, and
 * what is remembered stays. */
static void accesses(relay *r)
{
    offer_unremembered(r, TEXT("RP93R038A"), WROTE_TEXT("RP93N0388"));
    offer_unremembered(r, TEXT("RP93W0300000010D8"), WROTE_TEXT("RP93N0388"));
    offer_unremembered(r, TEXT("RP93R0283"), WROTE_TEXT("RP93n0200000007E9"));
    offer_unremembered(r, TEXT("RP93W0100000010A2"), WROTE_TEXT("RP93n0100000007AE"));
    offer_unremembered(r, TEXT("RP93R0198"), WROTE_TEXT("RP93K0101010101FA"));
    offer_unremembered(r, TEXT("RP93RFFF4"), WROTE_TEXT("RP93KFFFFFFFFFFE4"));
}

/* Packets for another address, and answers of devices, in every phase. */
static void packets_without_answer(relay *r)
{
    offer_unremembered(r, TEXT("RPFFR009E"), nothing_written);
    offer_unremembered(r, TEXT("RP92W0000000010A3"), nothing_written);
    offer_unremembered(r, TEXT("RP94S00B7"), nothing_written);
    offer_unremembered(r, TEXT("RP93K0000000010B7"), nothing_written);
    offer_unremembered(r, TEXT("RP93I0000000010EE"), nothing_written);
    offer_unremembered(r, TEXT("RP93N0388"), nothing_written);
    offer_unremembered(r, TEXT("RP93nFD00000009A4"), nothing_written);
}

/* A write from its first copy to the end of what is remembered of it. */
static void write_relayed(void)
{
    relay r = fresh_relay();
    accesses(&r);
    packets_without_answer(&r);
    offer_railbus(&r, SYNC_0, no_write, N_10);
    offer_railbus(&r, FIRST, RUNNING(0, 0x10), N_01);
    offer_unremembered(&r, FIRST, N_02);
    offer_unremembered(&r, TEXT("RP93W000000001000"), N_02);
    offer_unremembered(&r, OTHER_DATA, N_08);
    offer_unremembered(&r, OTHER_REGISTER, WROTE_TEXT("RP93n040000000899"));
    offer_unremembered(&r, SYNC_0, N_08);
    offer_unremembered(&r, READ_0, HOLDS_0);
    accesses(&r);
    packets_without_answer(&r);
    relay must = r;
    must.registers[0] = 0x10;
    must.write = FINISHED(0, 0x10);
    finish_railbus(&r, FINISHED(0, 0x10), WROTE_TEXT("RP93I0000000010EE"));
    EXPECT(same_relay(&r, &must));
    finish_railbus(&r, FINISHED(0, 0x10), nothing_written);
    EXPECT(same_relay(&r, &must));
    offer_unremembered(&r, FIRST, N_03);
    offer_unremembered(&r, READ_0, WROTE_TEXT("RP93K0000000010B7"));
    accesses(&r);
    packets_without_answer(&r);
    offer_railbus(&r, SYNC_3, no_write, WROTE_TEXT("RP93n0300000010E0"));
    finish_railbus(&r, no_write, nothing_written);
    offer_railbus(&r, FIRST, RUNNING(0, 0x10), N_01);
}

/* A finished write is forgotten for a different one, by register or by data. */
static void different_writes_relayed(void)
{
    relay r = fresh_relay();
    r.write = FINISHED(0, 0x10);
    offer_railbus(&r, OTHER_DATA, RUNNING(0, 0x11), N_01);
    offer_unremembered(&r, FIRST, N_08);
    r.write = FINISHED(0, 0x10);
    offer_railbus(&r, OTHER_REGISTER, RUNNING(4, 0x10), WROTE_TEXT("RP93n0400000001D8"));
    finish_railbus(&r, FINISHED(4, 0x10), WROTE_TEXT("RP93I040000001093"));
    EXPECT(r.registers[4] == 0x10 && r.registers[0] == 0);
    offer_railbus(&r, FIRST, RUNNING(0, 0x10), N_01);
}

/* Any phase may be handed in: but for 1 and 2 it is idle, also on a refusal. */
static void phases_relayed(void)
{
    static const uint8_t phases[] = {0, 3, 4, 0x7F, 0x80, 0xFF};
    for (size_t i = 0; i < sizeof phases; i++) {
        relay r = fresh_relay();
        moor_remembered any = {phases[i], 4, 0x10};
        r.write = any;
        finish_railbus(&r, no_write, nothing_written);
        EXPECT(r.registers[4] == 0x04040404);
        r.write = any;
        offer_railbus(&r, TEXT("RPFFR009E"), no_write, nothing_written);
        r.write = any;
        offer_railbus(&r, READ_0, no_write, HOLDS_0);
        r.write = any;
        offer_railbus(&r, OTHER_REGISTER, RUNNING(4, 0x10), WROTE_TEXT("RP93n0400000001D8"));
        r.write = any;
        offer_railbus(&r, SYNC_0, no_write, N_10);
        r.write = any;
        offer_railbus(&r, none, no_write, REFUSED(MOOR_FRAME_LENGTH, 0));
        r.write = any;
        r.access[0] = 4;
        finish_railbus(&r, no_write, REFUSED(MOOR_TABLE_NOT_VALID, 0));
    }
}

/* A finish looks at no access byte, and answers from the address of its own. */
static void finishes_relayed(void)
{
    relay r = fresh_relay();
    for (uint8_t access = MOOR_ABSENT; access <= MOOR_READ_WRITE; access++) {
        r.access[0] = access;
        r.registers[0] = 0;
        r.write = RUNNING(0, 0x10);
        finish_railbus(&r, FINISHED(0, 0x10), WROTE_TEXT("RP93I0000000010EE"));
        EXPECT(r.registers[0] == 0x10);
    }
    fill(out);
    printf("moor_finish_railbus, address FF, a long buffer -> ");
    relayed(moor_finish_railbus(0xFF, REGISTERS_OF(r), RUNNING(255, 0xABCDEF98), out, MOST),
            FINISHED(255, 0xABCDEF98), WROTE_TEXT("RPFFIFFABCDEF98B5"));
    EXPECT(r.registers[255] == 0xABCDEF98);
}

static void relays_refused(void)
{
    relay r = fresh_relay();
    outcome output_short = REFUSED(MOOR_OUTPUT_SHORT, 0);
    outcome not_valid = REFUSED(MOOR_TABLE_NOT_VALID, 0);
    bytes packet = FIRST;
    r.write = RUNNING(4, 7);
    offer_unremembered(&r, TEXT("RPFFR009"), REFUSED(MOOR_FRAME_LENGTH, 0));
    offer_unremembered(&r, TEXT("RQFFR009E"), REFUSED(MOOR_FRAME_HEAD, 1));
    offer_unremembered(&r, TEXT("RPFFr009E"), REFUSED(MOOR_SUBCOMMAND_WRONG, 4));
    offer_unremembered(&r, TEXT("RPFFR009E0"), REFUSED(MOOR_FRAME_LENGTH, 0));
    offer_unremembered(&r, TEXT("RPFfR009E"), REFUSED(MOOR_DIGIT_WRONG, 3));
    offer_unremembered(&r, TEXT("RP93W00000000109E"), REFUSED(MOOR_FRAME_CHECK, 15));
    r.access[255] = 4;
    offer_unremembered(&r, FIRST, not_valid);
    offer_unremembered(&r, none, not_valid);
    finish_railbus(&r, r.write, not_valid);
    relay before = r;
    fill(out);
    printf("moor_offer_railbus, 16 bytes -> ");
    relayed(moor_offer_railbus(0x93, NULL, 0, REGISTERS_OF(r), r.write, out, 16), r.write,
            output_short);
    printf("moor_finish_railbus, 16 bytes -> ");
    relayed(moor_finish_railbus(0x93, REGISTERS_OF(r), r.write, out, 16), r.write, output_short);
    printf("moor_finish_railbus, nothing runs, no buffer -> ");
    relayed(moor_finish_railbus(0x93, REGISTERS_OF(r), no_write, NULL, 0), no_write, output_short);
    printf("moor_offer_railbus, 255 registers -> ");
    relayed(moor_offer_railbus(0x93, packet.start, packet.length, r.registers, 255, r.access, 256,
                               r.write, out, 17),
            r.write, not_valid);
    printf("moor_finish_railbus, no registers and access bytes -> ");
    relayed(moor_finish_railbus(0x93, NULL, 0, NULL, 0, r.write, out, 17), r.write, not_valid);
    EXPECT(same_relay(&r, &before));
}

int main(void)
{
    version();
    texts();
    checks();
    addresses();
    logical_bytes();
    escapes();
    commands_read();
    replies_read();
    checks_of_telegrams();
    telegrams_written();
    exchanges_accepted();
    exchanges_behind_idle_time();
    exchanges_refused();
    listening_accepted();
    listening_refused();
    listening_within_an_escape();
    listening_to_replies();
    listening_to_wrong_starts();
    listening_from_idle_time_on();
    listening_to_a_wrong_check();
    listening_closed();
    any_states();
    data_of_replies();
    captures_without_exchanges();
    captures_behind_idle_time();
    captures_without_idle_time();
    exchanges_of_captures();
    captures_walked();
    requests_read();
    answers_read();
    frames_written();
    tables();
    contests();
    requests_answered();
    requests_refused();
    silence();
    scans();
    most_and_fewest_fill();
    event_requests_read();
    events_read();
    events_not_read();
    events_at();
    event_frames_written();
    fill_before_right_frames();
    fill_before_wrong_frames();
    tables_of_queues();
    entries_of_queues();
    events_added();
    printed_packet_polled();
    events_polled();
    devices_that_do_not_answer();
    full_queue_polled();
    polls_refused();
    polls_between_scans();
    checksums();
    printed_packets_read();
    packets_read();
    lengths_and_marks_not_read();
    digits_not_read();
    packets_written();
    relays();
    write_relayed();
    different_writes_relayed();
    phases_relayed();
    finishes_relayed();
    relays_refused();
    printf("%u held, %u differ\n", held, differ);
    return differ == 0 ? 0 : 1;
}
