/*
 * moortinker.h - the bus core of a plant-room gateway: eBUS to the boilers,
 * Fast Modbus to the sensors, Railbus to the relays.
 *
 * Link with libmoortinker.a or libmoortinker.so. `host/install PREFIX` installs
 * both with this header and a file for pkg-config, and then
 *
 *     gcc program.c $(pkg-config --cflags --libs moortinker)
 *
 * is enough. x86-64 Linux. The library keeps no state, allocates nothing and
 * calls nothing but memcpy and memset.
 *
 * Example: the data that a boiler replied in a recorded exchange.
 *
 *     static const uint8_t run[] = {0x10, 0x08, 0xB5, 0x11, 0x01, 0x01, 0x89,
 *                                   0x00, 0x01, 0x2A, 0xB1, 0x00, 0xAA};
 *     uint8_t command[MOOR_COMMAND_ROOM];
 *     uint8_t replies[2][MOOR_REPLY_ROOM];
 *     moor_judged judged = moor_judge(run, sizeof run,
 *                                     command, sizeof command,
 *                                     replies[0], sizeof replies[0],
 *                                     replies[1], sizeof replies[1]);
 *     if (judged.number != MOOR_ACCEPTED) {
 *         printf("refused %u at %zu: %s\n", judged.number, judged.place,
 *                moor_text(judged.number));
 *         return 1;
 *     }
 *     moor_part data = moor_reply_data(replies[0], sizeof replies[0],
 *                                      replies[1], sizeof replies[1],
 *                                      judged.reply_attempts);
 *     for (size_t i = 0; i < data.length; i++)
 *         printf("%02X\n", replies[data.attempt - 1][data.start + i]);
 *
 * prints 2A.
 *
 * What every call promises, for any bytes and any lengths:
 *   - it returns;
 *   - it reads and writes only the buffers that it was lent;
 *   - it relies on no check by its caller;
 *   - a refusal is a number (MOOR_OUTPUT_SHORT and so on, 0 means accepted)
 *     and a place, the offset of the raw byte that is named, 0 where none is;
 *     every lent buffer then keeps its bytes, and the other fields of the
 *     answer are 0, but for a state that was handed in, which comes back.
 *
 * What the caller owes, as in any C interface:
 *   - a pointer is aligned, and valid for as many elements as the length behind
 *     it says
 *     (with length 0 nothing is read or written through it, and it may be
 *     null);
 *   - a buffer that is written overlaps no other buffer of the same call.
 *
 * Calls on different buffers may run at the same time. Lengths count
 * elements, not bytes. Bytes are in hex.
 *
 * "Refuses with" lists a call's refusals in the order in which they are
 * looked for; the first that holds is given.
 */
#ifndef MOORTINKER_H
#define MOORTINKER_H

#if !defined(__x86_64__) || !defined(__linux__) || defined(__ILP32__)
#error "Moortinker is for x86-64 Linux with 64-bit pointers alone"
#endif

#include <stdbool.h>
#include <stddef.h>
#include <stdint.h>

#ifdef __cplusplus
extern "C" {
#endif

/* ---- Version ------------------------------------------------------------ */

#define MOOR_VERSION_MAJOR 0
#define MOOR_VERSION_MINOR 2
#define MOOR_VERSION_PATCH 0
#define MOOR_VERSION       "0.2.0"

/* ---- Numbers handed back on refusal ------------------------------------- */

#define MOOR_ACCEPTED           0 /* not refused */
#define MOOR_OUTPUT_SHORT       1 /* a lent output is shorter than stated */
#define MOOR_TABLE_NOT_VALID    2 /* the device table is not valid, or in event
                                     calls table and queues are not, or in relay
                                     calls registers and access bytes are not */
#define MOOR_RUN_ENDED          3 /* the eBUS run ends too early; place: its length */
#define MOOR_ESCAPE_WRONG       4 /* the byte after A9 is none of 00, 01, AA */
#define MOOR_SYN_EARLY          5 /* raw AA where another byte was due; a recording's
                                     idle time is no such place, see moor_judge */
#define MOOR_SOURCE_WRONG       6 /* SRC is no initiator address */
#define MOOR_DESTINATION_WRONG  7 /* DST is A9 or AA */
#define MOOR_LENGTH_OVER        8 /* LEN is over 16 */
#define MOOR_CHECK_WRONG        9 /* wrong check byte in an accepted attempt */
#define MOOR_COMMAND_NACKED    10 /* the command was NACKed twice; place: the second FF */
#define MOOR_REPLY_NACKED      11 /* the reply was NACKed twice; place: the second FF */
#define MOOR_BUS_ERROR         12 /* an acknowledge byte that is none of 00, FF, AA,
                                     or not AA where SYN is due */
#define MOOR_FRAME_LENGTH      13 /* Modbus or Railbus length wrong; of a new event,
                                     no such device or too much data; place: 0 */
#define MOOR_FRAME_HEAD        14 /* not FD 46; of a packet of events, no sender's id
                                     and 46; of Railbus, not RP; place: the first
                                     wrong byte */
#define MOOR_SUBCOMMAND_WRONG  15 /* a subcommand, or a letter of Railbus, that this
                                     call does not take */
#define MOOR_FRAME_CHECK       16 /* Modbus check or Railbus checksum wrong; place:
                                     its first byte */
#define MOOR_SERIAL_OVER       17 /* serial 2^28 or more; place: its first byte */
#define MOOR_QUEUE_FULL        18 /* the event queue of a device is full; place: 0 */
#define MOOR_FILL_OVER         19 /* more than 32 FF before an answer; place: the
                                     33rd, which is 32 */
#define MOOR_DIGIT_WRONG       26 /* no upper-case hex digit where one is due in a
                                     Railbus packet; place: the character */

/* What a number says, in a few words. It stands here and not in the library. */
static inline const char *moor_text(uint8_t number)
{
    switch (number) {
    case MOOR_ACCEPTED: return "accepted";
    case MOOR_OUTPUT_SHORT: return "output too short";
    case MOOR_TABLE_NOT_VALID: return "table not valid";
    case MOOR_RUN_ENDED: return "run ended";
    case MOOR_ESCAPE_WRONG: return "wrong escape";
    case MOOR_SYN_EARLY: return "SYN too early";
    case MOOR_SOURCE_WRONG: return "source no initiator";
    case MOOR_DESTINATION_WRONG: return "destination A9 or AA";
    case MOOR_LENGTH_OVER: return "LEN over 16";
    case MOOR_CHECK_WRONG: return "wrong check byte";
    case MOOR_COMMAND_NACKED: return "command NACKed twice";
    case MOOR_REPLY_NACKED: return "reply NACKed twice";
    case MOOR_BUS_ERROR: return "bus error";
    case MOOR_FRAME_LENGTH: return "wrong length";
    case MOOR_FRAME_HEAD: return "wrong mark";
    case MOOR_SUBCOMMAND_WRONG: return "subcommand or letter not taken";
    case MOOR_FRAME_CHECK: return "wrong check";
    case MOOR_SERIAL_OVER: return "serial too large";
    case MOOR_QUEUE_FULL: return "queue full";
    case MOOR_FILL_OVER: return "over 32 FF";
    case MOOR_DIGIT_WRONG: return "no hex digit";
    default: return "no such number";
    }
}

/* ---- Other constants ---------------------------------------------------- */

/* The kind of an eBUS exchange, which its destination decides. */
#define MOOR_BROADCAST           1 /* to all: no acknowledge byte, no reply */
#define MOOR_INITIATOR_INITIATOR 2 /* acknowledged, no reply */
#define MOOR_INITIATOR_TARGET    3 /* acknowledged, then a reply, acknowledged */

/* A scan request. */
#define MOOR_START    1
#define MOOR_CONTINUE 2

/* An answer to a scan request. */
#define MOOR_FOUND 3
#define MOOR_END   4

/* What comes back for an event request. */
#define MOOR_PACKET    17 /* a packet of events */
#define MOOR_NO_EVENTS 18 /* nobody has events */

/* How a whole scan ended. */
#define MOOR_COMPLETE   1 /* the end of the scan was heard */
#define MOOR_NOBODY     2 /* nobody answered */
#define MOOR_UNFINISHED 3 /* the cap was reached first */

/* The room that calls ask for. */
#define MOOR_COMMAND_ROOM  22 /* command buffer of moor_judge and moor_close */
#define MOOR_REPLY_ROOM    18 /* each reply buffer of moor_judge and moor_close */
#define MOOR_ANSWER_ROOM   42 /* answer buffer of moor_start, moor_resume, moor_offer */
#define MOOR_POLL_ROOM    116 /* answer buffer of moor_poll and moor_offer_poll */
#define MOOR_COMMAND_WIRE  41 /* the longest command on the wire */
#define MOOR_REPLY_WIRE    35 /* the longest reply on the wire */
#define MOOR_MOST_DEVICES 247 /* the largest device table */
#define MOOR_MOST_FILL     32 /* the most FF before an answer */

/* Event queues. */
#define MOOR_MOST_QUEUED    8 /* the most events that a device has queued */
#define MOOR_MOST_DATA      8 /* the most data bytes of a queued event */
#define MOOR_SLOT_LENGTH   13 /* the bytes of a slot, which holds one event */
#define MOOR_SLOTS_LENGTH 104 /* the bytes of the slots of one device */

/* Railbus relays. */
#define MOOR_RELAY_ROOM       17 /* answer buffer of moor_offer_railbus and
                                    moor_finish_railbus, and the longest packet */
#define MOOR_RELAY_REGISTERS 256 /* a relay device's registers and access bytes */

/* What an access byte says of its register. */
#define MOOR_ABSENT     0
#define MOOR_READ       1
#define MOOR_WRITE      2
#define MOOR_READ_WRITE 3

/* The write that a relay device remembers. */
#define MOOR_IDLE     0 /* none */
#define MOOR_RUNNING  1 /* it was received and runs */
#define MOOR_FINISHED 2 /* it has finished */

/* The data of an 'n' of a relay device. */
#define MOOR_RECEIVED       0x01 /* the first copy of a write */
#define MOOR_RETRANSMISSION 0x02 /* a further copy, while it runs */
#define MOOR_DONE_BEFORE    0x03 /* a further copy, after it has finished */
#define MOOR_FORBIDDEN      0x07 /* the register is not to be read, or written */
#define MOOR_BUSY           0x08 /* a write runs, and this is no copy of it */
#define MOOR_SYNCED         0x10 /* no write runs, and none is remembered now */

/* ---- Answers ------------------------------------------------------------ */

/* What a call that writes gives: `length` bytes at the start of the output;
 * the bytes behind them stay. */
typedef struct {
    uint8_t number;
    size_t place;
    size_t length;
} moor_written;

/* A logical byte of a raw run, and the position behind it. */
typedef struct {
    uint8_t number;
    uint8_t byte;
    size_t place;
    size_t next;
} moor_logical;

/* A telegram read from a raw run: the first `length` of `bytes`, the check
 * byte included, the others 0; `last` is the place of the check byte's first
 * raw byte, `next` the position behind the telegram. */
typedef struct {
    uint8_t number;
    size_t place;
    size_t length;
    size_t last;
    size_t next;
    uint8_t bytes[22];
} moor_telegram;

/* A judged exchange: MOOR_BROADCAST and so on, the attempts at command and
 * reply (0 without a reply), and the raw bytes read, idle time in front and SYN
 * included. */
typedef struct {
    uint8_t number;
    uint8_t kind;
    uint8_t command_attempts;
    uint8_t reply_attempts;
    size_t place;
    size_t read;
} moor_judged;

/* A state of listening to an exchange whose bytes arrive in runs. It is plain
 * data: it may be copied and kept, and any bytes in it are safe to hand in. */
typedef struct {
    size_t start;            /* where in the recording what is in hand starts */
    size_t place;            /* once refused, the place */
    uint8_t due;             /* what is due next; from 5 on it has answered */
    uint8_t number;          /* once answered, the number; 0 is accepted */
    uint8_t held;            /* how many raw bytes of an attempt are in hand */
    uint8_t command_attempts;
    uint8_t reply_attempts;
    uint8_t command_length;  /* how many bytes of `kept` the command has, .. */
    uint8_t reply_1_length;  /* .. the first reply, which stands at 22, .. */
    uint8_t reply_2_length;  /* .. and the second, which stands at 40 */
    uint8_t raw[46];
    uint8_t kept[58];
} moor_listening;

/* What a run did to a state: the state now, and how many of the run's bytes
 * were used. */
typedef struct {
    moor_listening state;
    size_t used;
} moor_fed;

/* What closing gives: the answer, as moor_judge gives it, and the state now. */
typedef struct {
    moor_judged judged;
    moor_listening state;
} moor_closed;

/* A part of a capture: the bytes from `start` on that stand before `end`. */
typedef struct {
    size_t start;
    size_t end;
} moor_stretch;

/* Where a reply's data stands: `length` bytes from `start` of the buffer of
 * attempt 1 or 2. */
typedef struct {
    uint8_t attempt;
    size_t start;
    size_t length;
} moor_part;

/* A request frame read: MOOR_START or MOOR_CONTINUE. */
typedef struct {
    uint8_t number;
    uint8_t request;
    size_t place;
} moor_request_read;

/* An answer frame read: MOOR_FOUND with serial and address, or MOOR_END with
 * both 0; and how many FF were passed over before it. */
typedef struct {
    uint8_t number;
    uint8_t answer;
    uint8_t address;
    uint32_t serial;
    size_t place;
    size_t skipped;
} moor_answer_read;

/* What a contest gives: the key that remains, and how many windows were
 * dominant. */
typedef struct {
    uint32_t key;
    size_t dominant;
} moor_decided;

/* A whole scan: MOOR_COMPLETE and so on, the requests sent, how many devices
 * were heard, which is how many entries the two lists start with, and how many
 * FF stood before all its answers together, the end's included. */
typedef struct {
    uint8_t number;
    uint8_t end;
    size_t place;
    size_t requests;
    size_t found;
    size_t skipped;
} moor_scanned;

/* An event request read: the smallest id that may answer, the most bytes of
 * events, and the packet that it confirms, by its sender's id and its flag. */
typedef struct {
    uint8_t number;
    uint8_t minimum;
    uint8_t most;
    uint8_t confirmed;
    uint8_t flag;
    size_t place;
} moor_event_request_read;

/* What came back for an event request: MOOR_PACKET with its sender, its flag,
 * how many events are queued and how many it lists, where the first of those
 * stands in the input and how many bytes they have; or MOOR_NO_EVENTS, with all
 * of these 0. With both, how many FF were passed over before the frame. */
typedef struct {
    uint8_t number;
    uint8_t answer;
    uint8_t sender;
    uint8_t flag;
    uint8_t queued;
    uint8_t size;
    size_t place;
    size_t listed;
    size_t first;
    size_t skipped;
} moor_events_read;

/* One event: its type and its identifier, where its `size` data bytes start in
 * the input, and the position behind it. Where no whole event stands, `whole`
 * is 0 and so is all else. */
typedef struct {
    uint8_t whole;
    uint8_t kind;
    uint8_t size;
    uint16_t identifier;
    size_t start;
    size_t next;
} moor_event;

/* What a new event gives: refused, or not. */
typedef struct {
    uint8_t number;
    size_t place;
} moor_added;

/* What a poll gives: MOOR_PACKET with its sender's id, its flag and how many
 * events it lists; MOOR_NO_EVENTS with the id of the device that says so; or 0,
 * silence, with length 0. `skipped` is how many FF the answer begins with, of
 * silence 0. */
typedef struct {
    uint8_t number;
    uint8_t answer;
    uint8_t sender;
    uint8_t flag;
    uint8_t events;
    size_t place;
    size_t length;
    size_t skipped;
} moor_polled;

/* A Railbus packet that was read: its letter ('R', 'W', 'S', 'K', 'I', 'N' or
 * 'n'), address, register and data (0 where it carries none), and whether its
 * checksum was examined: 1, or 0 where its top bit is clear. */
typedef struct {
    uint8_t number;
    uint8_t letter;
    uint8_t address;
    uint8_t reg;
    uint8_t checked;
    uint32_t data;
    size_t place;
} moor_railbus_read;

/* The write that a relay device remembers: MOOR_IDLE, or MOOR_RUNNING or
 * MOOR_FINISHED with its register and data. A fresh device remembers none, {0}.
 * Handed in, any other phase is MOOR_IDLE, and register and data are not looked
 * at; handed back, MOOR_IDLE has them 0, also on a refusal. */
typedef struct {
    uint8_t phase;
    uint8_t reg;
    uint32_t data;
} moor_remembered;

/* What a relay device gives: the write that it remembers from now on, and its
 * answer, `length` characters at the start of the buffer; 0 where there is no
 * answer. On a refusal it remembers the write that was handed in. */
typedef struct {
    uint8_t number;
    moor_remembered write;
    size_t place;
    size_t length;
} moor_relayed;

/* ---- Checks ------------------------------------------------------------- */

/* The eBUS check byte of logical bytes: A9 counts as A9 00, AA as A9 01. Of
 * no bytes it is 00. Never refuses. */
uint8_t moor_ebus_check(const uint8_t *logical, size_t logical_length);

/* The Modbus check of the bytes; it is sent low byte first. Of no bytes it is
 * FFFF. Never refuses. */
uint16_t moor_modbus_check(const uint8_t *bytes, size_t bytes_length);

/* The Railbus checksum of the characters: their CRC7, x^7 + x^3 + 1, and the top
 * bit, which says that it is to be examined. Of no characters it is 80. Never
 * refuses. */
uint8_t moor_railbus_check(const uint8_t *characters, size_t characters_length);

/* ---- eBUS: escapes and addresses ---------------------------------------- */

/* Raw bytes are those on the wire, logical bytes those meant. On the wire
 * every A9 becomes A9 00 and every AA becomes A9 01; a raw AA is always SYN. */

/* Whether this is an initiator's address, both nibbles among 0, 1, 3, 7, F:
 * there are 25, FF included. */
bool moor_is_initiator(uint8_t address);

/* Whether this is A9 or AA, which no destination may be. */
bool moor_is_reserved(uint8_t address);

/* The kind of an exchange with this destination: MOOR_BROADCAST for FE,
 * MOOR_INITIATOR_INITIATOR for an initiator's address, else
 * MOOR_INITIATOR_TARGET, also for A9 and AA. */
uint8_t moor_kind(uint8_t destination);

/* The logical byte at a position of a raw run; `at` may be any number.
 *
 * Refuses with
 *   MOOR_RUN_ENDED     if the run ends before or within the byte;
 *   MOOR_ESCAPE_WRONG  at the byte after A9;
 *   MOOR_SYN_EARLY     at the AA, also after A9. */
moor_logical moor_logical_at(const uint8_t *run, size_t run_length, size_t at);

/* Writes logical bytes as they go on the wire.
 *
 * Refuses with
 *   MOOR_OUTPUT_SHORT  if their exact length on the wire exceeds the output. */
moor_written moor_expand(const uint8_t *logical, size_t logical_length,
                         uint8_t *out, size_t out_length);

/* Undoes the escapes of a raw input.
 *
 * Refuses with
 *   MOOR_RUN_ENDED, MOOR_ESCAPE_WRONG or MOOR_SYN_EARLY
 *                      as moor_logical_at does, the first that is met,
 *                      anywhere in the input;
 *   MOOR_OUTPUT_SHORT  if the exact number of logical bytes exceeds the
 *                      output. */
moor_written moor_undo(const uint8_t *raw, size_t raw_length,
                       uint8_t *out, size_t out_length);

/* ---- eBUS: telegrams and exchanges -------------------------------------- */

/* A command is SRC DST PB SB LEN, LEN data bytes, check byte; a reply is LEN,
 * data, check byte. LEN is at most 16. */

/* The command (`command` true) or the reply at a position of a raw run, its
 * check byte not judged; `at` may be any number.
 *
 * Refuses with the first that is met, byte by byte, of
 *   MOOR_RUN_ENDED, MOOR_ESCAPE_WRONG, MOOR_SYN_EARLY
 *                           as moor_logical_at does; within an escape these
 *                           come before the three below;
 *   MOOR_SOURCE_WRONG       at SRC, in a command;
 *   MOOR_DESTINATION_WRONG  at DST, in a command;
 *   MOOR_LENGTH_OVER        at LEN. */
moor_telegram moor_telegram_at(const uint8_t *run, size_t run_length,
                               bool command, size_t at);

/* Whether the last of these logical bytes is the check byte of those before
 * it; false for no bytes. */
bool moor_check_right(const uint8_t *telegram, size_t telegram_length);

/* Writes a command on the wire, at most MOOR_COMMAND_WIRE bytes.
 *
 * Refuses, every place being 0, with
 *   MOOR_SOURCE_WRONG;
 *   MOOR_DESTINATION_WRONG;
 *   MOOR_LENGTH_OVER   if there are more than 16 data bytes;
 *   MOOR_OUTPUT_SHORT  if the exact length on the wire exceeds the output. */
moor_written moor_write_command(uint8_t source, uint8_t destination,
                                uint8_t primary, uint8_t secondary,
                                const uint8_t *payload, size_t payload_length,
                                uint8_t *out, size_t out_length);

/* Writes a reply on the wire, at most MOOR_REPLY_WIRE bytes.
 *
 * Refuses, every place being 0, with
 *   MOOR_LENGTH_OVER   if there are more than 16 data bytes;
 *   MOOR_OUTPUT_SHORT  if the exact length on the wire exceeds the output. */
moor_written moor_write_reply(const uint8_t *payload, size_t payload_length,
                              uint8_t *out, size_t out_length);

/* Judges a recorded run, through the SYN that ends its exchange; bytes behind
 * that are not looked at. When accepted, `command` starts with the accepted command, SRC
 * through check byte, and `reply_1` and `reply_2` with the reply attempts that
 * happened, LEN through check byte, NACKed ones included; all other bytes
 * stay. A command attempt that was NACKed is not kept. Bytes behind the 2^31st
 * are not looked at.
 *
 * The run may start in idle time. While the first command has no more than
 * SRC, a raw AA is idle time, also behind an A9: SRC and A9 are dropped, and
 * the command is looked for behind the AA. That makes no attempt, but the bytes
 * passed over count, in places and in `read`. Idle time alone ends with
 * MOOR_RUN_ENDED. A wrong SRC is refused before the AA behind it is looked at.
 * A command that comes again and a reply have no idle time before them.
 *
 * Refuses with
 *   MOOR_OUTPUT_SHORT    if `command` is under MOOR_COMMAND_ROOM bytes, or
 *                        `reply_1` or `reply_2` under MOOR_REPLY_ROOM, also
 *                        where this exchange would not use it;
 * and then the first that is met, byte by byte, of
 *   MOOR_RUN_ENDED to MOOR_LENGTH_OVER
 *                        as moor_telegram_at does, idle time passed over;
 *   MOOR_RUN_ENDED       if an acknowledge byte or SYN is missing;
 *   MOOR_SYN_EARLY       at an AA in place of an acknowledge byte;
 *   MOOR_CHECK_WRONG     at the check byte's first raw byte, when the attempt
 *                        is acknowledged by 00, for a broadcast at once;
 *   MOOR_COMMAND_NACKED, MOOR_REPLY_NACKED
 *                        at the second FF;
 *   MOOR_BUS_ERROR       at an acknowledge byte that is none of 00, FF, AA, or
 *                        at a byte other than AA where SYN is due. */
moor_judged moor_judge(const uint8_t *run, size_t run_length,
                       uint8_t *command, size_t command_length,
                       uint8_t *reply_1, size_t reply_1_length,
                       uint8_t *reply_2, size_t reply_2_length);

/* ---- eBUS: bytes as they arrive ------------------------------------------ */

/* The judge for bytes that come in runs: a state is made by moor_listen, fed
 * with one run after another by moor_feed, and asked for its answer by
 * moor_close. However a recording is cut into runs, the answer and the buffers
 * are those of moor_judge on the whole recording. */

/* A fresh state: nothing was heard. */
moor_listening moor_listen(void);

/* Feeds a run of any length. It is used up to the byte that settles the
 * exchange, that byte included, and not beyond the 2^31st byte of the
 * recording; a state that has answered uses none. Idle time before the command,
 * as moor_judge has it, is used and settles nothing, so that a state may be
 * made anywhere in idle time and fed from there on. At the limit nothing more is used
 * though the state has not answered. Never refuses. */
moor_fed moor_feed(moor_listening state, const uint8_t *run, size_t run_length);

/* Whether the answer is known, so that no more bytes are used. */
bool moor_has_answered(moor_listening state);

/* Closes the input: the answer to all bytes used so far, into buffers as
 * moor_judge takes them.
 *
 * Refuses with
 *   MOOR_OUTPUT_SHORT  as moor_judge does, also where the state holds a
 *                      refusal; the state given back is then the one handed
 *                      in, as if it had not been closed;
 * and else as moor_judge does. MOOR_RUN_ENDED is given where the answer is
 * not known yet; its place is the number of bytes used. Every answer but
 * MOOR_OUTPUT_SHORT gives back a state that has answered: it uses no more
 * bytes, and closed again it gives the same answer. */
moor_closed moor_close(moor_listening state,
                       uint8_t *command, size_t command_length,
                       uint8_t *reply_1, size_t reply_1_length,
                       uint8_t *reply_2, size_t reply_2_length);

/* Where the data of the reply attempt asked for stands in the buffers that
 * moor_judge or moor_close filled. Ask with the reply attempts that it gave.
 *
 * Never refuses. A reply with LEN 0 has its data behind LEN like any other
 * (start 1, length 0). Where there is no such data it is the empty start of
 * the first buffer (attempt 1, start 0, length 0): for an attempt other than 1
 * and 2, an empty buffer, a LEN over 16 or data that would pass the buffer's
 * end. */
moor_part moor_reply_data(const uint8_t *reply_1, size_t reply_1_length,
                          const uint8_t *reply_2, size_t reply_2_length,
                          uint8_t attempt);

/* ---- eBUS: captures ------------------------------------------------------ */

/* Where the next exchange of a capture of any length stands, from position
 * `at` on.
 *
 * A raw AA is always SYN, so that SYN parts one exchange from the next. Idle
 * time, as moor_judge has it (any number of pieces AA, A9 AA, S AA and
 * S A9 AA, S an initiator's address), is passed over; the first byte behind it
 * is `start`. The stretch from there goes on through the next AA, and where
 * there is none to the end of the capture; `end` is the position behind it,
 * from which the exchange after it is looked for. Where no exchange is left,
 * and where `at` is no position of the capture, both are `capture_length`.
 *
 * moor_judge on the stretch gives the answer; places count from `start`. An
 * exchange that is accepted is all of it. One that is refused is decided by one
 * of its bytes, and what stands behind that byte belongs to no exchange; or the
 * capture ends first, which is MOOR_RUN_ENDED. moor_feed of a fresh state uses
 * just the exchange's bytes of its stretch. So a capture is walked by
 *
 *     moor_stretch e = moor_next_exchange(capture, length, 0);
 *     while (e.start < e.end) {
 *         moor_judged judged = moor_judge(capture + e.start, e.end - e.start,
 *                                         command, sizeof command, ..);
 *         e = moor_next_exchange(capture, length, e.end);
 *     }
 *
 * Never refuses. */
moor_stretch moor_next_exchange(const uint8_t *capture, size_t capture_length,
                                size_t at);

/* ---- Fast Modbus: scan frames ------------------------------------------- */

/* What a request frame asks; it must fill the input.
 *
 * Refuses with
 *   MOOR_FRAME_LENGTH      if there are fewer than 5 bytes;
 *   MOOR_FRAME_HEAD;
 *   MOOR_SUBCOMMAND_WRONG  if it is neither 01 nor 02;
 *   MOOR_FRAME_LENGTH      if there are more than 5 bytes;
 *   MOOR_FRAME_CHECK. */
moor_request_read moor_read_request(const uint8_t *input, size_t input_length);

/* What an answer frame says; up to MOOR_MOST_FILL leading FF are passed over
 * and counted, and the frame must fill the rest. The address is reported as
 * sent, any byte.
 *
 * Refuses (places count the leading FF, but for MOOR_FRAME_LENGTH, whose place
 * is 0) with
 *   MOOR_FILL_OVER         if there is one FF more;
 *   MOOR_FRAME_LENGTH      if fewer than 5 bytes are left;
 *   MOOR_FRAME_HEAD;
 *   MOOR_SUBCOMMAND_WRONG  if it is neither 03 nor 04;
 *   MOOR_FRAME_LENGTH      if not 10 bytes are left for 03, 5 for 04;
 *   MOOR_FRAME_CHECK;
 *   MOOR_SERIAL_OVER. */
moor_answer_read moor_read_answer(const uint8_t *input, size_t input_length);

/* Writes a request frame, MOOR_START or MOOR_CONTINUE: 5 bytes.
 *
 * Refuses, every place being 0, with
 *   MOOR_SUBCOMMAND_WRONG  for any other request;
 *   MOOR_OUTPUT_SHORT      if the output is under 5 bytes. */
moor_written moor_write_request(uint8_t request, uint8_t *out, size_t out_length);

/* Writes the answer of a device found: 10 bytes.
 *
 * Refuses, every place being 0, with
 *   MOOR_SERIAL_OVER;
 *   MOOR_OUTPUT_SHORT  if the output is under 10 bytes. */
moor_written moor_write_found(uint32_t serial, uint8_t address,
                              uint8_t *out, size_t out_length);

/* Writes the answer that ends a scan: 5 bytes.
 *
 * Refuses with
 *   MOOR_OUTPUT_SHORT  if the output is under 5 bytes. */
moor_written moor_write_end(uint8_t *out, size_t out_length);

/* ---- Fast Modbus: the devices' side ------------------------------------- */

/* A device table is three columns: serial, address, and a scanned mark. It is
 * valid when the columns are equally long, at most MOOR_MOST_DEVICES, the
 * serials are below 2^28 and differ, and the marks are 0 or 1. Equal addresses
 * are allowed. Of the three columns the calls below change only the marks. */

/* Whether a device table is valid. */
bool moor_table_valid(const uint32_t *serials, size_t serials_length,
                      const uint8_t *addresses, size_t addresses_length,
                      const uint8_t *marks, size_t marks_length);

/* The contest of 32-bit keys over 32 windows, high bit first: the smallest
 * remains. A window is dominant when a device that is still in the contest has
 * a 0 there. Where nobody contends, key and dominant windows are 0. A device's
 * key is its serial, with the four high bits set once it is scanned. Never
 * refuses. */
moor_decided moor_contest(const uint32_t *keys, size_t keys_length);

/* A start: all marks become 0, then all devices contend, and the one that
 * remains answers and is marked. The answer is one FF for each dominant window
 * and then the frame; length 0 is silence, which an empty table gives.
 *
 * Refuses with
 *   MOOR_OUTPUT_SHORT     if the answer buffer is under MOOR_ANSWER_ROOM
 *                         bytes, also where the answer would be shorter;
 *   MOOR_TABLE_NOT_VALID. */
moor_written moor_start(const uint32_t *serials, size_t serials_length,
                        const uint8_t *addresses, size_t addresses_length,
                        uint8_t *marks, size_t marks_length,
                        uint8_t *answer, size_t answer_length);

/* A continue: all devices contend with the marks as they stand. A device that
 * was not marked answers as in a start; one that was answers with the end of
 * the scan, and nothing changes.
 *
 * Refuses as moor_start does. */
moor_written moor_resume(const uint32_t *serials, size_t serials_length,
                         const uint8_t *addresses, size_t addresses_length,
                         uint8_t *marks, size_t marks_length,
                         uint8_t *answer, size_t answer_length);

/* A raw frame offered to the devices: the start or continue that it names.
 *
 * Refuses as moor_start does, and then as moor_read_request does. */
moor_written moor_offer(const uint8_t *frame, size_t frame_length,
                        const uint32_t *serials, size_t serials_length,
                        const uint8_t *addresses, size_t addresses_length,
                        uint8_t *marks, size_t marks_length,
                        uint8_t *answer, size_t answer_length);

/* A whole scan: a start, then continues, until the end, silence or `cap`
 * requests. The serials and addresses heard stand at the start of the two
 * lists, in the order heard; entries behind them stay. A scan of n devices, n
 * at least 1, is complete after n + 1 requests; of none it ends with MOOR_NOBODY
 * after 1. With cap 0 nothing is sent and nothing changes (MOOR_UNFINISHED, 0
 * requests). MOOR_UNFINISHED leaves lists and marks as after that many requests.
 * `skipped` counts the FF of every answer heard, one for each window that was
 * dominant in its contest, so at most MOOR_MOST_FILL for each request.
 *
 * Refuses with
 *   MOOR_OUTPUT_SHORT     if a list is shorter than the serial column;
 *   MOOR_TABLE_NOT_VALID. */
moor_scanned moor_scan(const uint32_t *serials, size_t serials_length,
                       const uint8_t *addresses, size_t addresses_length,
                       uint8_t *marks, size_t marks_length,
                       uint32_t *found_serials, size_t found_serials_length,
                       uint8_t *found_addresses, size_t found_addresses_length,
                       size_t cap);

/* ---- Fast Modbus: event frames ------------------------------------------ */

/* What an event request asks; it must fill the input, and each byte is
 * reported as sent.
 *
 * Refuses with
 *   MOOR_FRAME_LENGTH      if there are fewer than 5 bytes;
 *   MOOR_FRAME_HEAD;
 *   MOOR_SUBCOMMAND_WRONG  if it is not 10;
 *   MOOR_FRAME_LENGTH      if there are not 9 bytes;
 *   MOOR_FRAME_CHECK. */
moor_event_request_read moor_read_event_request(const uint8_t *input,
                                                size_t input_length);

/* Writes an event request: 9 bytes.
 *
 * Refuses with
 *   MOOR_OUTPUT_SHORT  if the output is under 9 bytes; place: 0. */
moor_written moor_write_event_request(uint8_t minimum, uint8_t most,
                                      uint8_t confirmed, uint8_t flag,
                                      uint8_t *out, size_t out_length);

/* What came back for an event request; up to MOOR_MOST_FILL leading FF are
 * passed over and counted, and the frame must fill the rest. A packet begins
 * with its sender's id, 1 to 247; that nobody has events, with FD. A packet's
 * events stay where they are: moor_event_at takes them apart, from `first` on,
 * `listed` times. Flag and number queued are reported as sent.
 *
 * Refuses (places count the leading FF, but for MOOR_FRAME_LENGTH, whose place
 * is 0) with
 *   MOOR_FILL_OVER         if there is one FF more;
 *   MOOR_FRAME_LENGTH      if fewer than 5 bytes are left;
 *   MOOR_FRAME_HEAD        if the first byte is neither FD nor an id, or the
 *                          second is not 46;
 *   MOOR_SUBCOMMAND_WRONG  if it is not 12 behind FD, 11 behind an id;
 *   MOOR_FRAME_LENGTH      if not 5 bytes are left for 12; for 11, if its events
 *                          do not have the bytes that it says, do not come out
 *                          even, or are more than it says are queued;
 *   MOOR_FRAME_CHECK. */
moor_events_read moor_read_events(const uint8_t *input, size_t input_length);

/* The event at a position of any bytes, where all of it is there. Never
 * refuses. */
moor_event moor_event_at(const uint8_t *input, size_t input_length, size_t at);

/* Writes the answer that nobody has events: 5 bytes.
 *
 * Refuses with
 *   MOOR_OUTPUT_SHORT  if the output is under 5 bytes; place: 0. */
moor_written moor_write_no_events(uint8_t *out, size_t out_length);

/* ---- Fast Modbus: event queues and polls -------------------------------- */

/* Beside the device table stand four columns: of each device the flag of its
 * next packet, 0 or 1; how many events its last packet had, 0 where none waits
 * for its confirmation; how many events are queued; and MOOR_SLOTS_LENGTH bytes
 * of slots, the oldest event first. Of a fresh device all of them are 0. A slot has MOOR_SLOT_LENGTH bytes: 1 where the event is
 * urgent and 0 where not, the number of its data bytes, its type, its
 * identifier, high byte first, and its data; bytes behind the data mean
 * nothing, and slots behind the queued ones neither.
 *
 * They are valid when the table is, the addresses, which are the ids here, are
 * 1 to 247 and differ, the four columns have as many entries as there are
 * devices, flags are 0 or 1, at most MOOR_MOST_QUEUED events are queued, the
 * last packet had no more than are queued, and each queued event is urgent (1)
 * or not (0) and has at most MOOR_MOST_DATA data bytes. */

/* Whether table and queues are valid. */
bool moor_queues_valid(const uint32_t *serials, size_t serials_length,
                       const uint8_t *addresses, size_t addresses_length,
                       const uint8_t *marks, size_t marks_length,
                       const uint8_t *flags, size_t flags_length,
                       const uint8_t *lasts, size_t lasts_length,
                       const uint8_t *counts, size_t counts_length,
                       const uint8_t *slots, size_t slots_length);

/* A new event for the device with this id, behind those that it has queued.
 * Its flag and its last packet stay. `urgent` is 0 for a normal event, and
 * anything else for an urgent one.
 *
 * Refuses, every place being 0, with
 *   MOOR_TABLE_NOT_VALID  if table and queues are not valid;
 *   MOOR_FRAME_LENGTH     if there is no such device, or the event has over
 *                         MOOR_MOST_DATA data bytes;
 *   MOOR_QUEUE_FULL. */
moor_added moor_add_event(const uint32_t *serials, size_t serials_length,
                          const uint8_t *addresses, size_t addresses_length,
                          const uint8_t *marks, size_t marks_length,
                          const uint8_t *flags, size_t flags_length,
                          const uint8_t *lasts, size_t lasts_length,
                          uint8_t *counts, size_t counts_length,
                          uint8_t *slots, size_t slots_length,
                          uint8_t id, uint8_t urgent, uint8_t kind,
                          uint16_t identifier,
                          const uint8_t *payload, size_t payload_length);

/* A poll. First the packet that it names is confirmed: where the device with
 * that id has sent a packet that is not confirmed yet, with that flag, its
 * events are dropped and its flag turns. All its slots behind the dropped ones
 * move to the start, and the last bytes stay as they were. Then the devices
 * contend over 12 windows: those with an id not below `minimum` whose oldest
 * event has at most `most` bytes on the wire, or who have none. The smallest
 * key remains: a marker in four bits, 15 where nothing is queued, 0 where any
 * queued event is urgent, else 1; and the id in eight. The winner sends as many
 * of its oldest events as fit into `most` bytes, and its entry of `lasts` becomes
 * how many they are; with nothing queued it says that nobody has events. Where
 * nobody contends there is silence. The answer is one FF for each dominant
 * window and then the frame; the bytes behind it stay.
 *
 * Refuses with
 *   MOOR_OUTPUT_SHORT     if the answer buffer is under MOOR_POLL_ROOM bytes,
 *                         also where the answer would be shorter;
 *   MOOR_TABLE_NOT_VALID  if table and queues are not valid. */
moor_polled moor_poll(uint8_t minimum, uint8_t most,
                      uint8_t confirmed, uint8_t flag,
                      const uint32_t *serials, size_t serials_length,
                      const uint8_t *addresses, size_t addresses_length,
                      const uint8_t *marks, size_t marks_length,
                      uint8_t *flags, size_t flags_length,
                      uint8_t *lasts, size_t lasts_length,
                      uint8_t *counts, size_t counts_length,
                      uint8_t *slots, size_t slots_length,
                      uint8_t *answer, size_t answer_length);

/* A raw event request offered to the devices.
 *
 * Refuses as moor_poll does, and then as moor_read_event_request does. */
moor_polled moor_offer_poll(const uint8_t *frame, size_t frame_length,
                            const uint32_t *serials, size_t serials_length,
                            const uint8_t *addresses, size_t addresses_length,
                            const uint8_t *marks, size_t marks_length,
                            uint8_t *flags, size_t flags_length,
                            uint8_t *lasts, size_t lasts_length,
                            uint8_t *counts, size_t counts_length,
                            uint8_t *slots, size_t slots_length,
                            uint8_t *answer, size_t answer_length);

/* ---- Railbus: packets --------------------------------------------------- */

/* A packet is text: RP, the address in two hex digits, a letter, the register in
 * two digits, for W, K, I and n the data in eight, and the checksum in two. R, S
 * and N have 9 characters, the others 17. Digits are upper case. */

/* What a packet says. It must fill the whole input.
 *
 * Refuses with
 *   MOOR_FRAME_LENGTH      if there are fewer than 9 characters; place: 0;
 *   MOOR_FRAME_HEAD        if it does not begin with RP; place: the first wrong;
 *   MOOR_SUBCOMMAND_WRONG  if the letter is none of the seven; place: 4;
 *   MOOR_FRAME_LENGTH      if there are not 9 or 17, as the letter has; place: 0;
 *   MOOR_DIGIT_WRONG       place: the first character that is no digit where one
 *                          is due;
 *   MOOR_FRAME_CHECK       if the checksum has its top bit set and is not that
 *                          of all characters before it; place: its first. */
moor_railbus_read moor_read_railbus(const uint8_t *input, size_t input_length);

/* Writes a packet with its checksum, the top bit set: 9 or 17 characters. `data`
 * is not looked at for R, S and N.
 *
 * Refuses, every place being 0, with
 *   MOOR_SUBCOMMAND_WRONG  if the letter is none of the seven;
 *   MOOR_OUTPUT_SHORT      if the packet is longer than the output. */
moor_written moor_write_railbus(uint8_t letter, uint8_t address, uint8_t reg,
                                uint32_t data,
                                uint8_t *out, size_t out_length);

/* ---- Railbus: a relay device -------------------------------------------- */

/* A relay device has MOOR_RELAY_REGISTERS registers and as many access bytes,
 * MOOR_ABSENT to MOOR_READ_WRITE; any other number of either, or another access
 * byte, is not valid. It remembers one write, which is handed in and handed
 * back. */

/* Whether registers and access bytes are those of a relay device. */
bool moor_relay_valid(const uint32_t *registers, size_t registers_length,
                      const uint8_t *access, size_t access_length);

/* A packet offered to the device with this address. A packet for another
 * address, and K, I, N and n, get no answer and change nothing. Reading or
 * writing an absent register is answered with N, and where its access byte
 * forbids it with n 07, before all else. A read is answered with K and what the
 * register holds. A write is answered with n. A copy of the write that runs, with
 * the same register and the same data, gets 02, and a copy of the one that has
 * finished 03; any other gets 08 while one runs, and else 01, and from then on it
 * is the one that runs. S is answered with n: 08 while a write runs, else 10, and
 * a finished one is forgotten. An answer has the device's address and the
 * packet's register; the bytes behind it stay. No register changes.
 *
 * Refuses with
 *   MOOR_OUTPUT_SHORT     if the answer buffer is under MOOR_RELAY_ROOM bytes,
 *                         also where there would be no answer; place: 0;
 *   MOOR_TABLE_NOT_VALID  if registers and access bytes are not valid; place: 0;
 * and then as moor_read_railbus does. */
moor_relayed moor_offer_railbus(uint8_t address,
                                const uint8_t *packet, size_t packet_length,
                                const uint32_t *registers, size_t registers_length,
                                const uint8_t *access, size_t access_length,
                                moor_remembered write,
                                uint8_t *answer, size_t answer_length);

/* The write that runs has finished: its register takes its data, whatever the
 * access byte says by now, and the answer is an I with the device's address, that
 * register and that data. Where none runs there is no answer, and nothing
 * changes.
 *
 * Refuses, every place being 0, with MOOR_OUTPUT_SHORT and MOOR_TABLE_NOT_VALID
 * as moor_offer_railbus does. */
moor_relayed moor_finish_railbus(uint8_t address,
                                 uint32_t *registers, size_t registers_length,
                                 const uint8_t *access, size_t access_length,
                                 moor_remembered write,
                                 uint8_t *answer, size_t answer_length);

#ifdef __cplusplus
}
#endif

#endif
