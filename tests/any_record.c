/*
 * Any bytes at all as a record, as a text of the line monitor, and as records of line bytes: every
 * call upon them refuses with a documented number and changes nothing, or answers; nothing beyond
 * what was lent is touched.
 *
 * Everything is lent in blocks of exactly the length that is given. "fenced" puts them against
 * pages that may not be touched, so that one byte too far ends the program, whoever compiled what
 * made it; "malloc" takes them from the heap, for a memory checker to watch.
 *
 *     any_record fenced|malloc ROUNDS
 */
#define _DEFAULT_SOURCE
#include "doljurven.h"

#include <stdio.h>
#include <stdlib.h>
#include <string.h>
#include <sys/mman.h>
#include <unistd.h>

enum { SLOT = 128, FIRST_SLOT = 20, COUNT = 19, HOMING = 106, NUMBERS = 23 };

static int fenced;
static unsigned long calls, surprises, given[NUMBERS], homes_found, buffers_replied;
static uint32_t of_buffers, of_imports, of_exports; /* the numbers that they gave, as bits */

/* ---------------------------------------------------------------- dice */

static uint64_t dice_state = 0x00D017C3;

static uint64_t throw_dice(void)
{
    uint64_t z = dice_state += 0x9E3779B97F4A7C15u;
    z = (z ^ (z >> 30)) * 0xBF58476D1CE4E5B9u;
    z = (z ^ (z >> 27)) * 0x94D049BB133111EBu;
    return z ^ (z >> 31);
}

static uint32_t below(uint32_t end)
{
    return (uint32_t)(throw_dice() % end);
}

static uint32_t pick(const uint32_t *from, size_t size)
{
    return from[below((uint32_t)(size / sizeof *from))];
}

#define PICK(...) pick((const uint32_t[]){__VA_ARGS__}, sizeof((const uint32_t[]){__VA_ARGS__}))

static void any_bytes(uint8_t *bytes, size_t len)
{
    for (size_t i = 0; i < len; i++)
        bytes[i] = (uint8_t)throw_dice();
}

/* ---------------------------------------------------------------- what is lent */

struct lent {
    uint8_t *bytes, *before, *pages;
    size_t len, mapped;
};

/* A block of exactly so many bytes, against the fence behind it or the one before it. */
static struct lent lend(size_t len)
{
    struct lent lent = {NULL, malloc(len + 1), NULL, len, 0};
    uint32_t to_the_end = below(2);
    if (fenced) {
        size_t page = (size_t)sysconf(_SC_PAGESIZE), inner = (len / page + 1) * page;
        lent.mapped = inner + 2 * page;
        lent.pages = mmap(NULL, lent.mapped, PROT_NONE, MAP_PRIVATE | MAP_ANONYMOUS, -1, 0);
        if (lent.pages == MAP_FAILED)
            abort();
        if (mprotect(lent.pages + page, inner, PROT_READ | PROT_WRITE) != 0)
            abort();
        lent.bytes = lent.pages + page + (to_the_end ? inner - len : 0);
    } else {
        lent.bytes = malloc(len);
    }
    if (lent.bytes == NULL || lent.before == NULL)
        abort();
    any_bytes(lent.bytes, len);
    return lent;
}

static void give_back(struct lent *lent)
{
    free(lent->before);
    if (fenced)
        munmap(lent->pages, lent->mapped);
    else
        free(lent->bytes);
}

static void remember(struct lent *lent)
{
    memcpy(lent->before, lent->bytes, lent->len);
}

static int unchanged_from(const struct lent *lent, size_t from)
{
    return memcmp(lent->bytes + from, lent->before + from, lent->len - from) == 0;
}

/* ---------------------------------------------------------------- verdicts */

static void surprise(const char *call, const char *what, uint32_t number)
{
    surprises++;
    printf("%s gave %lu: %s\n", call, (unsigned long)number, what);
}

/* The number is one of those that the call may give, which are written as bits. */
static void documented(const char *call, uint32_t number, uint32_t numbers)
{
    calls++;
    if (number >= NUMBERS || (numbers >> number & 1) == 0)
        surprise(call, "no such number", number);
    else
        given[number]++;
}

#define BIT(number) (1u << (number))

static int refused(uint32_t number)
{
    return number >= NMC_BAD_CHAIN;
}

/* A refusal leaves the record alone; after an answer the library still takes it. */
static void record_after(const char *call, struct lent *net, uint32_t number)
{
    uint8_t outputs[NMC_OUTPUTS_LEN];
    if (refused(number) && !unchanged_from(net, 0))
        surprise(call, "refused, and the record changed", number);
    if (!refused(number) && nmc_outputs(net->bytes, net->len, 0, outputs) != NMC_DONE)
        surprise(call, "the record is not taken any more", number);
}

/* What a call wrote into a room, and how much it says that it did. */
static void room_after(const char *call, struct lent *room, uint32_t number, size_t written)
{
    if (refused(number) && written != 0)
        surprise(call, "refused, and a length is reported", number);
    if (written > room->len)
        surprise(call, "more is reported than there is room", number);
    else if (!unchanged_from(room, written))
        surprise(call, "the room changed behind what is reported", number);
}

/* ---------------------------------------------------------------- every call upon a record */

static void call_byte(struct lent *net, uint8_t byte)
{
    struct lent room =
        lend(below(12) ? NMC_ROOM_LEN : PICK(0, 1, NMC_ROOM_LEN - 1, NMC_ROOM_LEN + 1));
    size_t written = 77;
    remember(net);
    remember(&room);
    uint32_t mark = PICK(0, 0, 0, 0, 0, 0, 0, 0, 1, 2, 0xFFFFFFFFu);
    uint32_t number = nmc_byte(net->bytes, net->len, mark, byte, room.bytes, room.len, &written);
    documented("byte", number,
               BIT(NMC_DONE) | BIT(NMC_FRAME) | BIT(NMC_DAMAGED) | BIT(NMC_BAD_FIELD) |
                   BIT(NMC_SHORT_ROOM) | BIT(NMC_BAD_RECORD));
    record_after("byte", net, number);
    room_after("byte", &room, number, written);
    give_back(&room);
}

/* Frames for an address, with no data or a little, and some noise; marks, now and then one. */
static void put_line(struct lent *bytes, struct lent *marks, uint32_t address)
{
    for (size_t at = 0; at < bytes->len;) {
        uint8_t frame[NMC_FRAME_LEN], data[2];
        size_t len = 1;
        any_bytes(data, sizeof data);
        frame[0] = (uint8_t)throw_dice();
        uint32_t code = PICK(2, 3, 5, 9, 11, 14, 14, 14, below(16)), data_len = below(3);
        if (below(6))
            nmc_write_frame(address, code, data, data_len, frame, sizeof frame, &len);
        for (size_t i = 0; i < len && at < bytes->len; i++)
            bytes->bytes[at++] = frame[i];
    }
    for (size_t i = 0; i < marks->len; i++)
        marks->bytes[i] = below(40) == 0;
    if (marks->len > 0 && below(8) == 0)
        marks->bytes[below((uint32_t)marks->len)] = (uint8_t)PICK(2, 3, 0x80, 0xFF);
}

/* The numbers that a buffer may give. */
static const uint32_t buffer_numbers = BIT(NMC_DONE) | BIT(NMC_BAD_FIELD) | BIT(NMC_SHORT_ROOM) |
                                       BIT(NMC_BAD_RECORD) | BIT(NMC_BAD_LIST);

static size_t hand_over(struct lent *net, struct lent *bytes, struct lent *marks, struct lent *room)
{
    size_t written = 77;
    remember(net);
    remember(bytes);
    remember(marks);
    remember(room);
    uint32_t number = nmc_bytes(net->bytes, net->len, bytes->bytes, bytes->len, marks->bytes,
                                marks->len, room->bytes, room->len, &written);
    documented("bytes", number, buffer_numbers);
    record_after("bytes", net, number);
    room_after("bytes", room, number, written);
    if (!unchanged_from(bytes, 0) || !unchanged_from(marks, 0))
        surprise("bytes", "the buffer changed", number);
    of_buffers |= number < NUMBERS ? BIT(number) : 0;
    return written;
}

/* A buffer of any lengths, with frames that the first module may hear. */
static void call_bytes(struct lent *net)
{
    enum { LONGEST = NMC_BUFFER_LEN + 6 };
    size_t station = FIRST_SLOT + 1 + below(2);
    uint32_t address = net->len > station ? net->bytes[station] : below(256);
    uint32_t len = PICK(0, 1, NMC_BUFFER_LEN, NMC_BUFFER_LEN, NMC_BUFFER_LEN + 1, below(LONGEST + 1));
    uint32_t other = PICK(0, len + 1, len > 0 ? len - 1 : 0, below(LONGEST + 1));
    uint32_t around = PICK(NMC_BUFFER_ROOM_LEN - 1, NMC_BUFFER_ROOM_LEN + 1, NMC_ROOM_LEN, 1, 0);
    struct lent bytes = lend(len);
    struct lent marks = lend(below(6) ? len : other);
    struct lent room = lend(below(6) ? NMC_BUFFER_ROOM_LEN : around);
    put_line(&bytes, &marks, address);
    buffers_replied += hand_over(net, &bytes, &marks, &room) > 0;
    give_back(&bytes);
    give_back(&marks);
    give_back(&room);
}

/* A sample for a module of this type, all of it in range. */
static void put_sample(uint8_t *samples, size_t place, uint8_t type)
{
    uint32_t count = (uint32_t)throw_dice();
    if (type == NMC_TYPE_SERVO) {
        uint32_t power = PICK(0, 1, 1, 1, 2), inputs = below(4);
        nmc_put_servo_sample(samples, place, count, power, 0x5A, inputs);
        any_bytes(samples + place * NMC_SAMPLE_LEN + 8, 2); /* not looked at */
    } else if (type == NMC_TYPE_STEPPER) {
        nmc_put_stepper_sample(samples, place, PICK(0, 0, 0, 1));
        any_bytes(samples + place * NMC_SAMPLE_LEN + 2, 8); /* not looked at */
    } else {
        nmc_put_io_sample(samples, place, PICK(0, below(4096), 4095), 1, 2, 3, count);
    }
}

/* A list for the chain that the record tells of, or nearly. */
static struct lent lend_list(const struct lent *net)
{
    uint32_t chain = net->len > COUNT ? net->bytes[COUNT] : below(34);
    uint32_t right = chain * NMC_SAMPLE_LEN;
    uint32_t other = PICK(0, 1, right > 0 ? right - 1 : 0, right + 1, right + 10, below(400));
    struct lent list = lend(below(6) ? right : other);
    size_t places = list.len / NMC_SAMPLE_LEN;
    for (size_t place = 0; place < places; place++) {
        size_t slot = FIRST_SLOT + SLOT * place;
        put_sample(list.bytes, place, slot < net->len ? net->bytes[slot] : 0);
    }
    for (uint32_t times = places > 0 ? PICK(0, 0, 1, 2) : 0; times > 0; times--) {
        uint32_t place = below((uint32_t)places), at = PICK(0, 1, 2, 7);
        any_bytes(list.bytes + NMC_SAMPLE_LEN * place + at, 1);
    }
    return list;
}

/* How many servos of a record are homing. */
static unsigned homing_in(const uint8_t *record)
{
    unsigned homing = 0;
    for (int place = 0; place < record[COUNT]; place++) {
        const uint8_t *slot = record + FIRST_SLOT + SLOT * place;
        homing += slot[0] == NMC_TYPE_SERVO && slot[HOMING] != 0;
    }
    return homing;
}

static void call_tick(struct lent *net)
{
    struct lent list = lend_list(net);
    remember(net);
    remember(&list);
    uint32_t number = nmc_tick(net->bytes, net->len, list.bytes, list.len);
    documented("tick", number,
               BIT(NMC_DONE) | BIT(NMC_BAD_PLACE) | BIT(NMC_BAD_FIELD) | BIT(NMC_BAD_RECORD) |
                   BIT(NMC_BAD_LIST));
    record_after("tick", net, number);
    if (number == NMC_DONE)
        homes_found += homing_in(net->before) - homing_in(net->bytes);
    if (!unchanged_from(&list, 0))
        surprise("tick", "the list changed", number);
    give_back(&list);
}

/* A call that tells something of a place in so many bytes: outputs and cause are of one kind. */
typedef uint32_t telling_call(const uint8_t *net, size_t net_len, uint32_t place, uint8_t *told);

static void call_telling(const char *name, telling_call *call, size_t len, struct lent *net)
{
    struct lent told = lend(len);
    remember(net);
    remember(&told);
    uint32_t place = PICK(0, 1, below(34), 0xFFFFFFFFu);
    uint32_t number = call(net->bytes, net->len, place, told.bytes);
    documented(name, number, BIT(NMC_DONE) | BIT(NMC_BAD_PLACE) | BIT(NMC_BAD_RECORD));
    if (!unchanged_from(net, 0))
        surprise(name, "the record changed", number);
    if (refused(number) && !unchanged_from(&told, 0))
        surprise(name, "refused, and what it tells changed", number);
    give_back(&told);
}

static void call_outputs(struct lent *net)
{
    call_telling("outputs", nmc_outputs, NMC_OUTPUTS_LEN, net);
}

static void call_cause(struct lent *net)
{
    call_telling("cause", nmc_cause, 1, net);
}

static uint8_t some_type(void)
{
    return (uint8_t)PICK(NMC_TYPE_SERVO, NMC_TYPE_IO, NMC_TYPE_STEPPER);
}

static void call_setup(struct lent *net)
{
    struct lent types = lend(PICK(0, 1, 2, 5, 32, 33, 200));
    for (size_t i = 0; i < types.len; i++)
        types.bytes[i] = below(40) ? some_type() : (uint8_t)throw_dice();
    remember(net);
    remember(&types);
    uint32_t number = nmc_setup(net->bytes, net->len, types.bytes, types.len);
    documented("setup", number,
               BIT(NMC_DONE) | BIT(NMC_BAD_CHAIN) | BIT(NMC_BAD_TYPE) | BIT(NMC_BAD_RECORD));
    record_after("setup", net, number);
    if (!unchanged_from(&types, 0))
        surprise("setup", "the types changed", number);
    give_back(&types);
}

/* A byte for Set Homing, mostly a good one. */
static uint8_t some_homing(void)
{
    uint32_t watched = PICK(1, 2, 3, 3, below(256)), stop = PICK(0, 0x04, 0x10, 0x20);
    return (uint8_t)(watched | stop);
}

/* A frame that the first module may hear, if the record is long enough to have one. */
static void call_frame(struct lent *net)
{
    uint8_t frame[NMC_FRAME_LEN], data[15];
    size_t frame_len = 0, station = FIRST_SLOT + 1 + below(2);
    uint32_t address = net->len > station ? net->bytes[station] : below(256);
    any_bytes(frame, sizeof frame);
    any_bytes(data, sizeof data);
    uint32_t code = below(16), data_len = PICK(0, 0, 1, 1, 2, 4, 5, 13, 15);
    if (code == 9)
        data[0] = some_homing();
    nmc_write_frame(address, code, data, data_len, frame, sizeof frame, &frame_len);
    for (size_t i = 0; i < frame_len; i++)
        call_byte(net, below(40) ? frame[i] : (uint8_t)throw_dice());
}

/* Some calls one after another, so that what is taken goes on from where it is. */
static void every_call(struct lent *net)
{
    call_outputs(net);
    call_tick(net);
    call_tick(net);
    call_frame(net);
    call_bytes(net);
    call_bytes(net);
    call_tick(net);
    call_outputs(net);
    call_cause(net);
    if (below(4) == 0)
        call_setup(net);
}

/* ---------------------------------------------------------------- calls without a record */

static void call_writer(void)
{
    struct lent data = lend(PICK(0, 1, below(16), 15, 16, 300));
    struct lent room = lend(PICK((uint32_t)data.len + 4, (uint32_t)data.len + 3, below(24), 0));
    size_t written = 77;
    remember(&data);
    remember(&room);
    uint32_t address = PICK(0, below(256), 255, 256, 0xFFFFFFFFu);
    uint32_t code = PICK(0, below(16), 15, 16, 0xFFFFFFFFu);
    uint32_t number =
        nmc_write_frame(address, code, data.bytes, data.len, room.bytes, room.len, &written);
    documented("writer", number, BIT(NMC_DONE) | BIT(NMC_BAD_FRAME) | BIT(NMC_SHORT_ROOM));
    room_after("writer", &room, number, written);
    if (number == NMC_DONE && written != data.len + 4)
        surprise("writer", "another length than that of the frame", number);
    if (!unchanged_from(&data, 0))
        surprise("writer", "the data changed", number);
    give_back(&data);
    give_back(&room);
}

static void call_reader(void)
{
    struct lent reply = lend(PICK(2, 2, below(22))), reading = lend(NMC_READING_LEN);
    uint8_t sum = 0;
    for (size_t i = 0; i + 1 < reply.len; i++)
        sum = (uint8_t)(sum + reply.bytes[i]);
    if (reply.len > 0 && below(2))
        reply.bytes[reply.len - 1] = sum;
    remember(&reply);
    uint32_t type = PICK(0, 2, 2, 3, 3, 1, 0xFFFFFFFFu);
    uint8_t items = (uint8_t)PICK(0, 1, 2, 0x21, 0xFF, below(256));
    uint32_t number = nmc_read_status(type, items, reply.bytes, reply.len, reading.bytes);
    documented("status reader", number,
               BIT(NMC_DONE) | BIT(NMC_BAD_TYPE) | BIT(NMC_BAD_LENGTH) | BIT(NMC_BAD_SUM));
    for (size_t i = 0; refused(number) && i < reading.len; i++)
        if (reading.bytes[i] != 0)
            surprise("status reader", "refused, and the reading is not all 0", number);
    if (!unchanged_from(&reply, 0))
        surprise("status reader", "the reply changed", number);
    give_back(&reply);
    give_back(&reading);
}

/* ---------------------------------------------------------------- the line monitor's text */

enum { MOST_BYTES = 70, LINE_BYTE = 3, MOST_TEXT = 4 * MOST_BYTES };

static const uint32_t import_numbers = BIT(NMC_DONE) | BIT(NMC_SHORT_ROOM) | BIT(NMC_BAD_TEXT);
static const uint32_t export_numbers = BIT(NMC_DONE) | BIT(NMC_SHORT_ROOM) | BIT(NMC_BAD_RECORDS);

static size_t put_text(uint8_t *text, uint32_t bytes)
{
    static const char digits[] = "0123456789ABCDEFabcdef";
    size_t len = 0;
    for (uint32_t left = bytes; left > 0; left--) {
        uint32_t high = below(22), low = below(22);
        text[len++] = (uint8_t)digits[high];
        text[len++] = (uint8_t)digits[low];
        if (below(10) == 0)
            text[len++] = '!';
        text[len++] = left == 1 || below(20) == 0 ? '\n' : ' ';
    }
    return len;
}

static size_t put_line_bytes(uint8_t *records, uint32_t bytes)
{
    for (uint32_t i = 0; i < bytes; i++) {
        records[LINE_BYTE * i] = 1;
        records[LINE_BYTE * i + 1] = below(10) == 0;
        records[LINE_BYTE * i + 2] = (uint8_t)throw_dice();
    }
    return LINE_BYTE * bytes;
}

/* What was put, as it is, or with another byte somewhere, or cut; or any bytes of that length. */
static struct lent lend_spoiled(const uint8_t *good, size_t len)
{
    uint32_t kind = below(8);
    struct lent lent = lend(kind == 0 ? below((uint32_t)len + 1) : len);
    if (kind == 1)
        return lent;
    memcpy(lent.bytes, good, lent.len);
    if (kind < 4 && lent.len > 0) {
        uint32_t at = below((uint32_t)lent.len);
        lent.bytes[at] = (uint8_t)PICK(' ', '!', '\n', '\r', 'g', 2, below(256));
    }
    return lent;
}

/* A room for so much, or for a little less or more, or none. */
static struct lent lend_room(uint32_t needed)
{
    return lend(below(3) ? needed : PICK(0, needed > 0 ? needed - 1 : 0, needed + 1, needed / 2));
}

static size_t count_in(const struct lent *lent, size_t from, size_t each, uint8_t byte)
{
    size_t count = 0;
    for (size_t i = from; i < lent->len; i += each)
        count += lent->bytes[i] == byte;
    return count;
}

static void call_import(void)
{
    uint8_t good[MOST_TEXT];
    uint32_t bytes = PICK(0, 1, 16, below(MOST_BYTES + 1));
    size_t len = put_text(good, bytes), written = 77, offset = 77;
    struct lent text = lend_spoiled(good, len), room = lend_room(LINE_BYTE * bytes);
    remember(&text);
    remember(&room);
    uint32_t number =
        nmc_import_text(text.bytes, text.len, room.bytes, room.len, &written, &offset);
    documented("import", number, import_numbers);
    room_after("import", &room, number, written);
    if (number == NMC_BAD_TEXT ? offset > text.len : offset != 0)
        surprise("import", "another offset", number);
    if (number == NMC_DONE && written != text.len - count_in(&text, 0, 1, '!'))
        surprise("import", "another length than that of the records", number);
    if (!unchanged_from(&text, 0))
        surprise("import", "the text changed", number);
    of_imports |= number < NUMBERS ? BIT(number) : 0;
    give_back(&text);
    give_back(&room);
}

static void call_export(void)
{
    uint8_t good[LINE_BYTE * MOST_BYTES];
    uint32_t bytes = PICK(0, 1, 16, below(MOST_BYTES + 1));
    size_t len = put_line_bytes(good, bytes), written = 77;
    struct lent records = lend_spoiled(good, len);
    uint32_t marks = (uint32_t)count_in(&records, 1, LINE_BYTE, 1);
    struct lent room = lend_room(LINE_BYTE * bytes + marks);
    remember(&records);
    remember(&room);
    uint32_t number = nmc_export_text(records.bytes, records.len, room.bytes, room.len, &written);
    documented("export", number, export_numbers);
    room_after("export", &room, number, written);
    if (number == NMC_DONE && written != records.len + marks)
        surprise("export", "another length than that of the text", number);
    if (!unchanged_from(&records, 0))
        surprise("export", "the records changed", number);
    of_exports |= number < NUMBERS ? BIT(number) : 0;
    give_back(&records);
    give_back(&room);
}

/* ---------------------------------------------------------------- records */

/* Four bytes of a number that is at most so large, with or without a sign. */
static void put_within(uint8_t *at, uint32_t most, int may_be_negative)
{
    uint32_t number = PICK(0, 1, most, below(most + 1));
    if (may_be_negative && below(2))
        number = 0u - number;
    for (int i = 0; i < 4; i++)
        at[i] = (uint8_t)(number >> 8 * i);
}

/* Whatever the slot holds, its fields brought into their ranges: docs/RECORD.md. */
static void range_servo(uint8_t *slot)
{
    static const uint8_t flags[] = {3, 4, 44, 45, 46, 48, 53, 55, 99, 100, 101};
    static const uint8_t high_bytes[] = {24, 26, 28, 30};
    const uint32_t rate = 83886080u;
    for (size_t i = 0; i < sizeof flags; i++)
        slot[flags[i]] &= 1;
    for (size_t i = 0; i < sizeof high_bytes; i++)
        slot[high_bytes[i]] &= 0x7F;
    slot[0] = NMC_TYPE_SERVO;
    slot[5] &= 3;
    slot[8] = (uint8_t)PICK(0, 1, 1, 1, 1, 2);
    slot[14] &= 3;
    slot[33] &= 0x3F;
    put_within(slot + 36, rate, 0);
    put_within(slot + 40, rate - 1, 0);
    slot[40] |= 1; /* a loaded acceleration is not 0 */
    slot[47] %= 3;
    slot[90] = slot[8] == 0 ? 0 : (uint8_t)below(5);
    put_within(slot + 62, slot[90] >= 3 ? rate : 0, 1);
    put_within(slot + 70, rate, 1);
    put_within(slot + 74, rate, 0);
    put_within(slot + 78, rate, 0);
    put_within(slot + 82, slot[90] >= 2 ? 32767 : 0, 1);
    put_within(slot + 86, slot[90] >= 2 ? 16383 : 0, 1);
    put_within(slot + 91, slot[90] == 1 ? 255 : 0, 1);
    put_within(slot + 95, slot[90] != 0 && slot[8] == 1 ? 255 : 0, 1);
    if (slot[90] != 0)
        slot[99] = 0;
    if (slot[90] < 2)
        slot[101] = 0;
    slot[HOMING] = (uint8_t)PICK(0, 0x01, 0x05, 0x12, 0x23); /* every stop */
}

static void range_io(uint8_t *slot)
{
    static const uint8_t high_bytes[] = {9, 18, 20, 24, 29};
    slot[0] = NMC_TYPE_IO;
    slot[3] &= 1;
    slot[4] &= 1;
    slot[5] &= 3;
    for (size_t i = 0; i < sizeof high_bytes; i++)
        slot[high_bytes[i]] &= 0x0F;
}

static void range_stepper(uint8_t *slot)
{
    static const uint8_t flags[] = {3, 4, 8, 18, 19, 23, 27};
    for (size_t i = 0; i < sizeof flags; i++)
        slot[flags[i]] &= 1;
    slot[0] = NMC_TYPE_STEPPER;
    slot[5] %= 6;
    slot[6] &= 0x21;
    slot[9] = (uint8_t)PICK(0, 1, 5, 250, below(251));
    slot[20] %= 251;
    slot[22] = (uint8_t)PICK(slot[9], 250, below(251)); /* speed */
    slot[24] = (uint8_t)PICK(slot[9], 250, below(251)); /* goal */
    slot[25] |= 1;                                      /* T is not 0 */
    slot[26] %= slot[25];
    if (below(3) == 0)
        memset(slot + 22, 0, 6); /* at rest */
}

/* Random bytes with every field in its range; what fields ask of each other is left to the dice. */
static void range_record(struct lent *net)
{
    uint8_t *bytes = net->bytes;
    bytes[COUNT] = (uint8_t)PICK(1, 2, 3, 32, 1 + below(32));
    if (below(2))
        memset(bytes, 0, COUNT);
    bytes[17] = bytes[17] ? (uint8_t)(1 + below(3u + (bytes[16] >> 4))) : 0;
    bytes[18] &= 1;
    if (bytes[17] == 0)
        memset(bytes, 0, COUNT);
    for (int place = 0; place < bytes[COUNT]; place++) {
        uint8_t *slot = bytes + FIRST_SLOT + SLOT * place;
        switch (some_type()) {
        case NMC_TYPE_SERVO:
            range_servo(slot);
            break;
        case NMC_TYPE_IO:
            range_io(slot);
            break;
        default:
            range_stepper(slot);
        }
    }
}

/* A record that was reached from setup. */
static void reach_record(struct lent *net)
{
    uint8_t types[NMC_MOST_MODULES], frame[NMC_FRAME_LEN], data[15], room[NMC_ROOM_LEN];
    uint8_t samples[NMC_MOST_MODULES * NMC_SAMPLE_LEN] = {0};
    size_t chain = PICK(1, 2, 3, 32), frame_len, written;
    for (size_t i = 0; i < chain; i++)
        samples[i * NMC_SAMPLE_LEN] = types[i] = some_type();
    if (nmc_setup(net->bytes, net->len, types, chain) != NMC_DONE)
        surprise("setup", "of a good chain", NMC_DONE);
    for (int frames = 0; frames < 12; frames++) {
        size_t place = below((uint32_t)chain);
        any_bytes(data, sizeof data);
        data[0] = (uint8_t)PICK(data[0], place + 1, 0x97, 0x36, 0xC8, 0x11, 0x05, 0x86);
        uint32_t address = PICK(0, 0, 0xFF, below(6));
        uint32_t code = PICK(1, 1, 4, 5, 6, 7, 9, 11, below(16)), data_len = below(16);
        if (code == 9) {
            data[0] = some_homing();
            data_len = 1;
        }
        nmc_write_frame(address, code, data, data_len, frame, sizeof frame, &frame_len);
        for (size_t i = 0; i < frame_len; i++)
            nmc_byte(net->bytes, net->len, 0, frame[i], room, sizeof room, &written);
        uint32_t raw = below(100), inputs = below(4);
        if (types[place] == NMC_TYPE_SERVO)
            nmc_put_servo_sample(samples, place, raw, 1, 0, inputs);
        if (nmc_tick(net->bytes, net->len, samples, chain * NMC_SAMPLE_LEN) != NMC_DONE)
            surprise("tick", "with a good list", NMC_DONE);
    }
}

/* 32 modules that all reply to one address with all items: sixteen frames fill a buffer's room. */
static void fill_room(struct lent *net)
{
    enum { ADDRESS = 7, FRAME = 4 };
    uint8_t types[NMC_MOST_MODULES], frame[NMC_FRAME_LEN];
    struct lent bytes = lend(NMC_BUFFER_LEN), marks = lend(NMC_BUFFER_LEN);
    struct lent room = lend(NMC_BUFFER_ROOM_LEN);
    size_t len;
    for (size_t i = 0; i < NMC_MOST_MODULES; i++)
        types[i] = (uint8_t)PICK(NMC_TYPE_SERVO, NMC_TYPE_IO);
    if (nmc_setup(net->bytes, net->len, types, NMC_MOST_MODULES) != NMC_DONE)
        surprise("setup", "of a good chain", NMC_DONE);
    for (size_t i = 0; i < NMC_MOST_MODULES; i++) {
        uint8_t *slot = net->bytes + FIRST_SLOT + SLOT * i;
        slot[1] = ADDRESS;
        slot[4] = 1; /* the next one hears */
        slot[6] = 0xFF;
    }
    nmc_write_frame(ADDRESS, 14, frame, 0, frame, sizeof frame, &len);
    for (size_t at = 0; at < bytes.len; at += FRAME)
        memcpy(bytes.bytes + at, frame, FRAME);
    memset(marks.bytes, 0, marks.len);
    if (hand_over(net, &bytes, &marks, &room) != NMC_BUFFER_ROOM_LEN)
        surprise("bytes", "the room is not filled", NMC_DONE);
    give_back(&bytes);
    give_back(&marks);
    give_back(&room);
}

static void change_some(struct lent *net)
{
    for (uint32_t times = 1 + below(3); times > 0; times--) {
        uint32_t at = below(below(2) ? FIRST_SLOT + SLOT : NMC_NET_LEN);
        net->bytes[at] = (uint8_t)PICK(0, 1, 2, 255, below(256));
    }
}

static void one_round(void)
{
    static const uint32_t lengths[] = {0, 1, NMC_NET_LEN - 1, NMC_NET_LEN, NMC_NET_LEN + 1};
    for (size_t i = 0; i < sizeof lengths / sizeof lengths[0]; i++) {
        struct lent net = lend(lengths[i]);
        every_call(&net);
        give_back(&net);
    }
    struct lent net = lend(NMC_NET_LEN);
    range_record(&net);
    every_call(&net);
    change_some(&net);
    every_call(&net);
    reach_record(&net);
    every_call(&net);
    change_some(&net);
    every_call(&net);
    fill_room(&net);
    give_back(&net);
    call_writer();
    call_reader();
    for (int times = 0; times < 5; times++) {
        call_import();
        call_export();
    }
}

int main(int argc, char **argv)
{
    if (argc != 3 || (strcmp(argv[1], "fenced") != 0 && strcmp(argv[1], "malloc") != 0)) {
        fprintf(stderr, "any_record fenced|malloc ROUNDS\n");
        return 2;
    }
    fenced = argv[1][0] == 'f';
    for (long rounds = strtol(argv[2], NULL, 10); rounds > 0; rounds--)
        one_round();
    printf("%lu calls, %lu surprises, %lu homes found, %lu buffers with replies; by number:", calls,
           surprises, homes_found, buffers_replied);
    for (uint32_t number = 0; number < NUMBERS; number++)
        if (number <= NMC_DAMAGED || refused(number)) {
            printf(" %lu: %lu", (unsigned long)number, given[number]);
            surprises += given[number] == 0; /* a number that never came was not tried */
        }
    surprises += homes_found == 0; /* nor was homing that found nothing */
    surprises += buffers_replied == 0;
    surprises += of_buffers != buffer_numbers;
    surprises += of_imports != import_numbers || of_exports != export_numbers;
    printf("\n");
    return surprises != 0;
}
