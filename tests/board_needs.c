/*
 * How much stack a board needs: every exported call runs on a stack of its own that is painted
 * before, over captures of the line, long chains in motion, frames of every code, and refusals. It
 * prints a line for each call: its name and the bytes from where its caller's stack ends to the
 * deepest byte that any such call has touched, on x86-64.
 *
 *     board_needs CAPTURE...
 */
#define _DEFAULT_SOURCE
#include "doljurven.h"

#include <stdio.h>
#include <stdlib.h>
#include <string.h>
#include <ucontext.h>

/* ---------------------------------------------------------------- a stack for each call */

enum call {
    SETUP,
    BYTE,
    BYTES,
    TICK,
    OUTPUTS,
    CAUSE,
    WRITE_FRAME,
    READ_STATUS,
    IMPORT_TEXT,
    EXPORT_TEXT,
    CALLS
};

static const char *const names[CALLS] = {
    "nmc_setup", "nmc_byte",        "nmc_bytes",       "nmc_tick",        "nmc_outputs",
    "nmc_cause", "nmc_write_frame", "nmc_read_status", "nmc_import_text", "nmc_export_text",
};

/* The numbers that a call may give, as bits. */
#define BIT(number) (1u << (number))
static const uint32_t documented[CALLS] = {
    [SETUP] = BIT(NMC_DONE) | BIT(NMC_BAD_CHAIN) | BIT(NMC_BAD_TYPE) | BIT(NMC_BAD_RECORD),
    [BYTE] = BIT(NMC_DONE) | BIT(NMC_FRAME) | BIT(NMC_DAMAGED) | BIT(NMC_BAD_FIELD) |
             BIT(NMC_SHORT_ROOM) | BIT(NMC_BAD_RECORD),
    [BYTES] = BIT(NMC_DONE) | BIT(NMC_BAD_FIELD) | BIT(NMC_SHORT_ROOM) | BIT(NMC_BAD_RECORD) |
              BIT(NMC_BAD_LIST),
    [TICK] = BIT(NMC_DONE) | BIT(NMC_BAD_PLACE) | BIT(NMC_BAD_FIELD) | BIT(NMC_BAD_RECORD) |
             BIT(NMC_BAD_LIST),
    [OUTPUTS] = BIT(NMC_DONE) | BIT(NMC_BAD_PLACE) | BIT(NMC_BAD_RECORD),
    [CAUSE] = BIT(NMC_DONE) | BIT(NMC_BAD_PLACE) | BIT(NMC_BAD_RECORD),
    [WRITE_FRAME] = BIT(NMC_DONE) | BIT(NMC_BAD_FRAME) | BIT(NMC_SHORT_ROOM),
    [READ_STATUS] = BIT(NMC_DONE) | BIT(NMC_BAD_TYPE) | BIT(NMC_BAD_LENGTH) | BIT(NMC_BAD_SUM),
    [IMPORT_TEXT] = BIT(NMC_DONE) | BIT(NMC_SHORT_ROOM) | BIT(NMC_BAD_TEXT),
    [EXPORT_TEXT] = BIT(NMC_DONE) | BIT(NMC_SHORT_ROOM) | BIT(NMC_BAD_RECORDS),
};

enum { STACK = 65536, PAINT = 0xA5, TEXT = 4096 };

static _Alignas(64) uint8_t stacks[CALLS][STACK];
static const uint8_t *callers_end[CALLS];
static uint32_t given[CALLS]; /* the numbers that came, as bits */

/* What the next call is lent and told. */
static uint8_t net[NMC_NET_LEN + 1], room[NMC_ROOM_LEN], buffer_room[NMC_BUFFER_ROOM_LEN];
static uint8_t buffer[NMC_BUFFER_LEN + 1], marks[NMC_BUFFER_LEN + 1];
static uint8_t types[NMC_MOST_MODULES + 1], data[16];
static uint8_t samples[(NMC_MOST_MODULES + 1) * NMC_SAMPLE_LEN];
static uint8_t outputs[NMC_OUTPUTS_LEN], frame[NMC_FRAME_LEN], reply[NMC_REPLY_LEN + 1];
static uint8_t reading[NMC_READING_LEN], cause, line_byte, items;
static uint8_t text[TEXT], records[TEXT], text_room[TEXT];
static size_t net_len, room_len, buffer_len, marks_len, buffer_room_len, samples_len, chain;
static size_t data_len, frame_room, reply_len, written;
static size_t text_len, records_len, text_room_len, offset;
static uint32_t mark, place, address, code, type, number;

static enum call wanted;

/* Where the caller's stack ends: above the return address and the kept frame pointer. */
static __attribute__((noinline)) const uint8_t *stack_end(void)
{
    return (const uint8_t *)__builtin_frame_address(0) + 16;
}

static void inside(void)
{
    callers_end[wanted] = stack_end();
    switch (wanted) {
    case SETUP:
        number = nmc_setup(net, net_len, types, chain);
        break;
    case BYTE:
        number = nmc_byte(net, net_len, mark, line_byte, room, room_len, &written);
        break;
    case BYTES:
        number = nmc_bytes(net, net_len, buffer, buffer_len, marks, marks_len, buffer_room,
                           buffer_room_len, &written);
        break;
    case TICK:
        number = nmc_tick(net, net_len, samples, samples_len);
        break;
    case OUTPUTS:
        number = nmc_outputs(net, net_len, place, outputs);
        break;
    case CAUSE:
        number = nmc_cause(net, net_len, place, &cause);
        break;
    case WRITE_FRAME:
        number = nmc_write_frame(address, code, data, data_len, frame, frame_room, &written);
        break;
    case READ_STATUS:
        number = nmc_read_status(type, items, reply, reply_len, reading);
        break;
    case IMPORT_TEXT:
        number = nmc_import_text(text, text_len, text_room, text_room_len, &written, &offset);
        break;
    default:
        number = nmc_export_text(records, records_len, text_room, text_room_len, &written);
    }
}

static uint32_t run(enum call call)
{
    static ucontext_t here, there;
    wanted = call;
    if (getcontext(&there) != 0)
        abort();
    there.uc_stack.ss_sp = stacks[call];
    there.uc_stack.ss_size = STACK;
    there.uc_link = &here;
    makecontext(&there, inside, 0);
    if (swapcontext(&here, &there) != 0)
        abort();
    if (number > 31 || (documented[call] & BIT(number)) == 0) {
        fprintf(stderr, "%s gave %lu\n", names[call], (unsigned long)number);
        exit(1);
    }
    given[call] |= BIT(number);
    return number;
}

/* ---------------------------------------------------------------- dice */

static uint32_t below(uint32_t end)
{
    static uint64_t state = 0x00D017C3;
    state = state * 6364136223846793005u + 1442695040888963407u;
    return (uint32_t)(state >> 33) % end;
}

static void any_bytes(uint8_t *bytes, size_t len)
{
    for (size_t i = 0; i < len; i++)
        bytes[i] = (uint8_t)below(256);
}

/* ---------------------------------------------------------------- calls as a board makes them */

static void surprise(const char *what)
{
    fprintf(stderr, "%s\n", what);
    exit(1);
}

/*
 * All line bytes come twice: singly, and then in a buffer with all others since the last one, on
 * the network as it was before them.
 */
static uint8_t net_before[sizeof net];

static void hand_over(void)
{
    static uint8_t net_after[sizeof net];
    memcpy(net_after, net, sizeof net);
    if (buffer_len > 0)
        memcpy(net, net_before, sizeof net);
    marks_len = buffer_len;
    if (run(BYTES) == NMC_DONE && memcmp(net, net_after, sizeof net) != 0)
        surprise("a buffer leaves another network than its bytes");
    memcpy(net, net_after, sizeof net);
    buffer_len = 0;
}

static uint32_t run_tick(void)
{
    hand_over();
    return run(TICK);
}

static uint32_t set_up(void)
{
    hand_over();
    net_len = NMC_NET_LEN;
    room_len = NMC_ROOM_LEN;
    buffer_room_len = NMC_BUFFER_ROOM_LEN;
    samples_len = chain * NMC_SAMPLE_LEN;
    memset(samples, 0, sizeof samples);
    for (size_t i = 0; i < chain && i < NMC_MOST_MODULES; i++)
        samples[i * NMC_SAMPLE_LEN] = types[i];
    return run(SETUP);
}

static uint32_t take_byte(uint8_t with_mark, uint8_t byte)
{
    if (buffer_len == NMC_BUFFER_LEN)
        hand_over();
    if (buffer_len == 0)
        memcpy(net_before, net, sizeof net);
    buffer[buffer_len] = byte;
    marks[buffer_len++] = with_mark;
    mark = with_mark;
    line_byte = byte;
    return run(BYTE);
}

/* A frame of the data bytes that stand ready; a mark is at one of its bytes, or past its end. */
static void send(uint32_t to, uint32_t with_code, size_t len, size_t marked_at)
{
    address = to;
    code = with_code;
    data_len = len;
    frame_room = sizeof frame;
    run(WRITE_FRAME);
    size_t bytes = written;
    for (size_t i = 0; i < bytes; i++)
        take_byte(i == marked_at, frame[i]);
}

enum { NO_MARK = NMC_FRAME_LEN, GROUP = 0xFF };

#define SEND(to, with_code, ...)                                  \
    do {                                                          \
        const uint8_t bytes_[] = {__VA_ARGS__};                   \
        memcpy(data, bytes_, sizeof bytes_);                      \
        send(to, with_code, sizeof bytes_, NO_MARK);              \
    } while (0)

static void outputs_and_causes(void)
{
    for (place = 0; place < chain; place++) {
        run(OUTPUTS);
        run(CAUSE);
    }
}

/* ---------------------------------------------------------------- captures */

enum { MODULE, LINE_BYTE, OF_SERVO, OF_IO, ONE_TICK, OF_STEPPER, KINDS };

static const uint8_t body_len[KINDS] = {1, 2, 8, 10, 0, 2};

static uint32_t number_at(const uint8_t *at, int bytes)
{
    uint32_t x = 0;
    while (bytes-- > 0)
        x = x << 8 | at[bytes];
    return x;
}

/* A bad sample is left to the tick. */
static void take_record(int kind, const uint8_t *b)
{
    switch (kind) {
    case LINE_BYTE:
        take_byte(b[0], b[1]);
        break;
    case OF_SERVO:
        if (b[0] < chain)
            nmc_put_servo_sample(samples, b[0], number_at(b + 3, 4), b[1], b[2], b[7]);
        break;
    case OF_IO:
        if (b[0] < chain)
            nmc_put_io_sample(samples, b[0], number_at(b + 1, 2), b[3], b[4], b[5],
                              number_at(b + 6, 4));
        break;
    case OF_STEPPER:
        if (b[0] < chain)
            nmc_put_stepper_sample(samples, b[0], b[1]);
        break;
    default:
        run_tick();
        outputs_and_causes();
    }
}

static void replay(const char *path)
{
    int running = 0;
    FILE *capture = fopen(path, "rb");
    if (!capture) {
        perror(path);
        exit(1);
    }
    chain = 0;
    for (int kind; (kind = getc(capture)) != EOF && kind < KINDS;) {
        uint8_t body[10];
        if (fread(body, 1, body_len[kind], capture) != body_len[kind])
            break;
        if (kind == MODULE) {
            if (running || chain == sizeof types)
                break;
            types[chain++] = body[0];
            continue;
        }
        if (!running && set_up() != NMC_DONE)
            break;
        running = 1;
        take_record(kind, body);
    }
    fclose(capture);
}

/* ---------------------------------------------------------------- long chains */

/* A full chain of one type, or of two, addressed 1 to 32, all of one group. */
static void address_all(uint8_t even, uint8_t odd)
{
    chain = NMC_MOST_MODULES;
    for (size_t i = 0; i < chain; i++)
        types[i] = i % 2 ? odd : even;
    set_up();
    for (size_t i = 0; i < chain; i++)
        SEND(0, 1, (uint8_t)(i + 1), GROUP);
    SEND(GROUP, 2, 0x21); /* every item in every reply: those of a stepper, and of the others all */
    SEND(GROUP, 2, 0xFF);
}

static void tick_at(uint32_t power)
{
    enum { FIRST_SLOT = 20, SLOT = 128, WHOLE_SETPOINT = 58 }; /* docs/RECORD.md */
    for (size_t i = 0; i < chain; i++) {
        /* a motor that is where it should be */
        uint32_t count = number_at(net + FIRST_SLOT + SLOT * i + WHOLE_SETPOINT, 4);
        uint8_t ad = (uint8_t)below(256);
        if (types[i] == NMC_TYPE_SERVO)
            nmc_put_servo_sample(samples, i, count, power, ad, ad & 3); /* what homes finds a switch */
        else if (types[i] == NMC_TYPE_IO)
            nmc_put_io_sample(samples, i, below(4096), ad, ad, ad, count);
        else
            nmc_put_stepper_sample(samples, i, power == 0);
    }
    run_tick();
}

static void ticks(int how_many)
{
    while (how_many-- > 0) {
        tick_at(1);
        outputs_and_causes();
    }
}

/* Power, gains, the motors on, and a trapezoid for each: some forward, some back, slow and fast. */
static void start_all(void)
{
    ticks(2);
    SEND(GROUP, 6, 100, 0, 100, 0, 10, 0, 255, 0, 255, 0, 0xFF, 0x3F, 1, 0, 1);
    SEND(GROUP, 7, 0x05);
    for (uint8_t i = 0; i < chain; i++) {
        uint8_t back = i % 2 ? 0xFF : 0;
        uint8_t whole = i % 7;
        SEND(i + 1u, 4, 0x97, i, 8 * i % 256, back, back, 0, i, whole, 0, i, 1, 0, 0);
        SEND(i + 1u, 3, 0xFF);
    }
}

/* Steppers with a minimum, some forward, some back, each with a T of its own. */
static void start_steppers(void)
{
    SEND(GROUP, 6, 0, 5, 0, 0, 0);
    for (uint8_t i = 0; i < chain; i++) {
        SEND(i + 1u, 4, i % 2 ? 0x9F : 0x8F, 1, 2, 3, 4, (uint8_t)(1 + 7 * i), (uint8_t)(1 + i), 5, 6, 7);
        SEND(i + 1u, 3, 0x21);
    }
}

/* Every code with every number of data bytes to all of a chain, from where it stands. */
static void every_frame(void)
{
    static const uint8_t first[] = {0x00, 0xFF, 0x97, 0x36, 0xB6, 0xC8, 0x11, 0x05, 0x23};
    static uint8_t before[NMC_NET_LEN];
    memcpy(before, net, sizeof before);
    for (uint32_t c = 0; c < 16; c++)
        for (size_t len = 0; len < 16; len++)
            for (size_t round = 0; round < 2 * sizeof first; round++) {
                memcpy(net, before, sizeof before);
                any_bytes(data, sizeof data);
                data[0] = first[round % sizeof first];
                if (round >= sizeof first)
                    memset(data + 3, 0, sizeof data - 3); /* small numbers, which are taken */
                send(below(4) ? GROUP : 1 + below(32), c, len, below(8) ? NO_MARK : below(19));
                ticks(1);
            }
    memcpy(net, before, sizeof before);
}

/* As many frames as can end in a buffer, and all modules reply to each. */
static void most_frames(size_t draws)
{
    for (uint8_t i = 0; i < chain; i++)
        SEND(i + 1u, 1, (uint8_t)(i + 1), GROUP & 0x7F); /* a leader */
    hand_over();
    for (size_t frames = 0; frames < NMC_BUFFER_LEN / 4; frames++)
        send(GROUP, 14, 0, NO_MARK);
    hand_over();
    if (number != NMC_DONE || written != NMC_BUFFER_LEN / 4 * draws)
        surprise("sixteen frames in a buffer draw other replies");
}

static void long_chains(void)
{
    address_all(NMC_TYPE_IO, NMC_TYPE_IO);
    every_frame();
    most_frames(NMC_ROOM_LEN);
    address_all(NMC_TYPE_SERVO, NMC_TYPE_IO);
    start_all();
    every_frame();
    most_frames(NMC_ROOM_LEN);
    address_all(NMC_TYPE_STEPPER, NMC_TYPE_IO);
    start_steppers();
    ticks(20);
    every_frame();
    address_all(NMC_TYPE_STEPPER, NMC_TYPE_STEPPER);
    start_steppers();
    ticks(20);
    SEND(GROUP, 7, 0x09);
    ticks(50);
    most_frames(NMC_MOST_MODULES * 8);
    tick_at(0); /* the stop inputs too */
    address_all(NMC_TYPE_SERVO, NMC_TYPE_SERVO);
    every_frame();
    start_all();
    ticks(20);
    every_frame();
    most_frames(NMC_ROOM_LEN);
    ticks(2000);
    for (uint32_t power = 0; power < 3; power++) /* it fails, comes back, is too high */
        tick_at(power);
}

/* ---------------------------------------------------------------- refusals, writer, reader */

/* A list of every other length, then one with another byte at one place after another. */
static void refused_lists(void)
{
    static uint8_t good[sizeof samples];
    memcpy(good, samples, sizeof good);
    for (samples_len = 0; samples_len <= sizeof samples; samples_len++)
        run(TICK);
    samples_len = chain * NMC_SAMPLE_LEN;
    for (size_t at = 0; at < samples_len; at++) {
        samples[at] = 0xFF;
        run(TICK);
        memcpy(samples, good, sizeof good);
    }
}

/* Lists of all lengths, then a buffer with a bad mark at one place after another, and short rooms. */
static void refused_buffers(void)
{
    memset(buffer, 0, sizeof buffer);
    memset(marks, 0, sizeof marks);
    for (buffer_len = 0; buffer_len <= sizeof buffer; buffer_len++)
        for (marks_len = 0; marks_len <= sizeof marks; marks_len++)
            run(BYTES);
    buffer_len = marks_len = NMC_BUFFER_LEN;
    for (size_t at = 0; at < NMC_BUFFER_LEN; at++) {
        marks[at] = 2;
        run(BYTES);
        marks[at] = 0;
    }
    static const size_t rooms[] = {0, NMC_ROOM_LEN, NMC_BUFFER_ROOM_LEN - 1};
    for (size_t i = 0; i < sizeof rooms / sizeof rooms[0]; i++) {
        buffer_room_len = rooms[i];
        run(BYTES);
    }
    buffer_room_len = NMC_BUFFER_ROOM_LEN;
    buffer_len = 0;
}

static void refused_calls(void)
{
    address_all(NMC_TYPE_SERVO, NMC_TYPE_IO);
    take_byte(2, 0);
    room_len--;
    take_byte(0, 0);
    room_len++;
    hand_over();
    refused_buffers();
    for (place = 0; place < 34; place++) {
        run(OUTPUTS);
        run(CAUSE);
    }
    refused_lists();
    for (int spoiled = 0; spoiled < 4; spoiled++) {
        static const size_t lengths[] = {0, NMC_NET_LEN - 1, NMC_NET_LEN + 1, NMC_NET_LEN};
        net_len = lengths[spoiled];
        net[19] = 33; /* no such chain */
        for (enum call call = BYTE; call <= CAUSE; call++)
            run(call);
        run(SETUP);
    }
    for (chain = 0; chain <= NMC_MOST_MODULES + 1; chain++) {
        memset(types, NMC_TYPE_SERVO, sizeof types);
        set_up();
        types[chain / 2] = 1;
        set_up();
    }
}

static void writer(void)
{
    for (address = 0; address <= 256; address += 16)
        for (code = 0; code <= 16; code++)
            for (data_len = 0; data_len <= sizeof data; data_len++)
                for (frame_room = 0; frame_room <= sizeof frame; frame_room++)
                    run(WRITE_FRAME);
}

static void reader(void)
{
    for (type = 0; type < 5; type++)
        for (uint32_t which = 0; which < 256; which++)
            for (reply_len = 0; reply_len <= sizeof reply; reply_len++) {
                items = (uint8_t)which;
                any_bytes(reply, sizeof reply);
                run(READ_STATUS);
                memset(reply, 0, sizeof reply); /* whose sum is right */
                run(READ_STATUS);
            }
}

/* ---------------------------------------------------------------- the line monitor's text */

enum { LINE_BYTE_LEN = 3 };

/* So many bytes, some of them marked, there and back. */
static void capture(size_t bytes)
{
    records_len = bytes * LINE_BYTE_LEN;
    any_bytes(records, records_len);
    for (size_t i = 0; i < records_len; i += LINE_BYTE_LEN) {
        records[i] = LINE_BYTE;
        records[i + 1] &= 1;
    }
    text_room_len = sizeof text_room;
    run(EXPORT_TEXT);
    text_len = written;
    memcpy(text, text_room, text_len);
    run(IMPORT_TEXT);
    if (number != NMC_DONE || written != records_len ||
        memcmp(text_room, records, records_len) != 0)
        surprise("an exported text is imported otherwise");
}

/* Another character and another byte at one place after another, then cut there. */
static void refused_captures(void)
{
    for (size_t at = 0; at < text_len; at++) {
        uint8_t before = text[at];
        text[at] = '?';
        run(IMPORT_TEXT);
        text[at] = before;
    }
    for (size_t at = 0; at < records_len; at++) {
        records[at] ^= 2;
        run(EXPORT_TEXT);
        records[at] ^= 2;
    }
    for (; text_len > 0; text_len--)
        run(IMPORT_TEXT);
    for (; records_len > 0; records_len--)
        run(EXPORT_TEXT);
}

static void texts(void)
{
    for (size_t bytes = 0; bytes < 50; bytes++) {
        capture(bytes);
        text_room_len = bytes;
        run(IMPORT_TEXT);
        run(EXPORT_TEXT);
    }
    text_room_len = sizeof text_room;
    refused_captures();
    capture(TEXT / 4);
}

/* ---------------------------------------------------------------- what was found */

static int tell(enum call call)
{
    size_t untouched = 0;
    while (untouched < STACK && stacks[call][untouched] == PAINT)
        untouched++;
    printf("%s %ld\n", names[call], (long)(callers_end[call] - (stacks[call] + untouched)));
    if (untouched == 0)
        fprintf(stderr, "%s has used up its stack\n", names[call]);
    if (given[call] != documented[call]) /* a number that never came was not tried */
        fprintf(stderr, "%s never gave one of its numbers\n", names[call]);
    return untouched > 0 && given[call] == documented[call];
}

int main(int argc, char **argv)
{
    int good = argc > 1;
    memset(stacks, PAINT, sizeof stacks);
    for (int i = 1; i < argc; i++)
        replay(argv[i]);
    long_chains();
    refused_calls();
    writer();
    reader();
    texts();
    for (enum call call = SETUP; call < CALLS; call++)
        good &= tell(call);
    return !good;
}
