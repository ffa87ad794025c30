/*
 * A board with three I/O modules, and the host that starts it up as the I/O
 * module's manual tells and then puts it to work. Both ends of the line are in
 * this one program: the host's frames go byte by byte to the board's receive
 * interrupt, as a UART would hand them over; the board's main loop hands the
 * network all that has come, a buffer at a time, and sends out the replies.
 *
 * Every step is checked; the first surprise ends the program with status 1.
 */
#include "doljurven.h"

#include <stdio.h>
#include <stdlib.h>
#include <string.h>

enum { MODULES = 3 };

enum code {
    SET_DIRECTION = 0,
    SET_ADDRESS = 1,
    DEFINE_STATUS = 2,
    READ_STATUS = 3,
    SET_PWM = 4,
    SYNCH_OUTPUT = 5,
    SET_OUTPUT = 6,
    SET_SYNCH_OUTPUT = 7,
    SET_BAUD = 10,
    SYNCH_INPUT = 12,
    NO_OP = 14,
    HARD_RESET = 15
};

/* Status items, by their bits. */
enum { ITEM_INPUTS = 0x01, ITEM_TYPE_AND_VERSION = 0x20, ITEMS_CAPTURED = 0xC0, ITEMS_ALL = 0xFF };

static uint8_t net[NMC_NET_LEN];

static void check(int holds, const char *what)
{
    if (!holds) {
        printf("surprise: %s\n", what);
        exit(1);
    }
}

static void print_bytes(const char *who, const uint8_t *bytes, size_t len, const char *words)
{
    printf("  %-5s", who);
    for (size_t i = 0; i < len; i++)
        printf(" %02X", bytes[i]);
    if (words[0] != 0)
        printf("%*s%s", len < 9 ? (int)(9 - len) * 3 : 2, "", words);
    printf("\n");
}

/* ------------------------------------------------------------- the line */

/* What has come since the last buffer. A board whose interrupt comes at any time has two of them and swaps. */
static uint8_t buffer[NMC_BUFFER_LEN], marks[NMC_BUFFER_LEN];
static size_t collected;

/* What the board's receive interrupt does. */
static void receive(uint8_t byte, int error)
{
    check(collected < NMC_BUFFER_LEN, "more bytes between two ticks than a buffer holds");
    buffer[collected] = byte;
    marks[collected] = error ? 1 : 0;
    collected++;
}

static uint8_t replies[NMC_BUFFER_ROOM_LEN];
static size_t replied;

/* What the board's main loop does once between ticks, also where nothing has come. */
static void hand_over(void)
{
    check(nmc_bytes(net, sizeof net, buffer, collected, marks, collected, replies, sizeof replies,
                    &replied) == NMC_DONE,
          "a buffer was refused");
    collected = 0;
}

enum { NO_MARK = NMC_FRAME_LEN };

static void line(const uint8_t *bytes, size_t len, size_t marked_at)
{
    for (size_t i = 0; i < len; i++)
        receive(bytes[i], i == marked_at);
}

static void expect_cause(uint32_t place, uint8_t number)
{
    uint8_t cause;
    check(nmc_cause(net, sizeof net, place, &cause) == NMC_DONE, "the cause was refused");
    check(cause == number, "another cause");
}

/* Every module has executed the last frame that touched it. */
static void expect_no_fault(void)
{
    for (uint32_t place = 0; place < MODULES; place++)
        expect_cause(place, NMC_CAUSE_EXECUTED);
}

/* ------------------------------------------------------------- the host */

static const uint8_t none[1];

static uint8_t reading[NMC_READING_LEN];

/* Takes a reply apart; the status reader looks at its length and sum. */
static uint8_t read_one(uint8_t items, const uint8_t *reply, size_t len)
{
    check(nmc_read_status(NMC_TYPE_IO, items, reply, len, reading) == NMC_DONE,
          "the status reader refused the reply");
    return reading[0];
}

/* The only one that came. */
static uint8_t read_reply(uint8_t items)
{
    print_bytes("board", replies, replied, "");
    return read_one(items, replies, replied);
}

static void expect(const char *name, int item, uint32_t number)
{
    const uint8_t *b = reading + 1 + 4 * item;
    uint32_t found = b[0] | (uint32_t)b[1] << 8 | (uint32_t)b[2] << 16 | (uint32_t)b[3] << 24;
    printf("          %s 0x%lX\n", name, (unsigned long)found);
    check(found == number, name);
}

enum { NO_REPLY = -1 };

static size_t write_frame(uint8_t address, enum code code, const uint8_t *data, size_t data_len,
                          uint8_t *frame)
{
    size_t len;
    check(nmc_write_frame(address, code, data, data_len, frame, NMC_FRAME_LEN, &len) == NMC_DONE,
          "the frame was not written");
    return len;
}

/* Sends a frame, alone in its buffer. One module is to reply with these items and no fault, or nobody. */
static void send(const char *words, uint8_t address, enum code code, const uint8_t *data,
                 size_t data_len, int items)
{
    uint8_t frame[NMC_FRAME_LEN];
    size_t len = write_frame(address, code, data, data_len, frame);
    print_bytes("host", frame, len, words);
    line(frame, len, NO_MARK);
    hand_over();
    expect_no_fault();
    if (items == NO_REPLY) {
        printf("  (no reply)\n");
        check(replied == 0, "somebody replied");
    } else {
        check(read_reply((uint8_t)items) == 0, "the status byte tells of a fault");
    }
}

/* The same with the data bytes written out. */
#define SEND(words, address, code, items, ...)                           \
    do {                                                                 \
        const uint8_t data_[] = {__VA_ARGS__};                           \
        send(words, address, code, data_, sizeof data_, items);          \
    } while (0)

/* ------------------------------------------------------------- the board's pins */

/* What the board's ports, converters and counters hold for each place. */
struct pins {
    uint32_t inputs;
    uint8_t ad1, ad2, ad3;
    uint32_t counter;
};
static struct pins pins[MODULES];

static void measure(uint32_t place, uint32_t inputs, uint8_t ad1, uint8_t ad2, uint8_t ad3, uint32_t counter)
{
    pins[place] = (struct pins){inputs, ad1, ad2, ad3, counter};
    printf("  board measures at place %lu: inputs 0x%03lX, A/D %02X %02X %02X, counter 0x%lX\n",
           (unsigned long)place, (unsigned long)inputs, ad1, ad2, ad3, (unsigned long)counter);
}

/* What the board's timer interrupt does, at the control rate: a sample of every place, and the tick. */
static void tick(void)
{
    uint8_t samples[MODULES * NMC_SAMPLE_LEN];
    for (size_t place = 0; place < MODULES; place++) {
        const struct pins *p = &pins[place];
        nmc_put_io_sample(samples, place, p->inputs, p->ad1, p->ad2, p->ad3, p->counter);
    }
    check(nmc_tick(net, sizeof net, samples, sizeof samples) == NMC_DONE, "a tick was refused");
    printf("  board ticks\n");
}

static void expect_driven(uint32_t place, uint32_t pins, uint32_t register_, uint8_t pwm1, uint8_t pwm2)
{
    uint8_t o[NMC_OUTPUTS_LEN];
    check(nmc_outputs(net, sizeof net, place, o) == NMC_DONE, "the outputs were refused");
    uint32_t inputs = o[0] | (uint32_t)o[1] << 8;
    uint32_t bits = o[2] | (uint32_t)o[3] << 8;
    printf("  board drives at place %lu: pins 0x%03lX as 0x%03lX, PWM %02X %02X\n", (unsigned long)place,
           (unsigned long)(~inputs & 0xFFF), (unsigned long)(bits & ~inputs), o[4], o[5]);
    check((~inputs & 0xFFF) == pins, "other pins are outputs");
    check((bits & ~inputs) == register_, "other outputs are set");
    check(o[4] == pwm1 && o[5] == pwm2, "other PWMs");
    check(o[6] == 0 && o[7] == 0, "the last two bytes are not 0");
}

/* ------------------------------------------------------------- the session */

static void start_up(void)
{
    const uint8_t types[MODULES] = {NMC_TYPE_IO, NMC_TYPE_IO, NMC_TYPE_IO};
    const uint8_t nulls[16] = {0};
    uint8_t frame[NMC_FRAME_LEN];

    printf("The board sets up three I/O modules.\n");
    check(nmc_setup(net, sizeof net, types, MODULES) == NMC_DONE, "setup was refused");

    printf("\nThe host was switched off in the middle of a frame. It begins with sixteen nulls.\n");
    write_frame(5, SET_ADDRESS, nulls, 15, frame);
    print_bytes("host", frame, 3, "breaks off");
    line(frame, 3, NO_MARK);
    hand_over();
    check(replied == 0, "somebody replied to a part of a frame");
    print_bytes("host", nulls, sizeof nulls, "");
    line(nulls, sizeof nulls, NO_MARK);
    hand_over();
    check(replied == 0, "somebody replied to a frame for nobody");
    expect_no_fault(); /* and that the nulls filled it up, the next frame will show */

    printf("\nIt addresses the modules one after another, all members of group FF.\n");
    SEND("Set Address 1", 0, SET_ADDRESS, 0, 1, 0xFF);
    SEND("Set Address 2", 0, SET_ADDRESS, 0, 2, 0xFF);
    SEND("Set Address 3", 0, SET_ADDRESS, 0, 3, 0xFF);
    SEND("Set Address 4: there is no fourth", 0, SET_ADDRESS, NO_REPLY, 4, 0xFF);

    printf("\nIt asks each for its type and version.\n");
    for (uint8_t address = 1; address <= MODULES; address++) {
        SEND("Read Status", address, READ_STATUS, ITEM_TYPE_AND_VERSION, ITEM_TYPE_AND_VERSION);
        expect("version and type", 5, 0x0102);
    }

    printf("\nIt sets the baud rate of all; nobody leads the group.\n");
    SEND("Set Baud 115200", 0xFF, SET_BAUD, NO_REPLY, 10);

    printf("\nIt calls on each at the new rate.\n");
    for (uint8_t address = 1; address <= MODULES; address++)
        send("No Op", address, NO_OP, none, 0, 0);
}

static void directions_and_outputs(void)
{
    printf("\nModules 1 and 2 become group 81, led by 1.\n");
    SEND("Set Address 1, leader", 1, SET_ADDRESS, 0, 1, 0x01);
    SEND("Set Address 2, member", 2, SET_ADDRESS, 0, 2, 0x81);

    printf("\nDirections and outputs. Module 1: bits 1 to 8 out, 9 to 12 in. Module 2: all out.\n");
    SEND("Set Direction", 1, SET_DIRECTION, 0, 0x00, 0x0F);
    SEND("Set Direction", 2, SET_DIRECTION, 0, 0x00, 0x00);
    SEND("Set Output 0xFA5", 1, SET_OUTPUT, 0, 0xA5, 0x0F);
    SEND("Set PWM 25 %, 100 %", 2, SET_PWM, 0, 0x40, 0xFF);
    expect_driven(0, 0x0FF, 0x0A5, 0, 0);
    expect_driven(1, 0xFFF, 0x000, 0x40, 0xFF);
    expect_driven(2, 0x000, 0x000, 0, 0);

    printf("\nOutputs read what they are set to, inputs what the last tick brought.\n");
    measure(0, 0x3FF, 0x10, 0x11, 0x12, 0x1000);
    SEND("Read Status, before the tick", 1, READ_STATUS, ITEM_INPUTS, ITEM_INPUTS);
    expect("inputs", 0, 0x0A5);
    tick();
    SEND("Read Status", 1, READ_STATUS, ITEM_INPUTS, ITEM_INPUTS);
    expect("inputs", 0, 0x3A5);
}

static void both_at_once(void)
{
    printf("\nBoth of group 81 change their outputs with one frame. Only the leader replies.\n");
    SEND("Set Synch Output 0x00F", 1, SET_SYNCH_OUTPUT, 0, 0x0F, 0x00, 1, 2);
    SEND("Set Synch Output 0xF0F", 2, SET_SYNCH_OUTPUT, 0, 0x0F, 0x0F, 3, 4);
    expect_driven(0, 0x0FF, 0x0A5, 0, 0);
    expect_driven(1, 0xFFF, 0x000, 0x40, 0xFF);
    send("Synch Output", 0x81, SYNCH_OUTPUT, none, 0, 0);
    expect_driven(0, 0x0FF, 0x00F, 1, 2);
    expect_driven(1, 0xFFF, 0xF0F, 3, 4);

    printf("\nBoth capture inputs and counter with one frame. Later ticks leave the captures.\n");
    measure(0, 0x800, 0x20, 0x21, 0x22, 0x2000);
    measure(1, 0x123, 0x30, 0x31, 0x32, 0x3000);
    tick();
    send("Synch Input", 0x81, SYNCH_INPUT, none, 0, 0);
    measure(0, 0x000, 0x40, 0x41, 0x42, 0x2001);
    measure(1, 0x000, 0x50, 0x51, 0x52, 0x3001);
    tick();
    SEND("Read Status", 1, READ_STATUS, ITEMS_CAPTURED, ITEMS_CAPTURED);
    expect("captured inputs", 6, 0x80F);
    expect("captured counter", 7, 0x2000);
    SEND("Read Status", 2, READ_STATUS, ITEMS_CAPTURED, ITEMS_CAPTURED);
    expect("captured inputs", 6, 0xF0F);
    expect("captured counter", 7, 0x3000);

    printf("\nAll items of module 1, from now on in every reply.\n");
    SEND("Define Status", 1, DEFINE_STATUS, ITEMS_ALL, ITEMS_ALL);
    send("No Op", 1, NO_OP, none, 0, ITEMS_ALL);
    expect("inputs", 0, 0x00F);
    expect("A/D 1", 1, 0x40);
    expect("A/D 2", 2, 0x41);
    expect("A/D 3", 3, 0x42);
    expect("counter", 4, 0x2001);
    expect("version and type", 5, 0x0102);
    expect("captured inputs", 6, 0x80F);
    expect("captured counter", 7, 0x2000);
}

static void between_ticks(void)
{
    enum { REPLY = 4 }; /* bytes of a reply with this item */
    const uint8_t item = ITEM_TYPE_AND_VERSION;
    uint8_t frame[NMC_FRAME_LEN];

    printf("\nThe host asks two modules between two ticks. One buffer has both frames, and both replies come.\n");
    for (uint8_t address = 2; address <= 3; address++) {
        size_t len = write_frame(address, READ_STATUS, &item, 1, frame);
        print_bytes("host", frame, len, "Read Status");
        line(frame, len, NO_MARK);
    }
    hand_over();
    print_bytes("board", replies, replied, "");
    check(replied == 2 * REPLY, "not two replies");
    for (size_t at = 0; at < replied; at += REPLY) {
        check(read_one(item, replies + at, REPLY) == 0, "the status byte tells of a fault");
        expect("version and type", 5, 0x0102);
    }
    tick();

    printf("\nA tick comes in the middle of a frame. The next buffer goes on where this one has ended.\n");
    size_t len = write_frame(3, READ_STATUS, &item, 1, frame), cut = 3;
    print_bytes("host", frame, cut, "Read Status, as far as it has come");
    line(frame, cut, NO_MARK);
    hand_over();
    printf("  (no reply)\n");
    check(replied == 0, "somebody replied to a part of a frame");
    tick();
    print_bytes("host", frame + cut, len - cut, "its end");
    line(frame + cut, len - cut, NO_MARK);
    hand_over();
    check(read_reply(item) == 0, "the status byte tells of a fault");
    expect("version and type", 5, 0x0102);
    expect_no_fault();
}

static void trouble(void)
{
    const uint8_t output[2] = {0xFF, 0x0F};
    uint8_t frame[NMC_FRAME_LEN];

    printf("\nA framing error spoils a frame for module 2: it says so and does nothing.\n");
    size_t len = write_frame(2, SET_OUTPUT, output, sizeof output, frame);
    print_bytes("host", frame, len, "Set Output 0xFFF, its third byte marked");
    line(frame, len, 2);
    hand_over();
    check(read_reply(0) == 0x02, "the status byte does not tell of the fault");
    expect_cause(1, NMC_CAUSE_DAMAGED);
    printf("          cause %d, damaged\n", NMC_CAUSE_DAMAGED);
    expect_driven(1, 0xFFF, 0xF0F, 3, 4);
    send("No Op", 2, NO_OP, none, 0, 0);

    printf("\nModule 2 is reset. Its pins are inputs again, and with its ADDR_OUT high 3 hears nothing.\n");
    send("Hard Reset", 2, HARD_RESET, none, 0, NO_REPLY);
    expect_driven(1, 0x000, 0x000, 0, 0);
    send("No Op", 3, NO_OP, none, 0, NO_REPLY);
    SEND("Set Address 2", 0, SET_ADDRESS, 0, 2, 0x81);
    send("No Op", 3, NO_OP, none, 0, 0);
}

int main(void)
{
    start_up();
    directions_and_outputs();
    both_at_once();
    between_ticks();
    trouble();
    printf("\nNo surprise.\n");
    return 0;
}
