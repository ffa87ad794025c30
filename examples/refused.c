/*
 * What a board gets back for bad input: one call after another that is
 * refused, each with its number, and nothing lent is changed.
 */
#include "doljurven.h"

#include <stdio.h>
#include <string.h>

enum { TOO_MANY = NMC_MOST_MODULES + 1 };

/* A tick's list for four modules. */
enum { CHAIN = 4, LIST_LEN = CHAIN * NMC_SAMPLE_LEN };

/* Places in the record (docs/RECORD.md); a board needs none of them, here they are spoiled. */
enum { COUNT_AT = 19, SLOTS_AT = 20, SLOT_LEN = (NMC_NET_LEN - SLOTS_AT) / NMC_MOST_MODULES };

static uint8_t net[NMC_NET_LEN], net_before[NMC_NET_LEN];
static uint8_t room[NMC_BUFFER_ROOM_LEN], room_before[NMC_BUFFER_ROOM_LEN];
static uint8_t buffer[NMC_BUFFER_LEN + 1], buffer_before[sizeof buffer];
static uint8_t marks[sizeof buffer], marks_before[sizeof marks];
static uint8_t samples[LIST_LEN + NMC_SAMPLE_LEN], samples_before[sizeof samples];
static uint8_t outputs[NMC_OUTPUTS_LEN], outputs_before[NMC_OUTPUTS_LEN];
static uint8_t reading[NMC_READING_LEN], cause;
static uint8_t types[TOO_MANY];
static size_t written;
static int surprises;

/* A frame that place 0 would execute and answer: Set Address 1, group FF. */
enum { FRAME_LEN = 6 };
static const uint8_t frame[FRAME_LEN] = {0xAA, 0x00, 0x21, 0x01, 0xFF, 0x21};

/*
 * A sound network of I/O modules with a servo at place 1 and a step-motor
 * module at place 3, a sound list, a buffer that begins with a frame, all of it
 * without a mark, and something in all else that is lent.
 */
static void prepare(void)
{
    memset(net, 0x5A, sizeof net);
    memset(types, NMC_TYPE_IO, sizeof types);
    types[1] = NMC_TYPE_SERVO;
    types[3] = NMC_TYPE_STEPPER;
    if (nmc_setup(net, sizeof net, types, CHAIN) != NMC_DONE)
        surprises++;
    for (size_t place = 0; place <= CHAIN; place++)
        nmc_put_io_sample(samples, place, 4095, 1, 2, 3, 4);
    nmc_put_servo_sample(samples, 1, 5, 2, 6, 3);
    nmc_put_stepper_sample(samples, 3, 1);
    memset(buffer, 0x0F, sizeof buffer);
    memcpy(buffer, frame, sizeof frame);
    memset(marks, 0, sizeof marks);
    memset(room, 0xC3, sizeof room);
    memset(outputs, 0x3C, sizeof outputs);
}

static void remember(void)
{
    memcpy(net_before, net, sizeof net);
    memcpy(room_before, room, sizeof room);
    memcpy(samples_before, samples, sizeof samples);
    memcpy(buffer_before, buffer, sizeof buffer);
    memcpy(marks_before, marks, sizeof marks);
    memcpy(outputs_before, outputs, sizeof outputs);
    memset(reading, 0x99, sizeof reading);
    cause = 77;
    written = 99;
}

static int reading_cleared(void)
{
    for (size_t i = 0; i < sizeof reading; i++)
        if (reading[i] != 0)
            return 0;
    return 1;
}

static void refused(const char *words, uint32_t number, uint32_t given)
{
    const char *verdict = "";
    if (given != number)
        verdict = "  surprise: another number";
    else if (memcmp(net, net_before, sizeof net) != 0)
        verdict = "  surprise: the record changed";
    else if (memcmp(room, room_before, sizeof room) != 0)
        verdict = "  surprise: the room changed";
    else if (memcmp(samples, samples_before, sizeof samples) != 0)
        verdict = "  surprise: the list changed";
    else if (memcmp(buffer, buffer_before, sizeof buffer) != 0 || memcmp(marks, marks_before, sizeof marks) != 0)
        verdict = "  surprise: the buffer changed";
    else if (memcmp(outputs, outputs_before, sizeof outputs) != 0)
        verdict = "  surprise: the outputs changed";
    else if (cause != 77)
        verdict = "  surprise: the cause changed";
    surprises += verdict[0] != 0;
    printf("%2lu  %s%s\n", (unsigned long)given, words, verdict);
}

/* A call that reports a length must report 0, the status reader give all 0. */
static void cleared(int holds)
{
    if (!holds) {
        printf("    surprise: something is reported\n");
        surprises++;
    }
}

#define REFUSED(words, number, call)        \
    do {                                    \
        prepare();                          \
        remember();                         \
        refused(words, number, call);       \
    } while (0)

static void record(void)
{
    REFUSED("record one byte short", NMC_BAD_RECORD,
            nmc_tick(net, NMC_NET_LEN - 1, samples, LIST_LEN));
    REFUSED("setup of a record one byte short", NMC_BAD_RECORD,
            nmc_setup(net, NMC_NET_LEN - 1, types, CHAIN));
    prepare();
    net[COUNT_AT] = 33; /* number of modules */
    remember();
    refused("record with 33 modules", NMC_BAD_RECORD, nmc_tick(net, sizeof net, samples, LIST_LEN));
    prepare();
    net[SLOTS_AT] = 1; /* type of place 0 */
    remember();
    refused("record with an unknown type", NMC_BAD_RECORD,
            nmc_byte(net, sizeof net, 0, 0xAA, room, sizeof room, &written));
    cleared(written == 0);
    prepare();
    net[SLOTS_AT + SLOT_LEN + 95] = 1; /* motor output of the servo, which is off */
    remember();
    refused("record that drives a motor in off", NMC_BAD_RECORD,
            nmc_tick(net, sizeof net, samples, LIST_LEN));
    prepare();
    net[SLOTS_AT + SLOT_LEN + 106] = 0x31; /* byte of Set Homing, with two stops */
    remember();
    refused("record that homes with two stops", NMC_BAD_RECORD,
            nmc_tick(net, sizeof net, samples, LIST_LEN));
    prepare();
    net[SLOTS_AT + 3 * SLOT_LEN + 22] = 5; /* speed of the step-motor module, which has no minimum */
    remember();
    refused("record that moves before Set Parameters", NMC_BAD_RECORD,
            nmc_tick(net, sizeof net, samples, LIST_LEN));
}

static void setup(void)
{
    REFUSED("chain of none", NMC_BAD_CHAIN, nmc_setup(net, sizeof net, types, 0));
    REFUSED("chain of 33", NMC_BAD_CHAIN, nmc_setup(net, sizeof net, types, TOO_MANY));
    prepare();
    types[2] = 1;
    remember();
    refused("third module of type 1", NMC_BAD_TYPE, nmc_setup(net, sizeof net, types, CHAIN));
}

/* A tick with the list as it has been changed. */
static void tick_refused(const char *words, uint32_t number)
{
    remember();
    refused(words, number, nmc_tick(net, sizeof net, samples, LIST_LEN));
}

static void lists(void)
{
    REFUSED("empty list", NMC_BAD_LIST, nmc_tick(net, sizeof net, samples, 0));
    REFUSED("list of three samples for four modules", NMC_BAD_LIST,
            nmc_tick(net, sizeof net, samples, LIST_LEN - NMC_SAMPLE_LEN));
    REFUSED("list one byte short", NMC_BAD_LIST, nmc_tick(net, sizeof net, samples, LIST_LEN - 1));
    REFUSED("list one byte long", NMC_BAD_LIST, nmc_tick(net, sizeof net, samples, LIST_LEN + 1));
    REFUSED("list of five samples for four modules", NMC_BAD_LIST,
            nmc_tick(net, sizeof net, samples, LIST_LEN + NMC_SAMPLE_LEN));
    prepare();
    nmc_put_servo_sample(samples, 0, 0, 1, 0, 0);
    tick_refused("servo sample for an I/O module", NMC_BAD_PLACE);
    prepare();
    nmc_put_io_sample(samples, 1, 0, 0, 0, 0, 0);
    tick_refused("I/O sample for a servo", NMC_BAD_PLACE);
    prepare();
    nmc_put_stepper_sample(samples, 1, 0);
    tick_refused("step-motor sample for a servo", NMC_BAD_PLACE);
    prepare();
    samples[2 * NMC_SAMPLE_LEN] = 7;
    tick_refused("sample of type 7", NMC_BAD_PLACE);
    prepare();
    nmc_put_io_sample(samples, 2, 4096, 0, 0, 0, 0);
    tick_refused("inputs 4096", NMC_BAD_FIELD);
    prepare();
    nmc_put_servo_sample(samples, 1, 0, 3, 0, 0);
    tick_refused("power 3", NMC_BAD_FIELD);
    prepare();
    nmc_put_servo_sample(samples, 1, 0, 256 + 1, 0, 0);
    tick_refused("power 257, which is put as 255", NMC_BAD_FIELD);
    prepare();
    nmc_put_servo_sample(samples, 1, 0, 1, 0, 4);
    tick_refused("limit inputs 4", NMC_BAD_FIELD);
    prepare();
    nmc_put_servo_sample(samples, 1, 0, 1, 0, 256 + 1);
    tick_refused("limit inputs 257, which are put as 255", NMC_BAD_FIELD);
    prepare();
    nmc_put_stepper_sample(samples, 3, 2);
    tick_refused("stop input 2", NMC_BAD_FIELD);
}

/* A buffer of so many bytes and so many marks, as they have been changed. */
static void buffer_refused(const char *words, uint32_t number, size_t bytes_len, size_t marks_len, size_t room_len)
{
    remember();
    refused(words, number, nmc_bytes(net, sizeof net, buffer, bytes_len, marks, marks_len, room, room_len, &written));
    cleared(written == 0);
}

static void buffers(void)
{
    prepare();
    buffer_refused("buffer of 65 bytes", NMC_BAD_LIST, NMC_BUFFER_LEN + 1, NMC_BUFFER_LEN + 1, sizeof room);
    prepare();
    buffer_refused("buffer of six bytes with five marks", NMC_BAD_LIST, FRAME_LEN, FRAME_LEN - 1, sizeof room);
    prepare();
    buffer_refused("buffer of six bytes with seven marks", NMC_BAD_LIST, FRAME_LEN, FRAME_LEN + 1, sizeof room);
    prepare();
    marks[0] = 2;
    buffer_refused("buffer whose first mark is 2", NMC_BAD_FIELD, FRAME_LEN, FRAME_LEN, sizeof room);
    prepare();
    marks[NMC_BUFFER_LEN - 1] = 2;
    buffer_refused("buffer whose last mark is 2, behind a whole frame", NMC_BAD_FIELD, NMC_BUFFER_LEN, NMC_BUFFER_LEN,
                   sizeof room);
    prepare();
    buffer_refused("room of 9,727 for a buffer", NMC_SHORT_ROOM, FRAME_LEN, FRAME_LEN, NMC_BUFFER_ROOM_LEN - 1);
    prepare();
    buffer_refused("room of 9,727 for a buffer of no bytes", NMC_SHORT_ROOM, 0, 0, NMC_BUFFER_ROOM_LEN - 1);
    prepare();
    net[COUNT_AT] = 33;
    buffer_refused("buffer for a record with 33 modules", NMC_BAD_RECORD, FRAME_LEN, FRAME_LEN, sizeof room);
}

static void line_and_pins(void)
{
    REFUSED("outputs of place 4 of four modules", NMC_BAD_PLACE,
            nmc_outputs(net, sizeof net, CHAIN, outputs));
    REFUSED("cause of place 4 of four modules", NMC_BAD_PLACE,
            nmc_cause(net, sizeof net, CHAIN, &cause));
    REFUSED("mark 2", NMC_BAD_FIELD,
            nmc_byte(net, sizeof net, 2, 0xAA, room, sizeof room, &written));
    cleared(written == 0);
    REFUSED("room of 607", NMC_SHORT_ROOM,
            nmc_byte(net, sizeof net, 0, 0xAA, room, NMC_ROOM_LEN - 1, &written));
    cleared(written == 0);
}

static void host(void)
{
    const uint8_t data[16] = {0};
    const uint8_t reply[3] = {0x00, 0x80, 0x80};
    const uint8_t wrong_sum[3] = {0x00, 0x80, 0x81};

    REFUSED("frame to address 256", NMC_BAD_FRAME,
            nmc_write_frame(256, 14, data, 0, room, sizeof room, &written));
    cleared(written == 0);
    REFUSED("frame with code 16", NMC_BAD_FRAME,
            nmc_write_frame(1, 16, data, 0, room, sizeof room, &written));
    cleared(written == 0);
    REFUSED("frame with 16 data bytes", NMC_BAD_FRAME,
            nmc_write_frame(1, 14, data, 16, room, sizeof room, &written));
    cleared(written == 0);
    REFUSED("room of 18 for a frame of 19", NMC_SHORT_ROOM,
            nmc_write_frame(1, 14, data, 15, room, 18, &written));
    cleared(written == 0);
    REFUSED("reply of a module of type 1", NMC_BAD_TYPE, nmc_read_status(1, 0x02, reply, 3, reading));
    cleared(reading_cleared());
    REFUSED("reply one byte short", NMC_BAD_LENGTH,
            nmc_read_status(NMC_TYPE_IO, 0x02, reply, 2, reading));
    cleared(reading_cleared());
    REFUSED("reply with an item that a step-motor module has not", NMC_BAD_LENGTH,
            nmc_read_status(NMC_TYPE_STEPPER, 0x02, reply, 3, reading));
    cleared(reading_cleared());
    REFUSED("reply with a wrong sum", NMC_BAD_SUM,
            nmc_read_status(NMC_TYPE_IO, 0x02, wrong_sum, 3, reading));
    cleared(reading_cleared());
}

static void two_reasons(void)
{
    prepare();
    net[COUNT_AT] = 0;
    remember();
    refused("spoiled record, mark 2 and no room", NMC_BAD_RECORD,
            nmc_byte(net, sizeof net, 2, 0xAA, room, 0, &written));
    cleared(written == 0);
    REFUSED("mark 2 and no room", NMC_BAD_FIELD,
            nmc_byte(net, sizeof net, 2, 0xAA, room, 0, &written));
    cleared(written == 0);
    prepare();
    net[COUNT_AT] = 0;
    marks[0] = 2;
    buffer_refused("spoiled record and a buffer of 65 bytes, with mark 2 and no room", NMC_BAD_RECORD,
                   NMC_BUFFER_LEN + 1, NMC_BUFFER_LEN + 1, 0);
    prepare();
    marks[0] = 2;
    buffer_refused("buffer of 65 bytes, with mark 2 and no room", NMC_BAD_LIST, NMC_BUFFER_LEN + 1,
                   NMC_BUFFER_LEN + 1, 0);
    prepare();
    marks[0] = 2;
    buffer_refused("buffer with mark 2 and no room", NMC_BAD_FIELD, FRAME_LEN, FRAME_LEN, 0);
    prepare();
    net[COUNT_AT] = 0;
    remember();
    refused("spoiled record and an empty list", NMC_BAD_RECORD, nmc_tick(net, sizeof net, samples, 0));
    prepare();
    nmc_put_servo_sample(samples, 0, 0, 1, 0, 0);
    remember();
    refused("list one byte short, with a servo sample for an I/O module", NMC_BAD_LIST,
            nmc_tick(net, sizeof net, samples, LIST_LEN - 1));
    prepare();
    nmc_put_io_sample(samples, 0, 4096, 0, 0, 0, 0);
    nmc_put_servo_sample(samples, 2, 0, 1, 0, 0);
    tick_refused("inputs 4096 at place 0, and a servo sample for the I/O module at 2", NMC_BAD_PLACE);
    REFUSED("address 256 and no room", NMC_BAD_FRAME,
            nmc_write_frame(256, 14, types, 0, room, 0, &written));
    cleared(written == 0);
}

int main(void)
{
    record();
    setup();
    lists();
    line_and_pins();
    buffers();
    host();
    two_reasons();
    return surprises != 0;
}
