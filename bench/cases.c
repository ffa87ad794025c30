#include "cases.h"

#include "plain.h"

#include <stdio.h>
#include <stdlib.h>
#include <string.h>

enum { COUNT = 65536, FASTEST = 1280 * COUNT, GROUP = 0xFF, TRAPEZOID = 0x97, VELOCITY = 0xB6 };

/* How far, how fast and how steep: in counts, in 65,536ths of a count a tick, and by as much more in each tick. */
struct move {
    uint32_t counts, top, ramp;
};

static const struct move usual = {2002, 4 * COUNT, COUNT / 4};
static const struct move slowest = {2002, FASTEST, 1};        /* 11,454 terms where it brakes */
static const struct move steepest = {2559, FASTEST, FASTEST}; /* 27 halvings there, the most that there are */

static const uint8_t none[1]; /* the data of a command that has none */
static uint8_t room[NMC_ROOM_LEN];
static uint8_t last_byte;
static size_t replied; /* how many bytes the frame draws that it ends, or all frames of a buffer */

/* The line bytes of a buffer, none of them marked. */
static uint8_t buffer[NMC_BUFFER_LEN], buffer_room[NMC_BUFFER_ROOM_LEN];
static const uint8_t no_marks[NMC_BUFFER_LEN];

/* The list that each tick of a case takes. */
static uint8_t samples[NMC_MOST_MODULES * NMC_SAMPLE_LEN];
static size_t samples_len;

static void need(int holds)
{
    if (!holds) {
        fprintf(stderr, "the bench does not measure what it says\n");
        exit(1);
    }
}

/* ---- bringing a network to where it is measured */

static size_t write_frame(uint8_t address, uint8_t code, const uint8_t *data, size_t len, uint8_t *frame)
{
    size_t written;
    need(nmc_write_frame(address, code, data, len, frame, NMC_FRAME_LEN, &written) == NMC_DONE);
    return written;
}

static size_t feed(const struct implementation *at, const uint8_t *bytes, size_t len, uint32_t last)
{
    size_t written = 0;
    for (size_t i = 0; i < len; i++) {
        uint32_t number = at->byte(0, bytes[i], room, sizeof room, &written);
        need(number == (i + 1 == len ? last : NMC_DONE));
    }
    return written;
}

static size_t send(const struct implementation *at, uint8_t address, uint8_t code, const uint8_t *data,
                   size_t len)
{
    uint8_t frame[NMC_FRAME_LEN];
    return feed(at, frame, write_frame(address, code, data, len, frame), NMC_FRAME);
}

/* A Read Status without its last byte, which is the one to be measured; it draws so many bytes. */
static void read_up_to_last(const struct implementation *at, uint8_t address, uint8_t items, size_t draws)
{
    uint8_t frame[NMC_FRAME_LEN];
    size_t written = write_frame(address, 3, &items, 1, frame);
    feed(at, frame, written - 1, NMC_DONE);
    last_byte = frame[written - 1];
    replied = draws;
}

static void put_nothing_measured(uint8_t type, size_t place)
{
    switch (type) {
    case NMC_TYPE_SERVO:
        nmc_put_servo_sample(samples, place, 0, 0, 0, 0);
        break;
    case NMC_TYPE_IO:
        nmc_put_io_sample(samples, place, 0, 0, 0, 0, 0);
        break;
    default:
        nmc_put_stepper_sample(samples, place, 0);
    }
}

/* Modules addressed 1, 2, ..., all leaders of one group; nothing is measured anywhere. */
static void address_all(const struct implementation *at, uint8_t type, size_t chain)
{
    uint8_t types[NMC_MOST_MODULES];
    memset(types, type, sizeof types);
    need(at->setup(types, chain) == NMC_DONE);
    samples_len = chain * NMC_SAMPLE_LEN;
    for (size_t place = 0; place < chain; place++) {
        put_nothing_measured(type, place);
        const uint8_t data[2] = {(uint8_t)(place + 1), GROUP & 0x7F};
        need(send(at, 0, 1, data, sizeof data) == 2);
    }
}

static void tick_once(const struct implementation *at)
{
    need(at->tick(samples, samples_len) == NMC_DONE);
}

/* Servos with power, gains that follow and room for an error. */
static void ready_servos(const struct implementation *at)
{
    const uint8_t gains[15] = {100, 0, 50, 0, 10, 0, 0xE8, 3, 0xFF, 0, 0xFF, 0x3F, 1, 0, 1};
    address_all(at, NMC_TYPE_SERVO, NMC_MOST_MODULES);
    for (size_t place = 0; place < NMC_MOST_MODULES; place++)
        nmc_put_servo_sample(samples, place, 0, 1, 0, 0);
    tick_once(at);
    send(at, GROUP, 6, gains, sizeof gains);
    send(at, GROUP, 11, none, 0);
}

static void put32(uint8_t *at, uint32_t x)
{
    for (int k = 0; k < 4; k++)
        at[k] = (uint8_t)(x >> 8 * k);
}

/* All move at once, with the control byte of a trapezoid or of velocity mode. */
static void start_all(const struct implementation *at, uint8_t control, const struct move *move)
{
    uint8_t data[13] = {control};
    size_t len = 1;
    ready_servos(at);
    if (control & 1) {
        put32(data + len, move->counts);
        len += 4;
    }
    put32(data + len, move->top);
    put32(data + len + 4, move->ramp);
    need(send(at, GROUP, 4, data, len + 8) == 2 * NMC_MOST_MODULES);
}

/* Steppers that all start at 10 forward, to a speed, with a T. */
static void start_steppers(const struct implementation *at, uint8_t speed, uint8_t time)
{
    const uint8_t parameters[5] = {0, 10, 0, 0, 0}, load[3] = {0x86, speed, time};
    address_all(at, NMC_TYPE_STEPPER, NMC_MOST_MODULES);
    need(send(at, GROUP, 6, parameters, sizeof parameters) == 2 * NMC_MOST_MODULES);
    need(send(at, GROUP, 4, load, sizeof load) == 2 * NMC_MOST_MODULES);
}

static void tick_times(const struct implementation *at, unsigned times)
{
    while (times-- > 0)
        tick_once(at);
}

/* ---- cases */

static void prepare_io(const struct implementation *at)
{
    address_all(at, NMC_TYPE_IO, NMC_MOST_MODULES);
}

static void prepare_servos_off(const struct implementation *at)
{
    address_all(at, NMC_TYPE_SERVO, NMC_MOST_MODULES);
}

static void prepare_one_servo(const struct implementation *at)
{
    address_all(at, NMC_TYPE_SERVO, 1);
}

static void prepare_one_io(const struct implementation *at)
{
    address_all(at, NMC_TYPE_IO, 1);
}

static void prepare_one_stepper(const struct implementation *at)
{
    address_all(at, NMC_TYPE_STEPPER, 1);
}

static void prepare_steppers_at_rest(const struct implementation *at)
{
    address_all(at, NMC_TYPE_STEPPER, NMC_MOST_MODULES);
}

static void prepare_steppers_at_speed(const struct implementation *at)
{
    start_steppers(at, 20, 1);
    tick_times(at, 30); /* 10 ticks of ramp */
}

/* In the ticks that are measured no T-th comes. */
static void prepare_steppers_between(const struct implementation *at)
{
    start_steppers(at, 20, 255);
}

/* The speed changes in each tick. */
static void prepare_steppers_climbing(const struct implementation *at)
{
    start_steppers(at, 250, 1);
    tick_times(at, 30);
}

static void prepare_moving(const struct implementation *at)
{
    start_all(at, TRAPEZOID, &usual);
    tick_times(at, 30); /* 16 ticks of ramp, then top speed */
}

/* All watch limit 1, which does not change. */
static void prepare_homing(const struct implementation *at)
{
    const uint8_t control = 0x21;
    prepare_moving(at);
    need(send(at, GROUP, 9, &control, 1) == 2 * NMC_MOST_MODULES && room[0] & 0x80);
}

static void prepare_velocity(const struct implementation *at)
{
    start_all(at, VELOCITY, &usual);
    tick_times(at, 30);
}

/* The tick in which all brake for the first time: the first speed that is not as high as ramp and top allow. */
static void brake(const struct implementation *at, const struct move *move)
{
    const struct implementation *model = &implementations[PLAIN_C];
    const struct plain_servo *servo = &((struct plain_network *)model->network)->modules[0].as.servo;
    int64_t highest = 0;
    unsigned ticks = 0;
    for (start_all(model, TRAPEZOID, move); servo->speed == highest; ticks++) {
        highest = highest + move->ramp < move->top ? highest + move->ramp : move->top;
        tick_times(model, 1);
    }
    start_all(at, TRAPEZOID, move);
    tick_times(at, ticks - 1);
}

static void prepare_braking(const struct implementation *at)
{
    brake(at, &usual);
}

static void prepare_braking_slowest(const struct implementation *at)
{
    brake(at, &slowest);
}

static void prepare_braking_steepest(const struct implementation *at)
{
    brake(at, &steepest);
}

static void prepare_holding(const struct implementation *at)
{
    const uint8_t abrupt = 5;
    ready_servos(at);
    send(at, GROUP, 7, &abrupt, 1);
}

/* All items of a servo and of an I/O module, and of a stepper with the length of its reply. */
enum { ALL_ITEMS = 0xFF, STEPPER_ITEMS = 0x21, STEPPER_REPLY_LEN = 8 };

static void prepare_for_one_servo(const struct implementation *at)
{
    prepare_moving(at);
    read_up_to_last(at, 7, ALL_ITEMS, NMC_REPLY_LEN);
}

static void prepare_for_one_io(const struct implementation *at)
{
    prepare_io(at);
    read_up_to_last(at, 7, ALL_ITEMS, NMC_REPLY_LEN);
}

static void prepare_for_one_stepper(const struct implementation *at)
{
    prepare_steppers_at_speed(at);
    read_up_to_last(at, 7, STEPPER_ITEMS, STEPPER_REPLY_LEN);
}

static void prepare_for_all_servos(const struct implementation *at)
{
    prepare_moving(at);
    read_up_to_last(at, GROUP, ALL_ITEMS, NMC_ROOM_LEN);
}

static void prepare_for_all_io(const struct implementation *at)
{
    prepare_io(at);
    read_up_to_last(at, GROUP, ALL_ITEMS, NMC_ROOM_LEN);
}

static void prepare_for_all_steppers(const struct implementation *at)
{
    prepare_steppers_at_speed(at);
    read_up_to_last(at, GROUP, STEPPER_ITEMS, NMC_MOST_MODULES * STEPPER_REPLY_LEN);
}

/* ---- buffers */

enum { FRAMES_IN_A_BUFFER = 16 };

/* 64 bytes that open no frame. At plain C, which tests nothing else, they are 64 steps of the receiver. */
static void prepare_noise(void)
{
    memset(buffer, 0, sizeof buffer);
    replied = 0;
}

/* Noise, and at the end a Read Status for one module. */
static void prepare_one_frame(uint8_t items, size_t draws)
{
    uint8_t frame[NMC_FRAME_LEN];
    size_t len = write_frame(7, 3, &items, 1, frame);
    prepare_noise();
    memcpy(buffer + sizeof buffer - len, frame, len);
    replied = draws;
}

/*
 * As many frames as can end in a buffer: the last byte of a No Op for all whose
 * others came before, fifteen more, and three bytes of noise. Every module
 * replies with these items.
 */
static void prepare_most_frames(const struct implementation *at, uint8_t items, size_t draws)
{
    uint8_t frame[NMC_FRAME_LEN];
    size_t len = write_frame(GROUP, 14, none, 0, frame);
    need(send(at, GROUP, 2, &items, 1) == draws);
    feed(at, frame, len - 1, NMC_DONE);
    prepare_noise();
    buffer[0] = frame[len - 1];
    for (size_t i = 1; i < FRAMES_IN_A_BUFFER; i++)
        memcpy(buffer + 1 + (i - 1) * len, frame, len);
    replied = FRAMES_IN_A_BUFFER * draws;
}

static void prepare_noise_servos(const struct implementation *at)
{
    prepare_moving(at);
    prepare_noise();
}

static void prepare_noise_io(const struct implementation *at)
{
    prepare_io(at);
    prepare_noise();
}

static void prepare_noise_steppers(const struct implementation *at)
{
    prepare_steppers_at_speed(at);
    prepare_noise();
}

static void prepare_buffer_for_one_servo(const struct implementation *at)
{
    prepare_moving(at);
    prepare_one_frame(ALL_ITEMS, NMC_REPLY_LEN);
}

static void prepare_buffer_for_one_io(const struct implementation *at)
{
    prepare_io(at);
    prepare_one_frame(ALL_ITEMS, NMC_REPLY_LEN);
}

static void prepare_buffer_for_one_stepper(const struct implementation *at)
{
    prepare_steppers_at_speed(at);
    prepare_one_frame(STEPPER_ITEMS, STEPPER_REPLY_LEN);
}

static void prepare_buffer_for_all_servos(const struct implementation *at)
{
    prepare_moving(at);
    prepare_most_frames(at, ALL_ITEMS, NMC_ROOM_LEN);
}

static void prepare_buffer_for_all_io(const struct implementation *at)
{
    prepare_io(at);
    prepare_most_frames(at, ALL_ITEMS, NMC_ROOM_LEN);
}

static void prepare_buffer_for_all_steppers(const struct implementation *at)
{
    prepare_steppers_at_speed(at);
    prepare_most_frames(at, STEPPER_ITEMS, NMC_MOST_MODULES * STEPPER_REPLY_LEN);
}

static void take_buffer(const struct implementation *at)
{
    size_t written;
    need(at->bytes(buffer, sizeof buffer, no_marks, sizeof no_marks, buffer_room, sizeof buffer_room, &written) ==
             NMC_DONE &&
         written == replied);
}

/* The same bytes without a buffer. */
static void take_singly(const struct implementation *at)
{
    size_t all = 0, written;
    for (size_t i = 0; i < sizeof buffer; i++, all += written)
        need(at->byte(no_marks[i], buffer[i], room, sizeof room, &written) <= NMC_FRAME);
    need(all == replied);
}

/* ---- calls */

/* A null opens nothing. */
static void take_null(const struct implementation *at)
{
    size_t written;
    need(at->byte(0, 0, room, sizeof room, &written) == NMC_DONE);
}

static void take_last(const struct implementation *at)
{
    size_t written;
    need(at->byte(0, last_byte, room, sizeof room, &written) == NMC_FRAME && written == replied);
}

static void take_outputs(const struct implementation *at)
{
    uint8_t outputs[NMC_OUTPUTS_LEN];
    need(at->outputs(7, outputs) == NMC_DONE);
}

/* A place beyond the chain is refused right after the list: what is left is what validity costs. */
static void only_list(const struct implementation *at)
{
    uint8_t outputs[NMC_OUTPUTS_LEN];
    need(at->outputs(NMC_MOST_MODULES, outputs) == NMC_BAD_PLACE);
}

static void write_once(const struct implementation *at)
{
    static const uint8_t data[13] = {0x97, 0xD0, 7, 0, 0, 0, 0, 4, 0, 0, 0x40, 0, 0};
    size_t written;
    need(at->write_frame(7, 4, data, sizeof data, room, sizeof room, &written) == NMC_DONE && written == 17);
}

static uint8_t reply[NMC_REPLY_LEN];

static void prepare_reply(const struct implementation *at)
{
    const uint8_t items = ALL_ITEMS;
    prepare_one_servo(at);
    need(send(at, 1, 3, &items, 1) == NMC_REPLY_LEN);
    memcpy(reply, room, NMC_REPLY_LEN);
}

static void read_once(const struct implementation *at)
{
    uint8_t reading[NMC_READING_LEN];
    need(at->read_status(NMC_TYPE_SERVO, ALL_ITEMS, reply, sizeof reply, reading) == NMC_DONE);
}

/* ---- the line monitor's text */

enum { TEXT_LEN = 4096, TEXT_BYTES = 1365, RECORD_LEN = 3 }; /* 85 lines of 16 and one of 5, a mark among them */

static uint8_t text[TEXT_LEN], records[TEXT_BYTES * RECORD_LEN];
static uint8_t text_room[TEXT_LEN];

static void prepare_text(const struct implementation *at)
{
    size_t written;
    (void)at;
    for (unsigned i = 0; i < TEXT_BYTES; i++) {
        uint8_t *record = records + RECORD_LEN * i;
        record[0] = 1;
        record[1] = i == TEXT_BYTES / 2;
        record[2] = (uint8_t)(i * 0x9E3779B1u >> 24);
    }
    need(nmc_export_text(records, sizeof records, text, sizeof text, &written) == NMC_DONE && written == TEXT_LEN);
}

/* The last newline is something else. */
static void prepare_bad_text(const struct implementation *at)
{
    prepare_text(at);
    text[TEXT_LEN - 1] = '?';
}

/* The last mark is neither 0 nor 1. */
static void prepare_bad_records(const struct implementation *at)
{
    prepare_text(at);
    records[sizeof records - 2] = 2;
}

static void import_once(const struct implementation *at)
{
    size_t written, offset;
    need(at->import_text(text, sizeof text, text_room, sizeof text_room, &written, &offset) == NMC_DONE &&
         written == sizeof records);
}

static void import_in_vain(const struct implementation *at)
{
    size_t written, offset;
    need(at->import_text(text, sizeof text, text_room, sizeof text_room, &written, &offset) == NMC_BAD_TEXT &&
         offset == TEXT_LEN - 1);
}

static void export_once(const struct implementation *at)
{
    size_t written;
    need(at->export_text(records, sizeof records, text_room, sizeof text_room, &written) == NMC_DONE &&
         written == TEXT_LEN);
}

static void export_in_vain(const struct implementation *at)
{
    size_t written;
    need(at->export_text(records, sizeof records, text_room, sizeof text_room, &written) == NMC_BAD_RECORDS);
}

const struct bench_case cases[] = {
    {A_BYTE, "byte", prepare_moving, take_null, NOTHING_BACK, 1000},
    {"byte, no frame ends, 32 I/O", "byte", prepare_io, take_null, NOTHING_BACK, 1000},
    {"byte, no frame ends, 32 steppers moving", "byte", prepare_steppers_at_speed, take_null, NOTHING_BACK, 1000},
    {"byte, no frame ends, 1 servo", "byte", prepare_one_servo, take_null, NOTHING_BACK, 1000},
    {"byte, no frame ends, 1 I/O", "byte", prepare_one_io, take_null, NOTHING_BACK, 1000},
    {"byte, no frame ends, 1 stepper", "byte", prepare_one_stepper, take_null, NOTHING_BACK, 1000},
    {"byte, frame for one of 32 servos", "byte", prepare_for_one_servo, take_last, RECEIVER_BACK, 1000},
    {"byte, frame for one of 32 I/O", "byte", prepare_for_one_io, take_last, RECEIVER_BACK, 1000},
    {"byte, frame for one of 32 steppers", "byte", prepare_for_one_stepper, take_last, RECEIVER_BACK, 1000},
    {"byte, frame for a group of 32 servos", "byte", prepare_for_all_servos, take_last, RECEIVER_BACK, 1000},
    {"byte, frame for a group of 32 I/O", "byte", prepare_for_all_io, take_last, RECEIVER_BACK, 1000},
    {"byte, frame for a group of 32 steppers", "byte", prepare_for_all_steppers, take_last, RECEIVER_BACK, 1000},
    {A_BUFFER, "bytes", prepare_noise_servos, take_buffer, NOTHING_BACK, 200},
    {SINGLE_BYTES, "byte", prepare_noise_servos, take_singly, NOTHING_BACK, 20},
    {"buffer, noise, 32 I/O", "bytes", prepare_noise_io, take_buffer, NOTHING_BACK, 200},
    {"64 single bytes, noise, 32 I/O", "byte", prepare_noise_io, take_singly, NOTHING_BACK, 20},
    {"buffer, noise, 32 steppers moving", "bytes", prepare_noise_steppers, take_buffer, NOTHING_BACK, 200},
    {"64 single bytes, noise, 32 steppers moving", "byte", prepare_noise_steppers, take_singly, NOTHING_BACK, 20},
    {"buffer, frame for one of 32 servos", "bytes", prepare_buffer_for_one_servo, take_buffer, NOTHING_BACK, 200},
    {"64 single bytes, frame for one of 32 servos", "byte", prepare_buffer_for_one_servo, take_singly, NOTHING_BACK, 20},
    {"buffer, frame for one of 32 I/O", "bytes", prepare_buffer_for_one_io, take_buffer, NOTHING_BACK, 200},
    {"64 single bytes, frame for one of 32 I/O", "byte", prepare_buffer_for_one_io, take_singly, NOTHING_BACK, 20},
    {"buffer, frame for one of 32 steppers", "bytes", prepare_buffer_for_one_stepper, take_buffer, NOTHING_BACK, 200},
    {"64 single bytes, frame for one of 32 steppers", "byte", prepare_buffer_for_one_stepper, take_singly, NOTHING_BACK, 20},
    {"buffer, 16 frames, group of 32 servos", "bytes", prepare_buffer_for_all_servos, take_buffer, RECEIVER_BACK, 50},
    {"64 single bytes, 16 frames, group of 32 servos", "byte", prepare_buffer_for_all_servos, take_singly, RECEIVER_BACK, 20},
    {"buffer, 16 frames, group of 32 I/O", "bytes", prepare_buffer_for_all_io, take_buffer, RECEIVER_BACK, 50},
    {"64 single bytes, 16 frames, group of 32 I/O", "byte", prepare_buffer_for_all_io, take_singly, RECEIVER_BACK, 20},
    {"buffer, 16 frames, group of 32 steppers", "bytes", prepare_buffer_for_all_steppers, take_buffer, RECEIVER_BACK, 50},
    {"64 single bytes, 16 frames, group of 32 steppers", "byte", prepare_buffer_for_all_steppers, take_singly, RECEIVER_BACK, 20},
    {"tick, 32 servos, trapezoid at top speed", "tick", prepare_moving, tick_once, NOTHING_BACK, 400},
    {"tick, 32 servos homing, trapezoid, top speed", "tick", prepare_homing, tick_once, NOTHING_BACK, 400},
    {"tick, 32 servos, trapezoid begins to brake", "tick", prepare_braking, tick_once, NETWORK_BACK, 400},
    {"tick, 32 servos brake, A 1, V 83,886,080", "tick", prepare_braking_slowest, tick_once, NETWORK_BACK, 400},
    {"tick, 32 servos brake, A = V = 83,886,080", "tick", prepare_braking_steepest, tick_once, NETWORK_BACK, 400},
    {"tick, 32 servos, velocity mode", "tick", prepare_velocity, tick_once, NOTHING_BACK, 400},
    {"tick, 32 servos holding", "tick", prepare_holding, tick_once, NOTHING_BACK, 1000},
    {"tick, 32 I/O", "tick", prepare_io, tick_once, NOTHING_BACK, 1000},
    {"tick, 32 steppers, each changes its speed", "tick", prepare_steppers_climbing, tick_once, NETWORK_BACK, 400},
    {"tick, 32 steppers at their goal, T 1", "tick", prepare_steppers_at_speed, tick_once, NOTHING_BACK, 1000},
    {"tick, 32 steppers between changes", "tick", prepare_steppers_between, tick_once, NOTHING_BACK, 250},
    {"tick, 32 steppers at rest", "tick", prepare_steppers_at_rest, tick_once, NOTHING_BACK, 1000},
    {"tick, 1 servo", "tick", prepare_one_servo, tick_once, NOTHING_BACK, 1000},
    {"tick, 1 I/O", "tick", prepare_one_io, tick_once, NOTHING_BACK, 1000},
    {"tick, 1 stepper", "tick", prepare_one_stepper, tick_once, NOTHING_BACK, 1000},
    {"outputs, one of 32 servos moving", "outputs", prepare_moving, take_outputs, NOTHING_BACK, 1000},
    {"outputs, one of 32 I/O", "outputs", prepare_io, take_outputs, NOTHING_BACK, 1000},
    {"outputs, one of 32 steppers moving", "outputs", prepare_steppers_at_speed, take_outputs, NOTHING_BACK, 1000},
    {"write_frame, 13 data bytes", "write_frame", prepare_one_servo, write_once, NOTHING_BACK, 1000},
    {"read_status, all items", "read_status", prepare_reply, read_once, NOTHING_BACK, 1000},
    {"import_text, 4,096 characters", "import_text", prepare_text, import_once, NOTHING_BACK, 100},
    {"import_text, refused at the last of 4,096", "import_text", prepare_bad_text, import_in_vain, NOTHING_BACK, 100},
    {"export_text, 4,096 characters", "export_text", prepare_text, export_once, NOTHING_BACK, 100},
    {"export_text, refused at the last record", "export_text", prepare_bad_records, export_in_vain, NOTHING_BACK, 100},
    {"list alone, 32 servos moving", "outputs", prepare_moving, only_list, NOTHING_BACK, 1000},
    {"list alone, 32 servos off", "outputs", prepare_servos_off, only_list, NOTHING_BACK, 1000},
    {"list alone, 32 I/O", "outputs", prepare_io, only_list, NOTHING_BACK, 1000},
    {"list alone, 32 steppers moving", "outputs", prepare_steppers_at_speed, only_list, NOTHING_BACK, 1000},
    {"list alone, 32 steppers at rest", "outputs", prepare_steppers_at_rest, only_list, NOTHING_BACK, 1000},
};

const unsigned case_count = sizeof cases / sizeof *cases;

/* ---- keeping and putting back */

static uint8_t kept[IMPLEMENTATIONS][sizeof(struct plain_network) + NMC_NET_LEN];

void keep(const struct implementation *at)
{
    memcpy(kept[at - implementations], at->network, at->network_len);
}

void put_back(const struct implementation *at, enum restored restored)
{
    size_t len = restored == NETWORK_BACK ? at->network_len : restored == RECEIVER_BACK ? at->receiver_len : 0;
    memcpy(at->network, kept[at - implementations], len);
}
