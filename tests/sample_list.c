/*
 * The header's three functions that fill a tick's list: every byte that they put, that they leave the
 * places beside alone, and what a tick makes of their lists. Compiles as C11 and as C++11; says
 * nothing when all is well, and exits with 1 where something is not.
 */
#include "doljurven.h"

#include <stdio.h>
#include <string.h>

enum { PLACES = 4, BYTES = PLACES * NMC_SAMPLE_LEN };

static int surprises;

static void check(int holds, const char *what)
{
    if (holds)
        return;
    printf("surprise: %s\n", what);
    surprises = 1;
}

/* ---------------------------------------------------------------- bytes */

/* The list held 0xFF everywhere, and has these ten at one place now. */
static void check_ten(const uint8_t *list, size_t place, const uint8_t *ten, const char *what)
{
    uint8_t expected[BYTES];
    memset(expected, 0xFF, sizeof expected);
    memcpy(expected + place * NMC_SAMPLE_LEN, ten, NMC_SAMPLE_LEN);
    check(memcmp(list, expected, sizeof expected) == 0, what);
}

static void servo_bytes(uint32_t raw, uint32_t power, uint8_t ad, uint32_t limits, const uint8_t *ten)
{
    for (size_t place = 0; place < PLACES; place++) {
        uint8_t list[BYTES];
        memset(list, 0xFF, sizeof list);
        nmc_put_servo_sample(list, place, raw, power, ad, limits);
        check_ten(list, place, ten, "bytes of a servo's sample");
    }
}

static void io_bytes(uint32_t inputs, uint8_t ad1, uint8_t ad2, uint8_t ad3, uint32_t counter,
                     const uint8_t *ten)
{
    for (size_t place = 0; place < PLACES; place++) {
        uint8_t list[BYTES];
        memset(list, 0xFF, sizeof list);
        nmc_put_io_sample(list, place, inputs, ad1, ad2, ad3, counter);
        check_ten(list, place, ten, "bytes of an I/O module's sample");
    }
}

static void stepper_bytes(uint32_t stop, const uint8_t *ten)
{
    for (size_t place = 0; place < PLACES; place++) {
        uint8_t list[BYTES];
        memset(list, 0xFF, sizeof list);
        nmc_put_stepper_sample(list, place, stop);
        check_ten(list, place, ten, "bytes of a step-motor module's sample");
    }
}

static void bytes(void)
{
    static const uint8_t servo[] = {0, 2, 0x5A, 0x0D, 0x0C, 0x0B, 0x0A, 1, 0, 0};
    static const uint8_t servo_none[] = {0, 0, 0, 0, 0, 0, 0, 0, 0, 0};
    static const uint8_t servo_limits[] = {0, 0, 0, 0, 0, 0, 0, 3, 0, 0};
    static const uint8_t servo_first_too_many[] = {0, 0, 0, 0, 0, 0, 0, 4, 0, 0};
    static const uint8_t servo_most[] = {0, 255, 255, 255, 255, 255, 255, 255, 0, 0};
    static const uint8_t io[] = {2, 0xBC, 0x0A, 0x11, 0x22, 0x33, 4, 3, 2, 1};
    static const uint8_t io_none[] = {2, 0, 0, 0, 0, 0, 0, 0, 0, 0};
    static const uint8_t io_most[] = {2, 255, 255, 255, 255, 255, 255, 255, 255, 255};
    static const uint8_t io_first_too_many[] = {2, 0x00, 0x10, 0, 0, 0, 0, 0, 0, 0};
    static const uint8_t stepper_none[] = {3, 0, 0, 0, 0, 0, 0, 0, 0, 0};
    static const uint8_t stepper_stop[] = {3, 1, 0, 0, 0, 0, 0, 0, 0, 0};
    static const uint8_t stepper_first_too_many[] = {3, 2, 0, 0, 0, 0, 0, 0, 0, 0};
    static const uint8_t stepper_most[] = {3, 255, 0, 0, 0, 0, 0, 0, 0, 0};
    servo_bytes(0x0A0B0C0Du, 2, 0x5A, 1, servo);
    servo_bytes(0, 0, 0, 0, servo_none);
    servo_bytes(0, 0, 0, 3, servo_limits);
    servo_bytes(0, 0, 0, 4, servo_first_too_many);
    servo_bytes(0xFFFFFFFFu, 255, 255, 255, servo_most);
    servo_bytes(0xFFFFFFFFu, 256, 255, 256, servo_most);
    servo_bytes(0xFFFFFFFFu, 256, 255, 256 + 3, servo_most);
    servo_bytes(0xFFFFFFFFu, 0xFFFFFFFFu, 255, 0xFFFFFFFFu, servo_most);
    io_bytes(0xABC, 0x11, 0x22, 0x33, 0x01020304u, io);
    io_bytes(0, 0, 0, 0, 0, io_none);
    io_bytes(4096, 0, 0, 0, 0, io_first_too_many);
    io_bytes(65535, 255, 255, 255, 0xFFFFFFFFu, io_most);
    io_bytes(65536, 255, 255, 255, 0xFFFFFFFFu, io_most);
    io_bytes(65536 + 5, 255, 255, 255, 0xFFFFFFFFu, io_most);
    io_bytes(0xFFFFFFFFu, 255, 255, 255, 0xFFFFFFFFu, io_most);
    stepper_bytes(0, stepper_none);
    stepper_bytes(1, stepper_stop);
    stepper_bytes(2, stepper_first_too_many);
    stepper_bytes(255, stepper_most);
    stepper_bytes(256, stepper_most);
    stepper_bytes(256 + 1, stepper_most);
    stepper_bytes(0xFFFFFFFFu, stepper_most);
}

/* ---------------------------------------------------------------- ticks */

static uint8_t net[NMC_NET_LEN], samples[3 * NMC_SAMPLE_LEN];

/* What a tick gives for a servo, an I/O and a step-motor module that measure this; a refused one is none. */
static uint32_t tick_at(uint32_t power, uint32_t limits, uint32_t inputs, uint32_t stop)
{
    uint8_t net_before[NMC_NET_LEN], samples_before[sizeof samples];
    uint32_t number;
    memset(samples, 0xFF, sizeof samples);
    nmc_put_servo_sample(samples, 0, 1234, power, 56, limits);
    nmc_put_io_sample(samples, 1, inputs, 7, 8, 9, 1011);
    nmc_put_stepper_sample(samples, 2, stop);
    memcpy(net_before, net, sizeof net_before);
    memcpy(samples_before, samples, sizeof samples_before);
    number = nmc_tick(net, sizeof net, samples, sizeof samples);
    check(memcmp(samples, samples_before, sizeof samples) == 0, "a tick changed its list");
    check((memcmp(net, net_before, sizeof net) == 0) == (number != NMC_DONE),
          "a refused tick changed the record, or another one did not");
    return number;
}

static uint32_t tick_with(uint32_t power, uint32_t inputs)
{
    return tick_at(power, 0, inputs, 0);
}

static uint8_t room[NMC_ROOM_LEN];

static void send(uint32_t address, uint32_t code, const uint8_t *data, size_t data_len)
{
    uint8_t frame[NMC_FRAME_LEN];
    size_t len = 0, written;
    check(nmc_write_frame(address, code, data, data_len, frame, sizeof frame, &len) == NMC_DONE, "writer");
    for (size_t i = 0; i < len; i++)
        check(nmc_byte(net, sizeof net, 0, frame[i], room, sizeof room, &written) <= NMC_FRAME, "byte");
}

/* The step-motor module's, as the outputs tell it. */
static int speed(void)
{
    uint8_t outputs[NMC_OUTPUTS_LEN];
    check(nmc_outputs(net, sizeof net, 2, outputs) == NMC_DONE, "outputs");
    return outputs[0];
}

/* All three addressed, so that the step-motor module hears; a start brings it to 5 at once. */
static void start_stepper(void)
{
    static const uint8_t parameters[5] = {0, 5, 0, 0, 0}, load[3] = {0x86, 9, 1};
    for (uint8_t address = 1; address <= 3; address++) {
        const uint8_t addresses[2] = {address, 0xFF};
        send(0, 1, addresses, sizeof addresses);
    }
    send(3, 6, parameters, sizeof parameters);
    send(3, 4, load, sizeof load);
    check(speed() == 5, "the step-motor module did not start");
}

static void stop_inputs(void)
{
    start_stepper();
    check(tick_at(1, 0, 5, 0) == NMC_DONE && speed() == 6, "stop input 0");
    check(tick_at(1, 0, 5, 2) == NMC_BAD_FIELD && speed() == 6, "stop input 2");
    check(tick_at(1, 0, 5, 255) == NMC_BAD_FIELD && speed() == 6, "stop input 255");
    check(tick_at(1, 0, 5, 256) == NMC_BAD_FIELD && speed() == 6, "stop input 256");
    check(tick_at(1, 0, 5, 256 + 1) == NMC_BAD_FIELD && speed() == 6, "stop input 257");
    check(tick_at(1, 0, 5, 0xFFFFFFFFu) == NMC_BAD_FIELD && speed() == 6, "stop input 4294967295");
    check(tick_at(1, 0, 5, 1) == NMC_DONE && speed() == 0, "stop input 1");
}

/* The servo's limit inputs, as its status bits tell them. */
static uint32_t limits_told(void)
{
    static const uint8_t none[1] = {0};
    send(1, 14, none, 0);
    return room[0] >> 5 & 3u;
}

static void limit_inputs(void)
{
    static const uint32_t too_many[] = {256, 256 + 1, 256 + 3, 0xFFFFFFFFu};
    for (uint32_t limits = 4; limits-- > 0;) {
        check(tick_at(1, limits, 5, 0) == NMC_DONE, "limit inputs 0 to 3");
        check(limits_told() == limits, "other limit inputs are told");
    }
    check(tick_at(1, 2, 5, 0) == NMC_DONE, "limit input 2 alone");
    for (uint32_t limits = 4; limits < 256; limits++)
        check(tick_at(1, limits, 5, 0) == NMC_BAD_FIELD, "limit inputs 4 to 255");
    for (size_t i = 0; i < sizeof too_many / sizeof too_many[0]; i++)
        check(tick_at(1, too_many[i], 5, 0) == NMC_BAD_FIELD, "limit inputs above 255");
    check(limits_told() == 2, "a refused tick latched limit inputs");
}

static void ticks(void)
{
    const uint8_t types[3] = {NMC_TYPE_SERVO, NMC_TYPE_IO, NMC_TYPE_STEPPER};
    check(nmc_setup(net, sizeof net, types, sizeof types) == NMC_DONE, "setup");
    check(tick_with(0, 0) == NMC_DONE, "power 0, inputs 0");
    check(tick_with(2, 4095) == NMC_DONE, "power 2, inputs 4095");
    check(tick_with(3, 0) == NMC_BAD_FIELD, "power 3");
    check(tick_with(255, 0) == NMC_BAD_FIELD, "power 255");
    check(tick_with(256, 0) == NMC_BAD_FIELD, "power 256");
    check(tick_with(256 + 1, 0) == NMC_BAD_FIELD, "power 257");
    check(tick_with(0xFFFFFFFFu, 0) == NMC_BAD_FIELD, "power 4294967295");
    check(tick_with(1, 4096) == NMC_BAD_FIELD, "inputs 4096");
    check(tick_with(1, 65535) == NMC_BAD_FIELD, "inputs 65535");
    check(tick_with(1, 65536) == NMC_BAD_FIELD, "inputs 65536");
    check(tick_with(1, 65536 + 5) == NMC_BAD_FIELD, "inputs 65541");
    check(tick_with(1, 0xFFFFFFFFu) == NMC_BAD_FIELD, "inputs 4294967295");
    check(tick_with(1, 5) == NMC_DONE, "power 1, inputs 5");
    stop_inputs();
    limit_inputs();

    nmc_put_io_sample(samples, 0, 0, 0, 0, 0, 0);
    check(nmc_tick(net, sizeof net, samples, sizeof samples) == NMC_BAD_PLACE,
          "an I/O sample for the servo");
    nmc_put_stepper_sample(samples, 0, 0);
    check(nmc_tick(net, sizeof net, samples, sizeof samples) == NMC_BAD_PLACE,
          "a step-motor module's sample for the servo");
    nmc_put_servo_sample(samples, 0, 0, 1, 0, 0);
    check(nmc_tick(net, sizeof net, samples, 2 * NMC_SAMPLE_LEN) == NMC_BAD_LIST,
          "two samples for three modules");
    check(nmc_tick(net, sizeof net, samples, sizeof samples) == NMC_DONE, "all samples as asked");
}

int main(void)
{
    bytes();
    ticks();
    return surprises;
}
