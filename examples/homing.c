/*
 * A carriage is homed against its switch, which is limit 1 of its servo: fast
 * until the switch closes, with a smooth stop behind it, and slowly back until
 * it opens, with an abrupt stop right there, which then becomes 0. The servo
 * finds home and stops in the very tick, however seldom the host asks. Each
 * tick is a line, drawn from the replies alone: o is the carriage, h home,
 * which is 0 until one is found, and * is both.
 *
 * Every step is checked; the first surprise ends the program with status 1.
 */
#include "doljurven.h"

#include <stdio.h>
#include <stdlib.h>

enum code {
    RESET_POSITION = 0,
    READ_STATUS = 3,
    LOAD_TRAJECTORY = 4,
    SET_GAIN = 6,
    STOP = 7,
    SET_HOMING = 9,
    CLEAR_BITS = 11
};

/* Status bits and items. */
enum { MOVE_DONE = 0x01, POWER_GOOD = 0x08, POSITION_ERROR = 0x10, LIMIT_1 = 0x20, HOMING = 0x80 };
enum { ITEM_POSITION = 0, ITEM_HOME = 4 };

/* The switch is closed from here on; the speeds are in counts a tick. */
enum { SWITCH_AT = 37, FAST = 4, SLOW = 1 };

enum { PLACE = 0, ADDRESS = 0, GOOD_POWER = 1, WIDTH = 48, MOST_TICKS = 99 };

static const uint8_t none[1];

static uint8_t net[NMC_NET_LEN];
static int motor_at, amplifier;
static unsigned ticks;

/* As the last reply told it. */
static uint8_t status;
static int position, home;

static void check(int holds, const char *what)
{
    if (!holds) {
        printf("surprise: %s\n", what);
        exit(1);
    }
}

/* Sends a frame; what its reply tells of these items is in reading, the status byte first. */
static void send(enum code code, const uint8_t *data, size_t data_len, uint8_t items, uint8_t *reading)
{
    uint8_t frame[NMC_FRAME_LEN], room[NMC_ROOM_LEN];
    size_t len, written = 0;
    check(nmc_write_frame(ADDRESS, code, data, data_len, frame, sizeof frame, &len) == NMC_DONE,
          "the frame was not written");
    for (size_t i = 0; i < len; i++)
        check(nmc_byte(net, sizeof net, 0, frame[i], room, sizeof room, &written) <= NMC_FRAME,
              "a byte was refused or the frame damaged");
    check(nmc_read_status(NMC_TYPE_SERVO, items, room, written, reading) == NMC_DONE,
          "the status reader refused the reply");
}

static void tell(const char *words, enum code code, const uint8_t *data, size_t data_len, uint8_t expected)
{
    uint8_t reading[NMC_READING_LEN];
    printf("%s\n", words);
    send(code, data, data_len, 0, reading);
    check(reading[0] == expected, words);
}

static int item(const uint8_t *reading, int which)
{
    const uint8_t *b = reading + 1 + 4 * which;
    uint32_t number = b[0] | (uint32_t)b[1] << 8 | (uint32_t)b[2] << 16 | (uint32_t)b[3] << 24;
    return (int)(int32_t)number;
}

static void ask(void)
{
    const uint8_t items = 1 << ITEM_POSITION | 1 << ITEM_HOME;
    uint8_t reading[NMC_READING_LEN];
    send(READ_STATUS, &items, 1, items, reading);
    status = reading[0];
    position = item(reading, ITEM_POSITION);
    home = item(reading, ITEM_HOME);
}

static void draw(void)
{
    printf("%4u  %8d  %-6s  %-6s  %4d  |", ticks, position, status & LIMIT_1 ? "closed" : "open",
           status & HOMING ? "homing" : "", home);
    int last = position > home ? position : home;
    for (int at = 0; at <= last && at < WIDTH; at++)
        printf("%c", at == position ? (at == home ? '*' : 'o') : at == home ? 'h' : ' ');
    printf("\n");
}

/* A tick, and a line for it. The motor is ideal: it goes as many counts as it is driven. */
static void tick(void)
{
    uint8_t samples[NMC_SAMPLE_LEN], outputs[NMC_OUTPUTS_LEN];
    int closed = motor_at >= SWITCH_AT;
    nmc_put_servo_sample(samples, PLACE, (uint32_t)motor_at, GOOD_POWER, 0, closed ? 1 : 0);
    check(nmc_tick(net, sizeof net, samples, sizeof samples) == NMC_DONE, "tick");
    check(nmc_outputs(net, sizeof net, PLACE, outputs) == NMC_DONE, "outputs");
    motor_at += outputs[1] ? -(int)outputs[0] : (int)outputs[0];
    check(++ticks <= MOST_TICKS, "the switch was not found");
    ask();
    draw();
    check(closed == ((status & LIMIT_1) != 0), "the switch is told otherwise");
    check(outputs[2] == amplifier, "the enable line is not what the amplifier was switched to");
}

static void bring_up(void)
{
    const uint8_t types[1] = {NMC_TYPE_SERVO};
    /* Kp 256, no Kd, Ki and IL, OL 255, CL 0, EL 1,000, SR 1, DB 0, SM 1 */
    const uint8_t gain[15] = {0, 1, 0, 0, 0, 0, 0, 0, 255, 0, 0xE8, 3, 1, 0, 1};
    const uint8_t amplifier_on[1] = {0x01};
    check(nmc_setup(net, sizeof net, types, 1) == NMC_DONE, "setup");
    printf("tick  position  switch           home\n");
    tick();
    tell("gains", SET_GAIN, gain, sizeof gain, MOVE_DONE | POWER_GOOD | POSITION_ERROR);
    tell("error bit cleared", CLEAR_BITS, none, 0, MOVE_DONE | POWER_GOOD);
    tell("amplifier on", STOP, amplifier_on, sizeof amplifier_on, MOVE_DONE | POWER_GOOD);
    amplifier = 1;
}

/* Home is as exact as the speed: within as many counts. */
static void find_fast(void)
{
    const uint8_t control[1] = {0x21};
    /* acceleration 1.0, servo, velocity mode, now */
    const uint8_t load[9] = {0xB6, 0, 0, FAST, 0, 0, 0, 1, 0};
    tell("Set Homing 21: watch limit 1, stop smoothly", SET_HOMING, control, sizeof control,
         MOVE_DONE | POWER_GOOD | HOMING);
    tell("forward, 4 counts a tick", LOAD_TRAJECTORY, load, sizeof load, POWER_GOOD | HOMING);
    do
        tick();
    while (status & HOMING);
    check(home == position && home >= SWITCH_AT && home < SWITCH_AT + FAST, "home is not where the switch closed");
    while (!(status & MOVE_DONE))
        tick();
    tick();
    check(position > home, "the stop was not smooth");
}

/* Exact to the count: the first at which the switch is open again. */
static void find_slowly(void)
{
    const uint8_t control[1] = {0x11};
    /* the same, reverse */
    const uint8_t load[9] = {0xF6, 0, 0, SLOW, 0, 0, 0, 1, 0};
    tell("Set Homing 11: watch limit 1, stop abruptly", SET_HOMING, control, sizeof control,
         MOVE_DONE | POWER_GOOD | LIMIT_1 | HOMING);
    tell("backward, 1 count a tick", LOAD_TRAJECTORY, load, sizeof load, POWER_GOOD | LIMIT_1 | HOMING);
    do
        tick();
    while (status & HOMING);
    check(home == SWITCH_AT - 1 && position == home, "home is not where the switch opened");
    tick();
    check(position == home, "it did not stop at home");
}

int main(void)
{
    bring_up();
    find_fast();
    find_slowly();
    tell("Reset Position: home is shifted, too", RESET_POSITION, none, 0, MOVE_DONE | POWER_GOOD);
    tick();
    check(position == 0 && home == 0 && motor_at == SWITCH_AT - 1, "0 is not at home");
    return 0;
}
