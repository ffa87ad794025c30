/*
 * The log kicker's step motor: it speeds up and is stopped smoothly, and on
 * its way back the stop input stops it. Each tick is a line, drawn from the
 * replies alone: as many marks as steps by which the position has moved, to the
 * right of the bar forward, to its left backward.
 *
 * Every step is checked; the first surprise ends the program with status 1.
 */
#include "doljurven.h"

#include <stdio.h>
#include <stdlib.h>

enum code { READ_STATUS = 3, LOAD_TRAJECTORY = 4, START = 5, SET_PARAMETERS = 6, STOP = 7 };

/* Status bits and items. */
enum { MOVING = 0x01, NOT_EXECUTED = 0x02, ITEM_POSITION = 0x01 };

enum { PLACE = 0, ADDRESS = 0, MINIMUM = 4, SPEED = 12, TIME = 2, WIDTH = 12 };

static const uint8_t none[1];

static uint8_t net[NMC_NET_LEN];
static unsigned ticks;
static int position; /* as the last reply told it */

static void check(int holds, const char *what)
{
    if (!holds) {
        printf("surprise: %s\n", what);
        exit(1);
    }
}

/* Sends a frame and gives the reply's status byte; what it tells of these items is in reading. */
static uint8_t send(enum code code, const uint8_t *data, size_t data_len, uint8_t items, uint8_t *reading)
{
    uint8_t frame[NMC_FRAME_LEN], room[NMC_ROOM_LEN];
    size_t len, written = 0;
    check(nmc_write_frame(ADDRESS, code, data, data_len, frame, sizeof frame, &len) == NMC_DONE,
          "the frame was not written");
    for (size_t i = 0; i < len; i++)
        check(nmc_byte(net, sizeof net, 0, frame[i], room, sizeof room, &written) <= NMC_FRAME,
              "a byte was refused or the frame damaged");
    check(nmc_read_status(NMC_TYPE_STEPPER, items, room, written, reading) == NMC_DONE,
          "the status reader refused the reply");
    return reading[0];
}

static void tell(const char *words, enum code code, const uint8_t *data, size_t data_len, uint8_t status)
{
    uint8_t reading[NMC_READING_LEN];
    printf("%s\n", words);
    check(send(code, data, data_len, 0, reading) == status, words);
}

/* Asks for the position; gives how far it is from where it was told last. */
static int steps_since(void)
{
    const uint8_t items = ITEM_POSITION;
    uint8_t reading[NMC_READING_LEN];
    check((send(READ_STATUS, &items, 1, items, reading) & NOT_EXECUTED) == 0, "the position was not told");
    const uint8_t *item = reading + 1;
    uint32_t told = item[0] | (uint32_t)item[1] << 8 | (uint32_t)item[2] << 16 | (uint32_t)item[3] << 24;
    int steps = (int)(int32_t)(told - (uint32_t)position);
    position += steps;
    return steps;
}

/* A tick with the stop input as it is, and a line for it. The motor makes as many steps as the board drives. */
static void tick(uint32_t stop, int expected)
{
    uint8_t samples[NMC_SAMPLE_LEN], outputs[NMC_OUTPUTS_LEN];
    nmc_put_stepper_sample(samples, PLACE, stop);
    check(nmc_tick(net, sizeof net, samples, sizeof samples) == NMC_DONE, "tick");
    check(nmc_outputs(net, sizeof net, PLACE, outputs) == NMC_DONE, "outputs");
    int steps = steps_since(), back = steps < 0 ? -steps : 0;
    printf("tick %2u, at %3d  %*s", ++ticks, position, WIDTH - back, "");
    for (int i = 0; i < back; i++)
        printf("#");
    printf("|");
    for (int i = 0; i < steps; i++)
        printf("#");
    printf("%s\n", stop ? "  stop input" : "");
    check(steps == expected, "another speed");
    check((outputs[1] ? -outputs[0] : outputs[0]) == steps, "the board drives another speed");
}

/* Each TIME-th tick one faster, from the minimum to the speed; then there. */
static void speed_up(void)
{
    for (int n = 1; n <= TIME * (SPEED - MINIMUM) + 3; n++) {
        int speed = MINIMUM + n / TIME;
        tick(0, speed < SPEED ? speed : SPEED);
    }
}

/* Each TIME-th tick one slower, down to the minimum, and from there to rest. */
static void slow_down(void)
{
    for (int n = 1; n <= TIME * (SPEED - MINIMUM + 1); n++)
        tick(0, n < TIME * (SPEED - MINIMUM + 1) ? SPEED - n / TIME : 0);
}

int main(void)
{
    const uint8_t types[1] = {NMC_TYPE_STEPPER};
    const uint8_t parameters[5] = {0, MINIMUM, 0, 0, 0}, amplifier_on[1] = {0x01}, smooth[1] = {0x09};
    const uint8_t out[3] = {0x06, SPEED, TIME}, back[3] = {0x96, SPEED, 1};

    check(nmc_setup(net, sizeof net, types, 1) == NMC_DONE, "setup");
    tell("load: speed 12, T 2, forward", LOAD_TRAJECTORY, out, sizeof out, 0);
    tell("start, which is not now: the minimum is not known yet", START, none, 0, NOT_EXECUTED);
    tell("parameters: minimum 4", SET_PARAMETERS, parameters, sizeof parameters, 0);
    tell("amplifier on", STOP, amplifier_on, sizeof amplifier_on, 0);
    tell("start: the load has waited", START, none, 0, MOVING);
    speed_up();
    tell("smooth stop, sent once: sent again within T ticks, it would be put off", STOP, smooth, sizeof smooth, MOVING);
    slow_down();
    tell("load: speed 12, T 1, backward, now", LOAD_TRAJECTORY, back, sizeof back, MOVING);
    for (int speed = MINIMUM + 1; speed <= 9; speed++)
        tick(0, -speed);
    tick(1, 0);
    tick(0, 0);
    tell("start, which is not now: no load waits", START, none, 0, NOT_EXECUTED);
    return 0;
}
