/*
 * A spindle carriage on one servo: a load that is cut short, the Start that
 * must not move anything, and then the whole load and the move itself. The
 * motor is ideal: it stands where the setpoint is one tick before.
 *
 * Every step is checked; the first surprise ends the program with status 1.
 */
#include "doljurven.h"

#include <stdio.h>
#include <stdlib.h>

enum code { LOAD_TRAJECTORY = 4, START = 5, SET_GAIN = 6, STOP = 7, CLEAR_BITS = 11, NO_OP = 14 };

/* Status bits as replies show them; which cause it was, the module tells. */
enum { MOVE_DONE = 0x01, NOT_EXECUTED = 0x02, POWER_GOOD = 0x08, POSITION_ERROR = 0x10 };

enum { PLACE = 0, ADDRESS = 0, GOOD_POWER = 1 };

static uint8_t net[NMC_NET_LEN];
static uint8_t status, cause;

static void check(int holds, const char *what)
{
    if (!holds) {
        printf("surprise: %s\n", what);
        exit(1);
    }
}

/* What night shift calls a cause. */
static const char *name_of(uint8_t number)
{
    switch ((enum nmc_cause_number)number) {
    case NMC_CAUSE_EXECUTED: return "executed";
    case NMC_CAUSE_DAMAGED: return "damaged";
    case NMC_CAUSE_COUNT: return "wrong number of data bytes";
    case NMC_CAUSE_NOT_NOW: return "not now";
    case NMC_CAUSE_UNKNOWN: return "unknown code";
    case NMC_CAUSE_VALUE: return "value out of range";
    }
    return "no cause";
}

/* Sends a frame; the servo's status byte and its last cause are in status and cause afterwards. */
static void tell(const char *words, enum code code, const uint8_t *data, size_t data_len)
{
    uint8_t frame[NMC_FRAME_LEN], room[NMC_ROOM_LEN], reading[NMC_READING_LEN];
    size_t len, written = 0;
    check(nmc_write_frame(ADDRESS, code, data, data_len, frame, sizeof frame, &len) == NMC_DONE,
          "the frame was not written");
    for (size_t i = 0; i < len; i++)
        check(nmc_byte(net, sizeof net, 0, frame[i], room, sizeof room, &written) <= NMC_FRAME,
              "a byte was refused or the frame damaged");
    check(nmc_read_status(NMC_TYPE_SERVO, 0, room, written, reading) == NMC_DONE,
          "the status reader refused the reply");
    status = reading[0];
    check(nmc_cause(net, sizeof net, PLACE, &cause) == NMC_DONE, "cause");
    check((cause != NMC_CAUSE_EXECUTED) == ((status & NOT_EXECUTED) != 0),
          "the status bit does not tell of the cause");
    printf("%-42s status %02X, %s\n", words, status, name_of(cause));
}

/* One tick with the motor at raw; prints and gives back what the motor gets. */
static int tick(uint32_t raw)
{
    uint8_t samples[NMC_SAMPLE_LEN], outputs[NMC_OUTPUTS_LEN];
    nmc_put_servo_sample(samples, PLACE, raw, GOOD_POWER, 0, 0);
    check(nmc_tick(net, sizeof net, samples, sizeof samples) == NMC_DONE, "tick");
    check(nmc_outputs(net, sizeof net, PLACE, outputs) == NMC_DONE, "outputs");
    return outputs[1] ? -(int)outputs[0] : (int)outputs[0];
}

int main(void)
{
    const uint8_t types[1] = {NMC_TYPE_SERVO};
    const uint8_t none[1] = {0};
    /* Kp 256, no Kd, Ki and IL, OL 255, CL 0, EL 1,000, SR 1, DB 0, SM 1 */
    const uint8_t gain[15] = {0, 1, 0, 0, 0, 0, 0, 0, 255, 0, 0xE8, 3, 1, 0, 1};
    const uint8_t amplifier_on[1] = {0x01};
    /* position 6, velocity 2.0, acceleration 1.0, servo, trapezoid */
    const uint8_t load[13] = {0x17, 6, 0, 0, 0, 0, 0, 2, 0, 0, 0, 1, 0};
    /* where the motor stands at each tick: the setpoint goes to 1, 3, 5, 6 */
    static const uint32_t motor_at[] = {0, 1, 3, 5, 6, 6};

    check(nmc_setup(net, sizeof net, types, 1) == NMC_DONE, "setup");
    check(tick(0) == 0, "a servo that is off drives its motor");
    tell("gains", SET_GAIN, gain, sizeof gain);
    tell("error bit cleared", CLEAR_BITS, none, 0);
    tell("amplifier on", STOP, amplifier_on, sizeof amplifier_on);
    check(status == (MOVE_DONE | POWER_GOOD), "the servo is not ready");

    tell("load, cut short by four bytes", LOAD_TRAJECTORY, load, sizeof load - 4);
    check(cause == NMC_CAUSE_COUNT, "a cut load is not told by its count");
    tell("start", START, none, 0);
    check(cause == NMC_CAUSE_NOT_NOW, "a start without a load was executed");
    for (int i = 0; i < 3; i++)
        check(tick(0) == 0, "the carriage moved on an incomplete load");
    printf("three ticks, and the carriage stands\n");

    tell("the whole load", LOAD_TRAJECTORY, load, sizeof load);
    tell("start", START, none, 0);
    check(status == POWER_GOOD, "the move did not start");
    for (size_t i = 0; i < sizeof motor_at / sizeof motor_at[0]; i++)
        printf("tick %lu: at %lu, motor output %d\n", (unsigned long)i + 1,
               (unsigned long)motor_at[i], tick(motor_at[i]));
    tell("arrived", NO_OP, none, 0);
    check(status == (MOVE_DONE | POWER_GOOD), "the move did not arrive");
    return 0;
}
