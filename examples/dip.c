/*
 * Twelve drives on one supply, and a dip of its voltage. A drive's enable line
 * is high while its amplifier bit is set and power is good. The dip leaves the
 * bit, so nobody has to switch twelve drives on again after it; but the servos
 * go off, and no motor turns until it is started anew.
 *
 * Every step is checked; the first surprise ends the program with status 1.
 */
#include "doljurven.h"

#include <stdio.h>
#include <stdlib.h>
#include <string.h>

/* Drive 1 stands at place 0 and has address 1, and so on. Drive 7 is locked out for work: its amplifier stays off. */
enum { DRIVES = 12, LOCKED_OUT = 7 };

/* All are members of one group; the leader, who replies for it, has the group byte without its upper bit. */
enum { GROUP = 0x81, LEADER = 1, LEADER_BYTE = 0x01 };

enum code { SET_ADDRESS = 1, LOAD_TRAJECTORY = 4, START = 5, SET_GAIN = 6, STOP = 7, CLEAR_BITS = 11 };

enum power { LOW, GOOD, HIGH };

enum { NOT_EXECUTED = 0x02 }; /* status bit */

static const uint8_t none[1];

static uint8_t net[NMC_NET_LEN];
static uint32_t motor_at[DRIVES];
static unsigned frames, ticks;

static void check(int holds, const char *what)
{
    if (!holds) {
        printf("surprise: %s\n", what);
        exit(1);
    }
}

/* Sends a frame to a drive, or to the group. One drive replies, and has executed it. */
static void send(uint8_t address, enum code code, const uint8_t *data, size_t data_len)
{
    uint8_t frame[NMC_FRAME_LEN], room[NMC_ROOM_LEN], reading[NMC_READING_LEN];
    size_t len, written = 0;
    check(nmc_write_frame(address, code, data, data_len, frame, sizeof frame, &len) == NMC_DONE,
          "the frame was not written");
    for (size_t i = 0; i < len; i++)
        check(nmc_byte(net, sizeof net, 0, frame[i], room, sizeof room, &written) <= NMC_FRAME,
              "a byte was refused or the frame damaged");
    check(nmc_read_status(NMC_TYPE_SERVO, 0, room, written, reading) == NMC_DONE, "not one drive replied");
    check((reading[0] & NOT_EXECUTED) == 0, "the frame was not executed");
    frames++;
}

static void bring_up(void)
{
    uint8_t types[DRIVES];
    const uint8_t amplifier_on[1] = {0x01};
    /* Kp 256, no Kd, Ki and IL, OL 255, CL 0, EL 1,000, SR 1, DB 0, SM 1 */
    const uint8_t gain[15] = {0, 1, 0, 0, 0, 0, 0, 0, 255, 0, 0xE8, 3, 1, 0, 1};

    memset(types, NMC_TYPE_SERVO, sizeof types);
    check(nmc_setup(net, sizeof net, types, DRIVES) == NMC_DONE, "setup");
    for (uint8_t drive = 1; drive <= DRIVES; drive++) {
        const uint8_t addresses[2] = {drive, drive == LEADER ? LEADER_BYTE : GROUP};
        send(0, SET_ADDRESS, addresses, sizeof addresses);
    }
    send(GROUP, SET_GAIN, gain, sizeof gain);
    send(GROUP, CLEAR_BITS, none, 0);
    for (uint8_t drive = 1; drive <= DRIVES; drive++)
        if (drive != LOCKED_OUT)
            send(drive, STOP, amplifier_on, sizeof amplifier_on);
    printf("%d drives addressed, all amplifiers on but that of drive %d\n", DRIVES, LOCKED_OUT);
}

/* A load for each drive but the one that is locked out, then one frame that starts them all. */
static void start(void)
{
    /* velocity 2.0, acceleration 2.0, servo, velocity mode */
    const uint8_t load[9] = {0x36, 0, 0, 2, 0, 0, 0, 2, 0};
    for (uint8_t drive = 1; drive <= DRIVES; drive++)
        if (drive != LOCKED_OUT)
            send(drive, LOAD_TRAJECTORY, load, sizeof load);
    send(GROUP, START, none, 0);
    for (uint32_t drive = 1; drive <= DRIVES; drive++) {
        uint8_t cause;
        check(nmc_cause(net, sizeof net, drive - 1, &cause) == NMC_DONE, "cause");
        check(cause == (drive == LOCKED_OUT ? NMC_CAUSE_NOT_NOW : NMC_CAUSE_EXECUTED),
              "a drive did not start, or one without a load did");
    }
    printf("a load for each but drive %d, and one frame that starts them\n", LOCKED_OUT);
}

/* One tick for all drives. The motors are ideal: each goes as many counts as it is driven. */
static void tick(enum power power, int motors)
{
    static const char *const names[] = {"low", "good", "high"};
    uint8_t samples[DRIVES * NMC_SAMPLE_LEN];
    int driven = 0;
    for (uint32_t place = 0; place < DRIVES; place++)
        nmc_put_servo_sample(samples, place, motor_at[place], power, 0, 0);
    check(nmc_tick(net, sizeof net, samples, sizeof samples) == NMC_DONE, "tick");
    printf("%4u  %-4s  ", ++ticks, names[power]);
    for (uint32_t place = 0; place < DRIVES; place++) {
        uint8_t outputs[NMC_OUTPUTS_LEN];
        check(nmc_outputs(net, sizeof net, place, outputs) == NMC_DONE, "outputs");
        motor_at[place] += outputs[0];
        driven += outputs[0] != 0;
        printf(" %2d", outputs[2]);
        check(outputs[2] == (power == GOOD && place + 1 != LOCKED_OUT),
              "an enable line is not what its amplifier was switched to, or high without good power");
    }
    printf("  %2d\n", driven);
    check(driven == motors, "another number of motors is driven");
}

int main(void)
{
    bring_up();
    printf("tick  power  enable lines of drives 1 to 12        motors driven\n");
    tick(GOOD, 0);
    start();
    tick(GOOD, 11);
    tick(GOOD, 11);
    unsigned before = frames;
    tick(LOW, 0);
    tick(LOW, 0);
    tick(HIGH, 0);
    tick(GOOD, 0);
    tick(GOOD, 0);
    check(frames == before, "somebody sent a frame");
    printf("no frame was sent: the enable lines are back as they were, and no motor is driven\n");
    start();
    tick(GOOD, 11);
    tick(GOOD, 11);
    return 0;
}
