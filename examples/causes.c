/*
 * Which cause a frame gives, row by row, at a servo, at an I/O module and at a
 * step-motor module that have their addresses and nothing else: what night
 * shift reads when a host sends something that a module can't carry out. Every
 * row is sent once whole and once damaged; the first surprise ends the program
 * with status 1.
 */
#include "doljurven.h"

#include <stdio.h>
#include <stdlib.h>

enum code { SET_ADDRESS = 1 };

/* The module at place 0 has address 1, and so on. */
enum { SERVO, IO, STEPPER, MODULES, FIRST_ADDRESS = 1, GROUP = 200, DATA_MOST = 15 };

/* How a frame ends up at a module. */
enum { DONE = NMC_CAUSE_EXECUTED, COUNT = NMC_CAUSE_COUNT, NOT_NOW = NMC_CAUSE_NOT_NOW };
enum { UNKNOWN = NMC_CAUSE_UNKNOWN, VALUE = NMC_CAUSE_VALUE };

struct row {
    const char *words;
    uint8_t code, len, data[DATA_MOST];
    int to_group;
    uint8_t causes[MODULES];
};

static const struct row rows[] = {
    {"code 9, Set Homing", 9, 1, {0x21}, 0, {DONE, UNKNOWN, UNKNOWN}},
    {"Set Homing without its byte", 9, 0, {0}, 0, {COUNT, UNKNOWN, UNKNOWN}},
    {"Set Homing with two stops", 9, 1, {0x31}, 0, {VALUE, UNKNOWN, UNKNOWN}},
    {"the same, a byte too many", 9, 2, {0x31}, 0, {COUNT, UNKNOWN, UNKNOWN}},
    {"Set Homing that watches no input", 9, 1, {0x20}, 0, {VALUE, UNKNOWN, UNKNOWN}},
    {"code 13 with 15 data bytes", 13, 15, {0}, 0, {UNKNOWN, UNKNOWN, UNKNOWN}},
    {"code 8, Set Timer Mode", 8, 1, {0}, 0, {UNKNOWN, DONE, UNKNOWN}},
    {"code 11, Clear Bits", 11, 0, {0}, 0, {DONE, UNKNOWN, UNKNOWN}},
    {"code 12, Synch Input, to the group", 12, 0, {0}, 1, {UNKNOWN, DONE, UNKNOWN}},
    {"Set Baud individually", 10, 1, {0}, 0, {UNKNOWN, UNKNOWN, UNKNOWN}},
    {"Set Baud individually, no data", 10, 0, {0}, 0, {UNKNOWN, UNKNOWN, UNKNOWN}},
    {"Set Baud individually, 2 data bytes", 10, 2, {0}, 0, {UNKNOWN, UNKNOWN, UNKNOWN}},
    {"Set Baud to the group", 10, 1, {0}, 1, {DONE, DONE, DONE}},
    {"Set Baud to the group, 2 data bytes", 10, 2, {0}, 1, {COUNT, COUNT, COUNT}},
    {"No Op with a data byte", 14, 1, {0}, 0, {COUNT, COUNT, COUNT}},
    {"code 6 with 2 data bytes, to the group", 6, 2, {0}, 1, {COUNT, DONE, COUNT}},
    {"load without a control byte", 4, 0, {0}, 0, {COUNT, COUNT, COUNT}},
    {"load, short and of acceleration 0", 4, 4, {0x04}, 0, {COUNT, COUNT, COUNT}},
    {"load of acceleration 0", 4, 5, {0x04}, 0, {VALUE, COUNT, COUNT}},
    {"the same, to start at once", 4, 5, {0x84}, 0, {VALUE, COUNT, COUNT}},
    {"load to start at once, incomplete", 4, 5, {0x84, 1}, 0, {NOT_NOW, COUNT, COUNT}},
    {"load", 4, 5, {0x04, 1}, 0, {DONE, COUNT, COUNT}},
    {"gains", 6, 15, {[12] = 1, [14] = 1}, 0, {DONE, COUNT, COUNT}},
    {"gains with SR 2", 6, 15, {[12] = 2, [14] = 1}, 0, {VALUE, COUNT, COUNT}},
    {"gains with SR 2, a byte too few", 6, 14, {[12] = 2}, 0, {COUNT, COUNT, COUNT}},
    {"Stop with bits 1 and 4, no position", 7, 1, {0x12}, 0, {COUNT, COUNT, VALUE}},
    {"Stop with bits 1 and 4, and a position", 7, 5, {0x12}, 0, {VALUE, COUNT, COUNT}},
    {"Stop with bits 1 and 2", 7, 1, {0x06}, 0, {VALUE, COUNT, VALUE}},
    {"Stop with bit 5", 7, 1, {0x20}, 0, {VALUE, COUNT, VALUE}},
    {"Stop with bit 5, a byte too many", 7, 2, {0x20}, 0, {COUNT, COUNT, COUNT}},
    {"abrupt stop without power", 7, 1, {0x04}, 0, {NOT_NOW, COUNT, DONE}},
    {"Start without a load; Synch Output", 5, 0, {0}, 0, {NOT_NOW, DONE, NOT_NOW}},
    {"Stop with the amplifier bit", 7, 1, {0x01}, 0, {DONE, COUNT, DONE}},
    {"No Op", 14, 0, {0}, 0, {DONE, DONE, DONE}},
    {"Define Status, all items", 2, 1, {0xFF}, 0, {DONE, DONE, VALUE}},
    {"Define Status, all items, 2 data bytes", 2, 2, {0xFF}, 0, {COUNT, COUNT, COUNT}},
    {"Read Status, bits 0 and 5", 3, 1, {0x21}, 0, {DONE, DONE, DONE}},
    {"code 4 with 02 64, to the group", 4, 2, {0x02, 0x64}, 1, {COUNT, DONE, DONE}},
    {"load of speed and T", 4, 3, {0x06, 5, 1}, 0, {COUNT, COUNT, DONE}},
    {"load of speed and T, a byte too few", 4, 2, {0x06, 0}, 0, {COUNT, DONE, COUNT}},
    {"load of speed 0", 4, 3, {0x06, 0, 1}, 0, {COUNT, COUNT, VALUE}},
    {"the same, to start at once", 4, 3, {0x86, 0, 1}, 0, {COUNT, COUNT, VALUE}},
    {"load of speed and T, with bit 5", 4, 3, {0x26, 5, 1}, 0, {COUNT, COUNT, VALUE}},
    {"load of speed and T, to start at once", 4, 3, {0x86, 5, 1}, 0, {COUNT, COUNT, NOT_NOW}},
    {"Set Parameters", 6, 5, {0, 5}, 0, {COUNT, COUNT, DONE}},
    {"Set Parameters with minimum 0", 6, 5, {0}, 0, {COUNT, COUNT, VALUE}},
    {"the same, a byte too few", 6, 4, {0}, 0, {COUNT, COUNT, COUNT}},
    {"Stop with bits 2 and 3", 7, 1, {0x0C}, 0, {VALUE, COUNT, VALUE}},
    {"smooth stop", 7, 1, {0x08}, 0, {DONE, COUNT, DONE}},
    {"code 0, Reset Position", 0, 0, {0}, 0, {DONE, COUNT, UNKNOWN}},
};

static const char *const names[] = {"executed", "damaged", "wrong count", "not now", "unknown", "out of range"};

static uint8_t net[NMC_NET_LEN];

static void check(int holds, const char *words, const char *what)
{
    if (!holds) {
        printf("surprise: %s: %s\n", words, what);
        exit(1);
    }
}

/* Sends a frame, its last byte marked if it is to be damaged. */
static void tell(const char *words, uint8_t address, uint8_t code, const uint8_t *data, size_t data_len, int damaged)
{
    uint8_t frame[NMC_FRAME_LEN], room[NMC_ROOM_LEN];
    size_t len, written;
    check(nmc_write_frame(address, code, data, data_len, frame, sizeof frame, &len) == NMC_DONE, words, "not written");
    for (size_t i = 0; i < len; i++)
        check(nmc_byte(net, sizeof net, damaged && i + 1 == len, frame[i], room, sizeof room, &written) <= NMC_DAMAGED,
              words, "a byte was refused");
}

static uint8_t cause_at(uint32_t place, const char *words)
{
    uint8_t cause = 0xFF;
    check(nmc_cause(net, sizeof net, place, &cause) == NMC_DONE, words, "no cause was told");
    return cause;
}

/* Each with an address of its own in one group, and then the row. */
static void send_row(const struct row *row, int damaged)
{
    const uint8_t types[MODULES] = {NMC_TYPE_SERVO, NMC_TYPE_IO, NMC_TYPE_STEPPER};
    check(nmc_setup(net, sizeof net, types, MODULES) == NMC_DONE, row->words, "setup");
    for (uint8_t place = 0; place < MODULES; place++) {
        const uint8_t addresses[2] = {(uint8_t)(FIRST_ADDRESS + place), GROUP};
        tell(row->words, 0, SET_ADDRESS, addresses, sizeof addresses, 0);
    }
    if (row->to_group)
        tell(row->words, GROUP, row->code, row->data, row->len, damaged);
    for (uint8_t place = 0; place < MODULES && !row->to_group; place++)
        tell(row->words, FIRST_ADDRESS + place, row->code, row->data, row->len, damaged);
}

int main(void)
{
    printf("%-40s %-14s %-14s %s\n", "", "servo", "I/O module", "step-motor module");
    for (size_t i = 0; i < sizeof rows / sizeof rows[0]; i++) {
        const struct row *row = &rows[i];
        send_row(row, 1);
        for (uint32_t place = 0; place < MODULES; place++)
            check(cause_at(place, row->words) == NMC_CAUSE_DAMAGED, row->words, "damaged, and told otherwise");
        send_row(row, 0);
        for (uint32_t place = 0; place < MODULES; place++)
            check(cause_at(place, row->words) == row->causes[place], row->words, "another cause");
        printf("%-40s %-14s %-14s %s\n", row->words, names[row->causes[SERVO]], names[row->causes[IO]],
               names[row->causes[STEPPER]]);
    }
    return 0;
}
