/* The replay program over either build of plain C, to measure the library's against. */
#include "plain.h"

#include <stdbool.h>
#include <stdio.h>
#include <string.h>

enum { MODULE, LINE_BYTE, SERVO_SAMPLE, IO_SAMPLE, TICK, STEPPER_SAMPLE, KINDS };

static const uint8_t body_len[KINDS] = {1, 2, 8, 10, 0, 2};

/* Of the module for which a kind has a sample. */
static const uint8_t type_of[KINDS] = {[SERVO_SAMPLE] = 0, [IO_SAMPLE] = 2, [STEPPER_SAMPLE] = 3};

static struct plain_network net;
static uint8_t types[PLAIN_MOST_MODULES];
static uint8_t samples[PLAIN_MOST_MODULES * PLAIN_SAMPLE_LEN]; /* the latest of each place, 0 until one comes */
static size_t chain;
static bool running; /* a record of another kind has come, so no module may */

static void print_replies(const uint8_t *room, const uint8_t *lengths)
{
    static const char digits[] = "0123456789ABCDEF";
    for (int place = 0; place < net.chain; place++) {
        if (lengths[place] == 0)
            continue;
        char line[64];
        int len = snprintf(line, sizeof line, "%d", place);
        for (int i = 0; i < lengths[place]; i++, room++) {
            line[len++] = ' ';
            line[len++] = digits[*room >> 4];
            line[len++] = digits[*room & 15];
        }
        line[len++] = '\n';
        fwrite(line, 1, (size_t)len, stdout);
    }
}

static bool take_line_byte(const uint8_t *body)
{
    static uint8_t room[PLAIN_ROOM_LEN];
    uint8_t lengths[PLAIN_MOST_MODULES];
    size_t written;
    if (PLAIN(byte_by_place)(&net, body[0], body[1], room, sizeof room, &written, lengths) > 2)
        return false;
    if (written > 0)
        print_replies(room, lengths);
    return true;
}

static bool take_module(uint8_t type)
{
    if (running || chain == PLAIN_MOST_MODULES || (type != 0 && type != 2 && type != 3))
        return false;
    samples[PLAIN_SAMPLE_LEN * chain] = type;
    types[chain++] = type;
    return true;
}

static bool in_range(uint8_t kind, const uint8_t *b)
{
    if (kind == IO_SAMPLE)
        return b[2] < 16;
    return kind == SERVO_SAMPLE ? b[1] <= 2 && b[7] <= 3 : b[1] <= 1;
}

/* A sample's record has its place, and then what stands behind the type in a tick's list. */
static bool take_sample(uint8_t kind, const uint8_t *b)
{
    if (b[0] >= chain || types[b[0]] != type_of[kind] || !in_range(kind, b))
        return false;
    memcpy(samples + PLAIN_SAMPLE_LEN * b[0] + 1, b + 1, body_len[kind] - 1u);
    return true;
}

static bool take_record(uint8_t kind, const uint8_t *b)
{
    if (kind == MODULE)
        return take_module(b[0]);
    if (!running && PLAIN(setup)(&net, types, chain) != 0)
        return false;
    running = true;
    switch (kind) {
    case LINE_BYTE:
        return take_line_byte(b);
    case SERVO_SAMPLE:
    case IO_SAMPLE:
    case STEPPER_SAMPLE:
        return take_sample(kind, b);
    default:
        return PLAIN(tick)(&net, samples, PLAIN_SAMPLE_LEN * chain) == 0;
    }
}

int main(int argc, char **argv)
{
    FILE *capture = argc > 1 ? fopen(argv[1], "rb") : stdin;
    if (!capture) {
        perror(argv[1]);
        return 1;
    }
    unsigned long offset = 0;
    for (int kind; (kind = getc(capture)) != EOF; offset += 1 + (unsigned long)body_len[kind]) {
        uint8_t body[10];
        if (kind >= KINDS || fread(body, 1, body_len[kind], capture) != body_len[kind] ||
            !take_record((uint8_t)kind, body)) {
            printf("bad %lu\n", offset);
            break;
        }
    }
    return 0;
}
