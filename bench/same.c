/*
 * Holds plain C to the library, so that what is measured against it is the
 * same document: over long histories, led to where modules hear and execute,
 * both builds and the library must give the same numbers, replies, causes and
 * outputs, latch the same samples, and servos and steppers keep the same; a
 * buffer must do what the library's single bytes do, to the record's last byte;
 * a tick or a buffer whose list is spoiled must change nothing; and over spoiled
 * records the library and the build that checks must refuse the same ones. Texts
 * of the line monitor and records of line bytes, good and spoiled, must be taken
 * and refused the same, to the last byte of the room.
 */
#include "plain.h"
#include "three.h"

#include <stdbool.h>
#include <stdio.h>
#include <stdlib.h>
#include <string.h>

enum { HISTORIES = 3200, STEPS = 500, FASTEST = 83886080, SLOTS_AT = 20, SLOT_LEN = (NMC_NET_LEN - SLOTS_AT) / NMC_MOST_MODULES };
enum { CAUSE_AT = 5, ITEMS_AT = 6, LATCHED_AT = 8, INPUTS_AT = 14, SETPOINT_AT = 58 };
enum { SERVO_SPEED_AT = 62, SERVO_GOAL_AT = 66, INTEGRAL_AT = 82, PREVIOUS_AT = 86, MODE_AT = 90, PWM_AT = 91, ERROR_AT = 99 };
enum { CUT_AT = 101, HOME_AT = 102, HOMING_AT = 106, SERVO_LEN = 107 };
enum { MINIMUM_AT = 9, LOAD_AT = 18, SPEED_AT = 22, GOAL_AT = 24, TIME_AT = 25, COUNTER_AT = 26, STOPPING_AT = 27, STEPPER_LEN = 32 };
enum { CAUSES = 6, NUMBERS = 23, LEAST_TIMES = 1000, MOST_STEPS = 250 };
enum { ADDRESS_AT = 15, COMMAND_AT = 16, FILL_AT = 17, MARKED_AT = 18, STATION_AT = 1, TOUCHED_BY_LEN = 4 };
enum { FILLINGS = 400, FILLED = 4, MOST_FRAMES = 16, MOST_LIST = NMC_BUFFER_LEN + 6, MOST_ROOM = NMC_BUFFER_ROOM_LEN + 8 };

static uint64_t dice;
static uint32_t history, step;
static unsigned long calls, frames, frames_with[CAUSES], ticks_with[NUMBERS], moving_ticks, spoiled, refused;
static unsigned long buffers_with[NUMBERS];

/* What histories must come to where an output is at its limit. */
enum at_limit {
    CUT,
    CUT_AGAIN,
    CUT_TO_NOTHING,
    CUT_AGAINST_ERROR,
    CUT_PAST_IL,
    CUT_AT_HIGH_POWER,
    LIMIT_ITSELF,
    CUT_ENDS,
    FRAME_LEAVES_CUT,
    FRAME_CLEARS_CUT,
    WAYS_AT_LIMIT
};
static const char *const ways_at_limit[WAYS_AT_LIMIT] = {
    [CUT] = "cut",
    [CUT_AGAIN] = "cut again",
    [CUT_TO_NOTHING] = "cut, OL being 0",
    [CUT_AGAINST_ERROR] = "cut, the output against the error",
    [CUT_PAST_IL] = "cut, the integral left beyond IL",
    [CUT_AT_HIGH_POWER] = "cut at power 2",
    [LIMIT_ITSELF] = "at the limit, not cut",
    [CUT_ENDS] = "no longer cut",
    [FRAME_LEAVES_CUT] = "cut bit left by a frame",
    [FRAME_CLEARS_CUT] = "cut bit cleared by a frame",
};
static unsigned long times_at_limit[WAYS_AT_LIMIT];

/* What histories must come to with steppers. */
enum stepping {
    FASTER,
    SLOWER,
    SLOWER_TO_STOP,
    STOP_ENDS,
    INPUT_ENDS,
    BACK_OVER_0,
    START_FROM_REST,
    START_WHILE_MOVING,
    START_WHILE_STOPPING,
    STOP_BEGINS,
    STOP_REPEATED,
    MINIMUM_STAYS,
    WAYS_OF_STEPPING
};
static const char *const ways_of_stepping[WAYS_OF_STEPPING] = {
    [FASTER] = "a stepper one faster",
    [SLOWER] = "a stepper one slower",
    [SLOWER_TO_STOP] = "a stepper one slower in a smooth stop",
    [STOP_ENDS] = "a smooth stop at its end",
    [INPUT_ENDS] = "a motion ended by the stop input",
    [BACK_OVER_0] = "a position back over 0",
    [START_FROM_REST] = "a stepper started from rest",
    [START_WHILE_MOVING] = "a stepper started while moving",
    [START_WHILE_STOPPING] = "a stepper started in a smooth stop",
    [STOP_BEGINS] = "a smooth stop",
    [STOP_REPEATED] = "a smooth stop in a smooth stop",
    [MINIMUM_STAYS] = "Set Parameters while moving",
};
static unsigned long times_of_stepping[WAYS_OF_STEPPING];

/* Where homing finds its switch: each of its stops in each mode. */
enum { MODES = PLAIN_TRAPEZOID + 1, STOPS = 4 };
static const uint8_t homing_stops[STOPS] = {0, 0x04, 0x10, 0x20};
static const char *const modes[MODES] = {"off", "PWM", "holding", "velocity mode", "a trapezoid"};
static unsigned long times_found[MODES][STOPS];

/* What histories must come to with homing besides. */
enum homing {
    BOTH_CHANGE,
    UNWATCHED_CHANGES,
    STOPS_IN_MOTION,
    SLOWS_DOWN,
    TURNS_ON,
    SKIPPED_FOR_POWER,
    SKIPPED_FOR_ERROR,
    POWER_FAILS,
    LOAD_DROPPED,
    LOAD_LEFT,
    ERROR_TRIPS,
    STILL_CUT,
    SET_AGAIN,
    SET_BADLY,
    STOP_LEAVES_IT,
    RESET_ENDS_IT,
    HOME_SHIFTED,
    NO_HOME_SHIFTED,
    WAYS_OF_HOMING
};
static const char *const ways_of_homing[WAYS_OF_HOMING] = {
    [BOTH_CHANGE] = "both inputs watched and changed",
    [UNWATCHED_CHANGES] = "an input changed that is not watched",
    [STOPS_IN_MOTION] = "homing's abrupt stop in motion",
    [SLOWS_DOWN] = "homing's smooth stop in motion",
    [TURNS_ON] = "a servo turned on by homing",
    [SKIPPED_FOR_POWER] = "homing's stop skipped for power",
    [SKIPPED_FOR_ERROR] = "homing's stop skipped for the error bit",
    [POWER_FAILS] = "found at power 0",
    [LOAD_DROPPED] = "a load dropped by homing",
    [LOAD_LEFT] = "a load left by homing",
    [ERROR_TRIPS] = "found, and the error bit set in the same tick",
    [STILL_CUT] = "found, and cut as before",
    [SET_AGAIN] = "Set Homing while homing",
    [SET_BADLY] = "Set Homing with a bad byte",
    [STOP_LEAVES_IT] = "Stop while homing",
    [RESET_ENDS_IT] = "Hard Reset while homing",
    [HOME_SHIFTED] = "home shifted",
    [NO_HOME_SHIFTED] = "home shifted before any was found",
};
static unsigned long times_of_homing[WAYS_OF_HOMING];

/* What histories must come to with buffers. */
enum buffering {
    NO_BYTES,
    MOST_BYTES,
    NO_END,
    ONE_END,
    SEVERAL_ENDS,
    SIXTEEN_ENDS,
    ROOM_FILLED,
    BYTES_BEHIND_FILLED,
    SEVERAL_REPLY,
    CARRIED_OVER,
    CARRIED_THROUGH,
    CARRIED_MARK,
    GOOD_AFTER_DAMAGED,
    REPLY_AFTER_ADDRESS,
    LENGTHS_DIFFER,
    LISTS_TOO_LONG,
    BAD_MARK,
    BAD_MARK_BEHIND_FRAME,
    SHORT_BUFFER_ROOM,
    NO_BYTES_IN_SHORT_ROOM,
    LENGTHS_BEFORE_MARK,
    LENGTHS_BEFORE_ROOM,
    MARK_BEFORE_ROOM,
    RECORD_BEFORE_LENGTHS,
    RECORD_ALONE,
    WAYS_OF_BUFFERING
};
static const char *const ways_of_buffering[WAYS_OF_BUFFERING] = {
    [NO_BYTES] = "a buffer of no bytes",
    [MOST_BYTES] = "a buffer of 64",
    [NO_END] = "a buffer in which no frame ends",
    [ONE_END] = "a buffer in which one frame ends",
    [SEVERAL_ENDS] = "a buffer in which several frames end",
    [SIXTEEN_ENDS] = "a buffer in which sixteen frames end",
    [ROOM_FILLED] = "a room filled to its end",
    [BYTES_BEHIND_FILLED] = "bytes behind those that filled the room",
    [SEVERAL_REPLY] = "a buffer in which several frames draw replies",
    [CARRIED_OVER] = "a frame carried over from one buffer to the next",
    [CARRIED_THROUGH] = "a frame carried through a buffer",
    [CARRIED_MARK] = "a mark carried over from one buffer to the next",
    [GOOD_AFTER_DAMAGED] = "a good frame behind a damaged one in a buffer",
    [REPLY_AFTER_ADDRESS] = "a reply behind a change of addresses in a buffer",
    [LENGTHS_DIFFER] = "a buffer refused for different lengths",
    [LISTS_TOO_LONG] = "a buffer refused for more than 64 bytes",
    [BAD_MARK] = "a buffer refused for a mark",
    [BAD_MARK_BEHIND_FRAME] = "a buffer refused for a mark behind a whole frame",
    [SHORT_BUFFER_ROOM] = "a buffer refused for its room",
    [NO_BYTES_IN_SHORT_ROOM] = "a buffer of no bytes refused for its room",
    [LENGTHS_BEFORE_MARK] = "a buffer refused for its lengths, with a bad mark",
    [LENGTHS_BEFORE_ROOM] = "a buffer refused for its lengths, in a short room",
    [MARK_BEFORE_ROOM] = "a buffer refused for a mark, in a short room",
    [RECORD_BEFORE_LENGTHS] = "a buffer refused for the record, with bad lists",
    [RECORD_ALONE] = "a good buffer refused for the record",
};
static unsigned long times_of_buffering[WAYS_OF_BUFFERING];

/* What texts and records of line bytes must come to. */
enum texting {
    NO_TEXT,
    TEXT_TAKEN,
    LONG_LINE,
    SMALL_LETTER,
    BAD_LINE_BEGIN,
    BAD_BEHIND_SPACE,
    BAD_SECOND_DIGIT,
    BAD_BEHIND_BYTE,
    BAD_BEHIND_MARK,
    OFF_BEHIND_SPACE,
    OFF_BEHIND_DIGIT,
    OFF_BEHIND_BYTE,
    OFF_BEHIND_MARK,
    SHORT_IMPORT_ROOM,
    TEXT_BEFORE_ROOM,
    NO_RECORDS,
    FULL_LAST_LINE,
    SHORTER_LAST_LINE,
    MARKED_BYTE,
    CUT_RECORD,
    OTHER_KIND,
    OTHER_MARK,
    SHORT_EXPORT_ROOM,
    RECORDS_BEFORE_ROOM,
    WAYS_OF_TEXTING
};
static const char *const ways_of_texting[WAYS_OF_TEXTING] = {
    [NO_TEXT] = "an empty text",
    [TEXT_TAKEN] = "a text imported",
    [LONG_LINE] = "a line of more than 16 bytes imported",
    [SMALL_LETTER] = "a small letter imported",
    [BAD_LINE_BEGIN] = "a text at fault where a line begins",
    [BAD_BEHIND_SPACE] = "a text at fault behind a space",
    [BAD_SECOND_DIGIT] = "a text at fault behind a byte's first digit",
    [BAD_BEHIND_BYTE] = "a text at fault behind a byte",
    [BAD_BEHIND_MARK] = "a text at fault behind a mark",
    [OFF_BEHIND_SPACE] = "a text that breaks off behind a space",
    [OFF_BEHIND_DIGIT] = "a text that breaks off behind a byte's first digit",
    [OFF_BEHIND_BYTE] = "a text that breaks off behind a byte",
    [OFF_BEHIND_MARK] = "a text that breaks off behind a mark",
    [SHORT_IMPORT_ROOM] = "a text refused for its room",
    [TEXT_BEFORE_ROOM] = "a text refused for itself, in a short room",
    [NO_RECORDS] = "an export of no records",
    [FULL_LAST_LINE] = "an export whose last line is full",
    [SHORTER_LAST_LINE] = "an export whose last line is shorter",
    [MARKED_BYTE] = "an export with a mark",
    [CUT_RECORD] = "records refused for a cut one",
    [OTHER_KIND] = "records refused for another kind",
    [OTHER_MARK] = "records refused for a mark",
    [SHORT_EXPORT_ROOM] = "records refused for their room",
    [RECORDS_BEFORE_ROOM] = "records refused for themselves, in a short room",
};
static unsigned long times_of_texting[WAYS_OF_TEXTING], imports_with[NUMBERS], exports_with[NUMBERS];

/* The last bytes of the line came in a buffer. */
static bool after_buffer;

/* The library's record and the structs, as three.c keeps them. */
static uint8_t *record;
static struct plain_network *plain, *checked;

/* The data of a command that has none; no pointer may be null. */
static const uint8_t none[1];

/* What the board has measured last at each place: the list of the next tick. */
static uint8_t samples[NMC_MOST_MODULES * NMC_SAMPLE_LEN];

/* splitmix64. No expression throws twice, so that histories are the same with every compiler. */
static uint64_t throw_dice(void)
{
    uint64_t z = dice += UINT64_C(0x9E3779B97F4A7C15);
    z = (z ^ z >> 30) * UINT64_C(0xBF58476D1CE4E5B9);
    z = (z ^ z >> 27) * UINT64_C(0x94D049BB133111EB);
    return z ^ z >> 31;
}

static uint32_t below(uint32_t end)
{
    return (uint32_t)(throw_dice() % end);
}

static bool percent(uint32_t times)
{
    return below(100) < times;
}

static uint8_t some_byte(void)
{
    static const uint8_t edges[] = {0, 1, 2, 3, 0x0F, 0x10, 0x3F, 0x7F, 0x80, 0xAA, 0xFF};
    return percent(40) ? edges[below(sizeof edges)] : (uint8_t)throw_dice();
}

static void need(bool holds, const char *what, unsigned which)
{
    if (holds)
        return;
    printf("history %u, step %u: %s differs from the library's: %s\n", (unsigned)history, (unsigned)step,
           implementations[which].name, what);
    exit(1);
}

/* The same of something that one alone must do. */
static void need_alone(bool holds, const char *what, unsigned which)
{
    if (holds)
        return;
    printf("history %u, step %u: %s: %s\n", (unsigned)history, (unsigned)step, implementations[which].name, what);
    exit(1);
}

/* ---- each call at all three */

/* Which cause a module keeps shows in its record alone: replies tell only that there is one. */
static void causes_of_all(void)
{
    for (int place = 0; place < plain->chain; place++) {
        uint8_t cause = record[SLOTS_AT + SLOT_LEN * place + CAUSE_AT];
        need(plain->modules[place].station.cause == cause, "cause", PLAIN_C);
        need(checked->modules[place].station.cause == cause, "cause", CHECKED_C);
    }
}

static uint32_t number_at(const uint8_t *s, int at, int bytes)
{
    uint32_t x = 0;
    while (bytes-- > 0)
        x = x << 8 | s[at + bytes];
    return x;
}

static struct plain_gains gains_in(const uint8_t *s)
{
    return (struct plain_gains){.kp = (uint16_t)number_at(s, 23, 2),
                                .kd = (uint16_t)number_at(s, 25, 2),
                                .ki = (uint16_t)number_at(s, 27, 2),
                                .il = (uint16_t)number_at(s, 29, 2),
                                .ol = s[31],
                                .el = (uint16_t)number_at(s, 32, 2),
                                .cl = s[34],
                                .sm = s[35]};
}

static struct plain_load load_in(const uint8_t *s)
{
    return (struct plain_load){.waits = s[46],
                               .way = s[47],
                               .has_position = s[48],
                               .position = number_at(s, 49, 4),
                               .has_pwm = s[53],
                               .pwm = s[54],
                               .reverse = s[55]};
}

static struct plain_servo servo_in(const uint8_t *s)
{
    return (struct plain_servo){
        .latched = {.power = s[8], .ad = s[9], .raw = number_at(s, 10, 4), .inputs = s[INPUTS_AT]},
        .offset = number_at(s, 15, 4),
        .last_position = number_at(s, 19, 4),
        .gains = gains_in(s),
        .rates = {number_at(s, 36, 4), number_at(s, 40, 4), s[44], s[45]},
        .load = load_in(s),
        .fraction = (uint16_t)number_at(s, 56, 2),
        .setpoint = number_at(s, SETPOINT_AT, 4),
        .speed = (int32_t)number_at(s, SERVO_SPEED_AT, 4),
        .goal = number_at(s, SERVO_GOAL_AT, 4),
        .goal_speed = (int32_t)number_at(s, 70, 4),
        .acceleration = number_at(s, 74, 4),
        .top_speed = number_at(s, 78, 4),
        .integral = (int32_t)number_at(s, INTEGRAL_AT, 4),
        .previous_error = (int32_t)number_at(s, PREVIOUS_AT, 4),
        .mode = s[MODE_AT],
        .pwm = (int32_t)number_at(s, PWM_AT, 4),
        .output = (int32_t)number_at(s, 95, 4),
        .error = s[ERROR_AT],
        .amplifier = s[100],
        .cut = s[CUT_AT],
        .home = number_at(s, HOME_AT, 4),
        .homing = s[HOMING_AT]};
}

static bool same_gains(const struct plain_gains *a, const struct plain_gains *b)
{
    return a->kp == b->kp && a->kd == b->kd && a->ki == b->ki && a->il == b->il && a->el == b->el &&
           a->ol == b->ol && a->cl == b->cl && a->sm == b->sm;
}

static bool same_rates(const struct plain_rates *a, const struct plain_rates *b)
{
    return a->velocity == b->velocity && a->acceleration == b->acceleration &&
           a->velocity_loaded == b->velocity_loaded && a->acceleration_loaded == b->acceleration_loaded;
}

/* What is left of a load that does not wait is nobody's. */
static bool same_load(const struct plain_load *a, const struct plain_load *b)
{
    return a->waits == b->waits &&
           (!a->waits || (a->way == b->way && a->has_position == b->has_position && a->position == b->position &&
                          a->has_pwm == b->has_pwm && a->pwm == b->pwm && a->reverse == b->reverse));
}

static bool same_profile(const struct plain_servo *a, const struct plain_servo *b)
{
    return a->setpoint == b->setpoint && a->fraction == b->fraction && a->mode == b->mode && a->speed == b->speed &&
           a->goal_speed == b->goal_speed && a->goal == b->goal && a->acceleration == b->acceleration &&
           a->top_speed == b->top_speed;
}

/* Of a servo all is compared. */
static bool servo_remembers(const struct plain_servo *s, const uint8_t *slot)
{
    const struct plain_servo kept = servo_in(slot);
    return s->latched.power == kept.latched.power && s->latched.ad == kept.latched.ad &&
           s->latched.raw == kept.latched.raw && s->latched.inputs == kept.latched.inputs &&
           s->offset == kept.offset && s->last_position == kept.last_position && same_gains(&s->gains, &kept.gains) &&
           same_rates(&s->rates, &kept.rates) && same_load(&s->load, &kept.load) && same_profile(s, &kept) &&
           s->integral == kept.integral && s->previous_error == kept.previous_error && s->pwm == kept.pwm &&
           s->output == kept.output && s->error == kept.error && s->amplifier == kept.amplifier &&
           s->cut == kept.cut && s->home == kept.home && s->homing == kept.homing;
}

static bool io_remembers(const struct plain_io *io, const uint8_t *slot)
{
    return io->latched.inputs == number_at(slot, LATCHED_AT, 2) &&
           memcmp(io->latched.ad, slot + LATCHED_AT + 2, sizeof io->latched.ad) == 0 &&
           io->latched.counter == number_at(slot, LATCHED_AT + 5, 4);
}

static struct plain_stepper stepper_in(const uint8_t *s)
{
    return (struct plain_stepper){.amplifier = s[8],
                                  .minimum = s[MINIMUM_AT],
                                  .stored_position = number_at(s, 10, 4),
                                  .stored_timer = number_at(s, 14, 4),
                                  .load = {s[18], s[19], s[20], s[21]},
                                  .steps = {s[SPEED_AT], s[23], s[GOAL_AT], s[TIME_AT], s[COUNTER_AT], s[STOPPING_AT]},
                                  .position = number_at(s, 28, 4)};
}

/* And of a stepper: its loads and motions are bytes without gaps between. */
static bool stepper_remembers(const struct plain_stepper *s, const uint8_t *slot)
{
    const struct plain_stepper kept = stepper_in(slot);
    return s->amplifier == kept.amplifier && s->minimum == kept.minimum &&
           s->stored_position == kept.stored_position && s->stored_timer == kept.stored_timer &&
           memcmp(&s->load, &kept.load, sizeof kept.load) == 0 &&
           memcmp(&s->steps, &kept.steps, sizeof kept.steps) == 0 && s->position == kept.position;
}

static bool remembers(const struct plain_module *m, const uint8_t *slot)
{
    switch (m->type) {
    case NMC_TYPE_SERVO:
        return servo_remembers(&m->as.servo, slot);
    case NMC_TYPE_IO:
        return io_remembers(&m->as.io, slot);
    default:
        return stepper_remembers(&m->as.stepper, slot);
    }
}

/* What a module keeps shows later or never, or in a reply that may not be asked for. */
static void memories_of_all(void)
{
    for (int place = 0; place < plain->chain; place++) {
        const uint8_t *slot = record + SLOTS_AT + SLOT_LEN * place;
        need(remembers(&plain->modules[place], slot), "memory", PLAIN_C);
        need(remembers(&checked->modules[place], slot), "memory", CHECKED_C);
    }
}

static uint32_t byte_at_all(uint32_t mark, uint8_t byte, size_t room_len)
{
    static uint8_t rooms[IMPLEMENTATIONS][NMC_ROOM_LEN];
    uint32_t numbers[IMPLEMENTATIONS];
    size_t written[IMPLEMENTATIONS];
    uint8_t stale = (uint8_t)throw_dice();
    calls++;
    after_buffer = false;
    for (unsigned i = 0; i < IMPLEMENTATIONS; i++) {
        memset(rooms[i], stale, sizeof rooms[i]);
        numbers[i] = implementations[i].byte(mark, byte, rooms[i], room_len, &written[i]);
    }
    for (unsigned i = 1; i < IMPLEMENTATIONS; i++) {
        need(numbers[i] == numbers[LIBRARY], "byte's number", i);
        need(written[i] == written[LIBRARY], "length of the replies", i);
        need(memcmp(rooms[i], rooms[LIBRARY], sizeof rooms[i]) == 0, "replies", i);
    }
    if (numbers[LIBRARY] == NMC_FRAME || numbers[LIBRARY] == NMC_DAMAGED) {
        causes_of_all();
        memories_of_all();
    }
    return numbers[LIBRARY];
}

/* What is told of an unfinished frame; the rest of the receiver is nobody's. */
static bool receives(const struct plain_receiver *r)
{
    uint8_t fill = record[FILL_AT];
    return r->fill == fill && r->marked == record[MARKED_AT] && (fill < 2 || r->address == record[ADDRESS_AT]) &&
           (fill < 3 || r->command == record[COMMAND_AT]) && (fill < 4 || memcmp(r->data, record, fill - 3u) == 0);
}

/* What a buffer's call is handed. */
struct buffer {
    const uint8_t *bytes, *marks;
    size_t bytes_len, marks_len, room_len;
};

/* The bytes of each module by which a frame finds it, and whether its successor hears. */
static void stations_in(const uint8_t *r, uint8_t stations[NMC_MOST_MODULES][TOUCHED_BY_LEN])
{
    for (unsigned place = 0; place < NMC_MOST_MODULES; place++)
        memcpy(stations[place], r + SLOTS_AT + SLOT_LEN * place + STATION_AT, TOUCHED_BY_LEN);
}

/* What single bytes made of a buffer. */
struct singles {
    unsigned ends, damaged, replies;
    bool good_after_damaged, reply_after_address;
    size_t written, filled_at; /* filled_at: how many bytes it took to fill the room */
};

/* A buffer's bytes one by one at the library, on a copy of its record. */
static struct singles take_singly(const struct buffer *b, uint8_t *copy, uint8_t *room)
{
    uint8_t before[NMC_MOST_MODULES][TOUCHED_BY_LEN], now[NMC_MOST_MODULES][TOUCHED_BY_LEN];
    struct singles s = {.filled_at = MOST_LIST};
    bool addressed = false;
    stations_in(copy, before);
    for (size_t i = 0; i < b->bytes_len; i++) {
        size_t said;
        uint32_t number = nmc_byte(copy, NMC_NET_LEN, b->marks[i], b->bytes[i], room + s.written, NMC_ROOM_LEN, &said);
        if (number == NMC_DONE)
            continue;
        need_alone(number <= NMC_DAMAGED, "a byte of a buffer is refused", LIBRARY);
        s.written += said;
        if (s.written == NMC_BUFFER_ROOM_LEN && s.filled_at == MOST_LIST)
            s.filled_at = i + 1;
        s.ends++;
        s.replies += said > 0;
        s.reply_after_address |= addressed && said > 0;
        s.good_after_damaged |= s.damaged && number == NMC_FRAME;
        s.damaged += number == NMC_DAMAGED;
        stations_in(copy, now);
        addressed |= memcmp(before, now, sizeof now) != 0;
    }
    return s;
}

/* A buffer that was taken. */
static void count_buffer(const struct buffer *b, const struct singles *s, const uint8_t *before)
{
    bool open = before[FILL_AT] != 0 && after_buffer;
    frames += s->ends;
    times_of_buffering[NO_BYTES] += b->bytes_len == 0;
    times_of_buffering[MOST_BYTES] += b->bytes_len == NMC_BUFFER_LEN;
    times_of_buffering[NO_END] += s->ends == 0;
    times_of_buffering[ONE_END] += s->ends == 1;
    times_of_buffering[SEVERAL_ENDS] += s->ends > 1;
    times_of_buffering[SIXTEEN_ENDS] += s->ends == MOST_FRAMES;
    times_of_buffering[ROOM_FILLED] += s->written == NMC_BUFFER_ROOM_LEN;
    times_of_buffering[BYTES_BEHIND_FILLED] += s->filled_at < b->bytes_len;
    times_of_buffering[SEVERAL_REPLY] += s->replies > 1;
    times_of_buffering[CARRIED_OVER] += open && s->ends > 0;
    times_of_buffering[CARRIED_THROUGH] += open && s->ends == 0 && b->bytes_len > 0;
    times_of_buffering[CARRIED_MARK] += open && before[MARKED_AT] && s->damaged > 0;
    times_of_buffering[GOOD_AFTER_DAMAGED] += s->good_after_damaged;
    times_of_buffering[REPLY_AFTER_ADDRESS] += s->reply_after_address;
}

/* The library's buffer did what its bytes do one by one: the same record, and the same replies in a room as stale. */
static void is_single_bytes(const struct buffer *b, const uint8_t *before, const uint8_t *room, size_t written,
                            uint8_t stale)
{
    static uint8_t copy[NMC_NET_LEN], said[MOST_ROOM + NMC_ROOM_LEN];
    memcpy(copy, before, sizeof copy);
    memset(said, stale, sizeof said);
    struct singles s = take_singly(b, copy, said);
    need_alone(s.written == written, "a buffer's replies are not as long as its bytes'", LIBRARY);
    need_alone(memcmp(said, room, MOST_ROOM) == 0, "a buffer's replies are not its bytes'", LIBRARY);
    need_alone(memcmp(copy, record, sizeof copy) == 0, "a buffer leaves another record than its bytes", LIBRARY);
    count_buffer(b, &s, before);
}

static bool all_are(const uint8_t *bytes, size_t len, uint8_t byte)
{
    return len == 0 || (bytes[0] == byte && memcmp(bytes, bytes + 1, len - 1) == 0);
}

static uint32_t buffer_at_all(const struct buffer *b)
{
    static uint8_t rooms[IMPLEMENTATIONS][MOST_ROOM], before[NMC_NET_LEN];
    uint32_t numbers[IMPLEMENTATIONS];
    size_t written[IMPLEMENTATIONS];
    uint8_t stale = (uint8_t)throw_dice();
    calls++;
    memcpy(before, record, sizeof before);
    for (unsigned i = 0; i < IMPLEMENTATIONS; i++) {
        memset(rooms[i], stale, sizeof rooms[i]);
        written[i] = 99;
        numbers[i] = implementations[i].bytes(b->bytes, b->bytes_len, b->marks, b->marks_len, rooms[i], b->room_len,
                                              &written[i]);
    }
    for (unsigned i = 1; i < IMPLEMENTATIONS; i++) {
        need(numbers[i] == numbers[LIBRARY], "buffer's number", i);
        need(written[i] == written[LIBRARY], "length of a buffer's replies", i);
        need(memcmp(rooms[i], rooms[LIBRARY], sizeof rooms[i]) == 0, "a buffer's replies", i);
    }
    need(receives(&plain->receiver), "receiver", PLAIN_C);
    need(receives(&checked->receiver), "receiver", CHECKED_C);
    causes_of_all();
    memories_of_all();
    buffers_with[numbers[LIBRARY]]++;
    if (numbers[LIBRARY] == NMC_DONE) {
        is_single_bytes(b, before, rooms[LIBRARY], written[LIBRARY], stale);
        after_buffer = true;
    } else {
        need_alone(written[LIBRARY] == 0 && all_are(rooms[LIBRARY], MOST_ROOM, stale),
                   "a refused buffer tells something", LIBRARY);
    }
    return numbers[LIBRARY];
}

/* A tick of a servo at its limit, or out of it. */
static void count_at_limit(bool was_cut, const struct plain_servo *s)
{
    uint32_t size = (uint32_t)abs(s->output);
    times_at_limit[CUT] += s->cut;
    times_at_limit[CUT_AGAIN] += was_cut && s->cut;
    times_at_limit[CUT_TO_NOTHING] += s->cut && s->gains.ol == 0;
    times_at_limit[CUT_AGAINST_ERROR] += s->cut && (int64_t)s->output * s->previous_error < 0;
    times_at_limit[CUT_PAST_IL] += s->cut && abs(s->integral) > s->gains.il;
    times_at_limit[CUT_AT_HIGH_POWER] += s->cut && s->latched.power == 2;
    times_at_limit[LIMIT_ITSELF] += !s->cut && s->mode >= PLAIN_HOLDING && size > 0 && size == s->gains.ol;
    times_at_limit[CUT_ENDS] += was_cut && !s->cut && s->mode >= PLAIN_HOLDING;
}

/* A tick's number, the same at all. */
static uint32_t tick_with(const uint8_t *list, size_t len)
{
    uint32_t number = implementations[LIBRARY].tick(list, len);
    calls++;
    for (unsigned i = 1; i < IMPLEMENTATIONS; i++)
        need(implementations[i].tick(list, len) == number, "tick's number", i);
    ticks_with[number]++;
    return number;
}

/* A tick of a stepper that moved. */
static void count_stepping(const struct plain_stepper *before, const struct plain_stepper *after, bool stop)
{
    uint8_t v = before->steps.speed, w = after->steps.speed;
    if (v == 0)
        return;
    times_of_stepping[FASTER] += w > v;
    times_of_stepping[SLOWER] += 0 < w && w < v && !before->steps.stopping;
    times_of_stepping[SLOWER_TO_STOP] += 0 < w && w < v && before->steps.stopping;
    times_of_stepping[STOP_ENDS] += w == 0 && !stop;
    times_of_stepping[INPUT_ENDS] += stop;
    times_of_stepping[BACK_OVER_0] += before->steps.backward && after->position > before->position;
}

/* A tick of a servo that was homing. */
static void count_homing(const struct plain_servo *before, const struct plain_servo *after)
{
    uint8_t watched = before->homing & 3, changed = before->latched.inputs ^ after->latched.inputs;
    uint8_t stop = before->homing & 0x34, power = after->latched.power;
    bool abrupt = stop == 0x10, stopped = after->mode == PLAIN_HOLDING;
    times_of_homing[UNWATCHED_CHANGES] += watched && changed && !(watched & changed);
    if (!(watched & changed))
        return;
    for (unsigned i = 0; i < STOPS; i++)
        times_found[before->mode][i] += stop == homing_stops[i];
    times_of_homing[BOTH_CHANGE] += watched == 3 && changed == 3;
    times_of_homing[STOPS_IN_MOTION] += abrupt && stopped && before->speed;
    times_of_homing[SLOWS_DOWN] += stop == 0x20 && abs(after->speed) < abs(before->speed) && after->mode;
    times_of_homing[TURNS_ON] += abrupt && stopped && before->mode == PLAIN_OFF;
    times_of_homing[SKIPPED_FOR_POWER] += abrupt && power == 2 && !before->error;
    times_of_homing[SKIPPED_FOR_ERROR] += abrupt && power == 1 && before->error;
    times_of_homing[POWER_FAILS] += power == 0 && before->mode;
    times_of_homing[LOAD_DROPPED] += before->load.waits && !after->load.waits;
    times_of_homing[LOAD_LEFT] += stop && after->load.waits;
    times_of_homing[ERROR_TRIPS] += !before->error && after->error;
    times_of_homing[STILL_CUT] += before->cut && after->cut;
}

static void tick_all(void)
{
    static struct plain_module before[NMC_MOST_MODULES];
    memcpy(before, plain->modules, sizeof before);
    uint32_t number = tick_with(samples, (size_t)plain->chain * NMC_SAMPLE_LEN);
    need_alone(number == NMC_DONE, "a good list is refused", LIBRARY);
    memories_of_all();
    for (int place = 0; place < plain->chain; place++) {
        const struct plain_module *m = &plain->modules[place];
        if (m->type == NMC_TYPE_SERVO) {
            moving_ticks += m->as.servo.speed != 0;
            count_at_limit(before[place].as.servo.cut, &m->as.servo);
            count_homing(&before[place].as.servo, &m->as.servo);
        } else if (m->type == NMC_TYPE_STEPPER) {
            count_stepping(&before[place].as.stepper, &m->as.stepper, samples[NMC_SAMPLE_LEN * place + 1]);
        }
    }
}

static uint32_t outputs_of_all(uint32_t place)
{
    uint8_t outputs[IMPLEMENTATIONS][NMC_OUTPUTS_LEN];
    uint32_t number = 0;
    calls++;
    for (unsigned i = 0; i < IMPLEMENTATIONS; i++) {
        memset(outputs[i], 0x5A, NMC_OUTPUTS_LEN);
        uint32_t given = implementations[i].outputs(place, outputs[i]);
        if (i == LIBRARY)
            number = given;
        need(given == number, "outputs' number", i);
        need(memcmp(outputs[i], outputs[LIBRARY], NMC_OUTPUTS_LEN) == 0, "outputs", i);
    }
    return number;
}

static void read_at_all(uint32_t type, uint8_t items, const uint8_t *reply, size_t len)
{
    uint8_t readings[IMPLEMENTATIONS][NMC_READING_LEN];
    uint32_t number = 0;
    calls++;
    for (unsigned i = 0; i < IMPLEMENTATIONS; i++) {
        memset(readings[i], 0x5A, NMC_READING_LEN);
        uint32_t given = implementations[i].read_status(type, items, reply, len, readings[i]);
        if (i == LIBRARY)
            number = given;
        need(given == number, "reader's number", i);
        need(memcmp(readings[i], readings[LIBRARY], NMC_READING_LEN) == 0, "reading", i);
    }
}

static size_t write_at_all(uint32_t address, uint32_t code, const uint8_t *data, size_t len, uint8_t *frame,
                           size_t room_len)
{
    uint8_t rooms[IMPLEMENTATIONS][NMC_FRAME_LEN];
    uint32_t number = 0;
    size_t written[IMPLEMENTATIONS];
    calls++;
    for (unsigned i = 0; i < IMPLEMENTATIONS; i++) {
        memset(rooms[i], 0x5A, NMC_FRAME_LEN);
        uint32_t given =
            implementations[i].write_frame(address, code, data, len, rooms[i], room_len, &written[i]);
        if (i == LIBRARY)
            number = given;
        need(given == number && written[i] == written[LIBRARY], "writer's number or length", i);
        need(memcmp(rooms[i], rooms[LIBRARY], NMC_FRAME_LEN) == 0, "written frame", i);
    }
    memcpy(frame, rooms[LIBRARY], NMC_FRAME_LEN);
    return written[LIBRARY];
}

/* ---- frames that somebody hears and can execute */

static void put32(uint8_t *at, uint32_t x)
{
    for (int k = 0; k < 4; k++)
        at[k] = (uint8_t)(x >> 8 * k);
}

static uint32_t some_counts(void)
{
    static const uint32_t far[] = {0, 1, UINT32_C(0x7FFFFFFF), UINT32_C(0x80000000), UINT32_C(0x80000001)};
    if (percent(20))
        return far[below(5)];
    uint32_t reach = percent(20) ? 8000 : 200;
    return percent(50) ? below(reach) : 0 - below(reach);
}

/* A velocity or an acceleration, often one near the greatest. */
static uint32_t some_rate(void)
{
    uint32_t kind = below(40);
    if (kind == 0)
        return FASTEST + 1;
    if (kind == 1)
        return 0;
    if (kind < 7)
        return FASTEST - (percent(50) ? below(3) : below(FASTEST / 2));
    return kind < 14 ? below(300) : kind < 26 ? below(4 << 16) : (1 + below(24)) << 14;
}

static size_t some_load(const struct plain_servo *s, uint8_t *data)
{
    static const uint8_t controls[] = {0x17, 0x17, 0x17, 0x36, 0x36, 0x11, 0x32, 0x08, 0x1F, 0x38};
    uint8_t control = percent(85) ? controls[below(sizeof controls)] : (uint8_t)throw_dice();
    bool is_off = s->mode == PLAIN_OFF || s->mode == PLAIN_PWM;
    size_t len = 1;
    data[0] = control ^ (uint8_t)(below(4) << 6);
    if (control & 1) {
        put32(data + len, (is_off ? s->latched.raw - s->offset : s->setpoint) + some_counts());
        len += 4;
    }
    for (uint8_t bit = 2; bit <= 4; bit *= 2)
        if (control & bit) {
            put32(data + len, some_rate());
            len += 4;
        }
    if (control & 8)
        data[len++] = some_byte();
    return len;
}

/* The servo's own gains but for IL, which its integral is often beyond, and OL. */
static size_t other_limits(const struct plain_servo *s, uint8_t *data)
{
    static const uint8_t limits[] = {0, 1, 20, 100, 255};
    const struct plain_gains *g = &s->gains;
    uint32_t il = percent(70) ? below(1 + (uint32_t)abs(s->integral)) : below(32768);
    const uint32_t words[4] = {g->kp, g->kd, g->ki, il};
    for (int i = 0; i < 8; i++)
        data[i] = (uint8_t)(words[i / 2] >> 8 * (i % 2));
    data[8] = limits[below(sizeof limits)];
    data[9] = g->cl;
    data[10] = (uint8_t)g->el;
    data[11] = (uint8_t)(g->el >> 8);
    data[12] = 1;
    data[13] = 0;
    data[14] = g->sm;
    return 15;
}

static size_t some_gains(const struct plain_servo *s, uint8_t *data)
{
    if (percent(s->cut ? 60 : 20))
        return other_limits(s, data);
    for (int i = 0; i < 12; i += 2) {
        data[i] = (uint8_t)throw_dice();
        data[i + 1] = percent(50) ? below(4) : below(percent(5) ? 256 : 64);
    }
    data[8] = some_byte();
    data[12] = percent(95) ? 1 : some_byte();
    data[13] = percent(95) ? 0 : some_byte();
    data[14] = some_byte();
    return 15;
}

static size_t some_stop(const struct plain_servo *s, uint8_t *data)
{
    static const uint8_t controls[] = {0, 1, 2, 3, 4, 5, 8, 9, 0x10, 0x11};
    data[0] = percent(85) ? controls[below(sizeof controls)] : (uint8_t)throw_dice();
    put32(data + 1, s->latched.raw - s->offset + some_counts());
    return data[0] & 0x10 ? 5 : 1;
}

/* Mostly one of the twelve good bytes, often with the abrupt stop, which alone can be skipped; else one that is next to them. */
static uint8_t some_homing(void)
{
    static const uint8_t stops[] = {0, 0x04, 0x10, 0x10, 0x20};
    uint8_t watched = (uint8_t)(1 + below(3)), stop = stops[below(sizeof stops)], other = (uint8_t)(1u << below(8));
    if (percent(80))
        return watched | stop;
    return percent(80) ? (watched | stop) ^ other : (uint8_t)throw_dice();
}

/* A speed of a stepper, mostly a low one, and what is next to its range. */
static uint8_t some_steps(void)
{
    static const uint8_t edges[] = {0, 1, MOST_STEPS, MOST_STEPS + 1};
    return percent(15) ? edges[below(sizeof edges)] : (uint8_t)(1 + below(percent(90) ? 12 : MOST_STEPS));
}

static uint8_t some_time(void)
{
    return percent(4) ? (uint8_t)(below(2) * 255) : (uint8_t)(1 + below(percent(60) ? 3 : 10));
}

/* A stepper's load, mostly with speed and T and in the direction in which it moves. */
static size_t some_step_load(const struct plain_stepper *s, uint8_t *data)
{
    static const uint8_t controls[] = {0x06, 0x06, 0x06, 0x06, 0x07, 0x0F, 0x02, 0x04, 0x08, 0x00};
    uint8_t control = percent(92) ? controls[below(sizeof controls)] : (uint8_t)throw_dice();
    bool backward = s->steps.speed ? s->steps.backward != percent(15) : percent(50);
    size_t len = 1;
    data[0] = (uint8_t)((control & 0x6F) | backward << 4 | percent(50) << 7);
    len += control & 1 ? 4 : 0;
    if (control & 2)
        data[len++] = some_steps();
    if (control & 4)
        data[len++] = some_time();
    return len + (control & 8 ? 3 : 0);
}

/* A code that makes something of a stepper as it stands: Set Parameters, a load, Start, Stop. */
static uint8_t next_step_code(const struct plain_stepper *s)
{
    static const uint8_t moving[] = {4, 4, 6, 7, 7};
    if (s->minimum == 0)
        return 6;
    if (s->load.speed && percent(50)) /* also where a spoiled record has a load that does not wait */
        return 5;
    if (s->steps.stopping)
        return percent(60) ? 4 : 7;
    return s->steps.speed ? moving[below(sizeof moving)] : 4;
}

static size_t some_step_data(const struct plain_stepper *s, uint8_t code, uint8_t *data)
{
    static const uint8_t stops[] = {0, 1, 4, 5, 8, 8, 8, 9, 9, 9, 0x0C};
    switch (code) {
    case 4:
        return some_step_load(s, data);
    case 6:
        data[1] = some_steps();
        return 5;
    case 7:
        data[0] = percent(95) ? stops[below(sizeof stops)] : (uint8_t)throw_dice();
        return 1;
    default:
        return 0;
    }
}

static size_t some_servo_data(const struct plain_servo *s, uint8_t code, uint8_t *data)
{
    switch (code) {
    case 4:
        return some_load(s, data);
    case 6:
        return some_gains(s, data);
    case 7:
        return some_stop(s, data);
    case 9:
        data[0] = some_homing();
        return 1;
    default:
        return 0;
    }
}

static size_t some_data(const struct plain_module *m, uint8_t code, uint8_t *data)
{
    static const uint8_t common[16] = {[1] = 2, [2] = 1, [3] = 1, [10] = 1};
    static const uint8_t io[16] = {[0] = 2, [4] = 2, [6] = 2, [7] = 4, [8] = 1};
    for (int i = 0; i < 15; i++)
        data[i] = some_byte();
    if (percent(8))
        return below(16);
    if (m->type == NMC_TYPE_STEPPER && (code == 2 || code == 3) && percent(70))
        data[0] &= 0x21;
    if (common[code] || code >= 14)
        return common[code];
    if (m->type == NMC_TYPE_IO)
        return io[code];
    return m->type == NMC_TYPE_SERVO ? some_servo_data(&m->as.servo, code, data)
                                     : some_step_data(&m->as.stepper, code, data);
}

/* What has come over the line since the board handed over the last of it. */
enum { LINE_LEN = 512 };
static struct {
    uint8_t bytes[LINE_LEN], marks[LINE_LEN];
    size_t len;
} line;

static void put_byte(uint8_t byte, uint8_t mark)
{
    line.bytes[line.len] = byte;
    line.marks[line.len++] = mark;
}

/* A frame, now and then with a byte that is spoiled or marked. */
static void put_frame(const uint8_t *frame, size_t len)
{
    bool spoil = percent(3);
    size_t at = spoil ? below((uint32_t)len) : len;
    bool by_mark = percent(50);
    for (size_t i = 0; i < len; i++)
        put_byte(frame[i] ^ (i == at && !by_mark ? 0x10 : 0), i == at && by_mark);
}

static void hand_over_singly(void)
{
    for (size_t i = 0; i < line.len; i++)
        frames += byte_at_all(line.marks[i], line.bytes[i], NMC_ROOM_LEN) != NMC_DONE;
    line.len = 0;
}

/* So many bytes of the line in one buffer. */
static void hand_over(size_t at, size_t len)
{
    size_t more_room = percent(10) ? below(MOST_ROOM - NMC_BUFFER_ROOM_LEN + 1) : 0;
    const struct buffer b = {line.bytes + at, line.marks + at, len, len, NMC_BUFFER_ROOM_LEN + more_room};
    need_alone(buffer_at_all(&b) == NMC_DONE, "a good buffer is refused", LIBRARY);
}

/* In as few buffers as can be, or cut anywhere, with empty ones among them. */
static void hand_over_in_buffers(void)
{
    uint32_t most = percent(50) ? NMC_BUFFER_LEN : 1 + below(NMC_BUFFER_LEN);
    bool cut = percent(50);
    for (size_t at = 0; at < line.len;) {
        size_t left = line.len - at, len = left < most ? left : most;
        if (cut)
            len = percent(10) ? 0 : 1 + below((uint32_t)len);
        hand_over(at, len);
        at += len;
    }
    line.len = 0;
}

static void send(const uint8_t *frame, size_t len)
{
    put_frame(frame, len);
    if (percent(12))
        hand_over_in_buffers();
    else
        hand_over_singly();
}

static void send_command(uint8_t address, uint8_t code, const uint8_t *data, size_t len)
{
    uint8_t frame[NMC_FRAME_LEN];
    send(frame, write_at_all(address, code, data, len, frame, sizeof frame));
}

/* A command that a stepper has executed, though perhaps not it alone. */
static void count_command(const struct plain_stepper *before, const struct plain_stepper *after, uint8_t code,
                          uint8_t control)
{
    const struct plain_steps *was = &before->steps;
    bool started = (code == 5 || (code == 4 && control & 0x80)) && after->steps.speed;
    bool smooth = code == 7 && control & 8 && was->speed;
    times_of_stepping[START_FROM_REST] += started && !was->speed;
    times_of_stepping[START_WHILE_MOVING] += started && was->speed && !was->stopping;
    times_of_stepping[START_WHILE_STOPPING] += started && was->stopping;
    times_of_stepping[STOP_BEGINS] += smooth && !was->stopping;
    times_of_stepping[STOP_REPEATED] += smooth && was->stopping;
    times_of_stepping[MINIMUM_STAYS] += code == 6 && was->speed;
}

/* A frame at a servo, before which it may have been homing. */
static void count_homing_frame(const struct plain_servo *before, const struct plain_module *m, uint8_t code)
{
    const struct plain_servo *after = &m->as.servo;
    bool executed = m->station.cause == 0;
    times_of_homing[SET_AGAIN] += code == 9 && before->homing && after->homing != before->homing;
    times_of_homing[SET_BADLY] += code == 9 && m->station.cause == 5;
    times_of_homing[STOP_LEAVES_IT] += code == 7 && executed && before->homing && after->homing;
    times_of_homing[RESET_ENDS_IT] += code == 15 && before->homing && !after->homing;
    times_of_homing[HOME_SHIFTED] += code == 0 && before->home && after->home != before->home;
    times_of_homing[NO_HOME_SHIFTED] += code == 0 && !before->home && after->home;
}

struct command {
    uint8_t address, code, data[15];
    size_t len;
};

static struct command some_command(const struct plain_module *m)
{
    static const uint8_t codes[] = {0, 0, 1, 2, 2, 3, 3, 4, 4, 4, 4, 5, 5, 6, 7, 7, 7, 8, 9, 9, 10, 11, 11, 12, 13, 14, 14};
    struct command c = {.code = percent(1) ? 15 : codes[below(sizeof codes)]};
    if (m->type == NMC_TYPE_STEPPER && percent(50))
        c.code = next_step_code(&m->as.stepper);
    c.len = some_data(m, c.code, c.data);
    uint32_t kind = below(20);
    c.address = kind < 12 ? m->station.individual : kind < 19 ? m->station.group : some_byte();
    if (c.code == 1 && percent(80)) {
        c.data[0] = (uint8_t)below(6);
        c.data[1] = percent(50) ? 0x7F : 0xFF;
    }
    return c;
}

static void send_some_frame(void)
{
    const struct plain_module *m = &plain->modules[below(plain->chain)];
    const struct command c = some_command(m);
    const struct plain_module before = *m;
    send_command(c.address, c.code, c.data, c.len);
    frames_with[m->station.cause]++;
    if (m->type == NMC_TYPE_SERVO && before.as.servo.cut)
        times_at_limit[m->as.servo.cut ? FRAME_LEAVES_CUT : FRAME_CLEARS_CUT]++;
    if (m->type == NMC_TYPE_SERVO)
        count_homing_frame(&before.as.servo, m, c.code);
    if (m->type == NMC_TYPE_STEPPER && m->station.cause == 0)
        count_command(&before.as.stepper, &m->as.stepper, c.code, c.data[0]);
}

/* ---- buffers */

static void put_command(uint8_t address, uint8_t code, const uint8_t *data, size_t len)
{
    uint8_t frame[NMC_FRAME_LEN];
    put_frame(frame, write_at_all(address, code, data, len, frame, sizeof frame));
}

static void put_noise(uint32_t bytes)
{
    for (; bytes > 0; bytes--) {
        uint8_t byte = some_byte();
        put_byte(byte, percent(10));
    }
}

/* A module becomes another address, and a frame for that comes right behind. */
static void put_address(const struct plain_module *m)
{
    uint8_t address = some_byte();
    const uint8_t addresses[2] = {address, percent(50) ? 0x7F : 0xFF};
    put_command(m->station.individual, 1, addresses, 2);
    put_command(percent(70) ? addresses[0] : m->station.individual, 14, none, 0);
}

/* Several frames, and noise between them, as a board may have them between two ticks. */
static void send_several(void)
{
    for (uint32_t times = 2 + below(7); times > 0; times--) {
        const struct plain_module *m = &plain->modules[below(plain->chain)];
        if (percent(15))
            put_noise(1 + below(6));
        if (percent(10)) {
            put_address(m);
            continue;
        }
        const struct command c = some_command(m);
        put_command(c.address, c.code, c.data, c.len);
    }
    if (percent(40))
        line.marks[below((uint32_t)line.len)] = 1;
    hand_over_in_buffers();
}

/* As many frames as can end in a buffer: one that came before but for its last byte, and fifteen without data. */
static void send_most_frames(void)
{
    static const uint8_t codes[] = {0, 5, 5, 11, 11, 12, 14, 14, 14, 14, 14, 14};
    const struct command first = some_command(&plain->modules[below(plain->chain)]);
    put_command(first.address, first.code, first.data, first.len);
    size_t before = line.len - 1;
    for (unsigned i = 1; i < MOST_FRAMES; i++) {
        const struct plain_station *s = &plain->modules[below(plain->chain)].station;
        uint8_t code = codes[below(sizeof codes)];
        put_command(percent(50) ? s->individual : s->group, code, none, 0);
    }
    put_noise(below(4));
    hand_over(0, before);
    hand_over(before, line.len - before);
    line.len = 0;
}

/* Why a buffer is refused that the record is good for, as bits: all that is wrong with it. */
enum { WRONG_LENGTHS = 1, WRONG_MARK = 2, WRONG_ROOM = 4 };

static unsigned wrongs_of(const struct buffer *b)
{
    unsigned wrong = b->bytes_len != b->marks_len || b->bytes_len > NMC_BUFFER_LEN ? WRONG_LENGTHS : 0;
    for (size_t i = 0; i < b->marks_len; i++)
        wrong |= b->marks[i] > 1 ? WRONG_MARK : 0u;
    return wrong | (b->room_len < NMC_BUFFER_ROOM_LEN ? WRONG_ROOM : 0u);
}

static void count_refused(const struct buffer *b, unsigned wrong, size_t frame_len)
{
    bool lengths = wrong & WRONG_LENGTHS, mark = wrong & WRONG_MARK, short_room = wrong & WRONG_ROOM;
    bool behind = wrong == WRONG_MARK && b->marks_len > frame_len;
    for (size_t i = 0; i < frame_len && behind; i++)
        behind = b->marks[i] <= 1;
    times_of_buffering[LENGTHS_DIFFER] += b->bytes_len != b->marks_len;
    times_of_buffering[LISTS_TOO_LONG] += b->bytes_len == b->marks_len && lengths;
    times_of_buffering[BAD_MARK] += wrong == WRONG_MARK;
    times_of_buffering[BAD_MARK_BEHIND_FRAME] += behind;
    times_of_buffering[SHORT_BUFFER_ROOM] += wrong == WRONG_ROOM;
    times_of_buffering[NO_BYTES_IN_SHORT_ROOM] += wrong == WRONG_ROOM && b->bytes_len == 0;
    times_of_buffering[LENGTHS_BEFORE_MARK] += lengths && mark;
    times_of_buffering[LENGTHS_BEFORE_ROOM] += lengths && short_room;
    times_of_buffering[MARK_BEFORE_ROOM] += !lengths && mark && short_room;
}

/* A length of a list: of a good one, at its edge, or beyond. */
static size_t some_list_len(void)
{
    static const uint8_t edges[] = {1, NMC_BUFFER_LEN - 1, NMC_BUFFER_LEN, NMC_BUFFER_LEN + 1, NMC_BUFFER_LEN + 1, MOST_LIST};
    return percent(70) ? edges[below(sizeof edges)] : below(MOST_LIST + 1);
}

static size_t some_room_len(void)
{
    static const size_t edges[] = {0, NMC_ROOM_LEN - 1, NMC_ROOM_LEN, NMC_BUFFER_ROOM_LEN - 1, NMC_BUFFER_ROOM_LEN};
    return percent(70) ? edges[below(5)] : below(NMC_BUFFER_ROOM_LEN);
}

/* A buffer with a frame for an address in front, whose lists or room may be bad; how long the frame is. */
static size_t some_buffer(struct buffer *b, uint8_t address)
{
    static const uint8_t marks[] = {2, 2, 3, 0x80, 0xFE, 0xFF};
    const uint8_t addresses[2] = {some_byte(), 0xFF};
    put_command(address, 1, addresses, 2);
    size_t frame_len = line.len;
    put_noise((uint32_t)(MOST_LIST - line.len));
    line.len = 0;
    size_t len = percent(15) ? 0 : percent(50) ? below(NMC_BUFFER_LEN + 1) : some_list_len();
    *b = (struct buffer){line.bytes, line.marks, len, len, NMC_BUFFER_ROOM_LEN};
    if (percent(25))
        b->marks_len = percent(50) ? (len == MOST_LIST ? len - 1 : len + 1) : some_list_len();
    if (percent(4)) /* as long in eight bits */
        b->marks_len += 256;
    if (percent(4))
        b->bytes_len += 256;
    if (percent(40)) {
        uint8_t mark = marks[below(sizeof marks)];
        line.marks[below(percent(50) ? MOST_LIST : 1 + (uint32_t)len)] = mark;
    }
    if (percent(40))
        b->room_len = some_room_len();
    return frame_len;
}

/* A buffer that is mostly refused, for what is tested first, and then changes nothing. */
static void try_spoiled_buffer(void)
{
    static uint8_t before[IMPLEMENTATIONS][sizeof(struct plain_network) + NMC_NET_LEN];
    struct buffer b;
    size_t frame_len = some_buffer(&b, plain->modules[below(plain->chain)].station.individual);
    unsigned wrong = wrongs_of(&b);
    uint32_t expected = wrong & WRONG_LENGTHS ? NMC_BAD_LIST
                        : wrong & WRONG_MARK  ? NMC_BAD_FIELD
                        : wrong               ? NMC_SHORT_ROOM
                                              : NMC_DONE;
    for (unsigned i = 0; i < IMPLEMENTATIONS; i++)
        memcpy(before[i], implementations[i].network, implementations[i].network_len);
    need_alone(buffer_at_all(&b) == expected, "a buffer's number is not what is tested first", LIBRARY);
    if (!wrong)
        return;
    count_refused(&b, wrong, frame_len);
    for (unsigned i = 0; i < IMPLEMENTATIONS; i++)
        need_alone(memcmp(before[i], implementations[i].network, implementations[i].network_len) == 0,
                   "a refused buffer changed the network", i);
}

/* A buffer, good or not, on a record that is refused. */
static void try_buffer_on_spoiled(void)
{
    static uint8_t before[sizeof(struct plain_network) + NMC_NET_LEN], room[MOST_ROOM];
    static const unsigned which[] = {LIBRARY, CHECKED_C};
    struct buffer b;
    some_buffer(&b, (uint8_t)below(6));
    times_of_buffering[wrongs_of(&b) ? RECORD_BEFORE_LENGTHS : RECORD_ALONE]++;
    for (unsigned i = 0; i < 2; i++) {
        const struct implementation *at = &implementations[which[i]];
        size_t written = 99;
        memcpy(before, at->network, at->network_len);
        memset(room, 0x5A, sizeof room);
        uint32_t number = at->bytes(b.bytes, b.bytes_len, b.marks, b.marks_len, room, b.room_len, &written);
        need_alone(number == NMC_BAD_RECORD, "a buffer is not refused for the record", which[i]);
        need_alone(written == 0 && all_are(room, sizeof room, 0x5A), "a refused buffer tells something", which[i]);
        need_alone(memcmp(before, at->network, at->network_len) == 0, "a refused buffer changed the network", which[i]);
    }
}

static void put_good_command(uint8_t address, uint8_t code, const uint8_t *data, size_t len)
{
    uint8_t frame[NMC_FRAME_LEN];
    size_t written = write_at_all(address, code, data, len, frame, sizeof frame);
    for (size_t i = 0; i < written; i++)
        put_byte(frame[i], 0);
}

/*
 * 32 modules that all reply to one address with all that they have: each buffer
 * of such frames fills the room, and its last bytes begin the next frame.
 */
static void fill_rooms(void)
{
    const uint8_t addresses[2] = {(uint8_t)(1 + below(127)), 0xFF}, all_items = 0xFF;
    uint8_t types[NMC_MOST_MODULES];
    for (unsigned i = 0; i < NMC_MOST_MODULES; i++)
        types[i] = percent(50) ? NMC_TYPE_SERVO : NMC_TYPE_IO;
    for (unsigned i = 0; i < IMPLEMENTATIONS; i++)
        need(implementations[i].setup(types, NMC_MOST_MODULES) == NMC_DONE, "setup's number", i);
    line.len = 0;
    for (unsigned i = 0; i < NMC_MOST_MODULES; i++)
        put_good_command(0, 1, addresses, 2);
    put_good_command(addresses[0], 2, &all_items, 1);
    hand_over_in_buffers();
    size_t cut = below(4);
    for (unsigned i = 0; i <= FILLED * MOST_FRAMES; i++)
        put_good_command(addresses[0], 14, none, 0);
    hand_over(0, cut);
    for (unsigned i = 0; i < FILLED; i++)
        hand_over(cut + i * NMC_BUFFER_LEN, NMC_BUFFER_LEN);
    line.len = 0;
}

/* ---- a history */

/* The error by which there is OL or -OL to put out, or a little more or less; within EL, if it is not to trip. */
static uint32_t error_to_limit(const struct plain_servo *s)
{
    const struct plain_gains *g = &s->gains;
    int64_t slope = (int64_t)g->kp + g->kd + g->ki, el = g->el;
    int64_t u = 256 * (int64_t)g->ol + below(700) - 200;
    int64_t remembered = (int64_t)g->ki * s->integral - (int64_t)g->kd * s->previous_error;
    int64_t error = ((percent(50) ? u : -u) - remembered) / (slope > 0 ? slope : 1);
    return (uint32_t)(error > el ? el : error < -el ? -el : error);
}

static uint32_t some_error(const struct plain_servo *s)
{
    uint32_t limit = 1 + s->gains.el, error = below(percent(10) ? limit + 1 : limit < 10 ? limit : 10);
    return percent(50) ? error : 0 - error;
}

/* A servo's limit inputs as the board has them, in so many of a hundred times with a change. */
static uint32_t some_inputs(uint32_t place, uint32_t changes)
{
    uint32_t inputs = samples[NMC_SAMPLE_LEN * place + 7], changed = 1 + below(3);
    return percent(changes) ? inputs ^ changed : inputs;
}

/* A servo measures something near what it is to be at, or not. */
static void put_some_servo_sample(uint32_t place, uint32_t power, uint32_t inputs)
{
    const struct plain_servo *s = &plain->modules[place].as.servo;
    uint32_t error = percent(30) ? error_to_limit(s) : some_error(s);
    uint32_t ahead = s->setpoint + (uint32_t)(s->speed / 65536);
    uint32_t base = s->mode < PLAIN_HOLDING ? s->latched.raw - s->offset : ahead;
    uint32_t raw = percent(99) ? base - error + s->offset : (uint32_t)throw_dice();
    nmc_put_servo_sample(samples, place, raw, power, some_byte(), inputs);
    if (percent(20)) /* bytes that are not looked at */
        memset(samples + place * NMC_SAMPLE_LEN + 8, some_byte(), 2);
}

static void put_some_io_sample(uint32_t place)
{
    uint32_t inputs = below(4096), counter = (uint32_t)throw_dice();
    uint8_t ad1 = (uint8_t)counter, ad2 = (uint8_t)(counter >> 3), ad3 = (uint8_t)(counter >> 7);
    nmc_put_io_sample(samples, place, inputs, ad1, ad2, ad3, counter);
}

/* The board measures something at a place. */
static void measure(void)
{
    uint32_t place = below(plain->chain);
    if (plain->modules[place].type == NMC_TYPE_IO) {
        put_some_io_sample(place);
        return;
    }
    if (plain->modules[place].type == NMC_TYPE_STEPPER) {
        nmc_put_stepper_sample(samples, place, percent(8));
        if (percent(20)) /* bytes that are not looked at */
            memset(samples + place * NMC_SAMPLE_LEN + 2, some_byte(), 8);
        return;
    }
    uint32_t power = percent(94) ? 1 : percent(84) ? 2 : 0, inputs = some_inputs(place, 20);
    put_some_servo_sample(place, power, inputs);
}

/* A frame that may bring a servo to PWM, to holding, to a profile, or to a load that waits. */
static void lead_on(const struct plain_module *m)
{
    const uint8_t stop = 0x05;
    uint8_t load[15];
    size_t len = some_load(&m->as.servo, load);
    uint32_t kind = below(7);
    if (kind == 0)
        send_command(m->station.individual, 7, &stop, 1);
    else if (kind == 1)
        send_command(m->station.individual, 4, (const uint8_t[]){0x88, 100}, 2);
    else
        send_command(m->station.individual, 4, load, len);
}

/* A servo homes, whatever else it does; in the next tick an input has changed, and perhaps power has, or the count is far off. */
static void find_home(void)
{
    uint32_t place = below(plain->chain);
    const struct plain_module *m = &plain->modules[place];
    if (m->type != NMC_TYPE_SERVO)
        return;
    if (percent(50))
        send_command(m->station.individual, 11, none, 0);
    for (uint32_t times = below(3); times > 0; times--)
        lead_on(m);
    uint8_t control = some_homing();
    send_command(m->station.individual, 9, &control, 1);
    uint32_t power = percent(50) ? 1 : below(3), inputs = some_inputs(place, 95), far = (uint32_t)throw_dice();
    put_some_servo_sample(place, power, inputs);
    if (percent(15))
        put32(samples + NMC_SAMPLE_LEN * place + 3, far);
    tick_all();
}

/* A byte of a list by which its tick is refused, or nearly: a type, power or stop input, limit inputs, upper byte of inputs. */
static void spoil_sample(uint8_t *list)
{
    static const uint8_t types[] = {0, 1, 2, 3, 4, 7, 0xFF};
    static const uint8_t powers[] = {1, 2, 3, 4, 0x80, 0xFF}, inputs[] = {15, 16, 17, 0x80, 0xFF};
    static const uint8_t limits[] = {0, 1, 2, 3, 4, 5, 8, 0x80, 0xFF};
    uint8_t *sample = list + NMC_SAMPLE_LEN * below(plain->chain);
    if (percent(50))
        sample[0] = types[below(sizeof types)];
    else if (sample[0] == NMC_TYPE_IO)
        sample[2] = inputs[below(sizeof inputs)];
    else if (sample[0] == NMC_TYPE_SERVO && percent(50))
        sample[7] = limits[below(sizeof limits)];
    else
        sample[1] = powers[below(sizeof powers)];
}

/* A tick whose list is mostly refused, and then changes nothing. */
static void try_spoiled_list(void)
{
    static uint8_t list[sizeof samples + 2 * NMC_SAMPLE_LEN];
    static uint8_t before[IMPLEMENTATIONS][sizeof(struct plain_network) + NMC_NET_LEN];
    size_t right = (size_t)plain->chain * NMC_SAMPLE_LEN, len = right;
    memcpy(list, samples, sizeof samples);
    for (unsigned i = 0; i < IMPLEMENTATIONS; i++)
        memcpy(before[i], implementations[i].network, implementations[i].network_len);
    for (uint32_t times = below(4); times > 0; times--)
        spoil_sample(list);
    if (percent(30))
        len = percent(50) ? below((uint32_t)right) : right + 1 + below(2 * NMC_SAMPLE_LEN);
    if (tick_with(list, len) == NMC_DONE) {
        memories_of_all();
        return;
    }
    for (unsigned i = 0; i < IMPLEMENTATIONS; i++)
        need_alone(memcmp(before[i], implementations[i].network, implementations[i].network_len) == 0,
                   "a refused tick changed the network", i);
}

/* All addressed, powered and tuned, so that what follows can move. */
static void bring_up(void)
{
    const uint8_t gains[15] = {0x40, 1, 0x20, 0, 3, 0, 0xFF, 0x0F, 0xFF, 0, 0xFF, 0x3F, 1, 0, 1};
    const uint8_t parameters[5] = {0, (uint8_t)(1 + below(12)), 0, 0, 0};
    for (uint32_t place = 0; place < plain->chain; place++) {
        uint8_t addresses[2] = {(uint8_t)(place + 1), percent(50) ? 0x7F : 0xFF};
        uint32_t raw = (uint32_t)throw_dice(), inputs = below(4);
        if (plain->modules[place].type == NMC_TYPE_SERVO)
            nmc_put_servo_sample(samples, place, raw, 1, 0, inputs);
        send_command(0, 1, addresses, 2);
    }
    tick_all();
    send_command(0xFF, 6, gains, sizeof gains);
    send_command(0xFF, 11, none, 0);
    send_command(0xFF, 6, parameters, sizeof parameters);
}

static void follow(uint32_t ticks)
{
    while (ticks-- > 0) {
        for (uint32_t place = 0; place < plain->chain; place++) {
            const struct plain_servo *s = &plain->modules[place].as.servo;
            if (plain->modules[place].type != NMC_TYPE_SERVO || s->mode < PLAIN_HOLDING)
                continue;
            uint32_t raw = s->setpoint + s->offset + below(3), inputs = some_inputs(place, 5);
            nmc_put_servo_sample(samples, place, raw, 1, 0, inputs);
        }
        tick_all();
        send_command(0xFF, 14, none, 0);
    }
}

static void some_host_call(void)
{
    uint8_t bytes[32], frame[NMC_FRAME_LEN];
    for (size_t i = 0; i < sizeof bytes; i++)
        bytes[i] = some_byte();
    uint32_t address = below(260), code = below(18), data_len = below(18), room_len = below(NMC_FRAME_LEN + 1);
    write_at_all(address, code, bytes, data_len, frame, room_len);
    uint8_t items = (uint8_t)throw_dice();
    size_t len = 2;
    uint32_t type = below(5);
    static const uint8_t sizes[5][8] = {[NMC_TYPE_SERVO] = {4, 1, 2, 1, 4, 2, 2, 1},
                                        [NMC_TYPE_IO] = {2, 1, 1, 1, 4, 2, 2, 4},
                                        [NMC_TYPE_STEPPER] = {[0] = 4, [5] = 2}};
    if (type == NMC_TYPE_STEPPER && percent(70))
        items &= 0x21;
    for (int i = 0; i < 8; i++)
        len += items >> i & 1 ? sizes[type][i] : 0;
    if (percent(10))
        len = below(20);
    uint8_t sum = 0;
    for (size_t i = 0; i + 1 < len; i++)
        sum = (uint8_t)(sum + bytes[i]);
    if (len > 0 && percent(90))
        bytes[len - 1] = sum;
    read_at_all(type, items, bytes, len);
}

static void take_step(void)
{
    uint32_t kind = below(100), mark = below(4);
    uint8_t byte = some_byte();
    if (kind < 38)
        send_some_frame();
    else if (kind < 39)
        send_several();
    else if (kind < 40)
        send_most_frames();
    else if (kind < 42)
        try_spoiled_buffer();
    else if (kind < 50)
        find_home();
    else if (kind < 65)
        measure();
    else if (kind < 67)
        try_spoiled_list();
    else if (kind < 85)
        tick_all();
    else if (kind < 87)
        follow(below(20));
    else if (kind < 90)
        byte_at_all(mark == 0, byte, NMC_ROOM_LEN);
    else if (kind < 92)
        byte_at_all(mark, byte, NMC_ROOM_LEN - below(2));
    else if (kind < 96)
        outputs_of_all(below(plain->chain + 1));
    else
        some_host_call();
}

/* ---- records, spoiled or not, as docs/RECORD.md lays them out */

static struct plain_io io_in(const uint8_t *s)
{
    return (struct plain_io){.latched = {.inputs = (uint16_t)number_at(s, 8, 2),
                                         .ad = {s[10], s[11], s[12]},
                                         .counter = number_at(s, 13, 4)},
                             .direction = (uint16_t)number_at(s, 17, 2),
                             .output = (uint16_t)number_at(s, 19, 2),
                             .pwm = {s[21], s[22]},
                             .synch_output = (uint16_t)number_at(s, 23, 2),
                             .synch_pwm = {s[25], s[26]},
                             .timer_mode = s[27],
                             .captured_inputs = (uint16_t)number_at(s, 28, 2),
                             .captured_counter = number_at(s, 30, 4)};
}

static void network_in(const uint8_t *r, struct plain_network *net)
{
    memset(net, 0, sizeof *net);
    memcpy(net->receiver.data, r, 15);
    net->receiver.address = r[15];
    net->receiver.command = r[16];
    net->receiver.fill = r[17];
    net->receiver.marked = r[18];
    net->chain = r[19];
    for (int place = 0; place < PLAIN_MOST_MODULES; place++) {
        const uint8_t *s = r + SLOTS_AT + SLOT_LEN * place;
        struct plain_module *m = &net->modules[place];
        m->type = s[0];
        m->station = (struct plain_station){s[1], s[2], s[3], s[4], s[5], s[6], s[7]};
        if (s[0] == NMC_TYPE_SERVO)
            m->as.servo = servo_in(s);
        else if (s[0] == NMC_TYPE_STEPPER)
            m->as.stepper = stepper_in(s);
        else
            m->as.io = io_in(s);
    }
}

/* A servo that holds, from the one end of the error's range to the other at the highest gains: u is then past 32 bits. */
static void swing(uint32_t place, uint8_t *slot)
{
    uint32_t sign = percent(50) ? 1 : 0 - UINT32_C(1);
    if (slot[0] != NMC_TYPE_SERVO)
        return;
    memcpy(slot + 23, "\xFF\x7F\xFF\x7F\xFF\x7F\xFF\x7F\xFF\xFF\x3F", 11);
    uint32_t raw = number_at(slot, 15, 4) + number_at(slot, SETPOINT_AT, 4) - sign * (16383 - below(3));
    nmc_put_servo_sample(samples, place, raw, 1, 0, slot[INPUTS_AT] & 3);
    put32(slot + SERVO_SPEED_AT, 0);
    put32(slot + INTEGRAL_AT, sign * (32767 - below(3)));
    put32(slot + PREVIOUS_AT, 0 - sign * (16383 - below(3)));
    put32(slot + PWM_AT, 0);
    slot[LATCHED_AT] = 1;
    slot[MODE_AT] = PLAIN_HOLDING;
    slot[ERROR_AT] = 0;
}

/* A byte of a stepper put to an edge of what the list asks, or next to what another asks of it. */
static void spoil_stepper(uint8_t *slot)
{
    static const uint8_t flags[] = {3, 4, 8, 18, 19, 23, STOPPING_AT}, speeds[] = {MINIMUM_AT, 20, SPEED_AT, GOAL_AT};
    static const uint8_t edges[] = {0, 1, MOST_STEPS, MOST_STEPS + 1, 0xFF};
    uint32_t kind = below(7), which = below(4);
    uint8_t flag = flags[below(sizeof flags)], edge = edges[below(sizeof edges)], beside = (uint8_t)(below(3) - 1);
    if (kind == 0)
        slot[flag] = (uint8_t)(beside + 1);
    else if (kind == 1)
        slot[speeds[which]] = edge;
    else if (kind == 2)
        slot[which < 2 ? SPEED_AT : GOAL_AT] = (uint8_t)(slot[MINIMUM_AT] + beside);
    else if (kind == 3)
        slot[which < 2 ? COUNTER_AT : TIME_AT] = (uint8_t)(slot[TIME_AT] + beside);
    else if (kind == 4)
        slot[ITEMS_AT] ^= (uint8_t)(1u << (2 * which + (beside == 0)));
    else if (kind == 5)
        slot[STOPPING_AT] = 1;
    else
        memcpy(slot + LOAD_AT, "\0\0\x09\x01", 4); /* a load that does not wait */
}

/* A servo that homes by some byte, good or not, and often finds its switch in the next tick. */
static void spoil_homing(uint8_t *slot)
{
    if (slot[0] != NMC_TYPE_SERVO)
        return;
    slot[HOMING_AT] = some_homing();
    if (percent(60))
        slot[INPUTS_AT] = (uint8_t)below(percent(20) ? 6 : 4);
}

/* A byte or a number of the record put to an edge of what the list asks, or next to what it was. */
static void spoil_record(void)
{
    static const uint8_t words[] = {36, 40, 56, SETPOINT_AT, SERVO_SPEED_AT, SERVO_GOAL_AT, 70, 74, 78,
                                    INTEGRAL_AT, PREVIOUS_AT, PWM_AT, 95, HOME_AT};
    static const uint32_t edges[] = {0, 1, 255, 256, 16383, 16384, 32767, 32768, FASTEST, FASTEST + 1};
    uint32_t place = below(plain->chain);
    uint8_t *slot = record + SLOTS_AT + SLOT_LEN * place;
    uint32_t kind = below(15);
    if (slot[0] == NMC_TYPE_STEPPER && kind >= 4) {
        spoil_stepper(slot);
    } else if (kind >= 13) {
        spoil_homing(slot);
    } else if (kind == 12) {
        slot[CUT_AT] = (uint8_t)(1 + percent(10));
    } else if (kind == 11) {
        put32(slot + SERVO_GOAL_AT, number_at(slot, SETPOINT_AT, 4) + UINT32_C(0x7FFFFFFF) + below(3));
    } else if (kind == 10) {
        swing(place, slot);
    } else if (kind < 2) {
        uint8_t byte = some_byte();
        record[below(SLOTS_AT)] = byte;
    } else if (kind < 6) {
        uint8_t byte = percent(50) ? (uint8_t)below(7) : some_byte();
        slot[below(slot[0] == NMC_TYPE_STEPPER ? STEPPER_LEN : SERVO_LEN)] = byte;
    } else {
        int at = words[below(sizeof words)];
        uint32_t edge = edges[below(10)];
        put32(slot + at, kind < 8 ? number_at(slot, at, 4) + below(3) - 1 : percent(50) ? edge : 0 - edge);
    }
}

/* A module that has become one of another type, or new, has measured nothing. */
static void list_for_spoiled(void)
{
    for (int place = 0; place < plain->chain; place++) {
        uint8_t *sample = samples + NMC_SAMPLE_LEN * place;
        if (sample[0] == plain->modules[place].type)
            continue;
        memset(sample, 0, NMC_SAMPLE_LEN);
        sample[0] = plain->modules[place].type;
    }
}

/* The list on a record that was spoiled, and a tick and a reply where it still passes; then all as it was. */
static void try_spoiled(void)
{
    static uint8_t old_record[NMC_NET_LEN], old_samples[sizeof samples];
    static struct plain_network old_plain, old_checked;
    uint8_t outputs[NMC_OUTPUTS_LEN];
    memcpy(old_record, record, sizeof old_record);
    memcpy(old_samples, samples, sizeof old_samples);
    old_plain = *plain;
    old_checked = *checked;
    for (uint32_t times = 1 + below(2); times > 0; times--)
        spoil_record();
    network_in(record, plain);
    *checked = *plain;
    spoiled++;
    uint32_t number = implementations[LIBRARY].outputs(0, outputs);
    need(implementations[CHECKED_C].outputs(0, outputs) == number, "refusal of a spoiled record", CHECKED_C);
    uint32_t tick = implementations[LIBRARY].tick(samples, 0);
    need(implementations[CHECKED_C].tick(samples, 0) == tick, "refusal of no list with a spoiled record", CHECKED_C);
    refused += number == NMC_BAD_RECORD;
    if (number == NMC_BAD_RECORD) {
        try_buffer_on_spoiled();
    } else {
        list_for_spoiled();
        tick_all();
        for (uint32_t place = 0; place < plain->chain; place++)
            outputs_of_all(place);
        for (int i = 0; i < 16; i++)
            byte_at_all(0, 0, NMC_ROOM_LEN);
        send_some_frame();
    }
    memcpy(record, old_record, sizeof old_record);
    memcpy(samples, old_samples, sizeof old_samples);
    *plain = old_plain;
    *checked = old_checked;
    after_buffer = false;
}

static void run_history(void)
{
    uint8_t types[NMC_MOST_MODULES];
    static const uint8_t mixtures[][6] = {{0, 2, 3, 0, 2, 3}, {0, 0, 0, 2, 3, 3}, {0, 0, 0, 0, 2, 3},
                                          {0, 0, 0, 0, 0, 0}, {2, 2, 2, 2, 2, 2}, {3, 3, 3, 3, 3, 3}};
    uint32_t chain = percent(10) ? NMC_MOST_MODULES : 1 + below(6);
    const uint8_t *mixture = mixtures[percent(80) ? below(3) : 3 + below(3)];
    memset(samples, 0, sizeof samples);
    for (uint32_t i = 0; i < chain; i++)
        samples[i * NMC_SAMPLE_LEN] = types[i] = mixture[below(6)];
    for (unsigned i = 0; i < IMPLEMENTATIONS; i++)
        need(implementations[i].setup(types, chain) == NMC_DONE, "setup's number", i);
    if (percent(90))
        bring_up();
    for (step = 0; step < STEPS; step++) {
        take_step();
        if (percent(10))
            try_spoiled();
    }
    for (uint32_t place = 0; place < chain; place++)
        outputs_of_all(place);
}

/* ---- the line monitor's text */

enum { CAPTURES = 100000, CAPTURE_BYTES = 160, MOST_TEXT = 4 * CAPTURE_BYTES + 8 };
enum { BYTES_A_LINE = 16, LINE_BYTE_LEN = 3 };

/* A capture, as text and as records; where they are spoiled they may be a little longer. */
static uint8_t text[MOST_TEXT], line_bytes[LINE_BYTE_LEN * CAPTURE_BYTES + 2];
static size_t text_len, line_bytes_len;

static void put_on_line(uint8_t byte, uint8_t mark, uint8_t behind)
{
    static const char digits[2][17] = {"0123456789ABCDEF", "0123456789abcdef"};
    uint32_t high_case = below(2), low_case = below(2);
    text[text_len++] = (uint8_t)digits[high_case][byte >> 4];
    text[text_len++] = (uint8_t)digits[low_case][byte & 15];
    if (mark)
        text[text_len++] = '!';
    text[text_len++] = behind;
    line_bytes[line_bytes_len++] = 1;
    line_bytes[line_bytes_len++] = mark;
    line_bytes[line_bytes_len++] = byte;
}

/* Any bytes on lines of any length, in letters of any case; how many they are, and how many are marked. */
static uint32_t throw_capture(uint32_t *marks)
{
    static const uint8_t lengths[] = {1, 3, 16, 40, CAPTURE_BYTES}, marked[] = {0, 5, 50, 100};
    uint32_t bytes = percent(40) ? BYTES_A_LINE * below(CAPTURE_BYTES / BYTES_A_LINE) : below(CAPTURE_BYTES);
    uint32_t longest = lengths[below(sizeof lengths)], in_hundred = marked[below(sizeof marked)];
    uint32_t left = 1 + below(longest);
    text_len = line_bytes_len = *marks = 0;
    for (uint32_t i = 1; i <= bytes; i++) {
        bool ends = --left == 0 || i == bytes;
        uint8_t byte = (uint8_t)throw_dice(), mark = percent(in_hundred);
        *marks += mark;
        put_on_line(byte, mark, ends ? '\n' : ' ');
        if (ends)
            left = 1 + below(longest);
    }
    return bytes;
}

/* As long as the output, or a little shorter or longer, or any. */
static size_t some_room(size_t needed)
{
    uint32_t kind = below(8), some = below((uint32_t)needed + 1), few = 1 + below(4);
    if (kind == 0)
        return some;
    if (kind == 1)
        return needed > few ? needed - few : 0;
    return kind == 2 ? needed + few : needed;
}

/* What stands before a fault, and whether anything comes behind. */
static void note_fault(size_t at, bool off)
{
    uint8_t last = at > 0 ? text[at - 1] : '\n';
    if (last == '\n')
        times_of_texting[BAD_LINE_BEGIN]++;
    else if (last == ' ')
        times_of_texting[off ? OFF_BEHIND_SPACE : BAD_BEHIND_SPACE]++;
    else if (last == '!')
        times_of_texting[off ? OFF_BEHIND_MARK : BAD_BEHIND_MARK]++;
    else if (at == 1 || text[at - 2] == ' ' || text[at - 2] == '\n')
        times_of_texting[off ? OFF_BEHIND_DIGIT : BAD_SECOND_DIGIT]++;
    else
        times_of_texting[off ? OFF_BEHIND_BYTE : BAD_BEHIND_BYTE]++;
}

static void note_taken(void)
{
    uint32_t on_line = 0;
    bool is_long = false, small = false;
    for (size_t i = 0; i < text_len; i++) {
        on_line = text[i] == '\n' ? 0 : on_line + (text[i] == ' ');
        is_long |= on_line >= BYTES_A_LINE;
        small |= text[i] >= 'a';
    }
    times_of_texting[NO_TEXT] += text_len == 0;
    times_of_texting[TEXT_TAKEN] += text_len > 0;
    times_of_texting[LONG_LINE] += is_long;
    times_of_texting[SMALL_LETTER] += small;
}

static void note_import(uint32_t number, size_t offset, size_t room_len)
{
    imports_with[number]++;
    times_of_texting[SHORT_IMPORT_ROOM] += number == NMC_SHORT_ROOM;
    if (number == NMC_DONE)
        note_taken();
    if (number == NMC_BAD_TEXT) {
        note_fault(offset, offset == text_len);
        /* short for what stands before the fault, in which a byte has at most four characters */
        times_of_texting[TEXT_BEFORE_ROOM] += room_len < offset / 4 * LINE_BYTE_LEN;
    }
}

static void import_at_all(size_t room_len)
{
    static uint8_t rooms[IMPLEMENTATIONS][MOST_TEXT];
    uint32_t numbers[IMPLEMENTATIONS];
    size_t written[IMPLEMENTATIONS], offsets[IMPLEMENTATIONS];
    uint8_t stale = (uint8_t)throw_dice();
    calls++;
    for (unsigned i = 0; i < IMPLEMENTATIONS; i++) {
        memset(rooms[i], stale, sizeof rooms[i]);
        written[i] = offsets[i] = 99;
        numbers[i] = implementations[i].import_text(text, text_len, rooms[i], room_len, &written[i], &offsets[i]);
        need(numbers[i] == numbers[LIBRARY], "import's number", i);
        need(written[i] == written[LIBRARY] && offsets[i] == offsets[LIBRARY], "import's length or offset", i);
        need(memcmp(rooms[i], rooms[LIBRARY], sizeof rooms[i]) == 0, "imported records", i);
    }
    need_alone(all_are(rooms[LIBRARY] + written[LIBRARY], MOST_TEXT - written[LIBRARY], stale),
               "an import wrote behind what it tells", LIBRARY);
    note_import(numbers[LIBRARY], offsets[LIBRARY], room_len);
}

static void note_bad_records(size_t room_len)
{
    bool other_kind = false, other_mark = false;
    for (size_t i = 0; i < line_bytes_len; i += LINE_BYTE_LEN) {
        other_kind |= line_bytes[i] != 1;
        other_mark |= i + 1 < line_bytes_len && line_bytes[i + 1] > 1;
    }
    times_of_texting[CUT_RECORD] += !other_kind && !other_mark;
    times_of_texting[OTHER_KIND] += other_kind && !other_mark && line_bytes_len % LINE_BYTE_LEN == 0;
    times_of_texting[OTHER_MARK] += !other_kind && other_mark && line_bytes_len % LINE_BYTE_LEN == 0;
    times_of_texting[RECORDS_BEFORE_ROOM] += room_len < line_bytes_len;
}

static void note_export(uint32_t number, size_t written, size_t room_len)
{
    exports_with[number]++;
    times_of_texting[SHORT_EXPORT_ROOM] += number == NMC_SHORT_ROOM;
    if (number == NMC_DONE) {
        bool full = line_bytes_len % (BYTES_A_LINE * LINE_BYTE_LEN) == 0;
        times_of_texting[NO_RECORDS] += line_bytes_len == 0;
        times_of_texting[FULL_LAST_LINE] += line_bytes_len > 0 && full;
        times_of_texting[SHORTER_LAST_LINE] += !full;
        times_of_texting[MARKED_BYTE] += written > line_bytes_len;
    }
    if (number == NMC_BAD_RECORDS)
        note_bad_records(room_len);
}

static void export_at_all(size_t room_len)
{
    static uint8_t rooms[IMPLEMENTATIONS][MOST_TEXT];
    uint32_t numbers[IMPLEMENTATIONS];
    size_t written[IMPLEMENTATIONS];
    uint8_t stale = (uint8_t)throw_dice();
    calls++;
    for (unsigned i = 0; i < IMPLEMENTATIONS; i++) {
        memset(rooms[i], stale, sizeof rooms[i]);
        written[i] = 99;
        numbers[i] = implementations[i].export_text(line_bytes, line_bytes_len, rooms[i], room_len, &written[i]);
        need(numbers[i] == numbers[LIBRARY] && written[i] == written[LIBRARY], "export's number or length", i);
        need(memcmp(rooms[i], rooms[LIBRARY], sizeof rooms[i]) == 0, "exported text", i);
    }
    need_alone(all_are(rooms[LIBRARY] + written[LIBRARY], MOST_TEXT - written[LIBRARY], stale),
               "an export wrote behind what it tells", LIBRARY);
    note_export(numbers[LIBRARY], written[LIBRARY], room_len);
}

/* Another character, one more, one less, or cut there. */
static void spoil_text(void)
{
    static const char near[] = "09AFaf !\n/:@G`g\r\t\"";
    uint32_t at = below((uint32_t)text_len + 1), kind = below(4);
    uint8_t other = percent(80) ? (uint8_t)near[below(sizeof near)] : (uint8_t)throw_dice();
    if (kind == 0) {
        memmove(text + at + 1, text + at, text_len++ - at);
        text[at] = other;
    } else if (kind == 1 || at == text_len) {
        text_len = at;
    } else if (kind == 2) {
        memmove(text + at, text + at + 1, --text_len - at);
    } else {
        text[at] = other;
    }
}

/* Another kind or another mark, or a record cut, or begun behind the last. */
static void spoil_line_bytes(void)
{
    uint32_t at = line_bytes_len > 0 ? LINE_BYTE_LEN * below((uint32_t)line_bytes_len / LINE_BYTE_LEN) : 0;
    uint32_t kind = line_bytes_len > 0 ? below(4) : 3;
    uint8_t other = percent(60) ? (uint8_t)below(7) : (uint8_t)throw_dice();
    if (kind == 0)
        line_bytes[at] = other;
    else if (kind == 1)
        line_bytes[at + 1] = other;
    else if (kind == 2)
        line_bytes_len = at + 1 + below(LINE_BYTE_LEN - 1);
    else
        for (uint32_t more = 1 + below(LINE_BYTE_LEN - 1); more > 0; more--)
            line_bytes[line_bytes_len++] = (uint8_t)below(2);
}

/* A capture in both directions, and then with something wrong with it. */
static void take_capture(void)
{
    uint32_t marks, bytes = throw_capture(&marks);
    size_t records_need = (size_t)bytes * LINE_BYTE_LEN, text_needs = records_need + marks;
    import_at_all(some_room(records_need));
    export_at_all(some_room(text_needs));
    for (uint32_t times = 1 + below(2); times > 0; times--)
        spoil_text();
    import_at_all(some_room(records_need));
    spoil_line_bytes();
    export_at_all(some_room(text_needs));
}

static void refuse_setups(void)
{
    uint8_t types[NMC_MOST_MODULES + 1] = {0, 2, 3, 1};
    for (unsigned i = 1; i < IMPLEMENTATIONS; i++)
        for (size_t chain = 0; chain <= sizeof types; chain++)
            need(implementations[i].setup(types, chain) == implementations[LIBRARY].setup(types, chain),
                 "setup's number", i);
}

/* Whether something came up that seldom that it was hardly tried. */
static bool too_seldom(const char *what, unsigned long times)
{
    if (times < LEAST_TIMES)
        printf("%s: %lu times only\n", what, times);
    return times < LEAST_TIMES;
}

static bool all_came_up(void)
{
    static const char *const causes[CAUSES] = {"cause 0", "cause 1", "cause 2", "cause 3", "cause 4", "cause 5"};
    bool seldom = false;
    for (unsigned cause = 0; cause < CAUSES; cause++)
        seldom |= too_seldom(causes[cause], frames_with[cause]);
    seldom |= too_seldom("ticks done", ticks_with[NMC_DONE]);
    seldom |= too_seldom("ticks with number 20", ticks_with[NMC_BAD_LIST]);
    seldom |= too_seldom("ticks with number 13", ticks_with[NMC_BAD_PLACE]);
    seldom |= too_seldom("ticks with number 14", ticks_with[NMC_BAD_FIELD]);
    for (unsigned way = 0; way < WAYS_AT_LIMIT; way++)
        seldom |= too_seldom(ways_at_limit[way], times_at_limit[way]);
    for (unsigned way = 0; way < WAYS_OF_STEPPING; way++)
        seldom |= too_seldom(ways_of_stepping[way], times_of_stepping[way]);
    for (unsigned way = 0; way < WAYS_OF_HOMING; way++)
        seldom |= too_seldom(ways_of_homing[way], times_of_homing[way]);
    for (unsigned way = 0; way < WAYS_OF_BUFFERING; way++)
        seldom |= too_seldom(ways_of_buffering[way], times_of_buffering[way]);
    for (unsigned way = 0; way < WAYS_OF_TEXTING; way++)
        seldom |= too_seldom(ways_of_texting[way], times_of_texting[way]);
    for (unsigned mode = 0; mode < MODES; mode++)
        for (unsigned stop = 0; stop < STOPS; stop++) {
            char what[64];
            snprintf(what, sizeof what, "stop %02X of homing in %s", homing_stops[stop], modes[mode]);
            seldom |= too_seldom(what, times_found[mode][stop]);
        }
    return !seldom;
}

static unsigned long homes_found(void)
{
    unsigned long times = 0;
    for (unsigned mode = 0; mode < MODES; mode++)
        for (unsigned stop = 0; stop < STOPS; stop++)
            times += times_found[mode][stop];
    return times;
}

int main(void)
{
    record = implementations[LIBRARY].network;
    plain = implementations[PLAIN_C].network;
    checked = implementations[CHECKED_C].network;
    refuse_setups();
    for (history = 0; history < HISTORIES; history++) {
        dice = history;
        run_history();
    }
    for (step = 0; history < HISTORIES + FILLINGS; history++) {
        dice = history;
        fill_rooms();
    }
    dice = history;
    for (step = 0; step < CAPTURES; step++)
        take_capture();
    if (!all_came_up())
        return 1;
    printf("%lu calls, %lu frames ended, by cause %lu %lu %lu %lu %lu %lu, %lu ticks of a moving servo, %lu cut; "
           "%lu homes found; %lu changes of a stepper's speed; "
           "%lu lists refused for their length, %lu for a type, %lu for a field; "
           "%lu buffers, %lu with one frame's end, %lu with more, %lu of these with sixteen, %lu frames carried over, "
           "%lu refused for their lengths, %lu for a mark, %lu for the room; "
           "%lu spoiled records, %lu refused; "
           "%lu texts imported, %lu refused, %lu for the room; %lu exported, %lu refused, %lu for the room: "
           "all the same\n",
           calls, frames, frames_with[0], frames_with[1], frames_with[2], frames_with[3], frames_with[4],
           frames_with[5], moving_ticks, times_at_limit[CUT], homes_found(),
           times_of_stepping[FASTER] + times_of_stepping[SLOWER] + times_of_stepping[SLOWER_TO_STOP],
           ticks_with[NMC_BAD_LIST], ticks_with[NMC_BAD_PLACE], ticks_with[NMC_BAD_FIELD], buffers_with[NMC_DONE],
           times_of_buffering[ONE_END], times_of_buffering[SEVERAL_ENDS], times_of_buffering[SIXTEEN_ENDS],
           times_of_buffering[CARRIED_OVER], buffers_with[NMC_BAD_LIST], buffers_with[NMC_BAD_FIELD],
           buffers_with[NMC_SHORT_ROOM], spoiled, refused, imports_with[NMC_DONE], imports_with[NMC_BAD_TEXT],
           imports_with[NMC_SHORT_ROOM], exports_with[NMC_DONE], exports_with[NMC_BAD_RECORDS],
           exports_with[NMC_SHORT_ROOM]);
    return 0;
}
