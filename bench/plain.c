/*
 * Document 01 with P1, P2, P3, P4, P5, P8 and P11 of 02 in plain C11. It shares
 * nothing with the library, so that the two can be held against each other.
 */
#include "plain.h"

#include <stdbool.h>
#include <string.h>

enum { DONE = 0, FRAME_ENDED = 1, DAMAGED_ENDED = 2 };
enum {
    BAD_CHAIN = 11,
    BAD_TYPE = 12,
    BAD_PLACE = 13,
    BAD_FIELD = 14,
    SHORT_ROOM = 15,
    BAD_FRAME = 17,
    BAD_LENGTH = 18,
    BAD_SUM = 19,
    BAD_LIST = 20
};
enum { SERVO = 0, IO = 2, STEPPER = 3 };
enum { HEADER = 0xAA, ITEMS = 8, READING_LEN = 33, OUTPUTS_LEN = 8, TWELVE_BITS = 0xFFF };
enum { POWER_LOW, POWER_GOOD, POWER_HIGH };
enum { BOTH_LIMITS = 0x03 };
enum { FASTEST = 83886080, MOST_GAIN = 32767, MOST_ERROR = 16383, MOST_OUTPUT = 255, MOST_STEPS = 250 };

/* Those that refuse are tested in the order DAMAGED, UNKNOWN, WRONG_COUNT, OUT_OF_RANGE, NOT_NOW. */
enum cause { EXECUTED, DAMAGED, WRONG_COUNT, NOT_NOW, UNKNOWN, OUT_OF_RANGE };

enum code {
    SET_ADDRESS = 1,
    DEFINE_STATUS = 2,
    READ_STATUS = 3,
    SET_BAUD = 10,
    NO_OP = 14,
    HARD_RESET = 15,
    /* servo */
    RESET_POSITION = 0,
    LOAD_TRAJECTORY = 4,
    START = 5,
    SET_GAIN = 6,
    STOP = 7,
    SET_HOMING = 9,
    CLEAR_BITS = 11,
    /* I/O module */
    SET_DIRECTION = 0,
    SET_PWM = 4,
    SYNCH_OUTPUT = 5,
    SET_OUTPUT = 6,
    SET_SYNCH_OUTPUT = 7,
    SET_TIMER_MODE = 8,
    SYNCH_INPUT = 12,
    /* step-motor module: Load Trajectory, Start and Stop have the servo's codes */
    SET_PARAMETERS = 6
};

enum load_bit {
    LOAD_POSITION = 0x01,
    LOAD_VELOCITY = 0x02,
    LOAD_ACCELERATION = 0x04,
    LOAD_PWM = 0x08,
    LOAD_SERVO = 0x10,
    LOAD_VELOCITY_MODE = 0x20,
    LOAD_REVERSE = 0x40,
    LOAD_START_NOW = 0x80
};

/* A step-motor module's; start now is the servo's bit. */
enum step_load_bit {
    STEP_POSITION = 0x01,
    STEP_SPEED = 0x02,
    STEP_TIME = 0x04,
    STEP_TIMER = 0x08,
    STEP_REVERSE = 0x10,
    STEP_NO_BITS = 0x60
};

/* A step-motor module has the first, the third and the fourth. */
enum stop_bit {
    STOP_AMPLIFIER = 0x01,
    STOP_OFF = 0x02,
    STOP_ABRUPT = 0x04,
    STOP_SMOOTH = 0x08,
    STOP_HERE = 0x10,
    STOP_KINDS = 0x1E
};

/* An input is watched by the bit that it has in a sample. */
enum homing_bit {
    HOMING_WATCHES = BOTH_LIMITS,
    HOMING_OFF = 0x04,
    HOMING_ABRUPT = 0x10,
    HOMING_SMOOTH = 0x20,
    HOMING_STOPS = 0x34
};

static const uint8_t servo_sizes[ITEMS] = {4, 1, 2, 1, 4, 2, 2, 1};
static const uint8_t io_sizes[ITEMS] = {2, 1, 1, 1, 4, 2, 2, 4};
static const uint8_t stepper_sizes[ITEMS] = {[0] = 4, [5] = 2};
enum { STEPPER_ITEMS = 0x21 };

struct frame {
    uint8_t address, code, count;
    bool damaged;
    const uint8_t *data;
};

static uint16_t get16(const uint8_t *b)
{
    return (uint16_t)(b[0] | b[1] << 8);
}

static uint32_t get32(const uint8_t *b)
{
    return b[0] | (uint32_t)b[1] << 8 | (uint32_t)b[2] << 16 | (uint32_t)b[3] << 24;
}

static int64_t held(int64_t x, int64_t limit)
{
    return x > limit ? limit : x < -limit ? -limit : x;
}

static uint8_t sum_of(const uint8_t *bytes, size_t len)
{
    uint8_t sum = 0;
    for (size_t i = 0; i < len; i++)
        sum = (uint8_t)(sum + bytes[i]);
    return sum;
}

/* ---- the servo's profile, in 65,536ths of a count */

/* w + (w - a) + (w - 2a) + ..., positive terms: there are ceil(w / a) of them. */
static int64_t stopping_sum(int64_t w, int64_t a)
{
    if (w <= 0)
        return 0;
    int64_t terms = (w + a - 1) / a;
    return terms * w - a * (terms * (terms - 1) / 2);
}

/*
 * The greatest speed within the ramp that can still stop within d. A sum of n
 * terms is at most d exactly if w is at most (d + a n (n - 1) / 2) / n, and the
 * speeds from lo to hi, 2 a apart at most, have few different n.
 */
static int64_t trapezoid_speed(int64_t a, int64_t top, int64_t d, int64_t v)
{
    int64_t lo = v > a ? v - a : 0;
    int64_t hi = v + a < top ? v + a : top;
    if (hi <= lo)
        return lo;
    if (stopping_sum(hi, a) <= d)
        return hi;
    int64_t w = hi;
    for (int64_t terms = (hi + a - 1) / a; terms * a > lo; terms--) {
        int64_t most = (d + a * (terms * (terms - 1) / 2)) / terms;
        if (most < w)
            w = most;
    }
    return w;
}

static uint32_t position(const struct plain_servo *s)
{
    return s->latched.raw - s->offset;
}

static int64_t distance(const struct plain_servo *s)
{
    return (int64_t)(int32_t)(s->goal - s->setpoint) * 65536 - s->fraction;
}

/* As far one way as the other: such a distance has no sign. */
static bool is_half_the_range(uint32_t goal, uint32_t setpoint)
{
    return goal - setpoint == UINT32_C(0x80000000);
}

static void move_setpoint(struct plain_servo *s, int32_t speed)
{
    uint64_t at = ((uint64_t)s->setpoint << 16 | s->fraction) + (uint64_t)(int64_t)speed;
    s->setpoint = (uint32_t)(at >> 16);
    s->fraction = (uint16_t)at;
    s->speed = speed;
}

static void advance(struct plain_servo *s)
{
    if (s->mode == PLAIN_VELOCITY) {
        int64_t change = (int64_t)s->goal_speed - s->speed;
        move_setpoint(s, s->speed + (int32_t)held(change, s->acceleration));
    } else if (s->mode == PLAIN_TRAPEZOID) {
        int64_t d = distance(s);
        int64_t v = s->speed < 0 ? -s->speed : s->speed;
        int64_t w = trapezoid_speed(s->acceleration, s->top_speed, d < 0 ? -d : d, v);
        move_setpoint(s, (int32_t)(d < 0 ? -w : w));
    }
}

/* ---- the servo */

static bool servo_is_off(const struct plain_servo *s)
{
    return s->mode == PLAIN_OFF || s->mode == PLAIN_PWM;
}

static void idle_servo(struct plain_servo *s, enum plain_mode mode, int32_t pwm)
{
    s->mode = (uint8_t)mode;
    s->pwm = pwm;
    s->speed = 0;
    s->output = 0;
    s->integral = 0;
    s->previous_error = 0;
    s->cut = 0;
}

static void power_up_servo(struct plain_servo *s)
{
    struct plain_servo_sample latched = s->latched;
    memset(s, 0, sizeof *s);
    s->latched = latched;
    s->offset = latched.raw;
    s->gains.sm = 1;
    s->error = 1;
}

static bool is_ready(const struct plain_servo *s)
{
    return s->latched.power == POWER_GOOD && !s->error;
}

static void hold(struct plain_servo *s, uint32_t at)
{
    s->mode = PLAIN_HOLDING;
    s->setpoint = at;
    s->fraction = 0;
    s->speed = 0;
    s->integral = 0;
    s->previous_error = 0;
    s->pwm = 0;
}

static void stop_smoothly(struct plain_servo *s)
{
    if (servo_is_off(s)) {
        idle_servo(s, PLAIN_OFF, 0);
    } else {
        s->mode = PLAIN_VELOCITY;
        s->goal_speed = 0;
    }
}

/* Holding asks for good power and no error. */
static bool can_stop(const struct plain_servo *s, uint8_t kind)
{
    return !(kind & (STOP_ABRUPT | STOP_HERE)) || is_ready(s);
}

/* What one of Stop's kinds does, or none of them; at is where it holds. */
static void act_stop(struct plain_servo *s, uint8_t kind, uint32_t at)
{
    if (kind == STOP_OFF)
        idle_servo(s, PLAIN_OFF, 0);
    else if (kind == STOP_SMOOTH)
        stop_smoothly(s);
    else if (kind)
        hold(s, at);
    if (kind)
        s->load.waits = 0;
}

/* ---- homing */

static bool is_homing_byte(uint8_t control)
{
    uint8_t stops = control & HOMING_STOPS;
    return control & HOMING_WATCHES && !(control & ~(HOMING_WATCHES | HOMING_STOPS)) && !(stops & (stops - 1));
}

/* While it goes on, the watched inputs are latched as they were here: what they were need not be kept. */
static enum cause set_homing(struct plain_servo *s, uint8_t control)
{
    if (!is_homing_byte(control))
        return OUT_OF_RANGE;
    s->homing = control;
    return EXECUTED;
}

static uint8_t homing_stop(uint8_t control)
{
    return control & HOMING_OFF      ? STOP_OFF
           : control & HOMING_ABRUPT ? STOP_ABRUPT
           : control & HOMING_SMOOTH ? STOP_SMOOTH
                                     : 0;
}

/* Home is where a watched input changes; the stop acts as Stop does, and not at all where Stop could not. */
static void find_home(struct plain_servo *s, uint8_t inputs_before)
{
    if (!(s->homing & HOMING_WATCHES & (s->latched.inputs ^ inputs_before)))
        return;
    uint8_t kind = homing_stop(s->homing);
    s->home = position(s);
    s->homing = 0;
    if (can_stop(s, kind))
        act_stop(s, kind, s->home);
}

/* ---- the servo's filter and tick */

static void filter(struct plain_servo *s)
{
    const struct plain_gains *g = &s->gains;
    int64_t e = (int32_t)(s->setpoint - position(s));
    if (e > g->el || e < -(int64_t)g->el) {
        idle_servo(s, PLAIN_OFF, 0);
        s->error = 1;
        return;
    }
    int64_t integral = held(s->integral + e, g->il);
    /* 64 bits: u reaches 2,684,141,572 */
    int64_t wanted = (g->kp * e + g->kd * (e - s->previous_error) + g->ki * integral) / 256;
    int64_t output = held(wanted, g->ol);
    /* where OL cuts something off, the integral stays what it was, be that beyond IL or not */
    s->cut = output != wanted;
    if (!s->cut)
        s->integral = (int32_t)integral;
    s->previous_error = (int32_t)e;
    s->output = s->latched.power == POWER_GOOD ? (int32_t)output : 0;
}

static void tick_servo(struct plain_servo *s, const uint8_t *sample)
{
    uint8_t inputs_before = s->latched.inputs;
    s->last_position = position(s);
    s->latched = (struct plain_servo_sample){
        .power = sample[1], .ad = sample[2], .raw = get32(sample + 3), .inputs = sample[7]};
    if (s->latched.power == POWER_LOW) /* the amplifier bit stays, so the enable line comes back with power */
        idle_servo(s, PLAIN_OFF, 0);
    find_home(s, inputs_before);
    if (s->mode == PLAIN_PWM) {
        s->output = s->latched.power == POWER_GOOD ? (int32_t)held(s->pwm, s->gains.ol) : 0;
    } else if (s->mode != PLAIN_OFF) {
        advance(s);
        filter(s);
    }
}

static bool can_start(const struct plain_servo *s, const struct plain_load *load,
                      const struct plain_rates *rates)
{
    if (!load->waits || !is_ready(s))
        return false;
    if (load->way == PLAIN_WAY_PWM)
        return load->has_pwm;
    if (!rates->velocity_loaded || !rates->acceleration_loaded)
        return false;
    if (load->way == PLAIN_WAY_VELOCITY)
        return true;
    uint32_t from = servo_is_off(s) ? position(s) : s->setpoint;
    return load->has_position && rates->velocity > 0 && s->speed == 0 &&
           !is_half_the_range(load->position, from);
}

/* Starts the waiting load and uses it up. */
static void start(struct plain_servo *s)
{
    const struct plain_load *load = &s->load;
    s->load.waits = 0;
    if (load->way == PLAIN_WAY_PWM) {
        idle_servo(s, PLAIN_PWM, load->reverse ? -load->pwm : load->pwm);
        return;
    }
    if (servo_is_off(s)) {
        s->setpoint = position(s);
        s->fraction = 0;
    }
    s->pwm = 0;
    s->acceleration = s->rates.acceleration;
    if (load->way == PLAIN_WAY_VELOCITY) {
        int32_t size = (int32_t)s->rates.velocity;
        s->mode = PLAIN_VELOCITY;
        s->goal_speed = load->reverse ? -size : size;
    } else {
        s->mode = PLAIN_TRAPEZOID;
        s->goal = load->position;
        s->top_speed = s->rates.velocity;
    }
}

static uint8_t ones(uint8_t bits)
{
    uint8_t n = 0;
    for (; bits; bits &= (uint8_t)(bits - 1))
        n++;
    return n;
}

static bool has_load_count(const struct frame *f)
{
    if (f->count == 0)
        return false;
    uint8_t control = f->data[0];
    uint8_t words = ones(control & (LOAD_POSITION | LOAD_VELOCITY | LOAD_ACCELERATION));
    return f->count == 1 + 4 * words + (control & LOAD_PWM ? 1 : 0);
}

/* Takes a load's data apart; false if a number is out of range. */
static bool parse_load(const uint8_t *data, struct plain_load *load, struct plain_rates *rates)
{
    uint8_t control = *data++;
    *load = (struct plain_load){.waits = 1, .reverse = (control & LOAD_REVERSE) != 0};
    load->way = !(control & LOAD_SERVO)           ? PLAIN_WAY_PWM
                : control & LOAD_VELOCITY_MODE ? PLAIN_WAY_VELOCITY
                                               : PLAIN_WAY_TRAPEZOID;
    if (control & LOAD_POSITION) {
        load->has_position = 1;
        load->position = get32(data);
        data += 4;
    }
    if (control & LOAD_VELOCITY) {
        rates->velocity_loaded = 1;
        rates->velocity = get32(data);
        data += 4;
    }
    if (control & LOAD_ACCELERATION) {
        rates->acceleration_loaded = 1;
        rates->acceleration = get32(data);
        data += 4;
        if (rates->acceleration == 0)
            return false;
    }
    if (control & LOAD_PWM) {
        load->has_pwm = 1;
        load->pwm = *data;
    }
    return rates->velocity <= FASTEST && rates->acceleration <= FASTEST;
}

static enum cause load_trajectory(struct plain_servo *s, const struct frame *f)
{
    struct plain_load load;
    struct plain_rates rates = s->rates;
    if (!has_load_count(f))
        return WRONG_COUNT;
    if (!parse_load(f->data, &load, &rates))
        return OUT_OF_RANGE;
    bool now = (f->data[0] & LOAD_START_NOW) != 0;
    if (now && !can_start(s, &load, &rates))
        return NOT_NOW;
    s->load = load;
    s->rates = rates;
    if (now)
        start(s);
    return EXECUTED;
}

static enum cause start_command(struct plain_servo *s)
{
    if (!can_start(s, &s->load, &s->rates))
        return NOT_NOW;
    start(s);
    return EXECUTED;
}

static enum cause reset_position(struct plain_servo *s)
{
    if (s->speed != 0)
        return NOT_NOW;
    uint32_t here = position(s);
    s->offset += here;
    s->last_position -= here;
    s->setpoint -= here;
    s->goal -= here;
    s->home -= here;
    s->load.waits = 0;
    return EXECUTED;
}

static enum cause set_gain(struct plain_servo *s, const uint8_t *data)
{
    struct plain_gains g = {.kp = get16(data),
                            .kd = get16(data + 2),
                            .ki = get16(data + 4),
                            .il = get16(data + 6),
                            .ol = data[8],
                            .cl = data[9],
                            .el = get16(data + 10),
                            .sm = data[14]};
    if (g.kp > MOST_GAIN || g.kd > MOST_GAIN || g.ki > MOST_GAIN || g.il > MOST_GAIN ||
        g.el > MOST_ERROR || data[12] != 1 || data[13] != 0)
        return OUT_OF_RANGE;
    s->gains = g;
    return EXECUTED;
}

static enum cause stop(struct plain_servo *s, const struct frame *f)
{
    if (f->count == 0)
        return WRONG_COUNT;
    uint8_t control = f->data[0], kind = control & STOP_KINDS;
    if (f->count != (control & STOP_HERE ? 5 : 1))
        return WRONG_COUNT;
    if (control & 0xE0 || kind & (kind - 1))
        return OUT_OF_RANGE;
    if (!can_stop(s, kind))
        return NOT_NOW;
    s->amplifier = control & STOP_AMPLIFIER;
    act_stop(s, kind, kind == STOP_HERE ? get32(f->data + 1) : position(s));
    return EXECUTED;
}

static enum cause servo_command(struct plain_servo *s, const struct frame *f)
{
    switch (f->code) {
    case RESET_POSITION:
        return f->count == 0 ? reset_position(s) : WRONG_COUNT;
    case LOAD_TRAJECTORY:
        return load_trajectory(s, f);
    case START:
        return f->count == 0 ? start_command(s) : WRONG_COUNT;
    case SET_GAIN:
        return f->count == 15 ? set_gain(s, f->data) : WRONG_COUNT;
    case STOP:
        return stop(s, f);
    case SET_HOMING:
        return f->count == 1 ? set_homing(s, f->data[0]) : WRONG_COUNT;
    case CLEAR_BITS:
        if (f->count != 0)
            return WRONG_COUNT;
        s->error = 0;
        return EXECUTED;
    default:
        return UNKNOWN;
    }
}

static bool move_done(const struct plain_servo *s)
{
    if (s->mode == PLAIN_VELOCITY)
        return s->speed == s->goal_speed;
    if (s->mode == PLAIN_TRAPEZOID)
        return s->speed == 0 && distance(s) == 0;
    return true;
}

static uint8_t servo_status(const struct plain_servo *s)
{
    return (uint8_t)(move_done(s) | s->cut << 2 | (s->latched.power == POWER_GOOD) << 3 | s->error << 4 |
                     s->latched.inputs << 5 | (s->homing != 0) << 7);
}

static void servo_items(const struct plain_servo *s, uint32_t items[ITEMS])
{
    items[0] = position(s);
    items[1] = s->latched.ad;
    items[2] = position(s) - s->last_position;
    items[3] = 0;
    items[4] = s->home;
    items[5] = 10 << 8 | SERVO;
    items[6] = (uint32_t)s->previous_error;
    items[7] = 0;
}

/* ---- the I/O module */

static void power_up_io(struct plain_io *io)
{
    struct plain_io_sample latched = io->latched;
    memset(io, 0, sizeof *io);
    io->latched = latched;
    io->direction = TWELVE_BITS;
}

static void tick_io(struct plain_io *io, const uint8_t *sample)
{
    io->latched = (struct plain_io_sample){
        .inputs = get16(sample + 1), .ad = {sample[3], sample[4], sample[5]}, .counter = get32(sample + 6)};
}

/* Inputs read as sampled, outputs as their register has them. */
static uint16_t read_bits(const struct plain_io *io)
{
    return (uint16_t)((io->latched.inputs & io->direction) | (io->output & ~io->direction));
}

static void put_output(struct plain_io *io, uint16_t bits)
{
    io->output = (uint16_t)((io->output & io->direction) | (bits & ~io->direction));
}

enum { NO_COUNT = UINT8_MAX };

/* How many data bytes a command of the I/O module has; no value of theirs is out of range. */
static uint8_t io_count(uint8_t code)
{
    switch (code) {
    case SYNCH_OUTPUT:
    case SYNCH_INPUT:
        return 0;
    case SET_TIMER_MODE:
        return 1;
    case SET_DIRECTION:
    case SET_PWM:
    case SET_OUTPUT:
        return 2;
    case SET_SYNCH_OUTPUT:
        return 4;
    default:
        return NO_COUNT;
    }
}

static enum cause io_command(struct plain_io *io, const struct frame *f)
{
    uint8_t count = io_count(f->code);
    if (count == NO_COUNT)
        return UNKNOWN;
    if (f->count != count)
        return WRONG_COUNT;
    const uint8_t *data = f->data;
    switch (f->code) {
    case SET_DIRECTION:
        io->direction = get16(data) & TWELVE_BITS;
        break;
    case SET_PWM:
        memcpy(io->pwm, data, sizeof io->pwm);
        break;
    case SYNCH_OUTPUT:
        put_output(io, io->synch_output);
        memcpy(io->pwm, io->synch_pwm, sizeof io->pwm);
        break;
    case SET_OUTPUT:
        put_output(io, get16(data) & TWELVE_BITS);
        break;
    case SET_SYNCH_OUTPUT:
        io->synch_output = get16(data) & TWELVE_BITS;
        memcpy(io->synch_pwm, data + 2, sizeof io->synch_pwm);
        break;
    case SET_TIMER_MODE:
        io->timer_mode = data[0];
        break;
    default: /* Synch Input */
        io->captured_inputs = read_bits(io);
        io->captured_counter = io->latched.counter;
    }
    return EXECUTED;
}

static void io_items(const struct plain_io *io, uint32_t items[ITEMS])
{
    items[0] = read_bits(io);
    items[1] = io->latched.ad[0];
    items[2] = io->latched.ad[1];
    items[3] = io->latched.ad[2];
    items[4] = io->latched.counter;
    items[5] = 1 << 8 | IO;
    items[6] = io->captured_inputs;
    items[7] = io->captured_counter;
}

/* ---- the step-motor module */

static void power_up_stepper(struct plain_stepper *s)
{
    memset(s, 0, sizeof *s);
}

static void end_motion(struct plain_stepper *s)
{
    s->steps = (struct plain_steps){0};
}

static void drop_load(struct plain_stepper *s)
{
    s->load = (struct plain_step_load){0};
}

/* One unit nearer the goal; a smooth stop ends from the minimum. */
static void change_speed(struct plain_stepper *s)
{
    struct plain_steps *m = &s->steps;
    if (m->stopping && m->speed == s->minimum)
        end_motion(s);
    else if (m->speed < m->goal)
        m->speed++;
    else if (m->speed > m->goal)
        m->speed--;
}

static void tick_stepper(struct plain_stepper *s, const uint8_t *sample)
{
    struct plain_steps *m = &s->steps;
    if (sample[1])
        end_motion(s);
    if (m->speed == 0)
        return;
    m->counter++;
    if (m->counter == m->time) {
        m->counter = 0;
        change_speed(s);
    }
    s->position += m->backward ? 0u - m->speed : m->speed;
}

static bool can_step(const struct plain_stepper *s, const struct plain_step_load *load)
{
    return s->minimum && load->waits && load->speed && load->time &&
           (s->steps.speed == 0 || s->steps.backward == load->backward);
}

/* Starts a load; from rest at the minimum at once, else from the speed that it has. */
static void start_steps(struct plain_stepper *s, const struct plain_step_load *load)
{
    s->steps = (struct plain_steps){
        .speed = s->steps.speed ? s->steps.speed : s->minimum,
        .backward = load->backward,
        .goal = load->speed < s->minimum ? s->minimum : load->speed,
        .time = load->time,
    };
    drop_load(s);
}

static enum cause start_stepper(struct plain_stepper *s)
{
    if (!can_step(s, &s->load))
        return NOT_NOW;
    struct plain_step_load load = s->load;
    start_steps(s, &load);
    return EXECUTED;
}

static bool has_step_load_count(const struct frame *f)
{
    if (f->count == 0)
        return false;
    uint8_t control = f->data[0], count = 1;
    count += control & STEP_POSITION ? 4 : 0;
    count += ones(control & (STEP_SPEED | STEP_TIME));
    count += control & STEP_TIMER ? 3 : 0;
    return f->count == count;
}

static bool is_speed(uint8_t steps)
{
    return 1 <= steps && steps <= MOST_STEPS;
}

/* Takes a load's data apart, position and timer in place; false if a number is out of range. */
static bool parse_step_load(const uint8_t *data, struct plain_step_load *load, uint32_t *position, uint32_t *timer)
{
    uint8_t control = *data++;
    *load = (struct plain_step_load){.waits = 1, .backward = (control & STEP_REVERSE) != 0};
    if (control & STEP_NO_BITS)
        return false;
    if (control & STEP_POSITION) {
        *position = get32(data);
        data += 4;
    }
    if (control & STEP_SPEED) {
        load->speed = *data++;
        if (!is_speed(load->speed))
            return false;
    }
    if (control & STEP_TIME) {
        load->time = *data++;
        if (load->time == 0)
            return false;
    }
    if (control & STEP_TIMER)
        *timer = get16(data) | (uint32_t)data[2] << 16;
    return true;
}

static enum cause load_steps(struct plain_stepper *s, const struct frame *f)
{
    struct plain_step_load load;
    uint32_t position = s->stored_position, timer = s->stored_timer;
    if (!has_step_load_count(f))
        return WRONG_COUNT;
    if (!parse_step_load(f->data, &load, &position, &timer))
        return OUT_OF_RANGE;
    bool now = (f->data[0] & LOAD_START_NOW) != 0;
    if (now && !can_step(s, &load))
        return NOT_NOW;
    s->stored_position = position;
    s->stored_timer = timer;
    if (now)
        start_steps(s, &load);
    else
        s->load = load;
    return EXECUTED;
}

/* Of the five bytes only the minimum acts, and at rest alone. */
static enum cause set_parameters(struct plain_stepper *s, const uint8_t *data)
{
    if (!is_speed(data[1]))
        return OUT_OF_RANGE;
    if (s->steps.speed == 0)
        s->minimum = data[1];
    return EXECUTED;
}

static enum cause stop_stepper(struct plain_stepper *s, uint8_t control)
{
    uint8_t kind = control & (STOP_ABRUPT | STOP_SMOOTH);
    if (control & ~(STOP_AMPLIFIER | STOP_ABRUPT | STOP_SMOOTH) || kind == (STOP_ABRUPT | STOP_SMOOTH))
        return OUT_OF_RANGE;
    s->amplifier = control & STOP_AMPLIFIER;
    if (kind)
        drop_load(s);
    if (kind == STOP_ABRUPT) {
        end_motion(s);
    } else if (kind == STOP_SMOOTH && s->steps.speed) {
        s->steps.goal = s->minimum;
        s->steps.counter = 0;
        s->steps.stopping = 1;
    }
    return EXECUTED;
}

static enum cause stepper_command(struct plain_stepper *s, const struct frame *f)
{
    switch (f->code) {
    case LOAD_TRAJECTORY:
        return load_steps(s, f);
    case START:
        return f->count == 0 ? start_stepper(s) : WRONG_COUNT;
    case SET_PARAMETERS:
        return f->count == 5 ? set_parameters(s, f->data) : WRONG_COUNT;
    case STOP:
        return f->count == 1 ? stop_stepper(s, f->data[0]) : WRONG_COUNT;
    default:
        return UNKNOWN;
    }
}

static void stepper_items(const struct plain_stepper *s, uint32_t items[ITEMS])
{
    items[0] = s->position;
    items[5] = 1 << 8 | STEPPER;
}

/* ---- what every module does */

static const uint8_t *sizes_of(uint32_t type)
{
    return type == SERVO ? servo_sizes : type == IO ? io_sizes : stepper_sizes;
}

static bool is_type(uint32_t type)
{
    return type == SERVO || type == IO || type == STEPPER;
}

/* Whether a type has all of these items. */
static bool has_items(uint32_t type, uint8_t items)
{
    return type != STEPPER || (items & ~STEPPER_ITEMS) == 0;
}

static void power_up(struct plain_module *m)
{
    m->station = (struct plain_station){.group = 255};
    if (m->type == SERVO)
        power_up_servo(&m->as.servo);
    else if (m->type == IO)
        power_up_io(&m->as.io);
    else
        power_up_stepper(&m->as.stepper);
}

static void set_address(struct plain_station *s, const uint8_t *data)
{
    s->individual = data[0];
    s->group = data[1] | 0x80;
    s->leader = data[1] < 0x80;
    s->low = 1;
}

static enum cause own_command(struct plain_module *m, const struct frame *f)
{
    if (m->type == SERVO)
        return servo_command(&m->as.servo, f);
    return m->type == IO ? io_command(&m->as.io, f) : stepper_command(&m->as.stepper, f);
}

static enum cause choose_items(const struct plain_module *m, const struct frame *f)
{
    if (f->count != 1)
        return WRONG_COUNT;
    return has_items(m->type, f->data[0]) ? EXECUTED : OUT_OF_RANGE;
}

static enum cause execute(struct plain_module *m, const struct frame *f, bool individually)
{
    enum cause cause;
    if (f->damaged)
        return DAMAGED;
    switch (f->code) {
    case SET_ADDRESS:
        if (f->count != 2)
            return WRONG_COUNT;
        set_address(&m->station, f->data);
        return EXECUTED;
    case DEFINE_STATUS:
        cause = choose_items(m, f);
        if (cause == EXECUTED)
            m->station.items = f->data[0];
        return cause;
    case READ_STATUS:
        return choose_items(m, f);
    case SET_BAUD:
        if (individually)
            return UNKNOWN;
        if (f->count != 1)
            return WRONG_COUNT;
        m->station.baud = f->data[0];
        return EXECUTED;
    case NO_OP:
        return f->count == 0 ? EXECUTED : WRONG_COUNT;
    case HARD_RESET:
        if (f->count != 0)
            return WRONG_COUNT;
        power_up(m);
        return EXECUTED;
    default:
        return own_command(m, f);
    }
}

static size_t write_reply(const struct plain_module *m, uint8_t chosen, uint8_t *room)
{
    uint32_t items[ITEMS];
    const uint8_t *sizes = sizes_of(m->type);
    uint8_t status = m->station.cause ? 2 : 0;
    if (m->type == SERVO) {
        status |= servo_status(&m->as.servo);
        servo_items(&m->as.servo, items);
    } else if (m->type == IO) {
        io_items(&m->as.io, items);
    } else {
        status |= m->as.stepper.steps.speed != 0;
        stepper_items(&m->as.stepper, items);
    }
    size_t len = 0;
    room[len++] = status;
    for (int i = 0; i < ITEMS; i++)
        if (chosen >> i & 1)
            for (int k = 0; k < sizes[i]; k++)
                room[len++] = (uint8_t)(items[i] >> 8 * k);
    room[len] = sum_of(room, len);
    return len + 1;
}

/* The frame at a module that it touches; how many bytes the module replies. */
static size_t touch(struct plain_module *m, const struct frame *f, uint8_t *room)
{
    bool individually = m->station.individual == f->address;
    bool replies = individually || m->station.leader;
    enum cause cause = execute(m, f, individually);
    m->station.cause = (uint8_t)cause;
    if (!replies || (f->code == HARD_RESET && cause == EXECUTED))
        return 0;
    bool chooses = f->code == READ_STATUS && cause == EXECUTED;
    return write_reply(m, chooses ? f->data[0] : m->station.items, room);
}

/* The frame at all modules. Enabling is judged by what was low before the frame came. */
static size_t hand_on(struct plain_network *net, const struct frame *f, uint8_t *room, uint8_t *lengths)
{
    bool enabled = true;
    size_t written = 0;
    for (int place = 0; place < net->chain; place++) {
        struct plain_module *m = &net->modules[place];
        bool low = m->station.low;
        size_t said = 0;
        if (enabled && (m->station.individual == f->address || m->station.group == f->address))
            said = touch(m, f, room + written);
        if (lengths)
            lengths[place] = (uint8_t)said;
        written += said;
        enabled = low;
    }
    return written;
}

/* ---- the receiver */

enum answer { NOTHING, ENDED, ENDED_DAMAGED };

static enum answer receive(struct plain_receiver *r, bool mark, uint8_t byte)
{
    if (r->fill == 0) {
        r->fill = byte == HEADER && !mark;
        return NOTHING;
    }
    r->marked |= mark;
    if (r->fill == 1) {
        r->address = byte;
    } else if (r->fill == 2) {
        r->command = byte;
    } else {
        uint8_t at = r->fill - 3, count = r->command >> 4;
        if (at == count) {
            uint8_t sum = (uint8_t)(r->address + r->command + sum_of(r->data, count));
            return r->marked || sum != byte ? ENDED_DAMAGED : ENDED;
        }
        r->data[at] = byte;
    }
    r->fill++;
    return NOTHING;
}

/* ---- the list for refusal 16 */

#ifdef PLAIN_CHECKS

static bool within(int32_t x, int32_t limit)
{
    return -limit <= x && x <= limit;
}

static bool receiver_holds(const struct plain_receiver *r)
{
    static const struct plain_receiver idle;
    if (r->fill == 0)
        return memcmp(r, &idle, sizeof idle) == 0;
    return r->fill <= 3 + (r->command >> 4) && r->marked <= 1;
}

static bool station_holds(const struct plain_station *s)
{
    return s->leader <= 1 && s->low <= 1 && s->cause <= OUT_OF_RANGE;
}

static bool io_holds(const struct plain_io *io)
{
    return io->latched.inputs <= TWELVE_BITS && io->direction <= TWELVE_BITS &&
           io->output <= TWELVE_BITS && io->synch_output <= TWELVE_BITS &&
           io->captured_inputs <= TWELVE_BITS;
}

static bool gains_hold(const struct plain_gains *g)
{
    return g->kp <= MOST_GAIN && g->kd <= MOST_GAIN && g->ki <= MOST_GAIN && g->il <= MOST_GAIN &&
           g->el <= MOST_ERROR;
}

static bool load_holds(const struct plain_load *l, const struct plain_rates *r)
{
    return r->velocity_loaded <= 1 && r->acceleration_loaded <= 1 && r->velocity <= FASTEST &&
           r->acceleration <= FASTEST && (!r->acceleration_loaded || r->acceleration >= 1) &&
           l->waits <= 1 && l->way <= PLAIN_WAY_TRAPEZOID && l->has_position <= 1 &&
           l->has_pwm <= 1 && l->reverse <= 1;
}

static bool ranges_hold(const struct plain_servo *s)
{
    return s->latched.power <= POWER_HIGH && s->latched.inputs <= BOTH_LIMITS && within(s->speed, FASTEST) &&
           within(s->goal_speed, FASTEST) && s->acceleration <= FASTEST && s->top_speed <= FASTEST &&
           within(s->integral, MOST_GAIN) && within(s->previous_error, MOST_ERROR) &&
           s->mode <= PLAIN_TRAPEZOID && within(s->pwm, MOST_OUTPUT) &&
           within(s->output, MOST_OUTPUT) && s->error <= 1 && s->amplifier <= 1 && s->cut <= 1 &&
           (s->homing == 0 || is_homing_byte(s->homing));
}

/* A trapezoid runs toward a goal that is not half the range away and can still stop within the distance left. */
static bool trapezoid_holds(const struct plain_servo *s)
{
    if (is_half_the_range(s->goal, s->setpoint))
        return false;
    int64_t d = distance(s), a = s->acceleration;
    int64_t v = s->speed < 0 ? -s->speed : s->speed;
    if (a == 0 || v > s->top_speed || (d > 0 && s->speed < 0) || (d < 0 && s->speed > 0))
        return false;
    return stopping_sum(v - a, a) <= (d < 0 ? -d : d);
}

static bool mode_holds(const struct plain_servo *s)
{
    if (s->latched.power != POWER_GOOD && s->output != 0)
        return false;
    bool emptied = s->integral == 0 && s->previous_error == 0 && !s->cut;
    if (s->mode == PLAIN_OFF)
        return s->speed == 0 && s->output == 0 && emptied && s->pwm == 0;
    if (s->error || s->latched.power == POWER_LOW)
        return false;
    switch (s->mode) {
    case PLAIN_PWM:
        return s->speed == 0 && emptied;
    case PLAIN_HOLDING:
        return s->speed == 0 && s->pwm == 0;
    case PLAIN_VELOCITY:
        return s->pwm == 0;
    default:
        return s->pwm == 0 && trapezoid_holds(s);
    }
}

/* All 0 at rest; in motion at the minimum at least, both the speed and where it goes. */
static bool steps_hold(const struct plain_steps *m, uint8_t minimum)
{
    if (m->speed == 0)
        return !m->backward && m->goal == 0 && m->time == 0 && m->counter == 0 && !m->stopping;
    return minimum >= 1 && minimum <= m->speed && m->speed <= MOST_STEPS && minimum <= m->goal &&
           m->goal <= MOST_STEPS && m->counter < m->time && m->backward <= 1 && m->stopping <= 1 &&
           (!m->stopping || m->goal == minimum);
}

static bool stepper_holds(const struct plain_stepper *s)
{
    const struct plain_step_load *l = &s->load;
    return s->amplifier <= 1 && s->minimum <= MOST_STEPS && l->waits <= 1 && l->backward <= 1 &&
           l->speed <= MOST_STEPS && steps_hold(&s->steps, s->minimum);
}

static bool module_holds(const struct plain_module *m)
{
    if (!is_type(m->type) || !station_holds(&m->station) || !has_items(m->type, m->station.items))
        return false;
    if (m->type == SERVO) {
        const struct plain_servo *s = &m->as.servo;
        return gains_hold(&s->gains) && load_holds(&s->load, &s->rates) && ranges_hold(s) && mode_holds(s);
    }
    return m->type == IO ? io_holds(&m->as.io) : stepper_holds(&m->as.stepper);
}

static bool record_holds(const struct plain_network *net)
{
    if (net->chain < 1 || net->chain > PLAIN_MOST_MODULES || !receiver_holds(&net->receiver))
        return false;
    for (int place = 0; place < net->chain; place++)
        if (!module_holds(&net->modules[place]))
            return false;
    return true;
}

#define REFUSE_SPOILED(net)     \
    do {                        \
        if (!record_holds(net)) \
            return 16;          \
    } while (0)

#else

#define REFUSE_SPOILED(net) ((void)0)

#endif

/* ---- the calls */

uint32_t PLAIN(setup)(struct plain_network *net, const uint8_t *types, size_t chain)
{
    if (chain < 1 || chain > PLAIN_MOST_MODULES)
        return BAD_CHAIN;
    for (size_t i = 0; i < chain; i++)
        if (!is_type(types[i]))
            return BAD_TYPE;
    memset(net, 0, sizeof *net);
    net->chain = (uint8_t)chain;
    for (size_t i = 0; i < chain; i++) {
        net->modules[i].type = types[i];
        power_up(&net->modules[i]);
    }
    return DONE;
}

/* The frame that the receiver has to its end, at all modules; how many bytes they reply. */
static size_t end_frame(struct plain_network *net, bool damaged, uint8_t *room, uint8_t *lengths)
{
    struct plain_receiver *r = &net->receiver;
    struct frame f = {.address = r->address,
                      .code = r->command & 0x0F,
                      .count = r->command >> 4,
                      .damaged = damaged,
                      .data = r->data};
    size_t written = hand_on(net, &f, room, lengths);
    memset(r, 0, sizeof *r); /* idle is one value */
    return written;
}

uint32_t PLAIN(byte_by_place)(struct plain_network *net, uint32_t mark, uint8_t byte, uint8_t *room,
                              size_t room_len, size_t *written, uint8_t *lengths)
{
    *written = 0;
    REFUSE_SPOILED(net);
    if (mark > 1)
        return BAD_FIELD;
    if (room_len < PLAIN_ROOM_LEN)
        return SHORT_ROOM;
    enum answer answer = receive(&net->receiver, mark == 1, byte);
    if (answer == NOTHING)
        return DONE;
    *written = end_frame(net, answer == ENDED_DAMAGED, room, lengths);
    return answer == ENDED_DAMAGED ? DAMAGED_ENDED : FRAME_ENDED;
}

uint32_t PLAIN(byte)(struct plain_network *net, uint32_t mark, uint8_t byte, uint8_t *room,
                     size_t room_len, size_t *written)
{
    return PLAIN(byte_by_place)(net, mark, byte, room, room_len, written, NULL);
}

static bool are_marks(const uint8_t *marks, size_t len)
{
    for (size_t i = 0; i < len; i++)
        if (marks[i] > 1)
            return false;
    return true;
}

/* The network is tested once, and every mark before the first byte is taken. */
uint32_t PLAIN(bytes)(struct plain_network *net, const uint8_t *bytes, size_t bytes_len, const uint8_t *marks,
                      size_t marks_len, uint8_t *room, size_t room_len, size_t *written)
{
    *written = 0;
    REFUSE_SPOILED(net);
    if (bytes_len != marks_len || bytes_len > PLAIN_BUFFER_LEN)
        return BAD_LIST;
    if (!are_marks(marks, marks_len))
        return BAD_FIELD;
    if (room_len < PLAIN_BUFFER_ROOM_LEN)
        return SHORT_ROOM;
    for (size_t i = 0; i < bytes_len; i++) {
        enum answer answer = receive(&net->receiver, marks[i] == 1, bytes[i]);
        if (answer != NOTHING)
            *written += end_frame(net, answer == ENDED_DAMAGED, room + *written, NULL);
    }
    return DONE;
}

static bool in_range(uint8_t type, const uint8_t *sample)
{
    if (type == IO)
        return get16(sample + 1) <= TWELVE_BITS;
    return type == SERVO ? sample[1] <= POWER_HIGH && sample[7] <= BOTH_LIMITS : sample[1] <= 1;
}

/* Every type is tested before any field. */
static uint32_t refuse_list(const struct plain_network *net, const uint8_t *samples, size_t samples_len)
{
    if (samples_len != (size_t)PLAIN_SAMPLE_LEN * net->chain)
        return BAD_LIST;
    for (int place = 0; place < net->chain; place++)
        if (samples[PLAIN_SAMPLE_LEN * place] != net->modules[place].type)
            return BAD_PLACE;
    for (int place = 0; place < net->chain; place++)
        if (!in_range(net->modules[place].type, samples + PLAIN_SAMPLE_LEN * place))
            return BAD_FIELD;
    return DONE;
}

uint32_t PLAIN(tick)(struct plain_network *net, const uint8_t *samples, size_t samples_len)
{
    REFUSE_SPOILED(net);
    uint32_t refusal = refuse_list(net, samples, samples_len);
    if (refusal != DONE)
        return refusal;
    for (int place = 0; place < net->chain; place++, samples += PLAIN_SAMPLE_LEN) {
        struct plain_module *m = &net->modules[place];
        if (m->type == SERVO)
            tick_servo(&m->as.servo, samples);
        else if (m->type == IO)
            tick_io(&m->as.io, samples);
        else
            tick_stepper(&m->as.stepper, samples);
    }
    return DONE;
}

uint32_t PLAIN(outputs)(const struct plain_network *net, uint32_t place, uint8_t *outputs)
{
    REFUSE_SPOILED(net);
    if (place >= net->chain)
        return BAD_PLACE;
    const struct plain_module *m = &net->modules[place];
    memset(outputs, 0, OUTPUTS_LEN);
    if (m->type == SERVO) {
        const struct plain_servo *s = &m->as.servo;
        outputs[0] = (uint8_t)(s->output < 0 ? -s->output : s->output);
        outputs[1] = s->output < 0;
        outputs[2] = s->amplifier && s->latched.power == POWER_GOOD;
    } else if (m->type == STEPPER) {
        const struct plain_stepper *s = &m->as.stepper;
        outputs[0] = s->steps.speed;
        outputs[1] = s->steps.backward;
        outputs[2] = s->amplifier;
    } else {
        const struct plain_io *io = &m->as.io;
        outputs[0] = (uint8_t)io->direction;
        outputs[1] = (uint8_t)(io->direction >> 8);
        outputs[2] = (uint8_t)io->output;
        outputs[3] = (uint8_t)(io->output >> 8);
        memcpy(outputs + 4, io->pwm, sizeof io->pwm);
    }
    return DONE;
}

uint32_t PLAIN(write_frame)(uint32_t address, uint32_t code, const uint8_t *data, size_t data_len,
                            uint8_t *room, size_t room_len, size_t *written)
{
    *written = 0;
    if (address > 255 || code > 15 || data_len > PLAIN_MOST_DATA)
        return BAD_FRAME;
    if (room_len < data_len + 4)
        return SHORT_ROOM;
    room[0] = HEADER;
    room[1] = (uint8_t)address;
    room[2] = (uint8_t)(data_len << 4 | code);
    memcpy(room + 3, data, data_len);
    room[3 + data_len] = sum_of(room + 1, data_len + 2);
    *written = data_len + 4;
    return DONE;
}

uint32_t PLAIN(read_status)(uint32_t type, uint8_t items, const uint8_t *reply, size_t reply_len,
                            uint8_t *reading)
{
    memset(reading, 0, READING_LEN);
    if (!is_type(type))
        return BAD_TYPE;
    if (!has_items(type, items))
        return BAD_LENGTH;
    const uint8_t *sizes = sizes_of(type);
    size_t needed = 2;
    for (int i = 0; i < ITEMS; i++)
        if (items >> i & 1)
            needed += sizes[i];
    if (reply_len != needed)
        return BAD_LENGTH;
    if (reply[reply_len - 1] != sum_of(reply, reply_len - 1))
        return BAD_SUM;
    *reading++ = *reply++;
    for (int i = 0; i < ITEMS; i++, reading += 4)
        if (items >> i & 1)
            for (int k = 0; k < sizes[i]; k++)
                reading[k] = *reply++;
    return DONE;
}
