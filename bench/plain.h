/*
 * Document 01 with P1, P2, P3, P4, P5, P7, P8 and P11 of 02 in plain C, to
 * measure the library against: the same calls and the same answers on a network
 * of typed structs. The line monitor's text is in plain_text.c, all else in
 * plain.c.
 * Both are compiled twice: as they stand (plain_...) they believe the network
 * that they are lent, with PLAIN_CHECKS (checked_...) they test the list for
 * refusal 16 at each call.
 */
#ifndef PLAIN_H
#define PLAIN_H

#include <stddef.h>
#include <stdint.h>

enum { PLAIN_MOST_MODULES = 32, PLAIN_MOST_DATA = 15, PLAIN_ROOM_LEN = 608, PLAIN_SAMPLE_LEN = 10 };
enum { PLAIN_BUFFER_LEN = 64, PLAIN_BUFFER_ROOM_LEN = 9728 };

/* Flags are bytes of 0 or 1, so that a spoiled network can be told. */
typedef uint8_t plain_flag;

/* The unfinished frame. fill: 0 idle, 1 header, 2 address, 3 + k command and k data bytes. */
struct plain_receiver {
    uint8_t data[PLAIN_MOST_DATA];
    uint8_t address, command, fill;
    plain_flag marked;
};

struct plain_station {
    uint8_t individual, group;
    plain_flag leader, low;
    uint8_t cause, items, baud;
};

struct plain_io_sample {
    uint16_t inputs;
    uint8_t ad[3];
    uint32_t counter;
};

struct plain_io {
    struct plain_io_sample latched;
    uint16_t direction, output; /* a direction bit of 1 is an input */
    uint8_t pwm[2];
    uint16_t synch_output;
    uint8_t synch_pwm[2];
    uint8_t timer_mode;
    uint16_t captured_inputs;
    uint32_t captured_counter;
};

struct plain_servo_sample {
    uint32_t raw;
    uint8_t power, ad;
    uint8_t inputs; /* bit 0 limit 1, bit 1 limit 2 */
};

struct plain_gains {
    uint16_t kp, kd, ki, il, el;
    uint8_t ol, cl, sm;
};

/* Numbers of executed loads, and whether one has been loaded since power-up. */
struct plain_rates {
    uint32_t velocity, acceleration;
    plain_flag velocity_loaded, acceleration_loaded;
};

enum plain_way { PLAIN_WAY_PWM, PLAIN_WAY_VELOCITY, PLAIN_WAY_TRAPEZOID };

struct plain_load {
    plain_flag waits, has_position, has_pwm, reverse;
    uint8_t way, pwm;
    uint32_t position;
};

enum plain_mode { PLAIN_OFF, PLAIN_PWM, PLAIN_HOLDING, PLAIN_VELOCITY, PLAIN_TRAPEZOID };

struct plain_servo {
    struct plain_servo_sample latched;
    uint32_t offset, last_position;
    struct plain_gains gains;
    struct plain_rates rates;
    struct plain_load load;
    uint32_t setpoint; /* whole counts */
    uint16_t fraction; /* and 65,536ths of one */
    uint8_t mode;
    plain_flag error, amplifier, cut; /* cut: there was more to put out than OL in the last filter tick */
    uint8_t homing; /* the byte of Set Homing until it finds its switch, else 0 */
    uint32_t home;  /* where it found the last one */
    int32_t speed, goal_speed;
    uint32_t goal, acceleration, top_speed; /* of the profile last started */
    int32_t integral, previous_error;
    int32_t pwm, output;
};

/* A load of a step-motor module; speed and T are 0 where it carried none. */
struct plain_step_load {
    plain_flag waits, backward;
    uint8_t speed, time;
};

/* What its motor does, in steps a tick: all 0 at rest. */
struct plain_steps {
    uint8_t speed;
    plain_flag backward;
    uint8_t goal, time, counter; /* counter: ticks since the start, the smooth stop or the last change of speed */
    plain_flag stopping;
};

struct plain_stepper {
    plain_flag amplifier;
    uint8_t minimum; /* 0 until Set Parameters */
    uint32_t stored_position, stored_timer;
    struct plain_step_load load;
    struct plain_steps steps;
    uint32_t position;
};

struct plain_module {
    uint8_t type;
    struct plain_station station;
    union {
        struct plain_io io;
        struct plain_servo servo;
        struct plain_stepper stepper;
    } as;
};

struct plain_network {
    struct plain_receiver receiver;
    uint8_t chain;
    struct plain_module modules[PLAIN_MOST_MODULES];
};

/* byte_by_place is byte, and also tells the length of each place's reply, in as many bytes as the chain has. */
#define PLAIN_CALLS(NAMED)                                                                        \
    uint32_t NAMED(setup)(struct plain_network *net, const uint8_t *types, size_t chain);         \
    uint32_t NAMED(byte)(struct plain_network *net, uint32_t mark, uint8_t byte, uint8_t *room,   \
                         size_t room_len, size_t *written);                                       \
    uint32_t NAMED(byte_by_place)(struct plain_network *net, uint32_t mark, uint8_t byte,         \
                                  uint8_t *room, size_t room_len, size_t *written,                \
                                  uint8_t *lengths);                                              \
    uint32_t NAMED(bytes)(struct plain_network *net, const uint8_t *bytes, size_t bytes_len,      \
                          const uint8_t *marks, size_t marks_len, uint8_t *room, size_t room_len, \
                          size_t *written);                                                       \
    uint32_t NAMED(tick)(struct plain_network *net, const uint8_t *samples, size_t samples_len);  \
    uint32_t NAMED(outputs)(const struct plain_network *net, uint32_t place, uint8_t *outputs);   \
    uint32_t NAMED(write_frame)(uint32_t address, uint32_t code, const uint8_t *data,             \
                                size_t data_len, uint8_t *room, size_t room_len,                  \
                                size_t *written);                                                 \
    uint32_t NAMED(read_status)(uint32_t type, uint8_t items, const uint8_t *reply,               \
                                size_t reply_len, uint8_t *reading);                              \
    uint32_t NAMED(import_text)(const uint8_t *text, size_t text_len, uint8_t *room,              \
                                size_t room_len, size_t *written, size_t *offset);                \
    uint32_t NAMED(export_text)(const uint8_t *records, size_t records_len, uint8_t *room,        \
                                size_t room_len, size_t *written);

#define PLAIN_UNCHECKED(name) plain_##name
#define PLAIN_CHECKED(name) checked_##name
PLAIN_CALLS(PLAIN_UNCHECKED)
PLAIN_CALLS(PLAIN_CHECKED)

/* The calls of the build that is being compiled. */
#ifdef PLAIN_CHECKS
#define PLAIN(name) PLAIN_CHECKED(name)
#else
#define PLAIN(name) PLAIN_UNCHECKED(name)
#endif

#endif
