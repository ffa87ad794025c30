/*
 * A network of NMC modules on one board, the host's side of the line, and the
 * text in which the fitters' line monitor writes what it saw.
 *
 * The network lives in a record of NMC_NET_LEN bytes that the board keeps and
 * lends to each call. Set it up once, hand over the line's bytes as they come,
 * a buffer at a time or one by one, and tick at the control rate with what every
 * module has measured.
 *
 * Each call gives back one of the numbers below. A refused call (11 and above)
 * leaves everything lent as it was, but for *written, which is then 0, *offset
 * of an import, and the status reader's reading, which is then all 0.
 *
 * No pointer may be null, also where its length is 0, and what is lent to one
 * call may not overlap. Nothing is allocated, nothing is kept between calls,
 * and a network is used from one place at a time.
 */
#ifndef DOLJURVEN_H
#define DOLJURVEN_H

#include <stddef.h>
#include <stdint.h>

#ifdef __cplusplus
extern "C" {
#endif

/* Each landing raises it and says in CHANGELOG.md what is new. */
#define NMC_VERSION "1.12.3"
#define NMC_VERSION_MAJOR 1
#define NMC_VERSION_MINOR 12
#define NMC_VERSION_PATCH 3

#define NMC_MOST_MODULES 32u      /* in one chain */
#define NMC_NET_LEN 4116u         /* the network's record, for any chain */
#define NMC_ROOM_LEN 608u         /* room for all replies that one byte can draw */
#define NMC_BUFFER_LEN 64u        /* the most line bytes of one buffer */
#define NMC_BUFFER_ROOM_LEN 9728u /* room for all replies that a buffer can draw */
#define NMC_FRAME_LEN 19u         /* the longest frame */
#define NMC_REPLY_LEN 19u         /* the longest reply of one module */
#define NMC_SAMPLE_LEN 10u        /* what one module measures, in a tick's list */
#define NMC_OUTPUTS_LEN 8u        /* what one module drives */
#define NMC_READING_LEN 33u       /* a reply taken apart */

/* Module types. */
#define NMC_TYPE_SERVO 0u
#define NMC_TYPE_IO 2u
#define NMC_TYPE_STEPPER 3u   /* step-motor module */

enum nmc_number {
    NMC_DONE = 0,        /* done; of a byte: taken, no frame ended */
    NMC_FRAME = 1,       /* byte: an undamaged frame ended */
    NMC_DAMAGED = 2,     /* byte: a damaged frame ended */
    NMC_BAD_CHAIN = 11,  /* setup: not 1 to 32 modules */
    NMC_BAD_TYPE = 12,   /* setup, status reader: no such module type */
    NMC_BAD_PLACE = 13,  /* no such place; tick: a sample of another type */
    NMC_BAD_FIELD = 14,  /* a mark not 0 or 1; tick: a sample out of range */
    NMC_SHORT_ROOM = 15, /* room too short */
    NMC_BAD_RECORD = 16, /* record of another length, or spoiled */
    NMC_BAD_FRAME = 17,  /* writer: address, code or data too large */
    NMC_BAD_LENGTH = 18, /* status reader: not as type and items ask */
    NMC_BAD_SUM = 19,    /* status reader: wrong checksum */
    NMC_BAD_LIST = 20,   /* tick: not one sample for each module; buffer: not
                            as many marks as bytes, or over NMC_BUFFER_LEN */
    NMC_BAD_TEXT = 21,   /* import: not the line monitor's text */
    NMC_BAD_RECORDS = 22 /* export: a record of another kind than a line byte,
                            cut, or with a mark above 1 */
};

/*
 * The last cause of a module: what became of the last frame that touched it,
 * 0 if none did. A frame is tested in the order damaged, unknown, count,
 * value, not now.
 */
enum nmc_cause_number {
    NMC_CAUSE_EXECUTED = 0, /* the frame was executed */
    NMC_CAUSE_DAMAGED = 1,  /* damaged: wrong checksum, or a marked byte */
    NMC_CAUSE_COUNT = 2,    /* wrong number of data bytes */
    NMC_CAUSE_NOT_NOW = 3,  /* cannot be carried out now */
    NMC_CAUSE_UNKNOWN = 4,  /* unknown code, or Set Baud sent individually */
    NMC_CAUSE_VALUE = 5     /* value out of range */
};

/*
 * Puts a chain of so many modules, all at power-up, into the record, whatever
 * it held. types has one module type a place, place 0 first: the one that is
 * enabled without a predecessor.
 */
uint32_t nmc_setup(uint8_t *net, size_t net_len, const uint8_t *types, size_t chain);

/*
 * One byte from the line. mark is 1 if the UART saw a framing error or overrun
 * with it, else 0. room_len is at least NMC_ROOM_LEN. Where the byte ends a
 * frame that draws replies, they stand in room one after another in chain
 * order, ready to be sent, and *written is their length together; the rest of
 * the room is left alone.
 */
uint32_t nmc_byte(uint8_t *net, size_t net_len, uint32_t mark, uint8_t byte, uint8_t *room,
                  size_t room_len, size_t *written);

/*
 * A whole buffer from the line, 0 to NMC_BUFFER_LEN bytes, each with its mark
 * of 0 or 1: marks[i] came with bytes[i]. It does what nmc_byte would, called
 * for one after another: the same network, and the same replies in the same
 * order, one frame's behind the other's in room; *written is the length of all
 * of them, and the rest of the room is left alone. The record is tested once,
 * so that a buffer costs little more than a byte does. It gives 0: which of the
 * bytes ended a frame, damaged or not, only nmc_byte tells.
 *
 * Refused is first a buffer that has not as many marks as bytes, or more than
 * NMC_BUFFER_LEN of them (20), then one with any mark above 1 (14), then a room
 * under NMC_BUFFER_ROOM_LEN (15), however few the bytes are: at most 16 frames
 * can end in a buffer, and each can draw NMC_ROOM_LEN. Of a refused buffer no
 * byte is taken.
 */
uint32_t nmc_bytes(uint8_t *net, size_t net_len, const uint8_t *bytes, size_t bytes_len,
                   const uint8_t *marks, size_t marks_len, uint8_t *room, size_t room_len,
                   size_t *written);

/*
 * Puts what the servo at a place measures into a tick's list, which must reach
 * that far: the raw count of its encoder, motor power (0 low, 1 good, 2 high),
 * an A/D byte, and its limit inputs (bit 0 limit 1, bit 1 limit 2). A power or
 * inputs above 255 are put as 255, so that the tick refuses them as it does a
 * power above 2 and inputs above 3.
 */
static inline void nmc_put_servo_sample(uint8_t *samples, size_t place, uint32_t raw,
                                        uint32_t power, uint8_t ad, uint32_t inputs)
{
    uint8_t *at = samples + place * NMC_SAMPLE_LEN;
    at[0] = NMC_TYPE_SERVO;
    at[1] = (uint8_t)(power > 255 ? 255 : power);
    at[2] = ad;
    at[3] = (uint8_t)raw;
    at[4] = (uint8_t)(raw >> 8);
    at[5] = (uint8_t)(raw >> 16);
    at[6] = (uint8_t)(raw >> 24);
    at[7] = (uint8_t)(inputs > 255 ? 255 : inputs);
    at[8] = at[9] = 0;
}

/*
 * The same for an I/O module: twelve input bits (0 to 4095), three A/D bytes
 * and the counter. Inputs above 65535 are put as 65535, so that the tick
 * refuses them as it does any above 4095.
 */
static inline void nmc_put_io_sample(uint8_t *samples, size_t place, uint32_t inputs, uint8_t ad1,
                                     uint8_t ad2, uint8_t ad3, uint32_t counter)
{
    uint8_t *at = samples + place * NMC_SAMPLE_LEN;
    uint32_t bits = inputs > 65535 ? 65535 : inputs;
    at[0] = NMC_TYPE_IO;
    at[1] = (uint8_t)bits;
    at[2] = (uint8_t)(bits >> 8);
    at[3] = ad1;
    at[4] = ad2;
    at[5] = ad3;
    at[6] = (uint8_t)counter;
    at[7] = (uint8_t)(counter >> 8);
    at[8] = (uint8_t)(counter >> 16);
    at[9] = (uint8_t)(counter >> 24);
}

/*
 * The same for a step-motor module: its stop input, 0 or 1. One above 255 is
 * put as 255, so that the tick refuses it as it does any above 1.
 */
static inline void nmc_put_stepper_sample(uint8_t *samples, size_t place, uint32_t stop)
{
    uint8_t *at = samples + place * NMC_SAMPLE_LEN;
    at[0] = NMC_TYPE_STEPPER;
    at[1] = (uint8_t)(stop > 255 ? 255 : stop);
    at[2] = at[3] = at[4] = at[5] = at[6] = at[7] = at[8] = at[9] = 0;
}

/*
 * One tick for all modules. Servos and I/O modules latch their sample, which
 * they show until the next tick, and servos move their setpoints and work out
 * their motor outputs. Step-motor modules change their speed where T ticks have
 * passed, and their position by the speed. At a stop input of 1 the motion ends
 * instead, and only a new start begins one; the input itself is not kept.
 *
 * samples has NMC_SAMPLE_LEN bytes for each place, place 0 first, and nothing
 * besides. The three functions above fill a place's ten: the module's type,
 * then of a servo power, A/D, the raw count (4 bytes) and the limit inputs, of
 * an I/O module inputs (2), A/D 1, 2, 3 and the counter (4), of a step-motor
 * module the stop input, numbers least significant byte first. Bytes 8 and 9 of
 * a servo's ten and 2 to 9 of a step-motor module's are not looked at; let them
 * be 0.
 *
 * Refused is first a list of another length (20), then one with any type that
 * is not its module's (13), then one with any power above 2, limit inputs above
 * 3, I/O inputs above 4095 or stop input above 1 (14). A refused tick is none:
 * all keep what they have latched, no motion ends, and homing finds nothing.
 *
 * Homing: a servo that was sent Set Homing (code 9, one byte: bit 0 watches
 * limit 1, bit 1 limit 2; with at most one of bit 2, motor off, bit 4, stop
 * abruptly, bit 5, stop smoothly) stores its position as home in the first tick
 * in which a watched input differs from what it was at the command, and stops
 * in that same tick. An abrupt stop holds the position also where the servo was
 * off; the amplifier bit is left as it is. Only finding and Hard Reset end it.
 */
uint32_t nmc_tick(uint8_t *net, size_t net_len, const uint8_t *samples, size_t samples_len);

/*
 * What the board is to drive for a module, in NMC_OUTPUTS_LEN bytes. Servo:
 * size of the motor output (0 to 255), 1 if it is negative, enable line, then
 * five of 0. The enable line is the amplifier bit, which Stop sets or clears
 * and Hard Reset clears, while power is good: it drops in a power dip and comes
 * back with power. Low power turns the servo off until it is started anew, or
 * until homing with an abrupt stop finds its switch and holds the position.
 * I/O: directions of bits 1 to 8 and 9 to 12 (1 is input), output register of
 * the same, PWM 1, PWM 2, 0, 0. Step-motor module: size of the speed in steps a
 * tick (0 at rest, else 1 to 250), 1 if it goes backward, amplifier bit, then
 * five of 0. A start from rest shows the minimum speed at once; its position
 * moves from the next tick on, by the speed that it has after each tick. The
 * motion does not look at the amplifier bit.
 */
uint32_t nmc_outputs(const uint8_t *net, size_t net_len, uint32_t place, uint8_t *outputs);

/*
 * The last cause of a module, one of enum nmc_cause_number: why the last frame
 * that touched it was not executed, or that it was. It stays until the next
 * such frame; the network is not changed.
 */
uint32_t nmc_cause(const uint8_t *net, size_t net_len, uint32_t place, uint8_t *cause);

/*
 * Writes a frame for the line: address 0 to 255, code 0 to 15, at most 15 data
 * bytes. It takes data_len + 4 bytes of room; *written is that length.
 *
 * Beware with step-motor modules: every smooth stop counts its T ticks from the
 * beginning. A host that sends it again before T ticks have passed, and again,
 * puts the stop off for ever. Send it once and wait for status bit 0 to clear.
 */
uint32_t nmc_write_frame(uint32_t address, uint32_t code, const uint8_t *data, size_t data_len,
                         uint8_t *room, size_t room_len, size_t *written);

/*
 * Takes a module's reply apart, knowing its type and the status items that
 * were asked for. reading has NMC_READING_LEN bytes: the status byte, then for
 * each item bit 0 to 7 its number in four bytes, least significant first; 0
 * where the item was not asked for. A servo's status bits: 0 move done, 1 last
 * cause not 0, 2 the last filter tick was cut to OL, 3 power good, 4 position
 * error, 5 limit 1, 6 limit 2, 7 homing in progress; its item 4 is home. A
 * step-motor module's: 0 moving, 1 last cause not 0.
 * It has items 0, the position, and 5, type and version; any other is refused
 * with 18, however long the reply is.
 */
uint32_t nmc_read_status(uint32_t type, uint8_t items, const uint8_t *reply, size_t reply_len,
                         uint8_t *reading);

/*
 * Turns the line monitor's text into records of a replay file, three bytes for
 * each byte of the line: 1, its mark (0 or 1), the byte. In the text a byte is
 * two hex digits, in either letter case, with an exclamation mark straight
 * after it if it came with a framing error; one space stands between bytes on a
 * line, and a newline at each line's end, the last too. A line has one byte or
 * more. The empty text is good, and gives nothing.
 *
 * What is no such text is refused (21), and *offset is the offset of its first
 * character that can't stand there, or text_len where it breaks off; else
 * *offset is 0. A room that is shorter than the records is refused then (15).
 * They have text_len bytes less one for each exclamation mark, so that a room
 * of text_len is always enough. *written is their length, and the rest of the
 * room is left alone.
 */
uint32_t nmc_import_text(const uint8_t *text, size_t text_len, uint8_t *room, size_t room_len,
                         size_t *written, size_t *offset);

/*
 * Shows records of line bytes as the line monitor would: upper case, 16 bytes
 * a line, the last line shorter, nothing for no records. Refused are records of
 * another kind than 1, cut ones, and those with a mark above 1 (22), then a room
 * shorter than the text (15), which has records_len bytes and one more for each
 * mark. *written is its length, and the rest of the room is left alone. What is
 * exported so is imported as the same records.
 */
uint32_t nmc_export_text(const uint8_t *records, size_t records_len, uint8_t *room, size_t room_len,
                         size_t *written);

#ifdef __cplusplus
}
#endif

#endif
