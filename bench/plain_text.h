/* What plain C's calls and program of the line monitor share: plain_text.c and plain_monitor.c. */
#ifndef PLAIN_TEXT_H
#define PLAIN_TEXT_H

#include <stdint.h>

enum { PLAIN_LINE_BYTE = 1, PLAIN_LINE_BYTE_LEN = 3, PLAIN_BYTES_A_LINE = 16 };

/* The value of a hex digit of either case with PLAIN_DIGIT added, 0 for any other character. */
enum { PLAIN_DIGIT = 16 };
static const uint8_t plain_digits[256] = {
    ['0'] = 16, ['1'] = 17, ['2'] = 18, ['3'] = 19, ['4'] = 20, ['5'] = 21, ['6'] = 22, ['7'] = 23,
    ['8'] = 24, ['9'] = 25, ['A'] = 26, ['B'] = 27, ['C'] = 28, ['D'] = 29, ['E'] = 30, ['F'] = 31,
    ['a'] = 26, ['b'] = 27, ['c'] = 28, ['d'] = 29, ['e'] = 30, ['f'] = 31,
};

/* The byte of two hex digits. */
static inline uint8_t plain_byte_of(uint8_t high, uint8_t low)
{
    return (uint8_t)((plain_digits[high] - PLAIN_DIGIT) << 4 | (plain_digits[low] - PLAIN_DIGIT));
}

/* Puts a byte as text, with its mark; what stands behind it is left to the caller. */
static inline uint8_t *plain_put_byte(uint8_t *to, uint8_t byte, uint8_t mark)
{
    static const char digits[] = "0123456789ABCDEF";
    *to++ = (uint8_t)digits[byte >> 4];
    *to++ = (uint8_t)digits[byte & 15];
    if (mark)
        *to++ = '!';
    return to;
}

#endif
