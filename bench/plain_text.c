/*
 * The calls of the line monitor's text (document 02, P7) in plain C11. There is
 * no network to test, so that both builds do the same.
 */
#include "plain.h"
#include "plain_text.h"

#include <stdbool.h>

enum { DONE = 0, SHORT_ROOM = 15, BAD_TEXT = 21, BAD_RECORDS = 22 };

static const size_t nowhere = SIZE_MAX;

/* The offset at which a text is at fault, its length where it breaks off; counts its bytes meanwhile. */
static size_t fault_in(const uint8_t *text, size_t len, size_t *bytes)
{
    bool line_open = false;
    size_t at = 0;
    for (*bytes = 0; at < len; ++*bytes) {
        if (!plain_digits[text[at]])
            return at;
        if (++at == len || !plain_digits[text[at]])
            return at;
        if (++at < len && text[at] == '!')
            at++;
        if (at == len || (text[at] != ' ' && text[at] != '\n'))
            return at;
        line_open = text[at++] == ' ';
    }
    return line_open ? len : nowhere;
}

uint32_t PLAIN(import_text)(const uint8_t *text, size_t text_len, uint8_t *room, size_t room_len, size_t *written,
                            size_t *offset)
{
    size_t bytes, fault = fault_in(text, text_len, &bytes);
    *written = 0;
    *offset = 0;
    if (fault != nowhere) {
        *offset = fault;
        return BAD_TEXT;
    }
    if (room_len / PLAIN_LINE_BYTE_LEN < bytes)
        return SHORT_ROOM;
    for (size_t i = 0; i < bytes; i++) {
        bool marked = text[2] == '!';
        *room++ = PLAIN_LINE_BYTE;
        *room++ = marked;
        *room++ = plain_byte_of(text[0], text[1]);
        text += marked ? 4 : 3;
    }
    *written = bytes * PLAIN_LINE_BYTE_LEN;
    return DONE;
}

uint32_t PLAIN(export_text)(const uint8_t *records, size_t records_len, uint8_t *room, size_t room_len,
                            size_t *written)
{
    size_t bytes = records_len / PLAIN_LINE_BYTE_LEN, needed = records_len;
    *written = 0;
    if (records_len % PLAIN_LINE_BYTE_LEN != 0)
        return BAD_RECORDS;
    for (const uint8_t *r = records; r < records + records_len; r += PLAIN_LINE_BYTE_LEN) {
        if (r[0] != PLAIN_LINE_BYTE || r[1] > 1)
            return BAD_RECORDS;
        needed += r[1];
    }
    if (room_len < needed)
        return SHORT_ROOM;
    for (size_t i = 1; i <= bytes; i++, records += PLAIN_LINE_BYTE_LEN) {
        room = plain_put_byte(room, records[2], records[1]);
        *room++ = i % PLAIN_BYTES_A_LINE == 0 || i == bytes ? '\n' : ' ';
    }
    *written = needed;
    return DONE;
}
