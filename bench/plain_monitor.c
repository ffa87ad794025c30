/*
 * The line monitor's program in plain C, to measure the library's against: it
 * writes and says the same, block by block.
 */
#define _POSIX_C_SOURCE 200809L

#include "plain_text.h"

#include <fcntl.h>
#include <stdbool.h>
#include <stdio.h>
#include <string.h>
#include <unistd.h>

enum { BLOCK = 65536, KINDS = 6 };

static const uint8_t body_len[KINDS] = {1, 2, 8, 10, 0, 2};

static uint8_t in[BLOCK];
static uint8_t out[2 * BLOCK]; /* more than a block can bring */

/* Whether there may be more; *got is 0 at the end. */
static bool read_some(int fd, uint8_t *to, size_t room, size_t *got)
{
    ssize_t count = read(fd, to, room);
    if (count < 0)
        perror("read");
    *got = count < 0 ? 0 : (size_t)count;
    return count >= 0;
}

static bool write_out(const uint8_t *end)
{
    for (const uint8_t *from = out; from < end;) {
        ssize_t put = write(STDOUT_FILENO, from, (size_t)(end - from));
        if (put < 0) {
            perror("write");
            return false;
        }
        from += put;
    }
    return true;
}

/* ---- import */

/* What has been read last. */
enum stage { LINE_END, SPACE, FIRST_DIGIT, BYTE, MARK };

/* Where in a text the next character stands. */
struct place {
    enum stage stage;
    uint8_t first_digit, byte;
    unsigned long long offset, line, line_at;
};

static bool can_stand(enum stage stage, uint8_t c)
{
    if (stage <= FIRST_DIGIT)
        return plain_digits[c] != 0;
    return c == ' ' || c == '\n' || (c == '!' && stage == BYTE);
}

static uint8_t *put_record(uint8_t *to, uint8_t mark, uint8_t byte)
{
    to[0] = PLAIN_LINE_BYTE;
    to[1] = mark;
    to[2] = byte;
    return to + PLAIN_LINE_BYTE_LEN;
}

/* Takes a character that can stand there; the output's new end. */
static uint8_t *take(struct place *at, uint8_t c, uint8_t *to)
{
    at->offset++;
    if (at->stage <= SPACE) {
        at->first_digit = c;
        at->stage = FIRST_DIGIT;
        return to;
    }
    if (at->stage == FIRST_DIGIT) {
        at->byte = plain_byte_of(at->first_digit, c);
        at->stage = BYTE;
        return to;
    }
    if (at->stage == BYTE)
        to = put_record(to, c == '!', at->byte);
    at->stage = c == '\n' ? LINE_END : c == ' ' ? SPACE : MARK;
    if (c == '\n') {
        at->line++;
        at->line_at = at->offset;
    }
    return to;
}

static void tell_fault(const char *what, const struct place *at)
{
    fprintf(stderr, "%s: offset %llu, line %llu, column %llu\n", what, at->offset, at->line,
            at->offset - at->line_at + 1);
}

static void import(int fd)
{
    struct place at = {.stage = LINE_END, .line = 1};
    for (size_t len; read_some(fd, in, BLOCK, &len);) {
        uint8_t *end = out;
        size_t i = 0;
        for (; i < len && can_stand(at.stage, in[i]); i++)
            end = take(&at, in[i], end);
        if (!write_out(end))
            return;
        if (i < len) {
            tell_fault("bad text", &at);
            return;
        }
        if (len == 0) {
            if (at.stage != LINE_END)
                tell_fault("text breaks off", &at);
            return;
        }
    }
}

/* ---- export */

static unsigned on_line; /* bytes on the line that is not ended yet */

/* What ends a byte stands before the next one, since a line may be the last. */
static uint8_t *put_text(uint8_t *to, uint8_t mark, uint8_t byte)
{
    if (on_line > 0)
        *to++ = on_line == PLAIN_BYTES_A_LINE ? '\n' : ' ';
    on_line = on_line == PLAIN_BYTES_A_LINE ? 1 : on_line + 1;
    return plain_put_byte(to, byte, mark);
}

/* Takes whole records up to one that is bad, or cut where the block ends; the output's new end. */
static uint8_t *take_records(size_t len, size_t *taken, bool *bad)
{
    uint8_t *to = out;
    size_t at = 0;
    for (size_t next; at < len; at = next) {
        const uint8_t *record = in + at;
        *bad = record[0] >= KINDS;
        if (*bad || (next = at + 1 + body_len[record[0]]) > len)
            break;
        if (record[0] != PLAIN_LINE_BYTE)
            continue;
        *bad = record[1] > 1;
        if (*bad)
            break;
        to = put_text(to, record[1], record[2]);
    }
    *taken = at;
    return to;
}

/* What stood before a bad record stays a whole text. */
static void end_text(bool bad, unsigned long long offset)
{
    out[0] = '\n';
    if (on_line > 0 && !write_out(out + 1))
        return;
    if (bad)
        fprintf(stderr, "bad record: offset %llu\n", offset);
}

static void export(int fd)
{
    unsigned long long offset = 0;
    size_t held = 0, got, taken;
    for (bool bad = false; read_some(fd, in + held, BLOCK - held, &got);) {
        held += got;
        if (!write_out(take_records(held, &taken, &bad)))
            return;
        offset += taken;
        held -= taken;
        if (bad || got == 0) {
            end_text(held > 0, offset);
            return;
        }
        memmove(in, in + taken, held);
    }
}

int main(int argc, char **argv)
{
    bool imports = argc > 1 && strcmp(argv[1], "import") == 0;
    bool exports = argc > 1 && strcmp(argv[1], "export") == 0;
    if (argc > 3 || !(imports || exports)) {
        fputs("usage: monitor import [TEXT]\n       monitor export [RECORDS]\n", stderr);
        return 0;
    }
    int fd = argc == 3 ? open(argv[2], O_RDONLY) : STDIN_FILENO;
    if (fd < 0)
        perror(argv[2]);
    else if (imports)
        import(fd);
    else
        export(fd);
    return 0;
}
