/*
 * The line monitor's text: a capture that a fitter typed is turned into records
 * of a replay file and shown again in its normal form; a slip is told with the
 * place where it stands.
 */
#include "doljurven.h"

#include <stdio.h>
#include <string.h>

/* Imports a text, and prints its normal form or where it is at fault. */
static void show(const char *typed)
{
    const uint8_t *text = (const uint8_t *)typed;
    uint8_t records[96], shown[96]; /* a text's records and its normal form are no longer than it is */
    size_t records_len, shown_len, offset;
    uint32_t number = nmc_import_text(text, strlen(typed), records, sizeof records, &records_len, &offset);
    if (number == NMC_BAD_TEXT) {
        printf("refused at offset %zu of %zu\n", offset, strlen(typed));
        return;
    }
    if (number == NMC_DONE)
        number = nmc_export_text(records, records_len, shown, sizeof shown, &shown_len);
    if (number != NMC_DONE) {
        printf("refused with %u\n", (unsigned)number);
        return;
    }
    printf("%zu bytes of the line:\n%.*s", records_len / 3, (int)shown_len, (const char *)shown);
}

int main(void)
{
    show("aa 00 0e 0e!\n");                                           /* the last byte came with a framing error */
    show("AA\n00 21 01\nFF 21 aa 00 21 02 ff 22 AA 00 21 03 FF 23\n"); /* lines of any length */
    show("AA 00 0E 0E");                                              /* the last newline is missing */
    show("AA 00 0E  0E\n");                                           /* two spaces */
    show("AA 00\n\n0E 0E\n");                                         /* a blank line */
    return 0;
}
