/* The library and the two builds of plain C behind one set of calls, each with a network of its own. */
#ifndef THREE_H
#define THREE_H

#include "doljurven.h"

enum { LIBRARY, PLAIN_C, CHECKED_C, IMPLEMENTATIONS };

struct implementation {
    const char *name;
    const char *prefix; /* of its calls' symbols */
    uint32_t (*setup)(const uint8_t *types, size_t chain);
    uint32_t (*byte)(uint32_t mark, uint8_t byte, uint8_t *room, size_t room_len, size_t *written);
    uint32_t (*bytes)(const uint8_t *bytes, size_t bytes_len, const uint8_t *marks, size_t marks_len,
                      uint8_t *room, size_t room_len, size_t *written);
    uint32_t (*tick)(const uint8_t *samples, size_t samples_len);
    uint32_t (*outputs)(uint32_t place, uint8_t *outputs);
    uint32_t (*write_frame)(uint32_t address, uint32_t code, const uint8_t *data, size_t data_len,
                            uint8_t *room, size_t room_len, size_t *written);
    uint32_t (*read_status)(uint32_t type, uint8_t items, const uint8_t *reply, size_t reply_len,
                            uint8_t *reading);
    uint32_t (*import_text)(const uint8_t *text, size_t text_len, uint8_t *room, size_t room_len, size_t *written,
                            size_t *offset);
    uint32_t (*export_text)(const uint8_t *records, size_t records_len, uint8_t *room, size_t room_len,
                            size_t *written);
    void *network; /* to be saved and put back; the receiver is its first part */
    size_t network_len, receiver_len;
};

extern const struct implementation implementations[IMPLEMENTATIONS];

#endif
