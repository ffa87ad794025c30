#include "three.h"

#include "plain.h"

static uint8_t record[NMC_NET_LEN];
static struct plain_network plain_net, checked_net;

static uint32_t library_setup(const uint8_t *types, size_t chain)
{
    return nmc_setup(record, sizeof record, types, chain);
}

static uint32_t library_byte(uint32_t mark, uint8_t byte, uint8_t *room, size_t room_len, size_t *written)
{
    return nmc_byte(record, sizeof record, mark, byte, room, room_len, written);
}

static uint32_t library_bytes(const uint8_t *bytes, size_t bytes_len, const uint8_t *marks, size_t marks_len,
                              uint8_t *room, size_t room_len, size_t *written)
{
    return nmc_bytes(record, sizeof record, bytes, bytes_len, marks, marks_len, room, room_len, written);
}

static uint32_t library_tick(const uint8_t *samples, size_t samples_len)
{
    return nmc_tick(record, sizeof record, samples, samples_len);
}

static uint32_t library_outputs(uint32_t place, uint8_t *outputs)
{
    return nmc_outputs(record, sizeof record, place, outputs);
}

/* The same for a build of plain.c and its network. */
#define ON_STRUCTS(BUILD, NET)                                                                     \
    static uint32_t BUILD##_setup_it(const uint8_t *types, size_t chain)                           \
    {                                                                                              \
        return BUILD##_setup(&NET, types, chain);                                                  \
    }                                                                                              \
    static uint32_t BUILD##_byte_it(uint32_t mark, uint8_t byte, uint8_t *room, size_t room_len,   \
                                    size_t *written)                                               \
    {                                                                                              \
        return BUILD##_byte(&NET, mark, byte, room, room_len, written);                            \
    }                                                                                              \
    static uint32_t BUILD##_bytes_it(const uint8_t *bytes, size_t bytes_len, const uint8_t *marks, \
                                     size_t marks_len, uint8_t *room, size_t room_len,             \
                                     size_t *written)                                              \
    {                                                                                              \
        return BUILD##_bytes(&NET, bytes, bytes_len, marks, marks_len, room, room_len, written);   \
    }                                                                                              \
    static uint32_t BUILD##_tick_it(const uint8_t *samples, size_t samples_len)                    \
    {                                                                                              \
        return BUILD##_tick(&NET, samples, samples_len);                                           \
    }                                                                                              \
    static uint32_t BUILD##_outputs_it(uint32_t place, uint8_t *outputs)                           \
    {                                                                                              \
        return BUILD##_outputs(&NET, place, outputs);                                              \
    }

ON_STRUCTS(plain, plain_net)
ON_STRUCTS(checked, checked_net)

const struct implementation implementations[IMPLEMENTATIONS] = {
    {"library", "nmc_", library_setup, library_byte, library_bytes, library_tick, library_outputs,
     nmc_write_frame, nmc_read_status, nmc_import_text, nmc_export_text, record, sizeof record, 19},
    {"plain C", "plain_", plain_setup_it, plain_byte_it, plain_bytes_it, plain_tick_it, plain_outputs_it,
     plain_write_frame, plain_read_status, plain_import_text, plain_export_text, &plain_net, sizeof plain_net,
     sizeof plain_net.receiver},
    {"C with checks", "checked_", checked_setup_it, checked_byte_it, checked_bytes_it, checked_tick_it,
     checked_outputs_it, checked_write_frame, checked_read_status, checked_import_text, checked_export_text,
     &checked_net, sizeof checked_net, sizeof checked_net.receiver},
};
