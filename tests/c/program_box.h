/* The box of document 01's whole reply, and calls over it. */
#ifndef PROGRAM_BOX_H
#define PROGRAM_BOX_H

#include "ethnl_box.h"
#include "message.h"

enum { N = 40 };

/* Port 3 "sw0", N 40, bits 0 and 33 on, only bit 3 named. */
static uint8_t roll[ETHNL_ROLL_RECORD] = {1, 3, 0, 0, 0, 's', 'w', '0'};
static uint8_t debug_names[N * ETHNL_NAME_LEN];
static uint8_t flag_names[N * ETHNL_NAME_LEN];
static uint32_t settings[4];
static uint8_t page[ETHNL_PAGE_MIN];

static struct ethnl_answer answer;

static inline void fresh_box(void)
{
    memcpy(flag_names + 3 * ETHNL_NAME_LEN, "lldp", 4);
    memcpy(settings, (uint32_t[4]){0, 0, 1, 2}, sizeof settings);
}

static inline void handle_at(const void *datagram, size_t length, uint64_t position, uint64_t place, uint32_t admin,
                             size_t page_len)
{
    struct ethnl_box box = {25, admin, roll, sizeof roll, debug_names, sizeof debug_names, flag_names,
                            sizeof flag_names, (uint8_t *)settings, sizeof settings};

    memset(page, 0xAA, sizeof page);
    answer = ethnl_box_handle(&box, datagram, length, position, place, page, page_len);
}

static inline void handle(const struct message *message)
{
    handle_at(message->bytes, message->length, 0, 0, 1, sizeof page);
}

/* Whether the page has an ACK or error message, with OFFS or no detail, and no place is handed back. */
static inline int is_error(const struct message *request, int32_t errno_value, uint32_t offset)
{
    struct message error = error_of(request->bytes, errno_value, offset != 0 ? OFFS : 0, offset);

    return answer.written == error.length && memcmp(page, error.bytes, error.length) == 0 && answer.next_place == 0;
}

/* Contents of a compact bitset. */
static inline struct message compact(int nomask, uint32_t size, size_t words, const uint32_t *value, const uint32_t *mask)
{
    struct message contents = {.length = 0};

    if (nomask)
        flag(&contents, NOMASK);
    number(&contents, SIZE, size);
    attribute(&contents, VALUE, value, 4 * words);
    if (!nomask)
        attribute(&contents, MASK, mask, 4 * words);
    return contents;
}

#endif
