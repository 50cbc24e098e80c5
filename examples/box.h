/* A box of ports as a daemon keeps it, read from a text file; quay.box shows the format. */
#ifndef BOX_H
#define BOX_H

#include "ethnl_box.h"

struct box {
    uint32_t family, admin;
    uint8_t roll[ETHNL_PORTS_MAX * ETHNL_ROLL_RECORD];
    uint8_t debug_names[ETHNL_BITS_MAX * ETHNL_NAME_LEN];
    uint8_t flag_names[ETHNL_BITS_MAX * ETHNL_NAME_LEN];
    uint8_t settings[ETHNL_PORTS_MAX * 2 * ETHNL_SET_LEN(ETHNL_BITS_MAX)];
    size_t roll_len, debug_names_len, flag_names_len, settings_len;
};

/*
 * Reads the file; returns 0, or -1 after telling on standard error what is wrong. Each line is judged by itself: what
 * several lines make together, as two ports of one name, is for ethnl_box_check to tell.
 */
int box_read(struct box *box, const char *path);

/* The box as the library takes it: its buffers, lent. */
struct ethnl_box box_lent(struct box *box);

/* Answers the message at a position of the datagram, of a dump at a place, into a page of ETHNL_PAGE_MIN bytes. */
struct ethnl_answer box_handle(struct box *box, const uint8_t *datagram, size_t length, uint64_t position,
                               uint64_t place, uint8_t *page);

#endif
