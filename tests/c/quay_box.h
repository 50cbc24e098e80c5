/* A box of up to 64 ports quay1, quay2, .. in buffers that a test may spoil, lent as exact ones. */
#ifndef QUAY_BOX_H
#define QUAY_BOX_H

#include "ethnl_box.h"
#include "lend.h"

#include <stdio.h>
#include <string.h>

enum { DEBUG_BITS = 3, FLAG_BITS = 33, PORT = ETHNL_ROLL_RECORD, NAME = ETHNL_NAME_LEN };
enum { PORT_SETTINGS = ETHNL_SET_LEN(DEBUG_BITS) + ETHNL_SET_LEN(FLAG_BITS) };

static uint8_t roll[(ETHNL_PORTS_MAX + 1) * PORT];
static uint8_t debug_names[(ETHNL_BITS_MAX + 1) * NAME], flag_names[(ETHNL_BITS_MAX + 1) * NAME];
static uint8_t settings[(ETHNL_PORTS_MAX + 1) * 2 * ETHNL_SET_LEN(ETHNL_BITS_MAX)];
static struct ethnl_box box;

/* The record of a port: index port + 1, a name with that number. */
static inline void put_port(int port)
{
    uint8_t *record = roll + port * PORT;

    memset(record, 0, PORT);
    record[0] = ETHNL_ROLL_PORT;
    record[1] = (uint8_t)(port + 1);
    snprintf((char *)record + 5, ETHNL_PORT_NAME_LEN, "quay%d", port + 1);
}

/* Two ports; 3 debug bits and 33 flags, of which two have a name; all bits are off. */
static inline void right_box(void)
{
    memset(debug_names, 0, sizeof debug_names);
    memset(flag_names, 0, sizeof flag_names);
    memset(settings, 0, sizeof settings);
    for (int port = 0; port <= ETHNL_PORTS_MAX; port++)
        put_port(port);
    strcpy((char *)debug_names + NAME, "link");
    strcpy((char *)flag_names, "lldp");
    strcpy((char *)flag_names + 2 * NAME, "link");
    box = (struct ethnl_box){25, 1, roll, 2 * PORT, debug_names, DEBUG_BITS * NAME, flag_names, FLAG_BITS * NAME,
                             settings, 2 * PORT_SETTINGS};
}

/* The box in buffers of exactly its lengths. */
static inline struct ethnl_box lent_box(void)
{
    struct ethnl_box lent = box;

    lent.roll = lend(ROLL, box.roll, box.roll_len);
    lent.debug_names = lend(DEBUG_NAMES, box.debug_names, box.debug_names_len);
    lent.flag_names = lend(FLAG_NAMES, box.flag_names, box.flag_names_len);
    lent.settings = lend(SETTINGS, box.settings, box.settings_len);
    return lent;
}

/* Whether what was lent is still as it was. */
static inline int is_unchanged(const struct ethnl_box *lent)
{
    return memcmp(lent->roll, box.roll, box.roll_len) == 0 &&
           memcmp(lent->debug_names, box.debug_names, box.debug_names_len) == 0 &&
           memcmp(lent->flag_names, box.flag_names, box.flag_names_len) == 0 &&
           memcmp(lent->settings, box.settings, box.settings_len) == 0;
}

#endif
