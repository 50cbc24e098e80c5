/* What a dump must answer. */
#ifndef ALL_PORTS_H
#define ALL_PORTS_H

#include "quay_call.h"

enum { PRIVFLAGS_REPLY = 14 };

static inline void put_bits(struct message *message, const uint8_t *names, const uint8_t *set, size_t count)
{
    size_t nest = begin_nest(message, BITS);

    for (size_t at = 0; at < count; at++)
        if (set[at / 8] >> at % 8 & 1)
            put_bit(message, (int64_t)at, names[at * NAME] != 0 ? (const char *)names + at * NAME : NULL, 0);
    end_nest(message, nest);
}

/* A reply's bitset: the set of a port under NOMASK. */
static inline void put_set(struct message *message, const uint8_t *names, const uint8_t *set, size_t count, int compact)
{
    size_t nest = begin_nest(message, BITSET);

    flag(message, NOMASK);
    number(message, SIZE, (uint32_t)count);
    if (compact)
        attribute(message, VALUE, set, ETHNL_SET_LEN(count));
    else
        put_bits(message, names, set, count);
    end_nest(message, nest);
}

/* The reply of a port to a GET, as it stands in a dump. */
static inline void put_reply(struct message *reply, uint8_t command, size_t port, int compact)
{
    size_t debug_bits = box.debug_names_len / NAME, flag_bits = box.flag_names_len / NAME, nest;
    const uint8_t *record = roll + port * PORT;
    const uint8_t *debug = settings + port * (ETHNL_SET_LEN(debug_bits) + ETHNL_SET_LEN(flag_bits));

    begin_message(reply, command == DEBUG_GET ? DEBUG_GET : PRIVFLAGS_REPLY, MULTI);
    nest = begin_nest(reply, HEADER);
    attribute(reply, PORT_INDEX, record + 1, 4);
    name(reply, PORT_NAME, (const char *)record + 5);
    end_nest(reply, nest);
    if (command == DEBUG_GET)
        put_set(reply, debug_names, debug, debug_bits, compact);
    else
        put_set(reply, flag_names, debug + ETHNL_SET_LEN(debug_bits), flag_bits, compact);
    end_request(reply);
}

static const uint8_t done[] = {0x14, 0, 0, 0, 3, 0, 2, 0, 7, 0, 0, 0, 9, 0, 0, 0, 0, 0, 0, 0};

/* The dump that is asked for, and where in the datagram it begins and ends. */
static struct {
    uint8_t command;
    int compact;
    uint64_t begins, ends;
} dump;

/* The datagram is one dump. */
static inline void ask_dump(uint8_t command, uint16_t flags, uint32_t header_flags)
{
    begin_request(&request, command, REQUEST | DUMP | flags, NO_INDEX, header_flags);
    end_request(&request);
    dump.command = command;
    dump.compact = header_flags & 1;
    dump.begins = 0;
    dump.ends = request.length;
}

/* Calls at a place of the dump; whether the answer is the one of that place. */
static inline int is_place(uint64_t place)
{
    static struct message reply;

    handle_at(dump.begins, place);
    if (place == ports())
        return is_done(done, sizeof done, dump.ends, 0);
    put_reply(&reply, dump.command, place, dump.compact);
    return is_done(reply.bytes, reply.length, dump.begins, place + 1);
}

#endif
