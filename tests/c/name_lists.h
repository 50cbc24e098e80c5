/* Requests for name lists over a box of several ports, and the reply that must come. */
#ifndef NAME_LISTS_H
#define NAME_LISTS_H

#include "quay_call.h"

enum { NO_PORT = -1 };

/* Ids in the order in which they stand in a request, or are owed in its reply. */
struct ids {
    size_t count;
    uint32_t at[5];
};

/* The index of a port by its place in the roll. */
static inline int64_t index_of(int port)
{
    return port == NO_PORT ? NO_INDEX : roll[port * PORT + 1];
}

static inline void put_stringset(struct message *message, uint32_t id)
{
    size_t set = begin_nest(message, STRINGSET);

    number(message, SET_ID, id);
    end_nest(message, set);
}

static inline void put_list(struct message *message, const struct ids *ids)
{
    size_t list = begin_nest(message, STRINGSETS);

    for (size_t at = 0; at < ids->count; at++)
        put_stringset(message, ids->at[at]);
    end_nest(message, list);
}

/* The request for these ids; without STRINGSETS where there is none. */
static inline void ask_names(uint16_t flags, int64_t port, uint32_t header_flags, const struct ids *ids)
{
    begin_request(&request, STRSET_GET, REQUEST | flags, port, header_flags);
    if (ids->count != 0)
        put_list(&request, ids);
    end_request(&request);
}

/* STRINGS of a reply: every entry of the list, a name with one NUL; an empty one is that NUL alone. */
static inline void put_strings(struct message *reply, const uint8_t *names, size_t count)
{
    size_t strings = begin_nest(reply, STRINGS);

    for (size_t at = 0; at < count; at++) {
        size_t string = begin_nest(reply, STRING);
        number(reply, STRING_INDEX, (uint32_t)at);
        name(reply, STRING_VALUE, (const char *)names + at * NAME);
        end_nest(reply, string);
    }
    end_nest(reply, strings);
}

/* A STRINGSET of a reply. */
static inline void put_told(struct message *reply, uint32_t id, int counts_only)
{
    const uint8_t *names = id == FLAGS_ID ? flag_names : debug_names;
    size_t count = (id == FLAGS_ID ? box.flag_names_len : box.debug_names_len) / NAME;
    size_t set = begin_nest(reply, STRINGSET);

    number(reply, SET_ID, id);
    number(reply, SET_COUNT, (uint32_t)count);
    if (!counts_only)
        put_strings(reply, names, count);
    end_nest(reply, set);
}

/* What must be written: the reply about a port or none, and the ACK where the request asks for it. */
static inline void put_reply(struct message *reply, int port, const struct ids *owed, int counts_only)
{
    struct message ack = error_of(request.bytes, 0, 0, 0);
    size_t list;

    begin_message(reply, STRSET_GET, 0);
    if (port != NO_PORT)
        header_nest(reply, index_of(port), (const char *)roll + port * PORT + 5, 0);
    list = begin_nest(reply, STRINGSETS);
    for (size_t at = 0; at < owed->count; at++)
        put_told(reply, owed->at[at], counts_only);
    end_nest(reply, list);
    end_request(reply);
    if (request.bytes[6] & ACK)
        put(reply, ack.bytes, ack.length);
}

/* Calls with the request as it stands, at a place; whether it is done and tells these lists. */
static inline int is_told_at(uint64_t place, int port, const struct ids *owed, int counts_only)
{
    static struct message reply;

    put_reply(&reply, port, owed, counts_only);
    handle_at(0, place);
    return is_done(reply.bytes, reply.length, request.length, 0);
}

static inline int is_told(int port, const struct ids *owed, int counts_only)
{
    return is_told_at(0, port, owed, counts_only);
}

/* A nest with these bytes in it, of which the last padding is absent. */
static inline void put_nest(uint16_t type, const void *bytes, size_t length)
{
    size_t nest = begin_nest(&request, type);

    put(&request, bytes, length);
    end_nest(&request, nest);
}

/* 13 for a STRINGSET without an ID, which stands at this offset. */
static inline void expect_missing_id(const char *what, uint32_t offset)
{
    struct message error = error_of(request.bytes, 22, MISS_TYPE, SET_ID);

    number(&error, MISS_NEST, offset);
    end_request(&error);
    expect_error(what, ETHNL_REFUSAL_MISSING, &error);
}

static const struct ids none = {0, {0}}, flags_alone = {1, {FLAGS_ID}}, classes_alone = {1, {CLASSES_ID}};
static const struct ids flags_first = {2, {FLAGS_ID, CLASSES_ID}}, classes_first = {2, {CLASSES_ID, FLAGS_ID}};

#endif
