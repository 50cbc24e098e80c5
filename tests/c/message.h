/* Requests put together attribute by attribute, for the tests. Little-endian hosts only, as the library. */
#ifndef MESSAGE_H
#define MESSAGE_H

#include <stddef.h>
#include <stdint.h>
#include <string.h>

#define NESTED 0x8000

enum { HEADER = 1, BITSET = 2 };
enum { PORT_INDEX = 1, PORT_NAME = 2, PORT_FLAGS = 3 };
enum { NOMASK = 1, SIZE = 2, BITS = 3, VALUE = 4, MASK = 5 };
enum { BIT = 1, BIT_INDEX = 1, BIT_NAME = 2, BIT_VALUE = 3 };
enum { STRINGSETS = 2, COUNTS_ONLY = 3 };
enum { STRINGSET = 1, SET_ID = 1, SET_COUNT = 2, STRINGS = 3 };
enum { STRING = 1, STRING_INDEX = 1, STRING_VALUE = 2 };
enum { FLAGS_ID = 2, CLASSES_ID = 10 };
enum { STRSET_GET = 1, DEBUG_GET = 7, DEBUG_SET = 8, PRIVFLAGS_GET = 13, PRIVFLAGS_SET = 14 };
enum { REQUEST = 1, MULTI = 2, ACK = 4, DUMP = 0x300 };
enum { CAPPED = 0x100, ACK_TLVS = 0x200, OFFS = 2, MISS_TYPE = 5, MISS_NEST = 6 };

/* A test of long messages asks for more. */
#ifndef MESSAGE_ROOM
#define MESSAGE_ROOM 4096
#endif

struct message {
    uint8_t bytes[MESSAGE_ROOM];
    size_t length;
};

static inline void put(struct message *message, const void *bytes, size_t length)
{
    memcpy(message->bytes + message->length, bytes, length);
    message->length += length;
}

static inline void put_u16(struct message *message, uint16_t number)
{
    put(message, &number, 2);
}

static inline void put_u32(struct message *message, uint32_t number)
{
    put(message, &number, 4);
}

/* One attribute with its padding. */
static inline void attribute(struct message *message, uint16_t type, const void *payload, size_t length)
{
    put_u16(message, (uint16_t)(4 + length));
    put_u16(message, type);
    put(message, payload, length);
    put(message, "\0\0\0", -length & 3);
}

static inline void number(struct message *message, uint16_t type, uint32_t value)
{
    attribute(message, type, &value, 4);
}

static inline void flag(struct message *message, uint16_t type)
{
    attribute(message, type, "", 0);
}

static inline void name(struct message *message, uint16_t type, const char *text)
{
    attribute(message, type, text, strlen(text) + 1);
}

/* Begins a nest; `end_nest` fills in its length. */
static inline size_t begin_nest(struct message *message, uint16_t type)
{
    size_t start = message->length;

    attribute(message, type | NESTED, "", 0);
    return start;
}

static inline void end_nest(struct message *message, size_t start)
{
    uint16_t length = (uint16_t)(message->length - start);

    memcpy(message->bytes + start, &length, 2);
}

enum { NO_INDEX = -1 };

/* A BIT: its index and its name, each where it is given, and VALUE where it is switched on. */
static inline void put_bit(struct message *message, int64_t index, const char *bit_name, int on)
{
    size_t nest = begin_nest(message, BIT);

    if (index != NO_INDEX)
        number(message, BIT_INDEX, (uint32_t)index);
    if (bit_name != NULL)
        name(message, BIT_NAME, bit_name);
    if (on)
        flag(message, BIT_VALUE);
    end_nest(message, nest);
}

/* Both headers; `end_request` fills in the length. */
static inline void begin_message(struct message *message, uint8_t command, uint16_t flags)
{
    message->length = 0;
    put_u32(message, 0);
    put_u16(message, 25);
    put_u16(message, flags);
    put_u32(message, 7);
    put_u32(message, 9);
    put(message, (uint8_t[4]){command, 1, 0, 0}, 4);
}

/* A header nest with these attributes, each where it is given. */
static inline void header_nest(struct message *message, int64_t port, const char *port_name, uint32_t header_flags)
{
    size_t nest = begin_nest(message, HEADER);

    if (port != NO_INDEX)
        number(message, PORT_INDEX, (uint32_t)port);
    if (port_name != NULL)
        name(message, PORT_NAME, port_name);
    if (header_flags != 0)
        number(message, PORT_FLAGS, header_flags);
    end_nest(message, nest);
}

/* Both headers, and the header nest, with a port's index where it is given. */
static inline void begin_request(struct message *message, uint8_t command, uint16_t flags, int64_t port,
                                 uint32_t header_flags)
{
    begin_message(message, command, flags);
    header_nest(message, port, NULL, header_flags);
}

static inline void end_request(struct message *message)
{
    uint32_t length = (uint32_t)message->length;

    memcpy(message->bytes, &length, 4);
}

/* The ACK or error message for a request: errno, its header, a detail of this type, or none where that is 0. */
static inline struct message error_of(const uint8_t *request, int32_t errno_value, uint16_t detail, uint32_t value)
{
    struct message error = {.length = 0};

    put_u32(&error, detail != 0 ? 44 : 36);
    put_u16(&error, 2);
    put_u16(&error, detail != 0 ? CAPPED | ACK_TLVS : CAPPED);
    put(&error, request + 8, 8);
    put_u32(&error, (uint32_t)-errno_value);
    put(&error, request, 16);
    if (detail != 0)
        number(&error, detail, value);
    return error;
}

#endif
