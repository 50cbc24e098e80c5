/*
 * How much stack a call needs: at most ETHNL_STACK_MAX bytes, on the largest box. The calls run in a thread; before each one
 * its stack is painted, and afterwards the lowest byte that has changed is looked for.
 */
#define _GNU_SOURCE
#include "ethnl_box.h"

#define MESSAGE_ROOM ETHNL_DATAGRAM_MAX
#include "check.h"
#include "message.h"

#include <pthread.h>
#include <string.h>

enum { PAINT = 0xA5, OWN_FRAME = 256, LAST = ETHNL_PORTS_MAX };

static uint8_t stack[1 << 20] __attribute__((aligned(4096)));
static uint8_t roll[ETHNL_PORTS_MAX * ETHNL_ROLL_RECORD + 1];
static uint8_t names[ETHNL_BITS_MAX * ETHNL_NAME_LEN + 1];
static uint8_t settings[ETHNL_PORTS_MAX * 2 * ETHNL_SET_LEN(ETHNL_BITS_MAX)];
static uint8_t page[ETHNL_PAGE_MIN];
static struct ethnl_box box;
static struct message request, contents;
static uint64_t place;
static uint32_t number_back;

/* 64 ports, 512 names of 31 bytes in each list, all bits on. */
static void fill_box(void)
{
    for (int port = 0; port < ETHNL_PORTS_MAX; port++) {
        uint8_t *record = roll + port * ETHNL_ROLL_RECORD;
        record[0] = ETHNL_ROLL_PORT;
        record[1] = (uint8_t)(port + 1);
        snprintf((char *)record + 5, ETHNL_PORT_NAME_LEN, "port-number-%03d", port);
    }
    for (int bit = 0; bit < ETHNL_BITS_MAX; bit++)
        snprintf((char *)names + bit * ETHNL_NAME_LEN, ETHNL_NAME_LEN, "the-name-of-the-bit-number-%04d", bit);
    memset(settings, 0xFF, sizeof settings);
    box = (struct ethnl_box){25, 1, roll, sizeof roll - 1, names, sizeof names - 1, names, sizeof names - 1,
                             settings, sizeof settings};
}

/* Every bit by its name, and by its index too where it is asked for. */
static void list_contents(int with_index)
{
    size_t bits;

    contents.length = 0;
    bits = begin_nest(&contents, BITS);
    for (int at = 0; at < ETHNL_BITS_MAX; at++)
        put_bit(&contents, with_index ? at : NO_INDEX, (const char *)names + at * ETHNL_NAME_LEN, 1);
    end_nest(&contents, bits);
}

static void bitmap_contents(void)
{
    contents.length = 0;
    number(&contents, SIZE, ETHNL_BITS_MAX);
    attribute(&contents, VALUE, settings, ETHNL_SET_LEN(ETHNL_BITS_MAX));
    attribute(&contents, MASK, settings, ETHNL_SET_LEN(ETHNL_BITS_MAX));
}

static void handle(void)
{
    number_back = ethnl_box_handle(&box, request.bytes, request.length, 0, place, page, sizeof page).refusal;
}

static void normalise(void)
{
    number_back = ethnl_form_of(contents.bytes, contents.length, names, sizeof names - 1).refusal;
}

static void check_box(void)
{
    number_back = ethnl_box_check(&box).part;
}

static void find(void)
{
    number_back = ethnl_find_name(box.flag_names, box.flag_names_len, "the-name-of-the-bit-number-x511").refusal;
}

/* Bytes below the caller's frame that a call writes. */
static __attribute__((noinline)) size_t depth_of(void (*call)(void))
{
    uint8_t *top = (uint8_t *)__builtin_frame_address(0) - OWN_FRAME, *lowest = stack;

    memset(stack, PAINT, (size_t)(top - stack));
    call();
    while (*lowest == PAINT)
        lowest++;
    return (size_t)(top + OWN_FRAME - lowest);
}

/* The call is the one that is meant: it hands back this refusal or part. */
static void measure(const char *what, void (*call)(void), uint32_t expected)
{
    size_t depth = depth_of(call);
    char line[80];

    snprintf(line, sizeof line, "%s: %lu bytes of stack", what, (unsigned long)depth);
    check(depth <= ETHNL_STACK_MAX && number_back == expected, line);
}

static void get(const char *what, uint32_t header_flags, uint32_t expected)
{
    begin_request(&request, PRIVFLAGS_GET, REQUEST | ACK, LAST, header_flags);
    end_request(&request);
    measure(what, handle, expected);
}

static void dump(const char *what, uint64_t at)
{
    begin_request(&request, PRIVFLAGS_GET, REQUEST | ACK | DUMP, NO_INDEX, 0);
    end_request(&request);
    place = at;
    measure(what, handle, 0);
    place = 0;
}

static void set(const char *what, uint32_t expected)
{
    begin_request(&request, PRIVFLAGS_SET, REQUEST | ACK, LAST, 0);
    attribute(&request, BITSET | NESTED, contents.bytes, contents.length);
    end_request(&request);
    measure(what, handle, expected);
}

/* The faults stand in the last BIT: the NUL of its name is 5 bytes before the end, the number of its index 44. */
static void lists(void)
{
    list_contents(0);
    set("a SET of 512 names", 0);
    measure("the normal form of 512 names", normalise, 0);
    memset(contents.bytes + contents.length - 10, 'x', 4);
    set("a SET whose last name is unknown", ETHNL_REFUSAL_UNKNOWN_BIT);
    list_contents(1);
    set("a SET of 512 BITs with index and name", 0);
    measure("their normal form", normalise, 0);
    contents.bytes[contents.length - 44] ^= 1;
    set("a SET whose last index and name mean two bits", ETHNL_REFUSAL_INDEX_NAME);
}

/* A request for name lists, with as many STRINGSETs of one id as stand in a datagram and a last one of its own. */
static void strset_get(const char *what, uint32_t id, uint32_t last, uint32_t expected)
{
    enum { SETS = (ETHNL_DATAGRAM_MAX - 36) / 12 };
    size_t list, set;

    begin_request(&request, STRSET_GET, REQUEST | ACK, LAST, 0);
    list = begin_nest(&request, STRINGSETS);
    for (int at = 0; at < SETS; at++) {
        set = begin_nest(&request, STRINGSET);
        number(&request, SET_ID, at == SETS - 1 ? last : id);
        end_nest(&request, set);
    }
    end_nest(&request, list);
    end_request(&request);
    measure(what, handle, expected);
}

static void requests(void)
{
    get("a verbose GET", 0, 0);
    get("a compact GET", 1, 0);
    get("a GET with a wrong header flag", 4, ETHNL_REFUSAL_HEADER_FLAGS);
    dump("the last port of a dump", LAST - 1);
    dump("the DONE of a dump", LAST);
    strset_get("512 names, asked for 2,727 times", FLAGS_ID, FLAGS_ID, 0);
    strset_get("both lists, which are too long", FLAGS_ID, CLASSES_ID, ETHNL_REFUSAL_REPLY_LEN);
    strset_get("a last id that is not offered", CLASSES_ID, 77, ETHNL_REFUSAL_STRING_SET);
    lists();
    bitmap_contents();
    set("a SET of bitmaps", 0);
    measure("their normal form", normalise, 0);
    contents.length -= 4;
    set("a SET whose last attribute is cut short", ETHNL_REFUSAL_ATTRIBUTE_LEN);
}

/* The faults come last in the box, so that all that is right is looked at first. */
static void boxes(void)
{
    measure("a right box", check_box, ETHNL_PART_NONE);
    measure("a name that is not in its list", find, 0);
    box.flag_names_len -= ETHNL_NAME_LEN;
    measure("a bit past the end of each set", check_box, ETHNL_PART_SETTINGS);
    measure("a request to this box", handle, ETHNL_REFUSAL_BOX);
    box.flag_names_len += ETHNL_NAME_LEN + 1;
    measure("a list that is one byte too long", check_box, ETHNL_PART_FLAG_NAMES);
    measure("a name that is not in this list", find, ETHNL_REFUSAL_BOX);
    measure("a request to this box", handle, ETHNL_REFUSAL_BOX);
    box.roll_len++;
    measure("a roll that is one byte too long", check_box, ETHNL_PART_ROLL);
    measure("a request to this box", handle, ETHNL_REFUSAL_BOX);
}

static void *run(void *nothing)
{
    requests();
    boxes();
    return nothing;
}

int main(void)
{
    pthread_attr_t attributes;
    pthread_t thread;

    fill_box();
    if (pthread_attr_init(&attributes) != 0 || pthread_attr_setstack(&attributes, stack, sizeof stack) != 0 ||
        pthread_create(&thread, &attributes, run, NULL) != 0 || pthread_join(thread, NULL) != 0) {
        perror("stack: no thread");
        return 2;
    }
    return checked();
}
