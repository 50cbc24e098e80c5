/*
 * all_ports_refused heap|end|start: places that are too high, places that mean nothing, and dumps that are refused, at
 * every place. Nothing changes but the error message.
 */
#include "all_ports.h"

/* Above the count of two ports; the last ones would be right if they were cut to 8, 16, 32 or 63 bits. */
static const uint64_t above[] = {3, 64, 65, UINT64_MAX, 1 << 8, (1 << 16) + 1, 1ull << 32, (1ull << 32) + 2, 1ull << 63};

/* Each place above the count, with the request as it stands. */
static void expect_too_high(const char *what, uint64_t position)
{
    size_t right = 0, all = sizeof above / sizeof *above;

    for (size_t at = 0; at < all; at++) {
        handle_at(position, above[at]);
        right += is_silent(ETHNL_REFUSAL_BOX, position);
    }
    check(right == all, what);
}

static void ask(uint8_t command, uint16_t flags, int64_t port)
{
    begin_request(&request, command, flags, port, 0);
    if (command == PRIVFLAGS_SET)
        put_set(&request, flag_names, (const uint8_t[]){4, 0, 0, 0, 0, 0, 0, 0}, FLAG_BITS, 1);
    end_request(&request);
}

static void places_above(void)
{
    box_of(2);
    ask_dump(DEBUG_GET, 0, 0);
    expect_too_high("places above the count: a dump", 0);
    expect_too_high("  at the datagram's end", request.length);
    expect_too_high("  past its end", request.length + 1);
    expect_too_high("  with 4 bytes left", request.length - 4);
    page_len--;
    expect_too_high("  1 before 2", 0);
    handle_at(0, ports());
    check(is_silent(ETHNL_REFUSAL_PAGE, 0), "  at the count, with that page: 2");
    page_len++;
    ask(PRIVFLAGS_GET, REQUEST | ACK, 200);
    expect_too_high("  a GET", 0);
    ask(PRIVFLAGS_SET, REQUEST | ACK, 200);
    expect_too_high("  a SET", 0);
    ask(PRIVFLAGS_GET, 0, 200);
    expect_too_high("  what would be skipped", 0);
    ask(2, REQUEST | DUMP, NO_INDEX);
    expect_too_high("  what would be refused by 7", 0);
}

/* For 1 port and for 64 the first place that is too high, and the last that is not. */
static void highest_places(void)
{
    for (size_t count = 1; count <= ETHNL_PORTS_MAX; count += ETHNL_PORTS_MAX - 1) {
        box_of(count);
        ask_dump(PRIVFLAGS_GET, 0, 0);
        check(is_place(count), count == 1 ? "1 port: place 1 is DONE's" : "64 ports: place 64 is DONE's");
        handle_at(0, count + 1);
        check(is_silent(ETHNL_REFUSAL_BOX, 0), "  the next is too high");
        handle_at(0, (1ull << 32) + count);
        check(is_silent(ETHNL_REFUSAL_BOX, 0), "  and so is the same past 32 bits");
    }
}

/* Whether a place up to the count makes no difference: two boxes, one called at place 0. */
static int is_passed_over(uint64_t position, uint64_t place)
{
    struct ethnl_answer first;
    uint8_t first_page[ETHNL_PAGE_MIN], first_settings[2 * PORT_SETTINGS];

    box_of(2);
    handle_at(position, 0);
    first = answer;
    memcpy(first_page, page, sizeof first_page);
    memcpy(first_settings, settings, sizeof first_settings);
    box_of(2);
    handle_at(position, place);
    return answer.kind == first.kind && answer.refusal == first.refusal && answer.next == first.next &&
           answer.next_place == 0 && answer.written == first.written && memcmp(page, first_page, sizeof first_page) == 0 &&
           memcmp(settings, first_settings, sizeof first_settings) == 0;
}

static void expect_passed_over(const char *what, uint32_t kind, uint32_t refusal, uint64_t position)
{
    int right = is_passed_over(position, 1) && is_passed_over(position, 2);

    check(right && answer.kind == kind && answer.refusal == refusal, what);
}

static void places_that_mean_nothing(void)
{
    box_of(2);
    ask(PRIVFLAGS_GET, REQUEST | ACK, 200);
    expect_passed_over("a place up to the count: a GET", ETHNL_DONE, 0, 0);
    expect_passed_over("  at the end", ETHNL_END, 0, request.length);
    expect_passed_over("  with 4 bytes left", ETHNL_REFUSED, ETHNL_REFUSAL_DATAGRAM, request.length - 4);
    ask(PRIVFLAGS_SET, REQUEST | ACK, 199);
    expect_passed_over("  a SET", ETHNL_DONE, 0, 0);
    ask(PRIVFLAGS_GET, 0, 200);
    expect_passed_over("  not a request", ETHNL_SKIPPED, 0, 0);
    ask(PRIVFLAGS_GET, REQUEST, 1);
    expect_passed_over("  an unknown port", ETHNL_REFUSED, ETHNL_REFUSAL_UNKNOWN_PORT, 0);
    ask(PRIVFLAGS_GET, REQUEST | 0x100, 200);
    expect_passed_over("  a GET with the first DUMP bit alone", ETHNL_DONE, 0, 0);
    check(page[6] == 0, "    which has no MULTI");
    ask(PRIVFLAGS_GET, REQUEST | 0x200, 200);
    expect_passed_over("  a GET with the second DUMP bit alone", ETHNL_DONE, 0, 0);
    check(page[6] == 0, "    which has no MULTI");
}

/* Where in a request the header nest stands, and its first attribute. */
enum { AT_HEADER = 20, AT_FIRST = 24 };

static const struct named {
    const char *what;
    int64_t port;
    const char *name;
    uint32_t header_flags;
} named[] = {
    {"a dump that names a port by its index: 8", 200, NULL, 0},
    {"  by its name", NO_INDEX, "quay1", 0},
    {"  by both", 199, "quay2", 1},
    {"  by an index that no port has", 7, NULL, 0},
    {"  by the index 0", 0, NULL, 0},
    {"  by the largest index", UINT32_MAX, NULL, 0},
    {"  by a name that no port has", NO_INDEX, "quay9", 0},
    {"  by an empty name", NO_INDEX, "", 0},
    {"  by index and name of two ports: 8, not 17", 200, "quay2", 0},
    {"  with a wrong header flag: 8 before 15", 200, NULL, 4},
};

static void dumps_that_name_a_port(void)
{
    for (size_t at = 0; at < sizeof named / sizeof *named; at++) {
        begin_message(&request, PRIVFLAGS_GET, REQUEST | ACK | DUMP);
        header_nest(&request, named[at].port, named[at].name, named[at].header_flags);
        end_request(&request);
        expect_refused(named[at].what, ETHNL_REFUSAL_DUMP, 95, 0, 0);
    }
    begin_message(&request, DEBUG_GET, REQUEST | DUMP);
    header_nest(&request, NO_INDEX, NULL, 1);
    header_nest(&request, 200, NULL, 0);
    end_request(&request);
    expect_refused("  in the last of two header nests", ETHNL_REFUSAL_DUMP, 95, 0, 0);
    begin_message(&request, DEBUG_GET, REQUEST | DUMP);
    header_nest(&request, 200, NULL, 0);
    header_nest(&request, NO_INDEX, NULL, 0);
    end_request(&request);
    handle_at(0, ports());
    check(is_done(done, sizeof done, request.length, 0), "  in the first of two, of which the last counts: done");
}

/* 8 at its old place: after 7, before 9 and before any attribute is looked at. */
static void sets_with_both_bits(void)
{
    ask(PRIVFLAGS_SET, REQUEST | ACK | DUMP, 200);
    expect_refused("a SET with both DUMP bits: 8", ETHNL_REFUSAL_DUMP, 95, 0, 0);
    box.admin = 0;
    expect_refused("  8 before 9", ETHNL_REFUSAL_DUMP, 95, 0, 0);
    box.admin = 1;
    ask(DEBUG_SET, REQUEST | DUMP, NO_INDEX);
    expect_refused("  without port and bitset", ETHNL_REFUSAL_DUMP, 95, 0, 0);
    begin_message(&request, PRIVFLAGS_SET, REQUEST | DUMP);
    put(&request, "\1\0\0\0", 4);
    end_request(&request);
    expect_refused("  with a broken attribute", ETHNL_REFUSAL_DUMP, 95, 0, 0);
    ask(2, REQUEST | DUMP, NO_INDEX);
    expect_refused("a command that is not listed, both DUMP bits: 7", ETHNL_REFUSAL_COMMAND, 95, 0, 0);
}

/* What a dump is refused by before its place is looked at, DONE's too. */
static void other_refusals(void)
{
    begin_request(&request, DEBUG_GET, REQUEST | ACK | DUMP, NO_INDEX, 4);
    end_request(&request);
    expect_refused("a dump with a wrong header flag: 15", ETHNL_REFUSAL_HEADER_FLAGS, 95, OFFS, AT_FIRST);
    begin_message(&request, DEBUG_GET, REQUEST | DUMP);
    end_request(&request);
    expect_refused("a dump without a header nest: 13", ETHNL_REFUSAL_MISSING, 22, MISS_TYPE, HEADER);
    begin_request(&request, DEBUG_GET, REQUEST | DUMP, NO_INDEX, 0);
    put_set(&request, debug_names, (const uint8_t[]){0, 0, 0, 0}, DEBUG_BITS, 1);
    end_request(&request);
    expect_refused("a dump with a bitset: 11", ETHNL_REFUSAL_ATTRIBUTE_TYPE, 22, OFFS, AT_FIRST);
    begin_request(&request, DEBUG_GET, REQUEST | DUMP, 200, 0);
    request.bytes[AT_FIRST + 2] = 4;
    end_request(&request);
    expect_refused("an attribute that is not listed in the header: 11", ETHNL_REFUSAL_ATTRIBUTE_TYPE, 22, OFFS, AT_FIRST);
    begin_request(&request, DEBUG_GET, REQUEST | DUMP, 200, 0);
    request.bytes[AT_FIRST] = 7;
    end_request(&request);
    expect_refused("an index of 3 bytes: 12 before 8", ETHNL_REFUSAL_PAYLOAD, 22, OFFS, AT_FIRST);
    ask(DEBUG_GET, REQUEST | 0x100, NO_INDEX);
    expect_refused("no port and the first DUMP bit alone: 14", ETHNL_REFUSAL_NO_PORT, 22, OFFS, AT_HEADER);
    ask(DEBUG_GET, REQUEST | 0x200, NO_INDEX);
    expect_refused("no port and the second DUMP bit alone: 14", ETHNL_REFUSAL_NO_PORT, 22, OFFS, AT_HEADER);
    box.family = 26;
    ask_dump(DEBUG_GET, 0, 0);
    expect_refused("a dump of another family: 5", ETHNL_REFUSAL_FAMILY, 2, 0, 0);
}

int main(int argc, char **argv)
{
    if (argc != 2 || !lend_by(argv[1]))
        return 2;
    places_above();
    highest_places();
    places_that_mean_nothing();
    box_of(2);
    dumps_that_name_a_port();
    sets_with_both_bits();
    other_refusals();
    return checked();
}
