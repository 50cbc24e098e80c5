/*
 * name_lists heap|end|start: requests for name lists that are done. Every reply and ACK are compared byte by byte, with the
 * position and the place that are handed back; what may only be read, the settings too, and the page past the answer
 * must stay as they were.
 */
#include "name_lists.h"

/* The three message classes of the box, of which the second is called "link"; nobody asks for a port. */
static void classes_by_hand(void)
{
    static const uint8_t reply[] = {
        0x70, 0, 0, 0, 0x19, 0, 0, 0, 7, 0, 0, 0, 9, 0, 0, 0, 1, 1, 0, 0,
        0x5C, 0, 2, 0x80, 0x58, 0, 1, 0x80, 8, 0, 1, 0, 10, 0, 0, 0, 8, 0, 2, 0, 3, 0, 0, 0, 0x44, 0, 3, 0x80,
        0x14, 0, 1, 0x80, 8, 0, 1, 0, 0, 0, 0, 0, 5, 0, 2, 0, 0, 0, 0, 0,
        0x18, 0, 1, 0x80, 8, 0, 1, 0, 1, 0, 0, 0, 9, 0, 2, 0, 'l', 'i', 'n', 'k', 0, 0, 0, 0,
        0x14, 0, 1, 0x80, 8, 0, 1, 0, 2, 0, 0, 0, 5, 0, 2, 0, 0, 0, 0, 0};

    box_of(2);
    ask_names(0, NO_INDEX, 0, &none);
    handle_at(0, 0);
    check(is_done(reply, sizeof reply, request.length, 0), "no list and no port: the message classes, by hand");
}

/* The counts of both lists, asked for with ACK and the port quay1, which has the index 200. */
static void counts_by_hand(void)
{
    static const uint8_t answers[] = {
        0x58, 0, 0, 0, 0x19, 0, 0, 0, 7, 0, 0, 0, 9, 0, 0, 0, 1, 1, 0, 0,
        0x18, 0, 1, 0x80, 8, 0, 1, 0, 200, 0, 0, 0, 10, 0, 2, 0, 'q', 'u', 'a', 'y', '1', 0, 0, 0,
        0x2C, 0, 2, 0x80, 0x14, 0, 1, 0x80, 8, 0, 1, 0, 10, 0, 0, 0, 8, 0, 2, 0, 3, 0, 0, 0,
        0x14, 0, 1, 0x80, 8, 0, 1, 0, 2, 0, 0, 0, 8, 0, 2, 0, 33, 0, 0, 0,
        0x24, 0, 0, 0, 2, 0, 0, 1, 7, 0, 0, 0, 9, 0, 0, 0, 0, 0, 0, 0,
        0x40, 0, 0, 0, 0x19, 0, 5, 0, 7, 0, 0, 0, 9, 0, 0, 0};

    box_of(2);
    begin_request(&request, STRSET_GET, REQUEST | ACK, 200, 0);
    put_list(&request, &classes_first);
    flag(&request, COUNTS_ONLY);
    end_request(&request);
    handle_at(0, 0);
    check(is_done(answers, sizeof answers, request.length, 0), "both counts of a port, then the ACK, by hand");
}

static const struct row {
    const char *what;
    int port;
    struct ids asked, told;
} rows[] = {
    {"no list, no port: message classes", NO_PORT, {0, {0}}, {1, {10}}},
    {"no list, a port: private flags alone", 1, {0, {0}}, {1, {2}}},
    {"message classes without a port", NO_PORT, {1, {10}}, {1, {10}}},
    {"message classes with a port, which is told", 2, {1, {10}}, {1, {10}}},
    {"private flags of a port", 0, {1, {2}}, {1, {2}}},
    {"private flags, then message classes", 0, {2, {2, 10}}, {2, {2, 10}}},
    {"message classes, then private flags", 0, {2, {10, 2}}, {2, {10, 2}}},
    {"message classes twice, without a port: told once", NO_PORT, {2, {10, 10}}, {1, {10}}},
    {"private flags five times: told once", 1, {5, {2, 2, 2, 2, 2}}, {1, {2}}},
    {"a repeated id is told where it first stands: 2, 10", 1, {4, {2, 2, 10, 2}}, {2, {2, 10}}},
    {"a repeated id is told where it first stands: 10, 2", 2, {5, {10, 2, 10, 2, 10}}, {2, {10, 2}}},
};

/* A row with COUNTS_ONLY or not, with ACK or not, by an admin or not, with each header flag. */
static int is_row(const struct row *row, unsigned way)
{
    int counts_only = way & 1;

    box_of(3);
    box.admin = way >> 1 & 1;
    begin_request(&request, STRSET_GET, way & 4 ? REQUEST | ACK : REQUEST, index_of(row->port), way >> 3);
    if (row->asked.count != 0)
        put_list(&request, &row->asked);
    if (counts_only)
        flag(&request, COUNTS_ONLY);
    end_request(&request);
    return is_told(row->port, &row->told, counts_only);
}

static void lists(void)
{
    enum { WAYS = 32 };

    for (size_t at = 0; at < sizeof rows / sizeof *rows; at++) {
        unsigned right = 0;
        for (unsigned way = 0; way < WAYS; way++)
            right += (unsigned)is_row(&rows[at], way);
        check(right == WAYS, rows[at].what);
    }
}

/* The port of the reply is the roll's, however it was asked for. */
static void ports_by_name(void)
{
    box_of(ETHNL_PORTS_MAX);
    begin_message(&request, STRSET_GET, REQUEST);
    header_nest(&request, NO_INDEX, "quay64", 0);
    end_request(&request);
    check(is_told(63, &flags_alone, 0), "the last of 64 ports by its name");
    begin_message(&request, STRSET_GET, REQUEST);
    header_nest(&request, 199, "quay2", 0);
    end_request(&request);
    check(is_told(1, &flags_alone, 0), "a port by index and name");
    begin_message(&request, STRSET_GET, REQUEST);
    header_nest(&request, 7, "nobody", 0);
    header_nest(&request, NO_INDEX, NULL, 0);
    end_request(&request);
    check(is_told(NO_PORT, &classes_alone, 0), "an unknown port in the first of two header nests, of which the last counts");
    begin_message(&request, STRSET_GET, REQUEST);
    header_nest(&request, NO_INDEX, NULL, 0);
    header_nest(&request, 200, NULL, 0);
    end_request(&request);
    check(is_told(0, &flags_alone, 0), "no port in the first of two, of which the last counts");
}

/* An empty STRINGSETS means the same as none. */
static void empty_lists(void)
{
    box_of(2);
    begin_request(&request, STRSET_GET, REQUEST, NO_INDEX, 0);
    put_list(&request, &none);
    end_request(&request);
    check(is_told(NO_PORT, &classes_alone, 0), "an empty list without a port: message classes");
    begin_request(&request, STRSET_GET, REQUEST | ACK, 199, 0);
    put_list(&request, &none);
    end_request(&request);
    check(is_told(1, &flags_alone, 0), "an empty list with a port: private flags alone");
    begin_request(&request, STRSET_GET, REQUEST, 200, 0);
    put_list(&request, &classes_first);
    put_list(&request, &none);
    end_request(&request);
    check(is_told(0, &flags_alone, 0), "an empty list behind another: the last counts");
}

/* A STRINGSET with two ids. */
static void put_two_ids(uint32_t first, uint32_t last)
{
    size_t list = begin_nest(&request, STRINGSETS), set = begin_nest(&request, STRINGSET);

    number(&request, SET_ID, first);
    number(&request, SET_ID, last);
    end_nest(&request, set);
    end_nest(&request, list);
}

static void last_counts(void)
{
    static const struct ids unknown = {2, {77, 0}};

    box_of(2);
    begin_request(&request, STRSET_GET, REQUEST, 200, 0);
    put_list(&request, &unknown);
    put_list(&request, &flags_first);
    end_request(&request);
    check(is_told(0, &flags_first, 0), "ids that are not offered in the first of two lists, of which the last counts");
    begin_request(&request, STRSET_GET, REQUEST, 200, 0);
    put_two_ids(77, 10);
    end_request(&request);
    check(is_told(0, &classes_alone, 0), "an id that is not offered before the last of one STRINGSET");
    begin_request(&request, STRSET_GET, REQUEST, NO_INDEX, 0);
    put_two_ids(2, 10);
    end_request(&request);
    check(is_told(NO_PORT, &classes_alone, 0), "private flags before the last id, without a port");
    begin_request(&request, STRSET_GET, REQUEST, 200, 0);
    put_two_ids(10, 2);
    end_request(&request);
    check(is_told(0, &flags_alone, 0), "two ids that are offered in one STRINGSET: the last alone is told");
}

/* Where the attributes stand makes no difference, but for the order of the ids; COUNTS_ONLY may stand twice. */
static void in_any_order(void)
{
    box_of(2);
    begin_message(&request, STRSET_GET, REQUEST | ACK);
    flag(&request, COUNTS_ONLY);
    put_list(&request, &flags_first);
    flag(&request, COUNTS_ONLY);
    header_nest(&request, 199, NULL, 0);
    end_request(&request);
    check(is_told(1, &flags_first, 1), "COUNTS_ONLY twice, the list before the header nest");
    begin_message(&request, STRSET_GET, REQUEST);
    put_list(&request, &classes_first);
    header_nest(&request, 199, NULL, 0);
    end_request(&request);
    check(is_told(1, &classes_first, 0), "the list before the header nest");
}

/* Type, sequence and port id are taken over; flags, version and reserved of the reply are its own. */
static void headings(void)
{
    static const uint8_t type_and_flags[] = {0x34, 0x12, 0xFB, 0xFC};
    static const uint8_t echoed[] = {0xEF, 0xBE, 0xAD, 0xDE, 0x78, 0x56, 0x34, 0x92, 1, 9, 0xFF, 0xFF};
    struct message reply;

    box_of(2);
    box.family = 0x1234;
    ask_names(0, 200, 0, &classes_first);
    put_reply(&reply, 0, &classes_first, 0);
    memcpy(request.bytes + 4, type_and_flags, sizeof type_and_flags);
    memcpy(request.bytes + 8, echoed, sizeof echoed);
    memcpy(reply.bytes + 4, type_and_flags, 2);
    memcpy(reply.bytes + 8, echoed, 8);
    handle_at(0, 0);
    check(is_done(reply.bytes, reply.length, request.length, 0),
          "the family, sequence and port id of the request, flags 0, version 1");
}

/* One DUMP bit alone means nothing. */
static void half_dumps(void)
{
    box_of(2);
    ask_names(0x100, NO_INDEX, 0, &none);
    check(is_told(NO_PORT, &classes_alone, 0), "the first DUMP bit alone: done, without MULTI");
    ask_names(0x200 | ACK, 200, 0, &flags_first);
    check(is_told(0, &flags_first, 0), "the second DUMP bit alone: done, without MULTI, with its ACK");
}

/* Place 0 is handed back, and a place up to the count makes no difference. */
static void places(void)
{
    size_t right = 0;

    box_of(3);
    ask_names(ACK, 198, 0, &flags_first);
    for (uint64_t place = 0; place <= ports(); place++)
        right += (size_t)is_told_at(place, 2, &flags_first, 0);
    check(right == ports() + 1, "at every place up to the count: the same, and place 0 is handed back");
}

/* Two in one datagram. The first has no padding behind a name, so that its stated length is no multiple of 4. */
static void two_messages(void)
{
    enum { FIRST = 34, SECOND = 36 };
    static struct message reply, both;

    box_of(2);
    begin_message(&both, STRSET_GET, REQUEST);
    header_nest(&both, NO_INDEX, "quay2", 0);
    both.bytes[0] = FIRST;
    both.bytes[20] = FIRST - 20;
    ask_names(ACK, NO_INDEX, 0, &none);
    put_reply(&reply, NO_PORT, &classes_alone, 0);
    put(&both, request.bytes, request.length);
    request = both;
    memset(request.bytes + FIRST, 0xFF, SECOND - FIRST);
    handle_at(SECOND, 0);
    check(is_done(reply.bytes, reply.length, request.length, 0), "the second of two messages: next is the datagram's end");
    put_reply(&reply, 1, &flags_alone, 0);
    handle_at(0, 0);
    check(is_done(reply.bytes, reply.length, SECOND, 0), "the first of two messages: next is past its step");
    handle_at(request.length, 0);
    check(answer.kind == ETHNL_END && wrote("", 0) && answer.next == request.length, "  then the end");
}

/* Names of 0 to 31 bytes, which may be any but NUL; the same name may stand in both lists. */
static void names_of_every_length(void)
{
    box_of(2);
    memset(flag_names, 0, sizeof flag_names);
    for (size_t at = 0; at < FLAG_BITS - 1; at++)
        memset(flag_names + at * NAME, (int)(255 - at), at);
    memcpy(debug_names + 2 * NAME, flag_names + 31 * NAME, NAME);
    ask_names(ACK, 200, 0, &flags_first);
    check(is_told(0, &flags_first, 0), "names of 0 to 31 bytes");
}

static void shortest_lists(void)
{
    box_of(1);
    memset(settings, 0, sizeof settings);
    box.debug_names_len = box.flag_names_len = NAME;
    box.settings_len = 2 * ETHNL_SET_LEN(1);
    ask_names(ACK, 200, 0, &classes_first);
    check(is_told(0, &classes_first, 0), "lists of one entry");
    memset(flag_names, 0, NAME);
    check(is_told(0, &classes_first, 0), "  both without a name");
}

int main(int argc, char **argv)
{
    if (argc != 2 || !lend_by(argv[1]))
        return 2;
    classes_by_hand();
    counts_by_hand();
    lists();
    ports_by_name();
    empty_lists();
    last_counts();
    in_any_order();
    headings();
    half_dumps();
    places();
    two_messages();
    names_of_every_length();
    shortest_lists();
    return checked();
}
