/*
 * all_ports heap|end|start: dumps, call by call. Every reply and DONE are compared byte by byte, with the position and the
 * place that are handed back; what may only be read, and the page past the answer, must stay as they were.
 */
#include "all_ports.h"

/* Two ports by hand: quay1 with index 200 has the flag 0, quay2 with index 199 the flags 2 and 32. */
static void two_ports(void)
{
    static const uint8_t first[] = {
        0x48, 0, 0, 0, 0x19, 0, 2, 0, 7, 0, 0, 0, 9, 0, 0, 0, 0x0E, 1, 0, 0,
        0x18, 0, 1, 0x80, 8, 0, 1, 0, 200, 0, 0, 0, 10, 0, 2, 0, 'q', 'u', 'a', 'y', '1', 0, 0, 0,
        0x1C, 0, 2, 0x80, 4, 0, 1, 0, 8, 0, 2, 0, 33, 0, 0, 0, 12, 0, 4, 0, 1, 0, 0, 0, 0, 0, 0, 0};
    static const uint8_t second[] = {
        0x64, 0, 0, 0, 0x19, 0, 2, 0, 7, 0, 0, 0, 9, 0, 0, 0, 0x0E, 1, 0, 0,
        0x18, 0, 1, 0x80, 8, 0, 1, 0, 199, 0, 0, 0, 10, 0, 2, 0, 'q', 'u', 'a', 'y', '2', 0, 0, 0,
        0x38, 0, 2, 0x80, 4, 0, 1, 0, 8, 0, 2, 0, 33, 0, 0, 0, 0x28, 0, 3, 0x80,
        0x18, 0, 1, 0x80, 8, 0, 1, 0, 2, 0, 0, 0, 9, 0, 2, 0, 'l', 'i', 'n', 'k', 0, 0, 0, 0,
        0x0C, 0, 1, 0x80, 8, 0, 1, 0, 32, 0, 0, 0};

    box_of(2);
    ask_dump(PRIVFLAGS_GET, 0, 1);
    handle_at(0, 0);
    check(is_done(first, sizeof first, 0, 1), "the first of two ports, compact, by hand");
    ask_dump(PRIVFLAGS_GET, ACK, 0);
    handle_at(0, 1);
    check(is_done(second, sizeof second, 0, 2), "the second, verbose, by hand; ACK adds nothing");
    handle_at(0, 2);
    check(is_done(done, sizeof done, request.length, 0), "DONE by hand; ACK adds nothing");
}

/* Goes through the dump as a daemon does: a call for each port, one for DONE, one at the end, each as it must be. */
static int is_whole_dump(void)
{
    uint64_t position = 0, place = 0, calls = 0, right = 0;

    for (; calls <= ports() && position == dump.begins; calls++, position = answer.next, place = answer.next_place)
        right += is_place(calls) && place == calls;
    handle_at(position, place);
    return right == ports() + 1 && calls == ports() + 1 && answer.kind == ETHNL_END && wrote("", 0) &&
           answer.next == request.length && answer.next_place == 0;
}

/* A whole dump with each command, each header flag, with and without ACK. */
static void whole_dumps(void)
{
    static const uint8_t commands[] = {DEBUG_GET, PRIVFLAGS_GET};
    static const size_t counts[] = {1, 2, 3, ETHNL_PORTS_MAX};
    char what[80];

    for (size_t at = 0; at < 4 * 2 * 4 * 2; at++) {
        uint32_t header_flags = at / 2 % 4;
        box_of(counts[at / 16]);
        box.admin = at % 3 != 0;
        ask_dump(commands[at / 8 % 2], at % 2 ? ACK : 0, header_flags);
        snprintf(what, sizeof what, "%lu ports, command %u, header flags %u%s%s", (unsigned long)ports(), dump.command,
                 header_flags, at % 2 ? ", ACK" : "", box.admin ? "" : ", not admin");
        check(is_whole_dump(), what);
    }
}

/* The longest replies there are: all bits on, each with a name of 31 bytes, a port's name of 15. */
static void longest_replies(void)
{
    box_of(ETHNL_PORTS_MAX);
    for (unsigned at = 0; at < ETHNL_BITS_MAX; at++) {
        snprintf((char *)debug_names + at * NAME, NAME, "the-name-of-the-debug-level-%03u", at % 1000);
        snprintf((char *)flag_names + at * NAME, NAME, "the-name-of-the-private-flag%03u", at % 1000);
    }
    for (unsigned port = 0; port < ETHNL_PORTS_MAX; port++)
        snprintf((char *)roll + port * PORT + 5, ETHNL_PORT_NAME_LEN, "port-number-%03u", port % 1000);
    box.debug_names_len = box.flag_names_len = ETHNL_BITS_MAX * NAME;
    box.settings_len = ETHNL_PORTS_MAX * 2 * ETHNL_SET_LEN(ETHNL_BITS_MAX);
    memset(settings, 0xFF, box.settings_len);
    ask_dump(PRIVFLAGS_GET, ACK, 0);
    check(is_whole_dump(), "64 ports, 512 flags each");
    handle_at(0, 63);
    check(answer.written == 24648, "  the last reply has 24,648 bytes");
    ask_dump(DEBUG_GET, ACK, 0);
    check(is_whole_dump(), "64 ports, 512 levels each");
}

/* Sets the flags of a port, in a datagram of its own, to the first one alone. */
static int is_set(size_t port)
{
    struct message asked = request;
    int right;

    begin_request(&request, PRIVFLAGS_SET, REQUEST, roll[port * PORT + 1], 0);
    put_set(&request, flag_names, (const uint8_t[]){1, 0, 0, 0, 0, 0, 0, 0}, FLAG_BITS, 1);
    end_request(&request);
    handle_at(0, 0);
    right = answer.kind == ETHNL_DONE && answer.next == request.length && answer.next_place == 0 && wrote("", 0) && !kept;
    request = asked;
    return right;
}

/* Expected replies are made from the settings as they are: those still to come show the change, those told do not. */
static void set_between(void)
{
    struct message told, again;

    box_of(3);
    ask_dump(PRIVFLAGS_GET, 0, 0);
    put_reply(&told, PRIVFLAGS_GET, 1, 0);
    check(is_place(0) && is_place(1) && wrote(told.bytes, told.length), "two places of a dump of three ports");
    check(is_set(1) && is_set(2), "  a SET of the port just told and one of the next");
    check(is_place(2) && is_place(3), "  the reply to come has the new set, then DONE");
    put_reply(&again, PRIVFLAGS_GET, 1, 0);
    check(is_place(1) && again.length != told.length, "  asked again, the port that was told has its new set too");
}

/* A datagram of a GET of the third port's levels, a dump of all, and the same GET again. */
static void ask_between_gets(void)
{
    struct message get;

    begin_request(&get, DEBUG_GET, REQUEST, roll[2 * PORT + 1], 1);
    end_request(&get);
    ask_dump(DEBUG_GET, 0, 0);
    memmove(request.bytes + get.length, request.bytes, request.length);
    memcpy(request.bytes, get.bytes, get.length);
    dump.begins = get.length;
    dump.ends = request.length += get.length;
    put(&request, get.bytes, get.length);
}

static void among_others(void)
{
    struct message reply;
    size_t right = 0;

    box_of(3);
    ask_between_gets();
    put_reply(&reply, DEBUG_GET, 2, 1);
    reply.bytes[6] = 0;
    handle_at(0, 0);
    check(is_done(reply.bytes, reply.length, dump.begins, 0), "a GET before a dump: no MULTI");
    for (uint64_t place = 0; place <= ports(); place++)
        right += is_place(place);
    check(right == ports() + 1, "  the dump hands back its own position until DONE");
    handle_at(answer.next, answer.next_place);
    check(is_done(reply.bytes, reply.length, request.length, 0), "  the GET behind it: no MULTI");
}

/* Nothing is remembered: a place is answered without those before it, and by the roll of its own call. */
static void nothing_remembered(void)
{
    uint8_t first[PORT];

    box_of(4);
    ask_dump(DEBUG_GET, 0, 1);
    check(is_place(3) && is_place(1) && is_place(4) && is_place(0), "places in any order");
    box.roll_len = 3 * PORT;
    box.settings_len = 3 * PORT_SETTINGS;
    check(is_place(3), "a roll that got shorter: its count is DONE's place");
    memcpy(first, roll, PORT);
    memcpy(roll, roll + PORT, PORT);
    memcpy(roll + PORT, first, PORT);
    check(is_place(0) && is_place(1), "a roll in another order: replies in that order");
}

int main(int argc, char **argv)
{
    if (argc != 2 || !lend_by(argv[1]))
        return 2;
    two_ports();
    whole_dumps();
    longest_replies();
    set_between();
    among_others();
    nothing_remembered();
    return checked();
}
