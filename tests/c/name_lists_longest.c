/*
 * name_lists_longest heap|end|start: replies of 32,768 bytes, with their ACK or without, which fill the shortest page to its
 * last byte, and those that would be longer, which are refused by 25.
 */
#include "name_lists.h"

enum { LONGEST = 32768, ACK_LENGTH = 36 };

/* Names of 28 bytes, each with its number; the last has a length of its own. */
static void fill_names(uint8_t *names, size_t count, size_t last)
{
    char text[NAME];

    memset(names, 0, count * NAME);
    for (size_t at = 0; at < count; at++) {
        snprintf(text, sizeof text, "%028u", (unsigned)at % 1000);
        memcpy(names + at * NAME, text, at == count - 1 ? last : 28);
    }
}

/* Two ports, 512 flags, so many message classes; the last class has a name of this length. */
static void box_of_names(size_t classes, size_t last)
{
    box_of(2);
    memset(settings, 0, sizeof settings);
    settings[0] = 5;
    fill_names(flag_names, ETHNL_BITS_MAX, 28);
    fill_names(debug_names, classes, last);
    box.flag_names_len = ETHNL_BITS_MAX * NAME;
    box.debug_names_len = classes * NAME;
    box.settings_len = 2 * (ETHNL_SET_LEN(classes) + ETHNL_SET_LEN(ETHNL_BITS_MAX));
}

/*
 * The reply about both lists of the port quay1 has 20 bytes of headers, 24 of the header nest, 4 of STRINGSETS and 24 of
 * each STRINGSET before its strings: 96. An entry takes 20 bytes where its name has 0 to 3, and 4 more for each 4 bytes
 * more: 48 where it has 28 to 31. So the 512 flags take 24,576, and of 32,768 there are 8,096 left: 168 classes and one of
 * 32 bytes, whose name has 12 to 15. With an ACK it is 8,060: 167 classes and one of 44 bytes, whose name has 24 to 27.
 */
static const struct row {
    const char *what;
    size_t classes, last;
    uint16_t flags;
    uint32_t reply; /* the length of the reply by itself */
} rows[] = {
    {"32,768 bytes: done", 169, 15, 0, 32768},
    {"  with a name that is 3 bytes shorter, so padded to the same: done", 169, 12, 0, 32768},
    {"  with an ACK: 25", 169, 15, ACK, 32768},
    {"32,764 bytes: done", 169, 11, 0, 32764},
    {"  with an ACK: 25", 169, 11, ACK, 32764},
    {"32,772 bytes: 25", 169, 16, 0, 32772},
    {"  with an ACK: 25", 169, 16, ACK, 32772},
    {"32,732 bytes: done", 168, 27, 0, 32732},
    {"  with an ACK, 32,768 together: done", 168, 27, ACK, 32732},
    {"  with a name that is 3 bytes shorter: done", 168, 24, ACK, 32732},
    {"32,736 bytes: done", 168, 28, 0, 32736},
    {"  with an ACK, 32,772 together: 25", 168, 28, ACK, 32736},
    {"49,248 bytes: 25", 512, 28, 0, 49248},
    {"  with an ACK: 25", 512, 28, ACK, 49248},
};

/* Whether the request as it stands is refused by 25, without a detail. */
static int is_too_long(void)
{
    struct message error = error_of(request.bytes, 90, 0, 0);

    handle_at(0, 0);
    return answer.kind == ETHNL_REFUSED && answer.refusal == ETHNL_REFUSAL_REPLY_LEN &&
           wrote(error.bytes, error.length) && answer.next == request.length && answer.next_place == 0 && kept;
}

/* Whether both lists, in this order, are told or refused as the row's length says. */
static int is_row(const struct row *row, const struct ids *asked, const struct ids *told)
{
    static struct message reply;
    uint32_t all = row->reply + (row->flags & ACK ? ACK_LENGTH : 0);

    box_of_names(row->classes, row->last);
    ask_names(row->flags, 200, 0, asked);
    if (all > LONGEST)
        return is_too_long();
    put_reply(&reply, 0, told, 0);
    return reply.length == all && is_told(0, told, 0);
}

/* Each row in both orders, with repeated ids, and with a page that is longer than it need be, which changes nothing. */
static void lengths(void)
{
    static const struct ids repeated = {5, {2, 10, 10, 2, 10}};

    for (size_t at = 0; at < sizeof rows / sizeof *rows; at++) {
        int right = is_row(&rows[at], &flags_first, &flags_first) && is_row(&rows[at], &classes_first, &classes_first) &&
                    is_row(&rows[at], &repeated, &flags_first);

        check(right, rows[at].what);
        page_len = 2 * ETHNL_PAGE_MIN;
        check(is_row(&rows[at], &flags_first, &flags_first), "  the same with a page of 65,536 bytes");
        page_len = ETHNL_PAGE_MIN + 1;
        check(is_row(&rows[at], &flags_first, &flags_first), "  the same with a page of 32,769 bytes");
        page_len = ETHNL_PAGE_MIN;
    }
}

/* The error message of the request for both lists, byte by byte. */
static void by_hand(void)
{
    static const uint8_t error[] = {
        0x24, 0, 0, 0, 2, 0, 0, 1, 7, 0, 0, 0, 9, 0, 0, 0, 0xA6, 0xFF, 0xFF, 0xFF,
        0x3C, 0, 0, 0, 0x19, 0, 1, 0, 7, 0, 0, 0, 9, 0, 0, 0};

    box_of_names(169, 16);
    ask_names(0, 200, 0, &flags_first);
    handle_at(0, 0);
    check(answer.refusal == ETHNL_REFUSAL_REPLY_LEN && wrote(error, sizeof error), "25, byte by byte");
}

/* The longest replies about one list, and the counts of both, are never too long. */
static void one_list(void)
{
    box_of_names(ETHNL_BITS_MAX, 28);
    ask_names(ACK, 200, 0, &none);
    check(is_told(0, &flags_alone, 0) && answer.written == 24648 + ACK_LENGTH, "512 flags: 24,648 bytes and an ACK");
    ask_names(ACK, NO_INDEX, 0, &none);
    check(is_told(NO_PORT, &classes_alone, 0) && answer.written == 24624 + ACK_LENGTH,
          "512 message classes without a port: 24,624 bytes and an ACK");
    begin_request(&request, STRSET_GET, REQUEST | ACK, 200, 0);
    put_list(&request, &flags_first);
    flag(&request, COUNTS_ONLY);
    end_request(&request);
    check(is_told(0, &flags_first, 1) && answer.written == 88 + ACK_LENGTH, "the counts of both: 88 bytes and an ACK");
}

/* The port's name counts: up to 7 bytes it takes as many as quay1, of 8 bytes 4 more. */
static void port_names(void)
{
    box_of_names(169, 15);
    memcpy(roll + 5, "quay-01", 8);
    ask_names(0, 200, 0, &flags_first);
    check(is_told(0, &flags_first, 0) && answer.written == LONGEST, "a port's name of 7 bytes, 32,768 bytes: done");
    memcpy(roll + 5, "quay-001", 9);
    check(is_too_long(), "  of 8 bytes, 32,772 bytes: 25");
}

/* Asks for both lists by STRINGSETs at byte 36 and 48, with these bytes behind them. */
static void ask_both_and(const void *bytes, size_t length)
{
    static const uint8_t both[] = {12, 0, 1, 0x80, 8, 0, 1, 0, 2, 0, 0, 0, 12, 0, 1, 0x80, 8, 0, 1, 0, 10, 0, 0, 0};
    uint8_t inside[32];

    memcpy(inside, both, sizeof both);
    memcpy(inside + sizeof both, bytes, length);
    begin_request(&request, STRSET_GET, REQUEST, 200, 0);
    put_nest(STRINGSETS, inside, sizeof both + length);
    end_request(&request);
}

/* Every other refusal goes before 25. */
static void before_25(void)
{
    static const struct ids third_unknown = {3, {2, 10, 77}};

    box_of_names(ETHNL_BITS_MAX, 28);
    ask_names(0, 200, 0, &third_unknown);
    expect_refused("24 before 25", ETHNL_REFUSAL_STRING_SET, 95, OFFS, 64);
    ask_both_and("\4\0\1\200", 4);
    expect_missing_id("13 of an id before 25", 60);
    ask_both_and("\5\0\1\200\0", 5);
    expect_refused("10 in a STRINGSET before 25", ETHNL_REFUSAL_ATTRIBUTE_LEN, 22, OFFS, 64);
    ask_names(0, 7, 0, &flags_first);
    expect_refused("16 before 25", ETHNL_REFUSAL_UNKNOWN_PORT, 19, OFFS, 24);
    ask_names(0, 200, 4, &flags_first);
    expect_refused("15 before 25", ETHNL_REFUSAL_HEADER_FLAGS, 95, OFFS, 32);
    ask_names(0, 200, 0, &flags_first);
    number(&request, COUNTS_ONLY, 0);
    end_request(&request);
    expect_refused("12 before 25", ETHNL_REFUSAL_PAYLOAD, 22, OFFS, 60);
    ask_names(DUMP, 200, 0, &flags_first);
    expect_refused("8 before 25", ETHNL_REFUSAL_DUMP, 95, 0, 0);
}

int main(int argc, char **argv)
{
    if (argc != 2 || !lend_by(argv[1]))
        return 2;
    lengths();
    by_hand();
    one_list();
    port_names();
    before_25();
    return checked();
}
