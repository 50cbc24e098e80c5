/*
 * name_lists_refused heap|end|start: requests for name lists that are refused, alike at every place. Of each the whole error
 * message is compared, and nothing else may have changed. 25 is in name_lists_longest.c.
 */
#include "name_lists.h"

/*
 * Where a request that names its port by index has its header nest, the index in it, STRINGSETS, the first STRINGSET and its
 * ID, then the second. Without a port what stands behind the header nest is 8 bytes nearer.
 */
enum { AT_HEADER = 20, AT_FIRST = 24, AT_LIST = 32, AT_SET = 36, AT_ID = 40, AT_SECOND_SET = 48, AT_SECOND_ID = 52 };
enum { NEARER = 8 };

static const struct ids unknown = {1, {77}}, second_unknown = {2, {10, 77}};

/* Begins a request about the first port. */
static void begin_names(void)
{
    begin_request(&request, STRSET_GET, REQUEST, 200, 0);
}

static const struct id_row {
    const char *what;
    int64_t port;
    struct ids ids;
    uint32_t offset;
} id_rows[] = {
    {"id 0: 24", 200, {1, {0}}, AT_ID},
    {"id 1: 24", 200, {1, {1}}, AT_ID},
    {"id 3: 24", 200, {1, {3}}, AT_ID},
    {"id 9: 24", 200, {1, {9}}, AT_ID},
    {"id 11: 24", 200, {1, {11}}, AT_ID},
    {"id 2 if it were cut to 8 bits: 24", 200, {1, {0x102}}, AT_ID},
    {"id 10 if it were cut to 16 bits: 24", 200, {1, {0x1000A}}, AT_ID},
    {"id 10 in network byte order: 24", 200, {1, {0x0A000000}}, AT_ID},
    {"the largest id: 24", 200, {1, {UINT32_MAX}}, AT_ID},
    {"id 2 without a port: 24", NO_INDEX, {1, {2}}, AT_ID - NEARER},
    {"  behind 10: 24 at the second", NO_INDEX, {2, {10, 2}}, AT_SECOND_ID - NEARER},
    {"id 11 without a port: 24", NO_INDEX, {1, {11}}, AT_ID - NEARER},
    {"id 77 behind two that are offered: 24 at the third", 200, {3, {2, 10, 77}}, AT_SECOND_ID + 12},
    {"id 77 among repeated ids: 24", 200, {5, {10, 10, 10, 77, 10}}, AT_ID + 36},
    {"two ids that are not offered: 24 at the first", 200, {2, {77, 78}}, AT_ID},
};

static void ids_not_offered(void)
{
    for (size_t at = 0; at < sizeof id_rows / sizeof *id_rows; at++) {
        const struct id_row *row = &id_rows[at];

        ask_names(at % 2 ? ACK : 0, row->port, 0, &row->ids);
        expect_refused(row->what, ETHNL_REFUSAL_STRING_SET, 95, OFFS, row->offset);
        flag(&request, COUNTS_ONLY);
        end_request(&request);
        expect_refused("  with COUNTS_ONLY", ETHNL_REFUSAL_STRING_SET, 95, OFFS, row->offset);
    }
}

/* Id 11, and a STRINGSET without an id: both error messages byte by byte. */
static void by_hand(void)
{
    static const uint8_t not_offered[] = {
        0x2C, 0, 0, 0, 2, 0, 0, 3, 7, 0, 0, 0, 9, 0, 0, 0, 0xA1, 0xFF, 0xFF, 0xFF,
        0x30, 0, 0, 0, 0x19, 0, 5, 0, 7, 0, 0, 0, 9, 0, 0, 0, 8, 0, 2, 0, 0x28, 0, 0, 0};
    static const uint8_t missing_id[] = {
        0x34, 0, 0, 0, 2, 0, 0, 3, 7, 0, 0, 0, 9, 0, 0, 0, 0xEA, 0xFF, 0xFF, 0xFF,
        0x28, 0, 0, 0, 0x19, 0, 1, 0, 7, 0, 0, 0, 9, 0, 0, 0, 8, 0, 5, 0, 1, 0, 0, 0, 8, 0, 6, 0, 0x24, 0, 0, 0};

    ask_names(ACK, 200, 0, &(struct ids){1, {11}});
    handle_at(0, 0);
    check(answer.refusal == ETHNL_REFUSAL_STRING_SET && wrote(not_offered, sizeof not_offered), "24, byte by byte");
    begin_names();
    put_nest(STRINGSETS, "\4\0\1\200", 4);
    end_request(&request);
    handle_at(0, 0);
    check(answer.refusal == ETHNL_REFUSAL_MISSING && wrote(missing_id, sizeof missing_id), "13 of an id, byte by byte");
}

/* Of several ids in one STRINGSET the last is judged by 24, and it alone. */
static void last_id(void)
{
    size_t list, set;

    begin_names();
    list = begin_nest(&request, STRINGSETS);
    set = begin_nest(&request, STRINGSET);
    number(&request, SET_ID, FLAGS_ID);
    number(&request, SET_ID, 77);
    end_nest(&request, set);
    end_nest(&request, list);
    end_request(&request);
    expect_refused("a last id that is not offered: 24 at it", ETHNL_REFUSAL_STRING_SET, 95, OFFS, AT_ID + 8);
    begin_names();
    put_list(&request, &flags_alone);
    put_list(&request, &unknown);
    end_request(&request);
    expect_refused("  in the last of two lists", ETHNL_REFUSAL_STRING_SET, 95, OFFS, AT_ID + 16);
}

/* A list of a STRINGSET with this id and of one that is cut short: one byte stands in it. */
static void ask_before_a_cut_one(uint32_t id)
{
    size_t list;

    begin_names();
    list = begin_nest(&request, STRINGSETS);
    put_stringset(&request, id);
    put_nest(STRINGSET, "", 1);
    end_nest(&request, list);
    end_request(&request);
}

/* Each STRINGSET is judged before the next is walked. */
static void judged_in_turn(void)
{
    size_t list;

    ask_before_a_cut_one(77);
    expect_refused("24 in the first before 10 in the second", ETHNL_REFUSAL_STRING_SET, 95, OFFS, AT_ID);
    ask_before_a_cut_one(10);
    expect_refused("a second STRINGSET that is cut short: 10", ETHNL_REFUSAL_ATTRIBUTE_LEN, 22, OFFS, AT_SECOND_SET + 4);
    begin_names();
    list = begin_nest(&request, STRINGSETS);
    put_nest(STRINGSET, "", 1);
    put(&request, "\0\0", 3);
    put_stringset(&request, 77);
    end_nest(&request, list);
    end_request(&request);
    expect_refused("10 in the first before 24 in the second", ETHNL_REFUSAL_ATTRIBUTE_LEN, 22, OFFS, AT_SET + 4);
    begin_names();
    list = begin_nest(&request, STRINGSETS);
    put_nest(STRINGSET, "", 0);
    put_stringset(&request, 77);
    end_nest(&request, list);
    end_request(&request);
    expect_missing_id("13 in the first before 24 in the second", AT_SET);
    begin_names();
    list = begin_nest(&request, STRINGSETS);
    put_stringset(&request, 77);
    put_nest(STRINGSET, "", 0);
    end_nest(&request, list);
    end_request(&request);
    expect_refused("24 in the first before 13 in the second", ETHNL_REFUSAL_STRING_SET, 95, OFFS, AT_ID);
}

static void missing_ids(void)
{
    size_t list;

    begin_names();
    list = begin_nest(&request, STRINGSETS);
    put_stringset(&request, FLAGS_ID);
    put_nest(STRINGSET, "", 0);
    end_nest(&request, list);
    end_request(&request);
    expect_missing_id("a second STRINGSET without an id: 13", AT_SECOND_SET);
    begin_request(&request, STRSET_GET, REQUEST | ACK, NO_INDEX, 1);
    put_nest(STRINGSETS, "\4\0\1\200", 4);
    end_request(&request);
    expect_missing_id("an id missing without a port: 13", AT_SET);
}

/* STRINGSETS is walked whole before a STRINGSET is opened, and a STRINGSET before its id is judged. */
static const struct bytes_row {
    const char *what;
    const char *bytes;
    size_t length;
    uint32_t refusal, offset;
} list_rows[] = {
    {"id 77, then one byte: 10", "\14\0\1\200\10\0\1\0\115\0\0\0\0", 13, 10, AT_SECOND_SET},
    {"id 77, then an attribute of length 3: 10", "\14\0\1\200\10\0\1\0\115\0\0\0\3\0\1\200", 16, 10, AT_SECOND_SET},
    {"id 77, then one longer than is left: 10", "\14\0\1\200\10\0\1\0\115\0\0\0\5\0\1\200", 16, 10, AT_SECOND_SET},
    {"id 77, then type 2 in STRINGSETS: 11", "\14\0\1\200\10\0\1\0\115\0\0\0\4\0\2\200", 16, 11, AT_SECOND_SET},
    {"id 77, then type 0 in STRINGSETS: 11", "\14\0\1\200\10\0\1\0\115\0\0\0\4\0\0\200", 16, 11, AT_SECOND_SET},
    {"id 77, then a STRINGSET that is no nest: 12", "\14\0\1\200\10\0\1\0\115\0\0\0\4\0\1\0", 16, 12, AT_SECOND_SET},
    {"id 77, then one in network byte order: 12", "\14\0\1\200\10\0\1\0\115\0\0\0\4\0\1\300", 16, 12, AT_SECOND_SET},
    {"COUNT behind the id: 11", "\24\0\1\200\10\0\1\0\2\0\0\0\10\0\2\0\5\0\0\0", 20, 11, AT_ID + 8},
    {"STRINGS behind the id: 11", "\20\0\1\200\10\0\1\0\2\0\0\0\4\0\3\200", 16, 11, AT_ID + 8},
    {"COUNT before the id: 11", "\24\0\1\200\10\0\2\0\5\0\0\0\10\0\1\0\2\0\0\0", 20, 11, AT_ID},
    {"COUNT behind an id that is not offered: 11", "\24\0\1\200\10\0\1\0\115\0\0\0\10\0\2\0\5\0\0\0", 20, 11, AT_ID + 8},
    {"COUNT without an id: 11 before 13", "\14\0\1\200\10\0\2\0\5\0\0\0", 12, 11, AT_ID},
    {"an id of 3 bytes: 12", "\13\0\1\200\7\0\1\0\2\0\0", 11, 12, AT_ID},
    {"an id of 5 bytes: 12", "\15\0\1\200\11\0\1\0\2\0\0\0\0", 13, 12, AT_ID},
    {"an id without a byte: 12", "\10\0\1\200\4\0\1\0", 8, 12, AT_ID},
    {"an id that is a nest: 12", "\14\0\1\200\10\0\1\200\2\0\0\0", 12, 12, AT_ID},
};

static void inside_the_list(void)
{
    for (size_t at = 0; at < sizeof list_rows / sizeof *list_rows; at++) {
        begin_names();
        put_nest(STRINGSETS, list_rows[at].bytes, list_rows[at].length);
        end_request(&request);
        expect_refused(list_rows[at].what, list_rows[at].refusal, 22, OFFS, list_rows[at].offset);
    }
}

/* What stands behind the header nest of the first port, at byte 32. */
static const struct bytes_row top_rows[] = {
    {"type 4 at the top level: 11", "\4\0\4\0", 4, 11, AT_LIST},
    {"type 0 at the top level: 11", "\4\0\0\0", 4, 11, AT_LIST},
    {"two bytes at the end: 10", "\0\0", 2, 10, AT_LIST},
    {"STRINGSETS that is no nest: 12", "\4\0\2\0", 4, 12, AT_LIST},
    {"COUNTS_ONLY with a payload: 12", "\10\0\3\0\1\0\0\0", 8, 12, AT_LIST},
    {"COUNTS_ONLY that is a nest: 12", "\4\0\3\200", 4, 12, AT_LIST},
    {"id 77, then type 4 at the top level: 11 before 24",
     "\20\0\2\200\14\0\1\200\10\0\1\0\115\0\0\0\4\0\4\0", 20, 11, AT_LIST + 16},
    {"a list that is cut short, then COUNTS_ONLY with a payload: 12 before 10",
     "\10\0\2\200\1\0\1\200\5\0\3\0\0", 13, 12, AT_LIST + 8},
};

static void at_the_top_level(void)
{
    for (size_t at = 0; at < sizeof top_rows / sizeof *top_rows; at++) {
        begin_names();
        put(&request, top_rows[at].bytes, top_rows[at].length);
        end_request(&request);
        expect_refused(top_rows[at].what, top_rows[at].refusal, 22, OFFS, top_rows[at].offset);
    }
    begin_request(&request, DEBUG_GET, REQUEST, 200, 0);
    flag(&request, COUNTS_ONLY);
    end_request(&request);
    expect_refused("COUNTS_ONLY in a DEBUG_GET: 11", ETHNL_REFUSAL_ATTRIBUTE_TYPE, 22, OFFS, AT_LIST);
    begin_request(&request, PRIVFLAGS_GET, REQUEST, 200, 0);
    put_list(&request, &flags_alone);
    end_request(&request);
    expect_refused("STRINGSETS in a PRIVFLAGS_GET: 11", ETHNL_REFUSAL_ATTRIBUTE_TYPE, 22, OFFS, AT_LIST);
}

static void missing_header(void)
{
    begin_message(&request, STRSET_GET, REQUEST);
    end_request(&request);
    expect_refused("no header nest: 13", ETHNL_REFUSAL_MISSING, 22, MISS_TYPE, HEADER);
    begin_message(&request, STRSET_GET, REQUEST | ACK);
    flag(&request, COUNTS_ONLY);
    put_list(&request, &classes_alone);
    end_request(&request);
    expect_refused("  with a list that is offered", ETHNL_REFUSAL_MISSING, 22, MISS_TYPE, HEADER);
    begin_message(&request, STRSET_GET, REQUEST);
    put_list(&request, &unknown);
    end_request(&request);
    expect_refused("  before 24", ETHNL_REFUSAL_MISSING, 22, MISS_TYPE, HEADER);
    begin_message(&request, STRSET_GET, REQUEST);
    put_nest(STRINGSETS, "\0\0", 3);
    put(&request, "", 1);
    end_request(&request);
    expect_refused("  before 10 in the list", ETHNL_REFUSAL_MISSING, 22, MISS_TYPE, HEADER);
}

/* What the header says goes before everything in the list; 14 falls away. */
static const struct header_row {
    const char *what;
    int64_t port;
    const char *name;
    uint32_t header_flags, refusal;
    int32_t errno_value;
    uint32_t offset;
} header_rows[] = {
    {"a wrong header flag without a port: 15", NO_INDEX, NULL, 4, 15, 95, AT_FIRST},
    {"a wrong header flag with a port: 15", 200, NULL, 5, 15, 95, AT_FIRST + 8},
    {"a wrong header flag with an unknown port: 15 before 16", 7, NULL, 0x80000000, 15, 95, AT_FIRST + 8},
    {"an unknown index: 16", 7, NULL, 0, 16, 19, AT_FIRST},
    {"the index 0: 16", 0, NULL, 0, 16, 19, AT_FIRST},
    {"the largest index: 16", UINT32_MAX, NULL, 1, 16, 19, AT_FIRST},
    {"an unknown index beside a port's name: 16", 7, "quay1", 0, 16, 19, AT_FIRST},
    {"an unknown name: 16", NO_INDEX, "quay9", 0, 16, 19, AT_FIRST},
    {"an empty name: 16", NO_INDEX, "", 0, 16, 19, AT_FIRST},
    {"index and name of two ports: 17", 200, "quay2", 0, 17, 19, AT_HEADER},
    {"an empty name beside an index: 17", 200, "", 3, 17, 19, AT_HEADER},
};

static void expect_header_refused(const struct header_row *row, const char *what)
{
    end_request(&request);
    expect_refused(what, row->refusal, row->errno_value, OFFS, row->offset);
}

/* Each alone, with a list that is not offered, one that is cut short, and one without its id. */
static void headers(void)
{
    for (size_t at = 0; at < sizeof header_rows / sizeof *header_rows; at++) {
        const struct header_row *row = &header_rows[at];
        size_t behind;

        begin_message(&request, STRSET_GET, REQUEST);
        header_nest(&request, row->port, row->name, row->header_flags);
        behind = request.length;
        expect_header_refused(row, row->what);
        put_list(&request, &second_unknown);
        expect_header_refused(row, "  before 24");
        request.length = behind;
        put_nest(STRINGSETS, "\0\0", 2);
        expect_header_refused(row, "  before 10 in the list");
        request.length = behind;
        put_nest(STRINGSETS, "\4\0\1\200", 4);
        expect_header_refused(row, "  before 13 of an id");
    }
}

/* What would be refused by something else, with both DUMP bits. */
static void ask_wrongly(uint32_t refusal)
{
    begin_message(&request, STRSET_GET, REQUEST | DUMP);
    if (refusal != ETHNL_REFUSAL_MISSING)
        header_nest(&request, refusal == ETHNL_REFUSAL_UNKNOWN_PORT ? 7 : 200,
                    refusal == ETHNL_REFUSAL_OTHER_PORT ? "quay2" : NULL, refusal == ETHNL_REFUSAL_HEADER_FLAGS ? 4 : 0);
    if (refusal == ETHNL_REFUSAL_ATTRIBUTE_LEN)
        put(&request, "", 1);
    if (refusal == ETHNL_REFUSAL_ATTRIBUTE_TYPE)
        flag(&request, 4);
    if (refusal == ETHNL_REFUSAL_PAYLOAD)
        number(&request, COUNTS_ONLY, 1);
    if (refusal == ETHNL_REFUSAL_STRING_SET)
        put_list(&request, &unknown);
    end_request(&request);
}

/* 8 at its old place: after 5, 6 and 7, before everything that the attributes say. No admin is asked for. */
static void both_dump_bits(void)
{
    static const uint32_t others[] = {10, 11, 12, 13, 15, 16, 17, 24};

    ask_names(DUMP, NO_INDEX, 0, &none);
    expect_refused("both DUMP bits without a port: 8", ETHNL_REFUSAL_DUMP, 95, 0, 0);
    ask_names(DUMP | ACK, 200, 0, &flags_first);
    expect_refused("  with a port, which asks for an ACK", ETHNL_REFUSAL_DUMP, 95, 0, 0);
    box.admin = 0;
    expect_refused("  by a sender who is not admin", ETHNL_REFUSAL_DUMP, 95, 0, 0);
    box.admin = 1;
    for (size_t at = 0; at < sizeof others / sizeof *others; at++) {
        char what[40];

        snprintf(what, sizeof what, "  8 before %u", others[at]);
        ask_wrongly(others[at]);
        expect_refused(what, ETHNL_REFUSAL_DUMP, 95, 0, 0);
        request.bytes[7] = 0;
        handle_at(0, 0);
        check(answer.kind == ETHNL_REFUSED && answer.refusal == others[at], "    which it is without them");
    }
}

/* What goes before 8, and a place that is too high, which is 1 whatever the message is. */
static void before_the_bits(void)
{
    ask_names(DUMP, NO_INDEX, 0, &none);
    box.family = 26;
    expect_refused("both DUMP bits in another family: 5", ETHNL_REFUSAL_FAMILY, 2, 0, 0);
    box.family = 25;
    request.bytes[0] = 18;
    request.length = 18;
    expect_refused("both DUMP bits in a message of 18 bytes: 6", ETHNL_REFUSAL_GENERIC_HEADER, 22, 0, 0);
    ask_names(0, 200, 0, &flags_first);
    handle_at(0, ports() + 1);
    check(is_silent(ETHNL_REFUSAL_BOX, 0), "a place above the count: 1");
    page_len--;
    handle_at(0, 0);
    check(is_silent(ETHNL_REFUSAL_PAGE, 0), "a page of 32,767 bytes: 2");
    page_len++;
}

int main(int argc, char **argv)
{
    if (argc != 2 || !lend_by(argv[1]))
        return 2;
    box_of(2);
    ids_not_offered();
    by_hand();
    last_id();
    judged_in_turn();
    missing_ids();
    inside_the_list();
    at_the_top_level();
    missing_header();
    headers();
    both_dump_bits();
    before_the_bits();
    return checked();
}
