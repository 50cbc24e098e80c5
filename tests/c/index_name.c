/*
 * BITs with an index and a name: done where both mean one bit, else refused. Of a refusal the whole error message is
 * compared, the normaliser's number too, and no setting may have changed.
 */
#include "check.h"
#include "program_box.h"

/*
 * Where the first BIT of a masked list stands, and in it INDEX, then NAME; then the second BIT, behind a name of 4 to 7
 * bytes and VALUE. Under NOMASK each is 4 bytes further.
 */
enum { AT_BIT = 40, AT_INDEX = 44, AT_NAME = 52, AT_SECOND_BIT = 68 };

static struct message request;
static size_t bitset, bits;

/* Bit 3 has the name "lldp", bit 6 "isolate", no other flag has one. */
static void two_names(void)
{
    fresh_box();
    memcpy(flag_names + 6 * ETHNL_NAME_LEN, "isolate", 7);
}

/* Begins a SET of a bit list. */
static void begin_set(uint8_t command, int nomask)
{
    two_names();
    begin_request(&request, command, REQUEST | ACK, 3, 0);
    bitset = begin_nest(&request, BITSET);
    if (nomask)
        flag(&request, NOMASK);
    bits = begin_nest(&request, BITS);
}

static void send_set(void)
{
    end_nest(&request, bits);
    end_nest(&request, bitset);
    end_request(&request);
    handle(&request);
}

static int flags_are(uint32_t low, uint32_t high)
{
    return settings[0] == 0 && settings[1] == 0 && settings[2] == low && settings[3] == high;
}

/* Sends the SET that was begun: it is done, and the flags are these. */
static void expect_done(const char *what, uint32_t low, uint32_t high)
{
    send_set();
    check(answer.kind == ETHNL_DONE && answer.refusal == 0 && answer.next == request.length &&
              is_error(&request, 0, 0) && flags_are(low, high),
          what);
}

/* Sends the SET that was begun: it is refused, with OFFS, and nothing else has changed. */
static void expect_refused(const char *what, uint32_t refusal, int32_t errno_value, uint32_t offset)
{
    send_set();
    check(answer.kind == ETHNL_REFUSED && answer.refusal == refusal && answer.next == request.length &&
              is_error(&request, errno_value, offset) && page[answer.written] == 0xAA && flags_are(1, 2),
          what);
}

/* The bitset of the last SET through the normaliser: this number, and no byte of the page is written. */
static void expect_no_form(const char *what, uint32_t refusal)
{
    uint8_t form[ETHNL_FORM_MAX], untouched[ETHNL_FORM_MAX];
    uint64_t written = UINT64_MAX;
    uint32_t found;

    memset(form, 0xAA, sizeof form);
    memset(untouched, 0xAA, sizeof untouched);
    found = ethnl_normalise(request.bytes + bitset + 4, request.length - bitset - 4, flag_names, sizeof flag_names,
                            form, sizeof form, &written);
    check(found == refusal && written == 0 && memcmp(form, untouched, sizeof form) == 0, what);
}

/* Index 5 with the name of bit 6: the request for which the wrong flag was switched. */
static void wrong_flag(void)
{
    static const uint8_t error[] = {
        0x2C, 0, 0, 0, 2, 0, 0, 3, 7, 0, 0, 0, 9, 0, 0, 0, 0xEA, 0xFF, 0xFF, 0xFF,
        0x44, 0, 0, 0, 0x19, 0, 5, 0, 7, 0, 0, 0, 9, 0, 0, 0, 8, 0, 2, 0, 0x28, 0, 0, 0};

    begin_set(PRIVFLAGS_SET, 0);
    put_bit(&request, 5, "isolate", 1);
    expect_refused("index 5 with the name of bit 6: refusal 23", ETHNL_REFUSAL_INDEX_NAME, 22, AT_BIT);
    check(answer.written == sizeof error && memcmp(page, error, sizeof error) == 0, "  the error message, byte by byte");
}

static const struct row {
    const char *what;
    int64_t index;
    const char *name;
    uint32_t refusal;
    int32_t errno_value;
    uint32_t offset;
} rows[] = {
    {"index and name of two bits that have names: 23", 3, "isolate", 23, 22, AT_BIT},
    {"the same two changed over: 23", 6, "lldp", 23, 22, AT_BIT},
    {"index of a bit without a name, a known name: 23", 5, "lldp", 23, 22, AT_BIT},
    {"the first bit's index, another's name: 23", 0, "lldp", 23, 22, AT_BIT},
    {"the last bit's index, another's name: 23", N - 1, "isolate", 23, 22, AT_BIT},
    {"an unknown name beside an index: 21", 3, "nonsense", 21, 95, AT_NAME},
    {"the start of the bit's own name beside its index: 21", 3, "lld", 21, 95, AT_NAME},
    {"an empty name beside the index of a bit with a name: 21", 3, "", 21, 95, AT_NAME},
    {"an empty name beside the index of a bit without one: 21", 5, "", 21, 95, AT_NAME},
    {"an index past the last beside a known name: 20", N, "lldp", 20, 95, AT_INDEX},
    {"an index past the last beside an unknown name: 20", N, "nonsense", 20, 95, AT_INDEX},
    {"an index past the last beside an empty name: 20", N, "", 20, 95, AT_INDEX},
    {"the largest index beside a known name: 20", UINT32_MAX, "lldp", 20, 95, AT_INDEX},
    {"neither index nor name: 22", NO_INDEX, NULL, 22, 22, AT_BIT},
};

/* Each row masked, under NOMASK, and through the normaliser. */
static void refusals(void)
{
    for (size_t at = 0; at < sizeof rows / sizeof *rows; at++) {
        const struct row *row = &rows[at];

        for (uint32_t nomask = 0; nomask <= 1; nomask++) {
            begin_set(PRIVFLAGS_SET, (int)nomask);
            put_bit(&request, row->index, row->name, 1);
            expect_refused(nomask ? "  under NOMASK" : row->what, row->refusal, row->errno_value, row->offset + 4 * nomask);
            expect_no_form("  by the normaliser", row->refusal);
        }
    }
}

static void agreeing(void)
{
    begin_set(PRIVFLAGS_SET, 0);
    put_bit(&request, 3, "lldp", 1);
    put_bit(&request, 6, "isolate", 1);
    expect_done("index and name of one bit, twice: both go on", 1 | 8 | 64, 2);
    begin_set(PRIVFLAGS_SET, 0);
    put_bit(&request, 3, NULL, 1);
    put_bit(&request, 3, "lldp", 0);
    expect_done("index and name without VALUE: the bit goes off", 1, 2);
    begin_set(PRIVFLAGS_SET, 1);
    put_bit(&request, 6, "isolate", 0);
    expect_done("under NOMASK: that bit alone is on", 64, 0);
}

/* The order inside of a BIT counts for nothing, and of equal types the last counts. */
static void inside_a_bit(void)
{
    size_t bit;

    begin_set(PRIVFLAGS_SET, 0);
    bit = begin_nest(&request, BIT);
    name(&request, BIT_NAME, "nonsense");
    name(&request, BIT_NAME, "lldp");
    number(&request, BIT_INDEX, N);
    number(&request, BIT_INDEX, 3);
    flag(&request, BIT_VALUE);
    end_nest(&request, bit);
    expect_done("a name before its index, the last of each counts: done", 1 | 8, 2);
    begin_set(PRIVFLAGS_SET, 0);
    bit = begin_nest(&request, BIT);
    number(&request, BIT_INDEX, 3);
    name(&request, BIT_NAME, "lldp");
    number(&request, BIT_INDEX, 6);
    end_nest(&request, bit);
    expect_refused("a last index that is another bit's: 23", ETHNL_REFUSAL_INDEX_NAME, 22, AT_BIT);
    begin_set(PRIVFLAGS_SET, 0);
    bit = begin_nest(&request, BIT);
    name(&request, BIT_NAME, "nonsense");
    number(&request, BIT_INDEX, N);
    end_nest(&request, bit);
    expect_refused("an index past the last behind an unknown name: 20", ETHNL_REFUSAL_BIT_PAST_END, 95, 60);
}

/* A BIT that is cut short: one byte stands in it. */
static void put_cut_bit(void)
{
    size_t bit = begin_nest(&request, BIT);

    put(&request, "", 1);
    end_nest(&request, bit);
    put(&request, "\0\0", 3);
}

/* Each BIT is judged before the next is walked, and none is obeyed where one is refused. */
static void several_bits(void)
{
    begin_set(PRIVFLAGS_SET, 0);
    put_bit(&request, 3, "lldp", 1);
    put_bit(&request, 3, "isolate", 1);
    expect_refused("a second BIT whose index and name mean two bits: 23", ETHNL_REFUSAL_INDEX_NAME, 22, AT_SECOND_BIT);
    begin_set(PRIVFLAGS_SET, 0);
    put_bit(&request, 3, "lldp", 1);
    put_cut_bit();
    expect_refused("a second BIT that is cut short: 10", ETHNL_REFUSAL_ATTRIBUTE_LEN, 22, AT_SECOND_BIT + 4);
    begin_set(PRIVFLAGS_SET, 0);
    put_bit(&request, 3, "isolate", 1);
    put_cut_bit();
    expect_refused("23 in the first BIT before 10 in the second", ETHNL_REFUSAL_INDEX_NAME, 22, AT_BIT);
    begin_set(PRIVFLAGS_SET, 0);
    put_bit(&request, NO_INDEX, NULL, 1);
    put_bit(&request, 3, "isolate", 1);
    expect_refused("22 in the first BIT before 23 in the second", ETHNL_REFUSAL_NO_BIT, 22, AT_BIT);
}

/* The name is looked up in the list of the command's own set: the debug bits have no names here. */
static void other_set(void)
{
    begin_set(DEBUG_SET, 0);
    put_bit(&request, 3, "lldp", 1);
    expect_refused("a flag's index and name in a DEBUG_SET: 21", ETHNL_REFUSAL_UNKNOWN_BIT, 95, AT_NAME);
}

/* A verbose reply has index and name of each bit: its own bitset, sent back, means the set that it shows. */
static void read_back(void)
{
    enum { REPLY_BITSET = 40 };
    uint16_t length;

    two_names();
    settings[2] |= 8 | 64;
    begin_request(&request, PRIVFLAGS_GET, REQUEST, 3, 0);
    end_request(&request);
    handle(&request);
    memcpy(&length, page + REPLY_BITSET, sizeof length);
    begin_request(&request, PRIVFLAGS_SET, REQUEST | ACK, 3, 0);
    put(&request, page + REPLY_BITSET, length);
    end_request(&request);
    check(answer.written == (uint64_t)REPLY_BITSET + length, "a verbose reply ends with its bitset");
    settings[2] = settings[3] = 0;
    handle(&request);
    check(answer.kind == ETHNL_DONE && is_error(&request, 0, 0) && flags_are(1 | 8 | 64, 2), "  which is accepted as a SET");
}

int main(void)
{
    wrong_flag();
    refusals();
    agreeing();
    inside_a_bit();
    several_bits();
    other_set();
    read_back();
    return checked();
}
