/* The normaliser through the C boundary: the sheet P1 to P12, index beside name, refusals that write nothing, the page past the form. */
#include "check.h"
#include "message.h"
#include "ethnl.h"

#include <string.h>

#define BITS_40 40

static uint8_t names[BITS_40 * ETHNL_NAME_LEN];
static uint8_t page[ETHNL_FORM_MAX + 1];
static uint64_t written;

static uint32_t normalise(const struct message *contents, size_t room)
{
    memset(page, 0xAA, sizeof page);
    written = UINT64_MAX;
    return ethnl_normalise(contents->bytes, contents->length, names, sizeof names, page, room, &written);
}

static void words(struct message *contents, uint16_t type, const uint32_t *from, size_t count)
{
    struct message payload = {.length = 0};

    for (size_t i = 0; i < count; i++)
        put_u32(&payload, from[i]);
    attribute(contents, type, payload.bytes, payload.length);
}

static struct message form(uint32_t value0, uint32_t value1, uint32_t mask0, uint32_t mask1)
{
    struct message contents = {.length = 0};

    number(&contents, SIZE, BITS_40);
    words(&contents, VALUE, (uint32_t[]){value0, value1}, 2);
    words(&contents, MASK, (uint32_t[]){mask0, mask1}, 2);
    return contents;
}

static void is_form(const char *what, const struct message *contents, struct message expected)
{
    uint32_t refusal = normalise(contents, sizeof page);

    check(refusal == 0 && written == expected.length && memcmp(page, expected.bytes, expected.length) == 0, what);
    check(page[expected.length] == 0xAA, "the page past the form stays");
}

static struct message compact(int nomask, uint32_t size, const uint32_t *value, const uint32_t *mask, size_t count)
{
    struct message contents = {.length = 0};

    if (nomask)
        flag(&contents, NOMASK);
    number(&contents, SIZE, size);
    words(&contents, VALUE, value, count);
    if (!nomask)
        words(&contents, MASK, mask, count);
    return contents;
}

/* A list of one BIT that is switched on. */
static struct message one_bit(int64_t index, const char *bit_name)
{
    struct message contents = {.length = 0};
    size_t bits = begin_nest(&contents, BITS);

    put_bit(&contents, index, bit_name, 1);
    end_nest(&contents, bits);
    return contents;
}

static void is_refused(const char *what, struct message contents, uint32_t expected)
{
    check(normalise(&contents, sizeof page) == expected && written == 0 && page[0] == 0xAA, what);
}

/* P1 to P8 and P12: compact bitsets. */
static void compact_sheet(void)
{
    const uint32_t all[] = {0xFFFFFFFF}, two[] = {2}, none[] = {0, 0}, eight[] = {8, 0}, past[] = {0, 256}, mask[] = {8, 2};
    struct message p1 = compact(0, 40, eight, mask, 2), p2 = compact(1, 3, two, NULL, 1), p3 = compact(1, 0, none, NULL, 0);
    struct message p4 = compact(0, 0, none, none, 0), p6 = compact(0, 64, past, none, 2), p12 = compact(0, 3, all, all, 1);

    is_form("P1: the same", &p1, form(8, 0, 8, 2));
    is_form("P2: every bit masked", &p2, form(2, 0, 0xFFFFFFFF, 0xFF));
    is_form("P3: the empty set", &p3, form(0, 0, 0xFFFFFFFF, 0xFF));
    is_form("P4: nothing masked", &p4, form(0, 0, 0, 0));
    is_refused("P5: 20", compact(0, 64, none, past, 2), 20);
    is_form("P6: nothing masked", &p6, form(0, 0, 0, 0));
    is_refused("P7: 19", compact(1, 33, none, NULL, 1), 19);
    is_refused("P8: 19", compact(1, 4294967295, none, NULL, 1), 19);
    is_form("P12: bits below SIZE", &p12, form(7, 0, 7, 0));
}

/* P9 to P11: bit lists. */
static void list_sheet(void)
{
    struct message p9 = {.length = 0}, p10 = {.length = 0}, p11 = one_bit(39, NULL);
    size_t bits = begin_nest(&p9, BITS);

    put_bit(&p9, 3, NULL, 1);
    put_bit(&p9, NO_INDEX, "lldp", 0);
    end_nest(&p9, bits);
    is_form("P9: the later entry wins", &p9, form(0, 0, 8, 0));
    flag(&p10, NOMASK);
    end_nest(&p10, begin_nest(&p10, BITS));
    is_form("P10: the empty set", &p10, form(0, 0, 0xFFFFFFFF, 0xFF));
    is_form("P11: bit 39", &p11, form(0, 128, 0, 128));
    is_refused("P11: bit 40 is past N", one_bit(40, NULL), 20);
}

static void index_and_name(void)
{
    struct message agreeing = one_bit(3, "lldp");

    is_form("index 3 with its own name: bit 3", &agreeing, form(8, 0, 8, 0));
    is_refused("index 5 with the name of bit 3: 23", one_bit(5, "lldp"), 23);
    is_refused("an unknown name beside an index: 21", one_bit(3, "nonsense"), 21);
    is_refused("an empty name beside an index: 21", one_bit(5, ""), 21);
    is_refused("index 40 beside an unknown name: 20", one_bit(40, "nonsense"), 20);
    is_refused("neither index nor name: 22", one_bit(NO_INDEX, NULL), 22);
}

static void other_refusals(void)
{
    struct message empty = {.length = 0}, p1 = form(8, 0, 8, 2);

    is_refused("no SIZE: 13", empty, 13);
    check(normalise(&p1, ETHNL_FORM_MAX - 1) == 2 && written == 0, "a page of 143 bytes: 2");
    names[ETHNL_NAME_LEN - 1] = 'x';
    is_refused("a name of 32 bytes: 1", p1, 1);
    names[ETHNL_NAME_LEN - 1] = 0;
}

int main(void)
{
    memcpy(names + 3 * ETHNL_NAME_LEN, "lldp", 4);
    compact_sheet();
    list_sheet();
    index_and_name();
    other_refusals();
    return checked();
}
