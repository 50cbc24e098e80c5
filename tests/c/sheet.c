/* The sheet of marked bitsets, sent as SETs and normalised (document 01, "Sheet of marked bitsets"). */
#include "check.h"
#include "program_box.h"

static struct message p9(void)
{
    struct message contents = {.length = 0};
    size_t bits = begin_nest(&contents, BITS);

    put_bit(&contents, 3, NULL, 1);
    put_bit(&contents, NO_INDEX, "lldp", 0);
    end_nest(&contents, bits);
    return contents;
}

static struct message p11(uint32_t index)
{
    struct message contents = {.length = 0};
    size_t bits = begin_nest(&contents, BITS);

    put_bit(&contents, index, NULL, 1);
    end_nest(&contents, bits);
    return contents;
}

static struct message p10(void)
{
    struct message contents = {.length = 0};

    flag(&contents, NOMASK);
    end_nest(&contents, begin_nest(&contents, BITS));
    return contents;
}

/* Sends contents as a PRIVFLAGS_SET and compares the flags afterwards, or the refusal. */
static void expect_set(const char *what, struct message contents, uint32_t expected_refusal, uint32_t low, uint32_t high)
{
    struct message request;

    fresh_box();
    begin_request(&request, PRIVFLAGS_SET, REQUEST, 3, 0);
    attribute(&request, BITSET | NESTED, contents.bytes, contents.length);
    end_request(&request);
    handle(&request);
    check(answer.kind == (expected_refusal != 0 ? ETHNL_REFUSED : ETHNL_DONE) && answer.refusal == expected_refusal &&
              answer.next == request.length && settings[0] == 0 && settings[1] == 0 && settings[2] == low &&
              settings[3] == high,
          what);
}

static void sheet(void)
{
    static const uint32_t none[2], full[1] = {0xFFFFFFFF};

    expect_set("P1 masked bitmap", compact(0, 40, 2, (uint32_t[]){8, 0}, (uint32_t[]){8, 2}), 0, 9, 0);
    expect_set("P2 NOMASK, SIZE 3", compact(1, 3, 1, (uint32_t[]){2}, NULL), 0, 2, 0);
    expect_set("P3 NOMASK, SIZE 0", compact(1, 0, 0, none, NULL), 0, 0, 0);
    expect_set("P4 SIZE 0", compact(0, 0, 0, none, none), 0, 1, 2);
    expect_set("P5 mask past N", compact(0, 64, 2, none, (uint32_t[]){0, 256}), 20, 1, 2);
    expect_set("P6 value past N, not masked", compact(0, 64, 2, (uint32_t[]){0, 256}, none), 0, 1, 2);
    expect_set("P7 one word for 33 bits", compact(1, 33, 1, none, NULL), 19, 1, 2);
    expect_set("P8 SIZE 4294967295", compact(1, 4294967295u, 1, none, NULL), 19, 1, 2);
    expect_set("P9 the later entry wins", p9(), 0, 1, 2);
    expect_set("P10 NOMASK, empty BITS", p10(), 0, 0, 0);
    expect_set("P11 index 39", p11(39), 0, 1, 2 | 1 << 7);
    expect_set("P11 index 40", p11(40), 20, 1, 2);
    expect_set("P12 bits above SIZE are ignored", compact(0, 3, 1, full, full), 0, 7, 2);
}

/* Normalises contents twice: the form is the stated one, and it is its own form. */
static void expect_form(const char *what, struct message contents, const uint32_t *value, const uint32_t *mask)
{
    struct message form = compact(0, N, 2, value, mask);
    struct ethnl_form first = ethnl_form_of(contents.bytes, contents.length, flag_names, sizeof flag_names);
    struct ethnl_form second = ethnl_form_of(first.bytes, first.written, flag_names, sizeof flag_names);

    check(first.refusal == 0 && first.written == form.length && memcmp(first.bytes, form.bytes, form.length) == 0, what);
    check(second.refusal == 0 && second.written == form.length && memcmp(second.bytes, form.bytes, form.length) == 0,
          "  its own form");
}

static void normal_forms(void)
{
    static const uint32_t p1_value[] = {8, 0}, p1_mask[] = {8, 2};
    static const uint32_t p2_value[] = {2, 0}, p2_mask[] = {0xFFFFFFFF, 0xFF};
    static const uint32_t p9_value[] = {0, 0}, p9_mask[] = {8, 0};

    fresh_box();
    expect_form("P1 normal form", compact(0, 40, 2, p1_value, p1_mask), p1_value, p1_mask);
    expect_form("P2 normal form", compact(1, 3, 1, p2_value, NULL), p2_value, p2_mask);
    expect_form("P9 normal form", p9(), p9_value, p9_mask);
}

int main(void)
{
    sheet();
    normal_forms();
    return checked();
}
