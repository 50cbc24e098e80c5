/*
 * One change asked for twice: first as a bitmap, then as a list of bit names. The requests' bytes have little in common; their
 * normal forms are equal bytes, so that a retry is not counted twice.
 */
#include "ethnl_box.h"

#include <stdio.h>
#include <string.h>

/* The names of the private flags, from bit 0 on. */
static const char names[][ETHNL_NAME_LEN] = {"lldp", "vlan-filter", "storm-guard", "isolate", "loop-detect"};

/*
 * lldp and storm-guard on, vlan-filter off, as a bitmap: SIZE 32, VALUE and MASK of two words. The box has 5 flags and SIZE asks
 * for one word, so the second words mean nothing; nor does isolate in VALUE, which is not in MASK.
 */
static const uint8_t bitmap[] = {
    8, 0, 2, 0, 32, 0, 0, 0,
    12, 0, 4, 0, 0x0D, 0, 0, 0, 0xFF, 0xFF, 0xFF, 0xFF,
    12, 0, 5, 0, 0x07, 0, 0, 0, 0xFF, 0xFF, 0xFF, 0xFF,
};

/* The same as BITS: a BIT for each flag, its NAME, and VALUE where it is switched on. */
static const uint8_t list[] = {
    68, 0, 3, 0x80,
    24, 0, 1, 0x80, 16, 0, 2, 0, 's', 't', 'o', 'r', 'm', '-', 'g', 'u', 'a', 'r', 'd', 0, 4, 0, 3, 0,
    20, 0, 1, 0x80, 16, 0, 2, 0, 'v', 'l', 'a', 'n', '-', 'f', 'i', 'l', 't', 'e', 'r', 0,
    20, 0, 1, 0x80, 9, 0, 2, 0, 'l', 'l', 'd', 'p', 0, 0, 0, 0, 4, 0, 3, 0,
};

static void show(const char *what, const uint8_t *bytes, size_t length)
{
    size_t i;

    printf("%s (%lu bytes)\n", what, (unsigned long)length);
    for (i = 0; i < length; i++)
        printf("%s%02X%s", i % 16 == 0 ? "    " : " ", bytes[i], i % 16 == 15 || i + 1 == length ? "\n" : "");
}

/* Shows a request's bitset and its normal form. */
static struct ethnl_form normal(const char *what, const uint8_t *contents, size_t length)
{
    struct ethnl_form form = ethnl_form_of(contents, length, (const uint8_t *)names, sizeof names);

    show(what, contents, length);
    if (form.refusal != 0)
        printf("  refusal %lu: %s\n", (unsigned long)form.refusal, ethnl_strerror(form.refusal));
    else
        show("  normal form: SIZE, VALUE, MASK", form.bytes, form.written);
    return form;
}

int main(void)
{
    struct ethnl_form one = normal("asked for as a bitmap", bitmap, sizeof bitmap);
    struct ethnl_form two = normal("asked for as a list of names", list, sizeof list);
    int same = one.refusal == 0 && one.written == two.written && memcmp(one.bytes, two.bytes, one.written) == 0;

    puts(same ? "equal normal forms: one change, asked for twice" : "two different changes");
    return same ? 0 : 1;
}
