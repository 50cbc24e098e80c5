/*
 * find heap|end|start: the search for a bit name. Bit and count are told, nothing is touched but what was lent, nothing is
 * written but the two results, and the normaliser takes each name for the same bit.
 */
#include "check.h"
#include "ethnl_box.h"
#include "lend.h"
#include "message.h"

enum { NAME = ETHNL_NAME_LEN };

static const uint32_t no_bit = 0xEEEEEEEE;
static const uint64_t no_count = 0xEEEEEEEEEEEEEEEE;

static uint8_t names[(ETHNL_BITS_MAX + 1) * NAME];
static size_t names_len;

/* Puts a name into the list. */
static void put_name(size_t bit, const char *name)
{
    memset(names + bit * NAME, 0, NAME);
    memcpy(names + bit * NAME, name, strlen(name));
}

static const char *const known[] = {"lldp", "",     "link",                            "trip", "lamp", "p", "pump", "ump",
                                    "",     "lldq", "a-name-of-31-bytes-number-1-end", "a-name-of-31-bytes-number-2-end"};

/* Twelve entries: four names of four bytes end in p, and two of 31 bytes begin and end alike. */
static void right_list(void)
{
    for (size_t bit = 0; bit < sizeof known / sizeof *known; bit++)
        put_name(bit, known[bit]);
    names_len = sizeof known / sizeof *known * NAME;
}

/* 512 names that agree in length and last byte. */
static void long_list(void)
{
    char name[NAME];

    for (size_t bit = 0; bit < ETHNL_BITS_MAX; bit++) {
        snprintf(name, sizeof name, "port-%03u-on", (unsigned)bit);
        put_name(bit, name);
    }
    names_len = ETHNL_BITS_MAX * NAME;
}

/* Looks for these bytes: the number, the bit and the count are told, and what may only be read stays. */
static void expect(const char *what, const void *name, size_t length, struct ethnl_found right)
{
    uint8_t *list = lend(FLAG_NAMES, names, names_len), *lent = lend(SOUGHT, name, length);
    uint32_t *found = lend(FOUND, &no_bit, sizeof no_bit), number;
    uint64_t *compared = lend(COMPARED, &no_count, sizeof no_count);

    number = ethnl_find(list, names_len, lent, length, found, compared);
    check(number == right.refusal && *found == right.bit && *compared == right.compared &&
              memcmp(list, names, names_len) == 0 && memcmp(lent, name, length) == 0,
          what);
    take_back();
}

/* The same of a text, through ethnl_find_name too. */
static void expect_text(const char *what, const char *name, uint32_t bit, uint64_t compared)
{
    struct ethnl_found told = ethnl_find_name(names, names_len, name);

    expect(what, name, strlen(name), (struct ethnl_found){0, bit, compared});
    check(told.refusal == 0 && told.bit == bit && told.compared == compared, "  and of a text");
}

static void hits(void)
{
    right_list();
    expect_text("the first entry, which is counted", "lldp", 0, 1);
    expect_text("one of as many bytes with another end before it", "link", 2, 1);
    expect_text("one that agrees before it", "trip", 3, 2);
    expect_text("two that agree before it, one behind it", "lamp", 4, 3);
    expect_text("three that agree before it", "pump", 6, 4);
    expect_text("one byte", "p", 5, 1);
    expect_text("the end of another name", "ump", 7, 1);
    expect_text("31 bytes", "a-name-of-31-bytes-number-1-end", 10, 1);
    expect_text("31 bytes, one that agrees before it", "a-name-of-31-bytes-number-2-end", 11, 2);
}

static void misses(void)
{
    right_list();
    expect_text("an unknown name that agrees with four", "bump", ETHNL_NOT_FOUND, 4);
    expect_text("an unknown name that agrees with two of 31 bytes", "a-name-of-31-bytes-number-3-end", ETHNL_NOT_FOUND, 2);
    expect_text("as long as six, another last byte", "lldx", ETHNL_NOT_FOUND, 0);
    expect_text("the last byte of six, another length", "stamp", ETHNL_NOT_FOUND, 0);
    expect_text("the beginning of a name", "lld", ETHNL_NOT_FOUND, 0);
    expect_text("a name and one byte more", "lldpp", ETHNL_NOT_FOUND, 0);
    expect_text("an empty name", "", ETHNL_NOT_FOUND, 0);
    expect_text("a name of 31 bytes and its last byte again", "a-name-of-31-bytes-number-1-endd", ETHNL_NOT_FOUND, 0);
    expect_text("32 bytes", "a-name-of-32-bytes-number-10-end", ETHNL_NOT_FOUND, 0);
}

static const struct bytes_row {
    const char *what, *bytes;
    size_t length;
    uint64_t compared;
} with_nul[] = {
    {"one NUL", "", 1, 0},
    {"a NUL ahead of bytes that agree", "\0ldp", 4, 0},
    {"a name with its NUL", "lldp", 5, 0},
    {"a NUL for the last byte", "lld", 4, 0},
    {"a NUL inside, compared with those that agree", "l\0dp", 4, 4},
    {"a name, a NUL and more", "lldp\0p", 6, 0},
};

static void nuls(void)
{
    right_list();
    for (size_t at = 0; at < sizeof with_nul / sizeof *with_nul; at++)
        expect(with_nul[at].what, with_nul[at].bytes, with_nul[at].length,
               (struct ethnl_found){0, ETHNL_NOT_FOUND, with_nul[at].compared});
    expect("a name with all NULs of its entry", names, NAME, (struct ethnl_found){0, ETHNL_NOT_FOUND, 0});
}

/* Longer than any entry: nothing of it is compared. */
static void long_names(void)
{
    static uint8_t name[65536 + 4];

    right_list();
    memset(name, 'p', sizeof name);
    for (size_t length = NAME; length < sizeof name; length = 2 * length + 1)
        expect("a name that is too long", name, length, (struct ethnl_found){0, ETHNL_NOT_FOUND, 0});
    expect("one whose length is 4 in its low 16 bits", name, sizeof name, (struct ethnl_found){0, ETHNL_NOT_FOUND, 0});
    expect("one whose length is 4 in its low 8 bits", name, 260, (struct ethnl_found){0, ETHNL_NOT_FOUND, 0});
}

/* Lists of one entry and of as many as there may be. */
static void sizes(void)
{
    long_list();
    expect_text("the first of 512 that agree", "port-000-on", 0, 1);
    expect_text("the 257th", "port-256-on", 256, 257);
    expect_text("the last", "port-511-on", 511, 512);
    expect_text("one that agrees with all 512", "port-512-on", ETHNL_NOT_FOUND, 512);
    names_len = NAME;
    expect_text("in a list of one entry", "port-000-on", 0, 1);
    expect_text("  that is another", "port-001-on", ETHNL_NOT_FOUND, 1);
    memset(names, 0, NAME);
    expect_text("in a list of one empty entry", "port-000-on", ETHNL_NOT_FOUND, 0);
    expect_text("  an empty name", "", ETHNL_NOT_FOUND, 0);
}

/* A list that is refused whatever the name: one that it has, an empty one, one that is too long. */
static void expect_refused(const char *what)
{
    const struct ethnl_found refused = {1, 0, 0};

    expect(what, "lldp", 4, refused);
    expect("  for an empty name", "", 0, refused);
    expect("  for a name of 32 bytes", "a-name-of-31-bytes-number-1-endd", NAME, refused);
    right_list();
}

static void bad_lists(void)
{
    right_list();
    names_len = 0;
    expect_refused("no entry: 1");
    names_len = NAME - 1;
    expect_refused("a first entry cut short: 1");
    names_len += 1;
    expect_refused("a last entry of one byte: 1");
    memset(names + 2 * NAME, 'x', NAME);
    expect_refused("an entry of 32 bytes: 1");
    names[NAME + 9] = 'x';
    expect_refused("a byte behind a NUL: 1");
    put_name(9, "lldp");
    expect_refused("the name twice: 1");
    put_name(9, "link");
    expect_refused("another name twice: 1");
    memset(names, 0, sizeof names);
    put_name(0, "lldp");
    names_len = sizeof names;
    expect_refused("513 entries: 1");
}

/* What is only read may overlap: each name is found where it stands in the list itself. */
static void own_entries(void)
{
    const uint8_t *list;
    int right = 1;

    long_list();
    list = lend(FLAG_NAMES, names, names_len);
    for (size_t bit = 0; bit < ETHNL_BITS_MAX; bit++) {
        struct ethnl_found told = ethnl_find_name(list, names_len, (const char *)list + bit * NAME);
        right &= told.refusal == 0 && told.bit == bit && told.compared == bit + 1;
    }
    check(right, "each of 512 names, lent as it stands in the list");
    take_back();
}

/* The bit of 512 that the normal form of one BIT with this name masks; ETHNL_NOT_FOUND where it is refused by 21. */
static uint32_t masked(const char *name)
{
    struct message contents = {.length = 0};
    size_t list = begin_nest(&contents, BITS);
    struct ethnl_form form;

    put_bit(&contents, NO_INDEX, name, 1);
    end_nest(&contents, list);
    form = ethnl_form_of(contents.bytes, contents.length, names, names_len);
    if (form.refusal == ETHNL_REFUSAL_UNKNOWN_BIT)
        return ETHNL_NOT_FOUND;
    for (uint32_t bit = 0; bit < ETHNL_BITS_MAX; bit++)
        if (form.bytes[ETHNL_FORM_MAX - ETHNL_SET_LEN(ETHNL_BITS_MAX) + bit / 8] >> bit % 8 & 1)
            return bit;
    return no_bit;
}

static void same_bits(void)
{
    static const char *const sought[] = {"port-000-on", "port-001-on", "port-256-on",
                                         "port-511-on", "port-512-on", "port-51-on"};

    long_list();
    for (size_t at = 0; at < sizeof sought / sizeof *sought; at++)
        check(masked(sought[at]) == ethnl_find_name(names, names_len, sought[at]).bit,
              "a BIT by a name means the bit that is found");
}

int main(int argc, char **argv)
{
    if (argc != 2 || !lend_by(argv[1]))
        return 2;
    hits();
    misses();
    nuls();
    long_names();
    sizes();
    bad_lists();
    own_entries();
    same_bits();
    return checked();
}
