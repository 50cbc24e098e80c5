/*
 * exact heap|end|start <cases: every case of `dump` (tests/dump tells its form), called with buffers of exactly the
 * stated lengths, and compared with the reader's answer. What the library may only read, and the page past the
 * answer, must stay as they were.
 */
#include "ethnl.h"
#include "lend.h"

#include <stdio.h>
#include <stdlib.h>
#include <string.h>

/* Bytes that were read from standard input. */
struct bytes {
    uint8_t *at;
    uint32_t length;
};

static unsigned long cases, failed;

static void read_exactly(void *to, size_t length)
{
    if (fread(to, 1, length, stdin) != length) {
        fputs("exact: the cases end too early\n", stderr);
        exit(2);
    }
}

static uint32_t read_u32(void)
{
    uint32_t number;

    read_exactly(&number, sizeof number);
    return number;
}

static uint64_t read_u64(void)
{
    uint64_t number;

    read_exactly(&number, sizeof number);
    return number;
}

static struct bytes read_bytes(void)
{
    struct bytes bytes = {.length = read_u32()};

    bytes.at = malloc(bytes.length + 1);
    read_exactly(bytes.at, bytes.length);
    return bytes;
}

static uint8_t *lend_bytes(enum slot slot, struct bytes bytes)
{
    return lend(slot, bytes.at, bytes.length);
}

static int same(const uint8_t *lent, struct bytes bytes)
{
    return memcmp(lent, bytes.at, bytes.length) == 0;
}

/* The page's byte before a call. */
static uint8_t filling(size_t place)
{
    return (uint8_t)(place * 31 + cases * 7 + 1);
}

static uint8_t *lend_page(size_t length)
{
    uint8_t *page = lend(PAGE, NULL, length);

    for (size_t place = 0; place < length; place++)
        page[place] = filling(place);
    return page;
}

/* Whether the page holds the answer and nothing else has changed. */
static int page_holds(const uint8_t *page, size_t length, struct bytes answer)
{
    if (answer.length > length || !same(page, answer))
        return 0;
    for (size_t place = answer.length; place < length; place++)
        if (page[place] != filling(place))
            return 0;
    return 1;
}

static void judge(int right, const char *call)
{
    cases++;
    if (!right) {
        failed++;
        printf("FAILED: case %lu, %s\n", cases - 1, call);
    }
    take_back();
}

static void handle_case(void)
{
    uint32_t family = read_u32(), admin = read_u32();
    struct bytes roll = read_bytes(), debug_names = read_bytes(), flag_names = read_bytes();
    struct bytes settings = read_bytes(), datagram = read_bytes();
    uint64_t position = read_u64(), place = read_u64();
    uint32_t page_len = read_u32(), expected_kind = read_u32(), expected_refusal = read_u32();
    uint64_t expected_next = read_u64(), expected_next_place = read_u64();
    struct bytes answer = read_bytes(), settings_after = read_bytes();
    uint8_t *lent_roll = lend_bytes(ROLL, roll), *lent_debug = lend_bytes(DEBUG_NAMES, debug_names);
    uint8_t *lent_flags = lend_bytes(FLAG_NAMES, flag_names), *lent_settings = lend_bytes(SETTINGS, settings);
    uint8_t *lent_datagram = lend_bytes(DATAGRAM, datagram), *page = lend_page(page_len);
    uint32_t *kind = lend(KIND, NULL, sizeof *kind), *refusal = lend(REFUSAL, NULL, sizeof *refusal);
    uint64_t *next = lend(NEXT, NULL, sizeof *next), *next_place = lend(NEXT_PLACE, NULL, sizeof *next_place);
    uint64_t *written = lend(WRITTEN, NULL, sizeof *written);

    ethnl_handle(family, admin, lent_roll, roll.length, lent_debug, debug_names.length, lent_flags,
                 flag_names.length, lent_settings, settings.length, lent_datagram, datagram.length, position, place,
                 page, page_len, kind, refusal, next, next_place, written);
    judge(*kind == expected_kind && *refusal == expected_refusal && *next == expected_next &&
              *next_place == expected_next_place && *written == answer.length && page_holds(page, page_len, answer) &&
              same(lent_settings, settings_after) && same(lent_roll, roll) && same(lent_debug, debug_names) &&
              same(lent_flags, flag_names) && same(lent_datagram, datagram),
          "handle");
    free(roll.at), free(debug_names.at), free(flag_names.at), free(settings.at), free(datagram.at);
    free(answer.at), free(settings_after.at);
}

static void normalise_case(void)
{
    struct bytes contents = read_bytes(), names = read_bytes();
    uint32_t page_len = read_u32(), expected = read_u32();
    struct bytes form = read_bytes();
    uint8_t *lent_contents = lend_bytes(DATAGRAM, contents), *lent_names = lend_bytes(FLAG_NAMES, names);
    uint8_t *page = lend_page(page_len);
    uint64_t *written = lend(WRITTEN, NULL, sizeof *written);
    uint32_t number = ethnl_normalise(lent_contents, contents.length, lent_names, names.length, page, page_len,
                                      written);

    judge(number == expected && *written == form.length && page_holds(page, page_len, form) &&
              same(lent_contents, contents) && same(lent_names, names),
          "normalise");
    free(contents.at), free(names.at), free(form.at);
}

static void check_box_case(void)
{
    uint32_t family = read_u32(), admin = read_u32();
    struct bytes roll = read_bytes(), debug_names = read_bytes(), flag_names = read_bytes(), settings = read_bytes();
    uint32_t expected = read_u32();
    uint64_t expected_offset = read_u64();
    uint8_t *lent_roll = lend_bytes(ROLL, roll), *lent_debug = lend_bytes(DEBUG_NAMES, debug_names);
    uint8_t *lent_flags = lend_bytes(FLAG_NAMES, flag_names), *lent_settings = lend_bytes(SETTINGS, settings);
    uint64_t *offset = lend(OFFSET, NULL, sizeof *offset);
    uint32_t part = ethnl_check_box(family, admin, lent_roll, roll.length, lent_debug, debug_names.length, lent_flags,
                                    flag_names.length, lent_settings, settings.length, offset);

    judge(part == expected && *offset == expected_offset && same(lent_roll, roll) && same(lent_debug, debug_names) &&
              same(lent_flags, flag_names) && same(lent_settings, settings),
          "check_box");
    free(roll.at), free(debug_names.at), free(flag_names.at), free(settings.at);
}

static void find_case(void)
{
    struct bytes names = read_bytes(), name = read_bytes();
    uint32_t expected = read_u32(), expected_found = read_u32();
    uint64_t expected_compared = read_u64();
    uint8_t *lent_names = lend_bytes(FLAG_NAMES, names), *lent_name = lend_bytes(SOUGHT, name);
    uint32_t *found = lend(FOUND, NULL, sizeof *found);
    uint64_t *compared = lend(COMPARED, NULL, sizeof *compared);
    uint32_t number = ethnl_find(lent_names, names.length, lent_name, name.length, found, compared);

    judge(number == expected && *found == expected_found && *compared == expected_compared && same(lent_names, names) &&
              same(lent_name, name),
          "find");
    free(names.at), free(name.at);
}

/* Takes up a case of the given sort; 0 if there is none such. */
static int take_case(uint32_t sort)
{
    if (sort == 1)
        handle_case();
    else if (sort == 2)
        normalise_case();
    else if (sort == 3)
        check_box_case();
    else if (sort == 4)
        find_case();
    else
        return 0;
    return 1;
}

int main(int argc, char **argv)
{
    uint32_t sort;

    if (argc != 2 || !lend_by(argv[1]))
        return 2;
    for (sort = read_u32(); take_case(sort); sort = read_u32())
        ;
    if (sort != 0) {
        fprintf(stderr, "exact: no sort of case has the number %u\n", sort);
        return 2;
    }
    printf("%lu passed, %lu failed\n", cases - failed, failed);
    return failed != 0;
}
