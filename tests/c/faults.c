/*
 * faults heap|end|start: ethnl_check_box on boxes that break one rule, or two. The part and the offset are told, nothing is
 * touched but what was lent, nothing but the offset is written, and ethnl_handle refuses the same boxes by 1.
 */
#include "check.h"
#include "quay_box.h"

/* What is told of the box as it stands; then the next begins with the right one. */
static void expect(const char *what, uint32_t part, uint64_t offset)
{
    struct ethnl_box lent = lent_box();
    struct ethnl_fault fault = ethnl_box_check(&lent);
    uint8_t *page = lend(PAGE, NULL, ETHNL_PAGE_MIN);
    struct ethnl_answer answer = ethnl_box_handle(&lent, lend(DATAGRAM, NULL, 0), 0, 0, 0, page, ETHNL_PAGE_MIN);

    check(fault.part == part && fault.offset == offset && is_unchanged(&lent), what);
    check(answer.refusal == (part == ETHNL_PART_NONE ? 0 : ETHNL_REFUSAL_BOX), "  and ethnl_handle agrees");
    take_back();
    right_box();
}

static void numbers(void)
{
    expect("a right box", ETHNL_PART_NONE, 0);
    box.family = ETHNL_FAMILY_MIN;
    expect("family 16", ETHNL_PART_NONE, 0);
    box.family = ETHNL_FAMILY_MIN - 1;
    expect("family 15", ETHNL_PART_FAMILY, 0);
    box.family = ETHNL_FAMILY_MAX + 1;
    box.admin = 2;
    expect("family 65536, admin 2", ETHNL_PART_FAMILY, 0);
    box.admin = 2;
    box.roll_len = 0;
    expect("admin 2, no port", ETHNL_PART_ADMIN, 0);
}

static void roll_records(void)
{
    box.roll_len = 0;
    expect("no port", ETHNL_PART_ROLL, 0);
    roll[0] = 3;
    expect("a first record of unknown kind", ETHNL_PART_ROLL, 0);
    roll[PORT] = 0;
    expect("a second record of unknown kind", ETHNL_PART_ROLL, PORT);
    box.roll_len = PORT - 1;
    expect("a first record cut short", ETHNL_PART_ROLL, 0);
    box.roll_len = 2 * PORT + 1;
    expect("a third record cut short", ETHNL_PART_ROLL, 2 * PORT);
    box.roll_len = 64 * PORT;
    box.settings_len = 64 * PORT_SETTINGS;
    expect("64 ports", ETHNL_PART_NONE, 0);
    box.roll_len = 65 * PORT;
    box.settings_len = 65 * PORT_SETTINGS;
    expect("65 ports", ETHNL_PART_ROLL, 64 * PORT);
}

static void roll_values(void)
{
    roll[PORT + 1] = 0;
    expect("index 0", ETHNL_PART_ROLL, PORT);
    roll[PORT + 4] = 0x80;
    expect("index 2147483650", ETHNL_PART_ROLL, PORT);
    roll[5] = 0;
    expect("a port without a name", ETHNL_PART_ROLL, 0);
    memset(roll + PORT + 5, 'x', ETHNL_PORT_NAME_LEN);
    expect("a port's name of 16 bytes", ETHNL_PART_ROLL, PORT);
    roll[PORT + 5 + 7] = 'x';
    expect("a byte behind a port's name", ETHNL_PART_ROLL, PORT);
    roll[PORT + 1] = roll[1];
    expect("a repeated index", ETHNL_PART_ROLL, PORT);
    memcpy(roll + PORT + 5, roll + 5, ETHNL_PORT_NAME_LEN);
    expect("a repeated port's name", ETHNL_PART_ROLL, PORT);
    roll[PORT] = 0;
    box.debug_names_len = 0;
    expect("roll and debug names at fault", ETHNL_PART_ROLL, PORT);
}

/* The faults of one of the two lists. */
static void list(uint8_t *names, size_t *names_len, uint32_t part)
{
    *names_len = 0;
    expect("no entry", part, 0);
    *names_len = NAME - 1;
    expect("a first entry cut short", part, 0);
    *names_len = 2 * NAME + 16;
    expect("a third entry cut short", part, 2 * NAME);
    memset(names + NAME, 'x', NAME);
    expect("a name of 32 bytes", part, NAME);
    names[2 * NAME + 9] = 'x';
    expect("a byte behind a name", part, 2 * NAME);
    strcpy((char *)names, "equal");
    strcpy((char *)names + 2 * NAME, "equal");
    expect("a repeated name", part, 2 * NAME);
    *names_len = 513 * NAME;
    expect("513 entries", part, 512 * NAME);
}

static void lists(void)
{
    list(debug_names, &box.debug_names_len, ETHNL_PART_DEBUG_NAMES);
    list(flag_names, &box.flag_names_len, ETHNL_PART_FLAG_NAMES);
    box.debug_names_len = box.flag_names_len = 512 * NAME;
    box.settings_len = 0;
    expect("512 entries, no settings", ETHNL_PART_SETTINGS, 0);
    box.debug_names_len = 513 * NAME;
    box.flag_names_len = 0;
    expect("both lists at fault", ETHNL_PART_DEBUG_NAMES, 512 * NAME);
    box.flag_names_len = NAME - 1;
    box.settings_len = 0;
    expect("flag names and settings at fault", ETHNL_PART_FLAG_NAMES, 0);
}

static void words(void)
{
    box.settings_len = 0;
    expect("no settings", ETHNL_PART_SETTINGS, 0);
    box.settings_len = 2 * PORT_SETTINGS - 1;
    settings[0] = 0xFF;
    expect("settings one byte short, and a bit past N", ETHNL_PART_SETTINGS, 2 * PORT_SETTINGS - 1);
    box.settings_len = 2 * PORT_SETTINGS + 4;
    expect("settings one word too long", ETHNL_PART_SETTINGS, 2 * PORT_SETTINGS);
    memset(settings + 4, 0xFF, 4);
    settings[8] = 1;
    settings[PORT_SETTINGS] = 7;
    expect("all bits below N on", ETHNL_PART_NONE, 0);
    settings[0] = 8;
    expect("debug bit 3 of the first port", ETHNL_PART_SETTINGS, 0);
    settings[11] = 0x80;
    settings[PORT_SETTINGS] = 0xFF;
    expect("flag 63 of the first port, then another", ETHNL_PART_SETTINGS, 8);
    settings[PORT_SETTINGS + 8] = 2;
    expect("flag 33 of the second port", ETHNL_PART_SETTINGS, PORT_SETTINGS + 8);
}

int main(int argc, char **argv)
{
    if (argc != 2 || !lend_by(argv[1]))
        return 2;
    right_box();
    numbers();
    roll_records();
    roll_values();
    lists();
    words();
    return checked();
}
