#include "box.h"

#include <stdio.h>
#include <stdlib.h>
#include <string.h>

static char *next_word(void)
{
    return strtok(NULL, " \t\r\n");
}

/* Whether a word is a number from least to most: digits alone, few enough for 32 bits. */
static int is_number(const char *word, unsigned long least, unsigned long most, unsigned long *number)
{
    size_t digits = word != NULL ? strspn(word, "0123456789") : 0;

    if (digits == 0 || digits > 10 || word[digits] != '\0')
        return 0;
    *number = strtoul(word, NULL, 10);
    return *number >= least && *number <= most;
}

static const char *line_ends(void)
{
    return next_word() != NULL ? "a word too many" : NULL;
}

/* "family NUMBER" */
static const char *family_line(struct box *box)
{
    unsigned long number;

    if (!is_number(next_word(), ETHNL_FAMILY_MIN, ETHNL_FAMILY_MAX, &number))
        return "a family is a number from 16 to 65535";
    box->family = (uint32_t)number;
    return line_ends();
}

/* "admin NUMBER" */
static const char *admin_line(struct box *box)
{
    unsigned long number;

    if (!is_number(next_word(), 0, 1, &number))
        return "admin is 0 or 1";
    box->admin = (uint32_t)number;
    return line_ends();
}

/* "debug NAME [COUNT]", "flag NAME [COUNT]": the next bits of a list, all with this name; "-" is no name. */
static const char *bits_line(uint8_t *list, size_t *length)
{
    const char *name = next_word(), *count = next_word();
    unsigned long bits = 1;

    if (name == NULL || strlen(name) >= ETHNL_NAME_LEN)
        return "a bit has a name of 1 to 31 bytes, or -";
    if (count != NULL && !is_number(count, 1, ETHNL_BITS_MAX, &bits))
        return "a count is a number from 1 to 512";
    for (; bits > 0; bits--, *length += ETHNL_NAME_LEN) {
        if (*length == ETHNL_BITS_MAX * ETHNL_NAME_LEN)
            return "a list has at most 512 bits";
        if (strcmp(name, "-") != 0)
            memcpy(list + *length, name, strlen(name));
    }
    return line_ends();
}

/* What follows "port INDEX NAME": "debug BIT..", "flags BIT..", the bits that are on at the start. */
static const char *starting_bits(uint8_t *debug, size_t debug_bits, uint8_t *flags, size_t flag_bits)
{
    uint8_t *set = NULL;
    size_t bits = 0;
    unsigned long bit;
    const char *word;

    for (word = next_word(); word != NULL; word = next_word()) {
        if (strcmp(word, "debug") == 0)
            set = debug, bits = debug_bits;
        else if (strcmp(word, "flags") == 0)
            set = flags, bits = flag_bits;
        else if (set == NULL)
            return "after a port's name: debug BIT.., flags BIT..";
        else if (!is_number(word, 0, ETHNL_BITS_MAX, &bit) || bit >= bits)
            return "not a bit of this set";
        else
            set[bit / 8] |= (uint8_t)(1 << bit % 8);
    }
    return NULL;
}

/* One record of the roll. */
static void put_port(uint8_t *record, unsigned long index, const char *name)
{
    int byte;

    record[0] = ETHNL_ROLL_PORT;
    for (byte = 0; byte < 4; byte++)
        record[1 + byte] = (uint8_t)(index >> 8 * byte);
    memcpy(record + 5, name, strlen(name));
}

/* "port INDEX NAME ..": its record and its two sets. */
static const char *port_line(struct box *box)
{
    const char *number = next_word(), *name = next_word();
    uint8_t *debug = box->settings + box->settings_len;
    size_t debug_bits = box->debug_names_len / ETHNL_NAME_LEN, flag_bits = box->flag_names_len / ETHNL_NAME_LEN;
    unsigned long index;

    if (!is_number(number, 1, ETHNL_INDEX_MAX, &index))
        return "a port's index is a number from 1 to 2147483647";
    if (name == NULL || strlen(name) >= ETHNL_PORT_NAME_LEN)
        return "a port has a name of 1 to 15 bytes";
    if (box->roll_len == sizeof box->roll)
        return "a box has at most 64 ports";
    put_port(box->roll + box->roll_len, index, name);
    box->roll_len += ETHNL_ROLL_RECORD;
    box->settings_len += ETHNL_SET_LEN(debug_bits) + ETHNL_SET_LEN(flag_bits);
    return starting_bits(debug, debug_bits, debug + ETHNL_SET_LEN(debug_bits), flag_bits);
}

/* Takes up one line; returns what is wrong with it. */
static const char *read_line(struct box *box, char *line)
{
    const char *key = strtok(line, " \t\r\n");

    if (key == NULL || key[0] == '#')
        return NULL;
    if (strcmp(key, "family") == 0)
        return family_line(box);
    if (strcmp(key, "admin") == 0)
        return admin_line(box);
    if (strcmp(key, "port") == 0)
        return port_line(box);
    if (strcmp(key, "debug") != 0 && strcmp(key, "flag") != 0)
        return "a line begins with family, admin, debug, flag, port or #";
    if (box->roll_len > 0)
        return "both lists stand before the first port";
    if (strcmp(key, "debug") == 0)
        return bits_line(box->debug_names, &box->debug_names_len);
    return bits_line(box->flag_names, &box->flag_names_len);
}

/* Takes up the lines of a file; returns what is wrong with the last that was read. */
static const char *read_lines(struct box *box, FILE *file, int *number)
{
    char line[4096];
    const char *wrong = NULL;

    for (*number = 1; wrong == NULL && fgets(line, sizeof line, file) != NULL; ++*number) {
        if (strchr(line, '\n') == NULL && !feof(file))
            wrong = "a line is too long, or has a NUL";
        else
            wrong = read_line(box, line);
    }
    --*number;
    return wrong;
}

int box_read(struct box *box, const char *path)
{
    FILE *file = fopen(path, "r");
    const char *wrong;
    int number, unread;

    memset(box, 0, sizeof *box);
    if (file == NULL) {
        perror(path);
        return -1;
    }
    wrong = read_lines(box, file, &number);
    unread = ferror(file);
    if (wrong != NULL)
        fprintf(stderr, "%s:%d: %s\n", path, number, wrong);
    else if (unread)
        perror(path);
    fclose(file);
    return wrong != NULL || unread ? -1 : 0;
}

struct ethnl_box box_lent(struct box *box)
{
    struct ethnl_box lent;

    lent.family = box->family;
    lent.admin = box->admin;
    lent.roll = box->roll;
    lent.roll_len = box->roll_len;
    lent.debug_names = box->debug_names;
    lent.debug_names_len = box->debug_names_len;
    lent.flag_names = box->flag_names;
    lent.flag_names_len = box->flag_names_len;
    lent.settings = box->settings;
    lent.settings_len = box->settings_len;
    return lent;
}

struct ethnl_answer box_handle(struct box *box, const uint8_t *datagram, size_t length, uint64_t position,
                               uint64_t place, uint8_t *page)
{
    struct ethnl_box lent = box_lent(box);

    return ethnl_box_handle(&lent, datagram, length, position, place, page, ETHNL_PAGE_MIN);
}
