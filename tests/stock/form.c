/*
 * form BOXFILE <sent: for each SET among recorded datagrams one line with the port's name, the request's bytes from
 * its generic header on, and the normal form of its bitset, or the number by which the library refuses the request.
 */
#include "box.h"
#include "message.h"

#include <stdio.h>

enum { HEADERS = 20 };

struct part {
    const uint8_t *bytes;
    size_t length;
};

/* The payload of the attribute of a type that counts, which is the last; nothing where there is none. */
static struct part find(struct part parent, uint16_t type)
{
    struct part found = {NULL, 0};
    uint16_t head[2];

    for (size_t at = 0; at + 4 <= parent.length; at += (head[0] + 3u) & ~3u) {
        memcpy(head, parent.bytes + at, sizeof head);
        if (head[0] < 4 || head[0] > parent.length - at)
            break;
        if ((head[1] & ~NESTED) == type)
            found = (struct part){parent.bytes + at + 4, head[0] - 4u};
    }
    return found;
}

static void print_hex(const char *title, const uint8_t *bytes, size_t length)
{
    printf(" %s ", title);
    for (size_t at = 0; at < length; at++)
        printf("%02x", bytes[at]);
}

/* The name of the port that a header names: by its index, if it gives one, else by the name itself. */
static void print_port(const struct box *box, struct part header)
{
    struct part index = find(header, PORT_INDEX), name = find(header, PORT_NAME);

    for (size_t at = 0; index.length == 4 && at < box->roll_len; at += ETHNL_ROLL_RECORD)
        if (memcmp(box->roll + at + 1, index.bytes, 4) == 0)
            name = (struct part){box->roll + at + 5, ETHNL_PORT_NAME_LEN};
    printf("%.*s", (int)name.length, name.length > 0 ? (const char *)name.bytes : "");
}

static void print_form(const struct box *box, uint8_t command, struct part contents)
{
    int is_debug = command == DEBUG_SET;
    const uint8_t *names = is_debug ? box->debug_names : box->flag_names;
    size_t names_len = is_debug ? box->debug_names_len : box->flag_names_len;
    uint8_t page[ETHNL_FORM_MAX];
    uint64_t written;

    ethnl_normalise(contents.bytes, contents.length, names, names_len, page, sizeof page, &written);
    print_hex("form", page, written);
}

static void print_set(const struct box *box, struct part message, uint32_t refusal)
{
    struct part top = {message.bytes + HEADERS, message.length - HEADERS};

    print_port(box, find(top, HEADER));
    print_hex("request", message.bytes + 16, message.length - 16);
    if (refusal != 0)
        printf(" refusal %u", refusal);
    else
        print_form(box, message.bytes[16], find(top, BITSET));
    putchar('\n');
}

/* What the library makes of each message decides: a form is told only of a change that is made. */
static void print_sets(struct box *box, struct part datagram)
{
    static uint8_t page[ETHNL_PAGE_MIN];
    struct ethnl_answer answer;
    uint32_t length;

    for (uint64_t position = 0, place = 0;; position = answer.next, place = answer.next_place) {
        const uint8_t *message = datagram.bytes + position;
        answer = box_handle(box, datagram.bytes, datagram.length, position, place, page);
        if (answer.kind == ETHNL_END || (answer.kind == ETHNL_REFUSED && answer.refusal <= ETHNL_LAST_SILENT))
            return;
        memcpy(&length, message, sizeof length);
        if (answer.kind != ETHNL_SKIPPED && length >= HEADERS &&
            (message[16] == DEBUG_SET || message[16] == PRIVFLAGS_SET))
            print_set(box, (struct part){message, length}, answer.refusal);
    }
}

int main(int argc, char **argv)
{
    static struct box box;
    static uint8_t datagram[ETHNL_DATAGRAM_MAX];
    uint32_t length;

    if (argc != 2 || box_read(&box, argv[1]) != 0)
        return 2;
    while (fread(&length, sizeof length, 1, stdin) == 1 && length <= sizeof datagram &&
           fread(datagram, 1, length, stdin) == length)
        print_sets(&box, (struct part){datagram, length});
    return 0;
}
