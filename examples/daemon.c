/*
 * daemon BOXFILE: serves ethtool requests for the ports of a box.
 *
 * Standard input is a run of datagrams, each after its length as a 32-bit little-endian number. Standard output
 * gets the messages that answer them likewise; a reply and its ACK are two, a dump gets one for each port and DONE.
 * Settings live as long as the program does. Standard error tells of every refusal, by its number in ethnl.h and a
 * sentence.
 *
 *     cc -o daemon daemon.c box.c $(pkg-config --cflags --libs ethnl)
 */
#include "box.h"

#include <stdio.h>
#include <stdlib.h>

static struct box box;
static uint8_t datagram[ETHNL_DATAGRAM_MAX];
static uint8_t page[ETHNL_PAGE_MIN];

static uint32_t number_at(const uint8_t *bytes)
{
    return (uint32_t)bytes[3] << 24 | (uint32_t)bytes[2] << 16 | (uint32_t)bytes[1] << 8 | bytes[0];
}

/* Reads the next datagram's length; 0 at the end of the input. */
static int read_length(uint32_t *length)
{
    uint8_t bytes[4];
    size_t got = fread(bytes, 1, sizeof bytes, stdin);

    if (got == 0 && feof(stdin))
        return 0;
    if (got < sizeof bytes) {
        fputs("daemon: input ends inside a length\n", stderr);
        exit(1);
    }
    *length = number_at(bytes);
    return 1;
}

static void read_datagram(uint32_t length)
{
    if (length > sizeof datagram) {
        fprintf(stderr, "daemon: datagram of %lu bytes, at most %u\n", (unsigned long)length, ETHNL_DATAGRAM_MAX);
        exit(1);
    }
    if (fread(datagram, 1, length, stdin) < length) {
        fputs("daemon: input ends inside a datagram\n", stderr);
        exit(1);
    }
}

/* Writes the messages of the page. Each begins with its length, which stands before it too. */
static void write_messages(uint64_t written)
{
    uint64_t at;
    uint32_t length;

    for (at = 0; at < written; at += length) {
        length = number_at(page + at);
        if (fwrite(page + at, 1, 4, stdout) < 4 || fwrite(page + at, 1, length, stdout) < length) {
            perror("daemon: standard output");
            exit(1);
        }
    }
}

static void tell_refusal(uint32_t refusal, uint64_t position)
{
    fprintf(stderr, "daemon: refusal %lu at byte %lu of the datagram: %s\n", (unsigned long)refusal,
            (unsigned long)position, ethnl_strerror(refusal));
}

/* Answers each message in turn, a dump place by place, up to the end or a refusal that says nothing can follow. */
static void serve(const struct ethnl_box *lent, uint32_t length)
{
    struct ethnl_answer answer;
    uint64_t position = 0, place = 0;

    for (;; position = answer.next, place = answer.next_place) {
        answer = ethnl_box_handle(lent, datagram, length, position, place, page, sizeof page);
        if (answer.kind == ETHNL_REFUSED)
            tell_refusal(answer.refusal, position);
        if (answer.kind == ETHNL_END || (answer.kind == ETHNL_REFUSED && answer.refusal <= ETHNL_LAST_SILENT))
            return;
        write_messages(answer.written);
    }
}

/* Tells where the fault begins, as the box file counts: ports from 1, bits from 0. */
static void tell_place(const struct ethnl_fault *fault)
{
    unsigned long offset = (unsigned long)fault->offset;

    if (fault->part == ETHNL_PART_ROLL)
        fprintf(stderr, "daemon: the fault begins at its port line %lu\n", offset / ETHNL_ROLL_RECORD + 1);
    else if (fault->part == ETHNL_PART_DEBUG_NAMES || fault->part == ETHNL_PART_FLAG_NAMES)
        fprintf(stderr, "daemon: the fault begins at bit %lu of it\n", offset / ETHNL_NAME_LEN);
    else if (fault->part == ETHNL_PART_SETTINGS)
        fprintf(stderr, "daemon: the fault begins at byte %lu of it\n", offset);
}

/* Whether the box keeps every rule; tells which part does not, and where. */
static int is_right(const struct ethnl_box *lent, const char *path)
{
    struct ethnl_fault fault = ethnl_box_check(lent);

    if (fault.part == ETHNL_PART_NONE)
        return 1;
    fprintf(stderr, "daemon: %s: %s\n", path, ethnl_strpart(fault.part));
    tell_place(&fault);
    return 0;
}

int main(int argc, char **argv)
{
    struct ethnl_box lent;
    uint32_t length;

    if (argc != 2) {
        fputs("usage: daemon BOXFILE <datagrams >answers\n", stderr);
        return 2;
    }
    if (box_read(&box, argv[1]) != 0)
        return 1;
    lent = box_lent(&box);
    if (!is_right(&lent, argv[1]))
        return 1;
    while (read_length(&length)) {
        read_datagram(length);
        serve(&lent, length);
        fflush(stdout);
    }
    return 0;
}
