#include "wire_end.h"

#include "box.h"
#include "family.h"

#include <errno.h>
#include <fcntl.h>
#include <linux/genetlink.h>
#include <linux/netlink.h>
#include <stdio.h>
#include <stdlib.h>
#include <string.h>
#include <sys/file.h>

static struct box box;

/* What belongs to one socket. */
static struct end {
    /* The datagram that is being answered, and the position and place of what comes next. */
    uint8_t datagram[ETHNL_DATAGRAM_MAX];
    size_t length;
    uint64_t position, place;
    int unfinished;
    /* Answers that the tool has not read yet. */
    uint8_t queue[4 * ETHNL_PAGE_MIN];
    size_t queue_start, queue_end;
} ends[SOCKETS];

/* Whether the notifications have been handed out. */
static int notified;

/* Opens the file that an environment variable names; null where there is none. */
static FILE *open_named(const char *variable, const char *mode)
{
    const char *path = getenv(variable);

    return path != NULL ? fopen(path, mode) : NULL;
}

/* A box file whose lines are right one by one may still break a rule: every request is refused by 1 then. */
static void tell_fault(void)
{
    struct ethnl_box lent = box_lent(&box);
    struct ethnl_fault fault = ethnl_box_check(&lent);

    if (fault.part != ETHNL_PART_NONE)
        fprintf(stderr, "shim: the box breaks a rule: %s At byte %lu of it.\n", ethnl_strpart(fault.part),
                (unsigned long)fault.offset);
}

void open_end(int fd)
{
    const char *path = getenv("ETHNL_BOX");

    if (path == NULL || box_read(&box, path) != 0) {
        fputs("shim: no box\n", stderr);
        exit(99);
    }
    tell_fault();
    ends[fd].unfinished = 0;
    ends[fd].queue_start = ends[fd].queue_end = 0;
}

/* Reads the settings as they are now, and keeps other tools off them; null where they are in no file. */
static FILE *take_settings(void)
{
    const char *path = getenv("ETHNL_STATE");
    int fd = path != NULL ? open(path, O_RDWR | O_CREAT, 0666) : -1;
    FILE *state = fd >= 0 && flock(fd, LOCK_EX) == 0 ? fdopen(fd, "r+b") : NULL;
    size_t length = state != NULL ? fread(box.settings, 1, box.settings_len, state) : 0;

    if (length != 0 && length != box.settings_len)
        fputs("shim: the state file is too short\n", stderr);
    return state;
}

static void give_back_settings(FILE *state)
{
    if (state == NULL)
        return;
    rewind(state);
    fwrite(box.settings, 1, box.settings_len, state);
    fclose(state);
}

static void record(const void *datagram, uint32_t length)
{
    FILE *sent = open_named("ETHNL_SENT", "ab");

    if (sent == NULL)
        return;
    fwrite(&length, sizeof length, 1, sent);
    fwrite(datagram, 1, length, sent);
    fclose(sent);
}

/* Puts a line after the others of a file. */
static void record_line(const char *variable, const char *line)
{
    FILE *lines = open_named(variable, "a");

    if (lines == NULL)
        return;
    fprintf(lines, "%s\n", line);
    fclose(lines);
}

static void record_refusal(uint32_t refusal)
{
    char number[16];

    snprintf(number, sizeof number, "%u", refusal);
    record_line("ETHNL_REFUSALS", number);
}

void record_outside(const char *how)
{
    record_line("ETHNL_OUTSIDE", how);
}

static void queue_answer(struct end *end, const void *bytes, size_t length)
{
    if (length > sizeof end->queue - end->queue_end) {
        fputs("shim: too many answers\n", stderr);
        exit(99);
    }
    memcpy(end->queue + end->queue_end, bytes, length);
    end->queue_end += length;
}

/* Where a dump is to be held, tells the fifo which place comes next, and waits for a word from it. */
static void hold(const struct end *end)
{
    FILE *fifo = end->place != 0 ? open_named("ETHNL_HOLD", "w") : NULL;

    if (fifo == NULL)
        return;
    fprintf(fifo, "%lu\n", (unsigned long)end->place);
    fclose(fifo);
    fifo = open_named("ETHNL_HOLD", "r");
    getc(fifo);
    fclose(fifo);
}

/* One call of the library, on the settings as they are at this moment. */
static struct ethnl_answer call(const struct end *end, uint8_t *page)
{
    FILE *state = take_settings();
    struct ethnl_answer answer = box_handle(&box, end->datagram, end->length, end->position, end->place, page);

    give_back_settings(state);
    return answer;
}

/* Answers the datagram up to its end, a refusal that nothing can follow, or a message that a dump goes on after. */
static void serve(struct end *end)
{
    static uint8_t page[ETHNL_PAGE_MIN];
    struct ethnl_answer answer;

    do {
        hold(end);
        answer = call(end, page);
        if (answer.kind == ETHNL_REFUSED)
            record_refusal(answer.refusal);
        if (getenv("ETHNL_LOSE") == NULL)
            queue_answer(end, page, answer.written);
        end->position = answer.next;
        end->place = answer.next_place;
        end->unfinished = answer.kind != ETHNL_END &&
                          !(answer.kind == ETHNL_REFUSED && answer.refusal <= ETHNL_LAST_SILENT);
    } while (end->unfinished && end->place == 0);
}

static void begin_serving(struct end *end, const void *datagram, size_t length)
{
    if (length > sizeof end->datagram || end->unfinished) {
        fputs("shim: a datagram too long, or in the middle of a dump\n", stderr);
        exit(99);
    }
    memcpy(end->datagram, datagram, length);
    end->length = length;
    end->position = end->place = 0;
    serve(end);
}

/* Whether another request takes the place of the tool's: of any, or of those with one command. */
static int is_replaced(const void *of_tool)
{
    const char *command = getenv("ETHNL_INSTEAD_OF");

    return command == NULL || atoi(command) == ((const uint8_t *)of_tool)[sizeof(struct nlmsghdr)];
}

/* Reads the request that takes the place of the tool's; the header's type, flags, sequence and port id stay the tool's. */
static size_t read_instead(uint8_t *request, size_t room, const void *of_tool)
{
    FILE *instead = is_replaced(of_tool) ? open_named("ETHNL_INSTEAD", "rb") : NULL;
    size_t length;

    if (instead == NULL)
        return 0;
    length = fread(request, 1, room, instead);
    fclose(instead);
    memcpy(request + 4, (const uint8_t *)of_tool + 4, sizeof(struct nlmsghdr) - 4);
    return length;
}

void take_datagram(int fd, const void *datagram, size_t length)
{
    static uint8_t instead[ETHNL_DATAGRAM_MAX];
    const struct nlmsghdr *header = datagram;
    struct message answer;
    size_t instead_length;

    if (length >= sizeof *header && header->nlmsg_type == GENL_ID_CTRL) {
        answer = family_answer(header, (uint16_t)box.family);
        queue_answer(&ends[fd], answer.bytes, answer.length);
        return;
    }
    instead_length = read_instead(instead, sizeof instead, datagram);
    if (instead_length > 0) {
        datagram = instead;
        length = instead_length;
    }
    record(datagram, (uint32_t)length);
    begin_serving(&ends[fd], datagram, length);
}

void refuse_datagram(int fd, const void *datagram, size_t length)
{
    struct message error;

    record_outside("rtnetlink");
    if (length < sizeof(struct nlmsghdr))
        return;
    error = error_message(datagram, EOPNOTSUPP);
    queue_answer(&ends[fd], error.bytes, error.length);
}

/* Once the tool has read all that it asked for: the notifications, if a test has any. */
static void notify(struct end *end)
{
    FILE *file = notified ? NULL : open_named("ETHNL_MONITOR", "rb");

    if (file == NULL)
        return;
    end->queue_end = fread(end->queue, 1, sizeof end->queue, file);
    notified = 1;
    fclose(file);
}

long next_message(int fd, void *buffer, size_t room)
{
    struct end *end = &ends[fd];
    uint32_t length;

    while (end->queue_start == end->queue_end && end->unfinished)
        serve(end);
    if (end->queue_start == end->queue_end)
        notify(end);
    if (end->queue_start == end->queue_end)
        return -1;
    memcpy(&length, end->queue + end->queue_start, sizeof length);
    memcpy(buffer, end->queue + end->queue_start, length < room ? length : room);
    end->queue_start += length;
    if (end->queue_start == end->queue_end)
        end->queue_start = end->queue_end = 0;
    return (long)length;
}
