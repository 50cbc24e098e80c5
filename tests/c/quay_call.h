/* Calls over a box of several ports, in buffers of exactly the stated lengths, and what they hand back. */
#ifndef QUAY_CALL_H
#define QUAY_CALL_H

#include "ethnl.h"

#define MESSAGE_ROOM ETHNL_DATAGRAM_MAX
#include "check.h"
#include "message.h"
#include "quay_box.h"

enum { UNTOUCHED = 0xAA };

static struct message request;
static struct ethnl_answer answer;
static uint8_t page[2 * ETHNL_PAGE_MIN];
static size_t page_len = ETHNL_PAGE_MIN;

/* Whether the call left alone all that it may only read; of a SET that was done the settings are taken over. */
static int kept;

static size_t ports(void)
{
    return box.roll_len / PORT;
}

/* So many ports, with indexes that fall where the roll goes on, and sets of their own. */
static inline void box_of(size_t count)
{
    right_box();
    box.roll_len = count * PORT;
    box.settings_len = count * PORT_SETTINGS;
    for (size_t port = 0; port < count; port++) {
        uint8_t *sets = settings + port * PORT_SETTINGS;
        roll[port * PORT + 1] = (uint8_t)(200 - port);
        sets[0] = (uint8_t)(port % 8);
        sets[4] = (uint8_t)(3 * port + 1);
        sets[8] = port % 2;
    }
}

static inline void handle_at(uint64_t position, uint64_t place)
{
    struct ethnl_box lent = lent_box();
    uint8_t *datagram = lend(DATAGRAM, request.bytes, request.length), *lent_page;

    memset(page, UNTOUCHED, sizeof page);
    lent_page = lend(PAGE, page, page_len);
    answer = ethnl_box_handle(&lent, datagram, request.length, position, place, lent_page, page_len);
    kept = is_unchanged(&lent) && memcmp(datagram, request.bytes, request.length) == 0;
    memcpy(settings, lent.settings, lent.settings_len);
    memcpy(page, lent_page, page_len);
    take_back();
}

/* Whether the page has these bytes, they are counted, and the rest of the page is as it was. */
static inline int wrote(const void *bytes, size_t length)
{
    if (answer.written != length || memcmp(page, bytes, length) != 0)
        return 0;
    for (size_t at = length; at < page_len; at++)
        if (page[at] != UNTOUCHED)
            return 0;
    return 1;
}

/* Whether the answer is done, has these bytes, goes on at this position and place, and no setting has changed. */
static inline int is_done(const void *bytes, size_t length, uint64_t next, uint64_t next_place)
{
    return answer.kind == ETHNL_DONE && answer.refusal == 0 && wrote(bytes, length) && answer.next == next &&
           answer.next_place == next_place && kept;
}

/* Whether the call was refused by a number that writes nothing, and handed back the position given. */
static inline int is_silent(uint32_t refusal, uint64_t position)
{
    return answer.kind == ETHNL_REFUSED && answer.refusal == refusal && answer.next == position &&
           answer.next_place == 0 && wrote("", 0) && kept;
}

/* The request as it stands is refused with this error message, alike at every place up to the count. */
static inline void expect_error(const char *what, uint32_t refusal, const struct message *error)
{
    size_t right = 0;

    for (uint64_t place = 0; place <= ports(); place++) {
        handle_at(0, place);
        right += answer.kind == ETHNL_REFUSED && answer.refusal == refusal && answer.next == request.length &&
                 answer.next_place == 0 && wrote(error->bytes, error->length) && kept;
    }
    check(right == ports() + 1, what);
}

/* The same with this errno and detail. */
static inline void expect_refused(const char *what, uint32_t refusal, int32_t errno_value, uint16_t detail, uint32_t value)
{
    struct message error = error_of(request.bytes, errno_value, detail, value);

    expect_error(what, refusal, &error);
}

#endif
