/* Document 01's whole reply, alone and in a dump, an ACK, and refusals of every sort, byte by byte. */
#include "check.h"
#include "program_box.h"

static const uint8_t reply[] = {
    0x44, 0, 0, 0, 0x19, 0, 0, 0, 7, 0, 0, 0, 9, 0, 0, 0, 0x0E, 1, 0, 0,
    0x14, 0, 1, 0x80, 8, 0, 1, 0, 3, 0, 0, 0, 8, 0, 2, 0, 's', 'w', '0', 0,
    0x1C, 0, 2, 0x80, 4, 0, 1, 0, 8, 0, 2, 0, 0x28, 0, 0, 0, 0x0C, 0, 4, 0, 1, 0, 0, 0, 2, 0, 0, 0};

static void whole_reply(void)
{
    struct message request;

    fresh_box();
    begin_request(&request, PRIVFLAGS_GET, REQUEST, 3, 1);
    end_request(&request);
    handle(&request);
    check(answer.kind == ETHNL_DONE && answer.refusal == 0 && answer.written == sizeof reply,
          "whole reply: done, 68 bytes");
    check(memcmp(page, reply, sizeof reply) == 0, "whole reply: the stated bytes");
    check(page[sizeof reply] == 0xAA && page[sizeof page - 1] == 0xAA, "whole reply: the page past it stays");
    handle_at(request.bytes, request.length, answer.next, 0, 1, sizeof page);
    check(answer.kind == ETHNL_END && answer.written == 0 && answer.next == request.length && answer.next_place == 0,
          "then the end");
}

/* The same reply in a dump of that one port; ACK, though asked for, adds nothing. */
static void whole_dump(void)
{
    static const uint8_t done[] = {0x14, 0, 0, 0, 3, 0, 2, 0, 7, 0, 0, 0, 9, 0, 0, 0, 0, 0, 0, 0};
    struct message request;

    fresh_box();
    begin_request(&request, PRIVFLAGS_GET, REQUEST | ACK | DUMP, NO_INDEX, 1);
    end_request(&request);
    handle(&request);
    check(answer.kind == ETHNL_DONE && answer.written == sizeof reply && memcmp(page, reply, 6) == 0 &&
              page[6] == MULTI && memcmp(page + 7, reply + 7, sizeof reply - 7) == 0,
          "a dump: the whole reply with MULTI");
    check(answer.next == 0 && answer.next_place == 1, "  the same position, place 1");
    handle_at(request.bytes, request.length, 0, 1, 1, sizeof page);
    check(answer.kind == ETHNL_DONE && answer.written == sizeof done && memcmp(page, done, sizeof done) == 0,
          "  then DONE");
    check(answer.next == request.length && answer.next_place == 0, "  past the message, place 0");
}

/* Whether the call was refused by this number, stayed at its position and wrote nothing. */
static int is_silent(uint32_t refusal, uint64_t position)
{
    return answer.kind == ETHNL_REFUSED && answer.refusal == refusal && answer.next == position &&
           answer.next_place == 0 && answer.written == 0 && page[0] == 0xAA;
}

static void refusals_that_write_nothing(void)
{
    struct message request;

    fresh_box();
    begin_request(&request, PRIVFLAGS_GET, REQUEST | ACK, 3, 0);
    end_request(&request);
    handle_at(request.bytes, request.length, 0, 0, 2, sizeof page);
    check(is_silent(ETHNL_REFUSAL_BOX, 0), "refusal 1: admin 2");
    handle_at(request.bytes, request.length, 0, 0, 1, sizeof page - 1);
    check(is_silent(ETHNL_REFUSAL_PAGE, 0), "refusal 2: page of 32,767 bytes");
    handle_at(request.bytes, request.length, request.length - 4, 0, 1, sizeof page);
    check(is_silent(ETHNL_REFUSAL_DATAGRAM, request.length - 4), "refusal 3: 4 bytes left");
    handle_at(request.bytes, request.length - 1, 0, 0, 1, sizeof page);
    check(is_silent(ETHNL_REFUSAL_MESSAGE_LEN, 0), "refusal 4: message longer than the datagram");
    request.bytes[6] = 0;
    handle(&request);
    check(answer.kind == ETHNL_SKIPPED && answer.refusal == 0 && answer.written == 0 && answer.next == request.length,
          "skipped: not a request");
}

static void refusals_with_a_message(void)
{
    struct message request;

    fresh_box();
    begin_request(&request, 2, REQUEST, 3, 0);
    end_request(&request);
    handle(&request);
    check(answer.refusal == ETHNL_REFUSAL_COMMAND && is_error(&request, 95, 0), "refusal 7: EOPNOTSUPP, no detail");
    begin_request(&request, PRIVFLAGS_SET, REQUEST, 3, 0);
    end_request(&request);
    handle_at(request.bytes, request.length, 0, 0, 0, sizeof page);
    check(answer.refusal == ETHNL_REFUSAL_ADMIN && is_error(&request, 1, 0), "refusal 9: EPERM");
    begin_request(&request, DEBUG_GET, REQUEST, 4, 0);
    end_request(&request);
    handle(&request);
    check(answer.refusal == ETHNL_REFUSAL_UNKNOWN_PORT && is_error(&request, 19, 24),
          "refusal 16: ENODEV, OFFS of the index");
    begin_request(&request, DEBUG_GET, REQUEST, 3, 4);
    end_request(&request);
    handle(&request);
    check(answer.refusal == ETHNL_REFUSAL_HEADER_FLAGS && is_error(&request, 95, 32),
          "refusal 15: EOPNOTSUPP, OFFS of the flags");
}

static void acknowledged_set(void)
{
    struct message request, contents = compact(0, 40, 2, (uint32_t[]){8, 0}, (uint32_t[]){8, 2});

    fresh_box();
    begin_request(&request, PRIVFLAGS_SET, REQUEST | ACK, 3, 0);
    attribute(&request, BITSET | NESTED, contents.bytes, contents.length);
    end_request(&request);
    handle(&request);
    check(answer.kind == ETHNL_DONE && is_error(&request, 0, 0), "a SET that asks for it gets an ACK");
}

/* The page is a run of messages, each as long as its first four bytes say. */
static void reply_and_ack(void)
{
    struct message request;
    uint32_t reply_length, ack_length;

    fresh_box();
    begin_request(&request, DEBUG_GET, REQUEST | ACK, 3, 0);
    end_request(&request);
    handle(&request);
    memcpy(&reply_length, page, 4);
    memcpy(&ack_length, page + reply_length, 4);
    check(answer.written == reply_length + ack_length && reply_length % 4 == 0 && ack_length == 36,
          "a GET that asks for it gets a reply, then an ACK");
    memmove(page, page + reply_length, ack_length);
    answer.written -= reply_length;
    check(is_error(&request, 0, 0), "the ACK begins where the reply ends");
}

int main(void)
{
    whole_reply();
    whole_dump();
    refusals_that_write_nothing();
    refusals_with_a_message();
    acknowledged_set();
    reply_and_ack();
    return checked();
}
