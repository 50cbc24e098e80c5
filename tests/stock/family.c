#include "family.h"

#include <linux/genetlink.h>
#include <stdlib.h>

/*
 * Commands that are announced, alone and as dumps: every one that a tool may know (ethtool 6.1 knows 37, and passes over
 * the rest). For a command that is not announced the tool turns to the cards of the machine that it runs on.
 */
enum { FIRST_COMMAND = 1, LAST_COMMAND = 127 };

/* What can be asked for by a command; a test may have the dump of one left out. */
static uint32_t capabilities(uint16_t command)
{
    const char *without = getenv("ETHNL_NO_DUMP");

    return without != NULL && atoi(without) == command ? GENL_CMD_CAP_DO : GENL_CMD_CAP_DO | GENL_CMD_CAP_DUMP;
}

static void put_commands(struct message *message)
{
    size_t all = begin_nest(message, CTRL_ATTR_OPS);

    for (uint16_t command = FIRST_COMMAND; command <= LAST_COMMAND; command++) {
        size_t one = begin_nest(message, command);
        number(message, CTRL_ATTR_OP_ID, command);
        number(message, CTRL_ATTR_OP_FLAGS, capabilities(command));
        end_nest(message, one);
    }
    end_nest(message, all);
}

/* The group of the notifications, without which the tool does not listen. */
static void put_group(struct message *message)
{
    size_t all = begin_nest(message, CTRL_ATTR_MCAST_GROUPS), one = begin_nest(message, 1);

    name(message, CTRL_ATTR_MCAST_GRP_NAME, "monitor");
    number(message, CTRL_ATTR_MCAST_GRP_ID, 1);
    end_nest(message, one);
    end_nest(message, all);
}

static void put_header(struct message *message, uint16_t type, const struct nlmsghdr *request)
{
    put_u32(message, 0);
    put_u16(message, type);
    put_u16(message, 0);
    put_u32(message, request->nlmsg_seq);
    put_u32(message, request->nlmsg_pid);
}

struct message error_message(const struct nlmsghdr *request, int error)
{
    struct message message = {.length = 0};

    put_header(&message, NLMSG_ERROR, request);
    put_u32(&message, (uint32_t)-error);
    put(&message, request, sizeof *request);
    end_request(&message);
    return message;
}

struct message family_answer(const struct nlmsghdr *request, uint16_t family)
{
    struct message answer = {.length = 0}, ack = error_message(request, 0);

    put_header(&answer, GENL_ID_CTRL, request);
    put(&answer, (uint8_t[4]){CTRL_CMD_NEWFAMILY, 2, 0, 0}, 4);
    name(&answer, CTRL_ATTR_FAMILY_NAME, "ethtool");
    attribute(&answer, CTRL_ATTR_FAMILY_ID, &family, sizeof family);
    put_commands(&answer);
    if (getenv("ETHNL_MONITOR") != NULL)
        put_group(&answer);
    end_request(&answer);
    put(&answer, ack.bytes, ack.length);
    return answer;
}
