/*
 * Asks for name lists with Debian's libmnl, and prints what the reply tells: names [-c] PORT [ID..]
 * PORT is a port's name, or '-' for none; -c asks for the counts alone. Status 1 and the errno's text where it is refused.
 */
#include <errno.h>
#include <libmnl/libmnl.h>
#include <linux/ethtool_netlink.h>
#include <linux/genetlink.h>
#include <stdio.h>
#include <stdlib.h>
#include <string.h>

static char buffer[65536];
static unsigned family;

/* The message that is begun: a generic command of a family. */
static struct nlmsghdr *begin(uint16_t type, uint8_t command)
{
    struct nlmsghdr *message = mnl_nlmsg_put_header(buffer);
    struct genlmsghdr *generic = mnl_nlmsg_put_extra_header(message, sizeof *generic);

    message->nlmsg_type = type;
    message->nlmsg_flags = NLM_F_REQUEST | NLM_F_ACK;
    message->nlmsg_seq = 1;
    generic->cmd = command;
    generic->version = 1;
    return message;
}

/* Sends it and hands every message that comes back to a function, up to the ACK or an error. */
static int ask(struct mnl_socket *socket, const struct nlmsghdr *message, mnl_cb_t each)
{
    ssize_t got;
    int more = 1;

    if (mnl_socket_sendto(socket, message, message->nlmsg_len) < 0)
        return -1;
    while (more > 0) {
        got = mnl_socket_recvfrom(socket, buffer, sizeof buffer);
        if (got < 0)
            return -1;
        more = mnl_cb_run(buffer, (size_t)got, 1, mnl_socket_get_portid(socket), each, NULL);
    }
    return more;
}

static int read_family(const struct nlmsghdr *message, void *unused)
{
    const struct nlattr *attribute;

    (void)unused;
    mnl_attr_for_each(attribute, message, sizeof(struct genlmsghdr)) {
        if (mnl_attr_get_type(attribute) == CTRL_ATTR_FAMILY_ID)
            family = mnl_attr_get_u16(attribute);
    }
    return MNL_CB_OK;
}

/* The number and the name of a nest: those of a port or of a string. */
static void show_name(const char *before, const struct nlattr *nest)
{
    const struct nlattr *part;

    printf("%s", before);
    mnl_attr_for_each_nested(part, nest) {
        if (mnl_attr_get_type(part) == ETHTOOL_A_STRING_INDEX)
            printf(" %u", mnl_attr_get_u32(part));
        else if (mnl_attr_validate(part, MNL_TYPE_NUL_STRING) == 0)
            printf(" '%s'", mnl_attr_get_str(part));
    }
    printf("\n");
}

static void show_set(const struct nlattr *set)
{
    const struct nlattr *part, *string;

    mnl_attr_for_each_nested(part, set) {
        if (mnl_attr_get_type(part) == ETHTOOL_A_STRINGSET_ID)
            printf("set %u\n", mnl_attr_get_u32(part));
        else if (mnl_attr_get_type(part) == ETHTOOL_A_STRINGSET_COUNT)
            printf("  count %u\n", mnl_attr_get_u32(part));
        else
            mnl_attr_for_each_nested(string, part)
                show_name("  string", string);
    }
}

static int show_reply(const struct nlmsghdr *message, void *unused)
{
    const struct nlattr *attribute, *set;

    (void)unused;
    mnl_attr_for_each(attribute, message, sizeof(struct genlmsghdr)) {
        if (mnl_attr_get_type(attribute) == ETHTOOL_A_STRSET_HEADER)
            show_name("port", attribute);
        else
            mnl_attr_for_each_nested(set, attribute)
                show_set(set);
    }
    return MNL_CB_OK;
}

/* A STRSET_GET for a port's lists of these ids. */
static struct nlmsghdr *strset_get(const char *port, char **ids, int counts)
{
    struct nlmsghdr *message = begin((uint16_t)family, ETHTOOL_MSG_STRSET_GET);
    struct nlattr *nest = mnl_attr_nest_start(message, ETHTOOL_A_STRSET_HEADER), *set;

    if (strcmp(port, "-") != 0)
        mnl_attr_put_strz(message, ETHTOOL_A_HEADER_DEV_NAME, port);
    mnl_attr_nest_end(message, nest);
    if (*ids != NULL) {
        nest = mnl_attr_nest_start(message, ETHTOOL_A_STRSET_STRINGSETS);
        for (; *ids != NULL; ids++) {
            set = mnl_attr_nest_start(message, ETHTOOL_A_STRINGSETS_STRINGSET);
            mnl_attr_put_u32(message, ETHTOOL_A_STRINGSET_ID, (uint32_t)strtoul(*ids, NULL, 0));
            mnl_attr_nest_end(message, set);
        }
        mnl_attr_nest_end(message, nest);
    }
    if (counts)
        mnl_attr_put(message, ETHTOOL_A_STRSET_COUNTS_ONLY, 0, NULL);
    return message;
}

int main(int argc, char **argv)
{
    int counts = argc > 1 && strcmp(argv[1], "-c") == 0;
    struct mnl_socket *socket = mnl_socket_open(NETLINK_GENERIC);
    struct nlmsghdr *message;

    argv += 1 + counts;
    if (argc < 2 + counts || socket == NULL || mnl_socket_bind(socket, 0, MNL_SOCKET_AUTOPID) < 0)
        return 2;
    message = begin(GENL_ID_CTRL, CTRL_CMD_GETFAMILY);
    mnl_attr_put_strz(message, CTRL_ATTR_FAMILY_NAME, ETHTOOL_GENL_NAME);
    if (ask(socket, message, read_family) < 0 || family == 0)
        return 2;
    if (ask(socket, strset_get(argv[0], argv + 1, counts), show_reply) < 0) {
        printf("refused: %s\n", strerror(errno));
        return 1;
    }
    return 0;
}
