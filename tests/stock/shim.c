/*
 * Preloaded into the stock ethtool: its generic netlink socket ends in wire_end.c instead of the kernel. The other ways
 * to a network card, which lead to those of the machine that the tool runs on, are closed: ioctl and rtnetlink are
 * refused as not supported. Everything else of the tool is left alone. As from the kernel, the first message of a dump is
 * there when the request has been sent, and each further one is made when the tool reads it.
 *
 *   ETHNL_BOX       the box, in the format of examples/quay.box
 *   ETHNL_STATE     its settings: read before each call of the library and written after it, so that several tools at
 *                   once have one box
 *   ETHNL_SENT      gets each ethtool datagram that is sent, its 32-bit length before it
 *   ETHNL_REFUSALS  gets the number of each refusal, one a line
 *   ETHNL_OUTSIDE   gets a line "ioctl" or "rtnetlink" for each time that the machine's own cards would have been asked
 *   ETHNL_INSTEAD   a request that is sent in the place of the tool's, with the tool's message header but for the length;
 *                   in the place of those with the command ETHNL_INSTEAD_OF alone, where that is set
 *   ETHNL_HOLD      a fifo that holds a dump: before each place but the first it gets a line with the place, and what is
 *                   written to it then lets the dump go on
 *   ETHNL_NO_DUMP   the number of a command whose dump is not announced
 *   ETHNL_MONITOR   notifications, made by hand, which the tool gets when it has read all answers; the group 'monitor' is
 *                   announced then, as it is by no daemon over this library, which sends none
 *   ETHNL_LOSE      if set, the answers are lost; the tool, which would wait for ever, gets the error of a time limit
 */
#define _GNU_SOURCE
#include "wire_end.h"

#include <dlfcn.h>
#include <errno.h>
#include <fcntl.h>
#include <linux/netlink.h>
#include <linux/sockios.h>
#include <stdarg.h>
#include <string.h>
#include <sys/ioctl.h>
#include <sys/socket.h>
#include <unistd.h>

/* The function of this name that would have been called without the shim. */
#define NEXT(function) ((__typeof__(&function))dlsym(RTLD_NEXT, #function))

/* What a descriptor is to the tool. */
static enum { NOT_OURS, TO_THE_BOX, TO_THE_CARDS } ours[SOCKETS];

static int is_ours(int fd)
{
    return fd >= 0 && fd < SOCKETS && ours[fd] != NOT_OURS;
}

int socket(int domain, int type, int protocol)
{
    int fd;

    if (domain != AF_NETLINK || (protocol != NETLINK_GENERIC && protocol != NETLINK_ROUTE))
        return NEXT(socket)(domain, type, protocol);
    fd = open("/dev/null", O_RDWR);
    if (fd >= 0 && fd < SOCKETS) {
        ours[fd] = protocol == NETLINK_GENERIC ? TO_THE_BOX : TO_THE_CARDS;
        open_end(fd);
    }
    return fd;
}

int close(int fd)
{
    if (is_ours(fd))
        ours[fd] = NOT_OURS;
    return NEXT(close)(fd);
}

/* The ioctls of sockets and network cards are numbered 0x8900 and up; SIOCETHTOOL is one of them. */
int ioctl(int fd, unsigned long request, ...)
{
    va_list arguments;
    void *argument;

    va_start(arguments, request);
    argument = va_arg(arguments, void *);
    va_end(arguments);
    if (request >> 8 != SIOCETHTOOL >> 8)
        return NEXT(ioctl)(fd, request, argument);
    record_outside("ioctl");
    errno = EOPNOTSUPP;
    return -1;
}

int bind(int fd, const struct sockaddr *address, socklen_t length)
{
    return is_ours(fd) ? 0 : NEXT(bind)(fd, address, length);
}

int setsockopt(int fd, int level, int option, const void *value, socklen_t length)
{
    return is_ours(fd) ? 0 : NEXT(setsockopt)(fd, level, option, value, length);
}

int getsockname(int fd, struct sockaddr *address, socklen_t *length)
{
    struct sockaddr_nl own = {.nl_family = AF_NETLINK, .nl_pid = (uint32_t)getpid()};

    if (!is_ours(fd))
        return NEXT(getsockname)(fd, address, length);
    memcpy(address, &own, sizeof own);
    *length = sizeof own;
    return 0;
}

ssize_t sendto(int fd, const void *bytes, size_t length, int flags, const struct sockaddr *to, socklen_t to_len)
{
    if (!is_ours(fd))
        return NEXT(sendto)(fd, bytes, length, flags, to, to_len);
    if (ours[fd] == TO_THE_BOX)
        take_datagram(fd, bytes, length);
    else
        refuse_datagram(fd, bytes, length);
    return (ssize_t)length;
}

ssize_t recvmsg(int fd, struct msghdr *message, int flags)
{
    struct sockaddr_nl kernel = {.nl_family = AF_NETLINK};
    long length;

    if (!is_ours(fd))
        return NEXT(recvmsg)(fd, message, flags);
    length = next_message(fd, message->msg_iov[0].iov_base, message->msg_iov[0].iov_len);
    if (length < 0) {
        errno = EAGAIN;
        return -1;
    }
    memcpy(message->msg_name, &kernel, sizeof kernel);
    message->msg_namelen = sizeof kernel;
    message->msg_flags = (size_t)length > message->msg_iov[0].iov_len ? MSG_TRUNC : 0;
    return length;
}
