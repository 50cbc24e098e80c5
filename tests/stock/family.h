/* What the kernel would answer beside the ethtool family: the look-up of that family, and errors. */
#ifndef FAMILY_H
#define FAMILY_H

#include "message.h"

#include <linux/netlink.h>

/* The family's number and its commands, then an ACK. */
struct message family_answer(const struct nlmsghdr *request, uint16_t family);

/* An error message with this errno; with 0 it is an ACK. */
struct message error_message(const struct nlmsghdr *request, int error);

#endif
