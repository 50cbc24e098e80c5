/* The far ends of the tool's sockets: a box behind the library, and for each socket the answers on their way back. */
#ifndef WIRE_END_H
#define WIRE_END_H

#include <stddef.h>
#include <stdint.h>

enum { SOCKETS = 64 };

/* Reads the box, and forgets what a socket of this number had before; ends the program if there is no box. */
void open_end(int fd);

/* Takes a datagram that the tool sends, and queues the answers to it, of a dump the first. */
void take_datagram(int fd, const void *datagram, size_t length);

/* Takes a datagram that would have gone to the machine's own cards: not supported. */
void refuse_datagram(int fd, const void *datagram, size_t length);

/* Writes down that the machine's own cards would have been asked, and how. */
void record_outside(const char *how);

/* Hands out the next message into a buffer, the next of a dump where nothing is queued; -1 if there is none. */
long next_message(int fd, void *buffer, size_t room);

#endif
