/* Buffers of exactly the length that is asked for, so that one byte too far is caught. */
#ifndef LEND_H
#define LEND_H

#include <stddef.h>
#include <stdint.h>

/* What each buffer of a call is for; a slot is lent once in a case. */
enum slot {
    ROLL, DEBUG_NAMES, FLAG_NAMES, SETTINGS, DATAGRAM, PAGE, KIND, REFUSAL, NEXT, NEXT_PLACE, WRITTEN, OFFSET,
    SOUGHT, FOUND, COMPARED, SLOTS
};

/*
 * Lends in one of three ways; returns 0 if the word is none of them.
 *   heap   from malloc, for AddressSanitizer
 *   end    right before a page that can't be touched: catches code that no sanitizer has instrumented
 *   start  right after such a page
 * Where such a page is touched, the program tells the case and ends.
 */
int lend_by(const char *how);

/* A buffer of this length, with these bytes in it where they are given. Never null. */
void *lend(enum slot slot, const void *bytes, size_t length);

/* Takes back all that was lent, which ends a case. */
void take_back(void);

#endif
