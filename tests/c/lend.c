#define _DEFAULT_SOURCE
#include "lend.h"

#include <signal.h>
#include <stdio.h>
#include <stdlib.h>
#include <string.h>
#include <sys/mman.h>
#include <unistd.h>

enum { GUARD = 4096, ROOM = 64 * GUARD };

static enum { HEAP, AT_END, AT_START } lending;
static uint8_t *rooms[SLOTS];
static void *lent[SLOTS];
static unsigned long cases;

static void touched_a_guard(int signal_number)
{
    (void)signal_number;
    printf("FAILED: case %lu touches a byte outside of a lent buffer\n0 passed, 1 failed\n", cases);
    fflush(stdout);
    _exit(1);
}

/* Room for one buffer between two pages that can't be touched. */
static uint8_t *guarded_room(void)
{
    uint8_t *start = mmap(NULL, ROOM + 2 * GUARD, PROT_NONE, MAP_PRIVATE | MAP_ANONYMOUS, -1, 0);

    if (start == MAP_FAILED || mprotect(start + GUARD, ROOM, PROT_READ | PROT_WRITE) != 0) {
        perror("mmap");
        exit(2);
    }
    return start + GUARD;
}

int lend_by(const char *how)
{
    if (strcmp(how, "heap") == 0)
        return 1;
    lending = strcmp(how, "end") == 0 ? AT_END : AT_START;
    if (lending == AT_START && strcmp(how, "start") != 0)
        return 0;
    for (int slot = 0; slot < SLOTS; slot++)
        rooms[slot] = guarded_room();
    signal(SIGSEGV, touched_a_guard);
    return 1;
}

void *lend(enum slot slot, const void *bytes, size_t length)
{
    void *buffer;

    if (length > ROOM) {
        fprintf(stderr, "a buffer of %zu bytes, room for %d\n", length, ROOM);
        exit(2);
    }
    if (lending == HEAP)
        buffer = lent[slot] = malloc(length);
    else
        buffer = lending == AT_END ? rooms[slot] + ROOM - length : rooms[slot];
    if (bytes != NULL && length > 0)
        memcpy(buffer, bytes, length);
    return buffer;
}

void take_back(void)
{
    cases++;
    for (int slot = 0; slot < SLOTS; slot++) {
        free(lent[slot]);
        lent[slot] = NULL;
    }
}
