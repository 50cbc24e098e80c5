/* Threads that call at once, each on its own settings; roll and names are shared. Each one reads back what it has set. */
#include "check.h"
#include "program_box.h"

#include <pthread.h>

enum { THREADS = 4, ROUNDS = 20000 };

struct work {
    uint32_t first, wrong;
    uint32_t settings[4];
    uint8_t page[ETHNL_PAGE_MIN];
};

static struct work works[THREADS];

/* The low flags after a SET of this value, as a compact reply has them at its end. */
static uint32_t set_and_get(struct work *work, uint32_t value)
{
    struct ethnl_box box = {25, 1, roll, sizeof roll, debug_names, sizeof debug_names, flag_names, sizeof flag_names,
                            (uint8_t *)work->settings, sizeof work->settings};
    struct message request, contents = compact(1, 32, 1, &value, NULL);
    struct ethnl_answer set, get;
    uint32_t low = 0;

    begin_request(&request, PRIVFLAGS_SET, REQUEST, 3, 0);
    attribute(&request, BITSET | NESTED, contents.bytes, contents.length);
    end_request(&request);
    set = ethnl_box_handle(&box, request.bytes, request.length, 0, 0, work->page, sizeof work->page);
    begin_request(&request, PRIVFLAGS_GET, REQUEST, 3, 1);
    end_request(&request);
    get = ethnl_box_handle(&box, request.bytes, request.length, 0, 0, work->page, sizeof work->page);
    if (set.kind == ETHNL_DONE && get.kind == ETHNL_DONE && get.written == 68)
        memcpy(&low, work->page + 60, 4);
    return low;
}

static void *run(void *given)
{
    struct work *work = given;

    for (uint32_t round = 0; round < ROUNDS; round++)
        if (set_and_get(work, work->first + round) != work->first + round)
            work->wrong++;
    return NULL;
}

int main(void)
{
    pthread_t threads[THREADS];
    int at;

    fresh_box();
    for (at = 0; at < THREADS; at++) {
        works[at].first = 1u + (uint32_t)at * 0x10000000u;
        if (pthread_create(&threads[at], NULL, run, &works[at]) != 0)
            return 2;
    }
    for (at = 0; at < THREADS; at++) {
        pthread_join(threads[at], NULL);
        check(works[at].wrong == 0, "a thread reads back what it has set");
    }
    return checked();
}
