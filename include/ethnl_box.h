/*
 * ethnl.h for people: a box as one struct, answers as structs, and a sentence for each number. Nothing is decided here;
 * ethnl.h says what the parts mean.
 *
 *     struct ethnl_answer answer;
 *     uint64_t position = 0, place = 0;
 *     for (;; position = answer.next, place = answer.next_place) {
 *         answer = ethnl_box_handle(&box, datagram, datagram_len, position, place, page, sizeof page);
 *         if (answer.kind == ETHNL_END ||
 *             (answer.kind == ETHNL_REFUSED && answer.refusal <= ETHNL_LAST_SILENT))
 *             break;
 *         send_messages(page, answer.written);
 *     }
 */
#ifndef ETHNL_BOX_H
#define ETHNL_BOX_H

#include "ethnl.h"

#include <string.h>

/* C89 has no inline; without it a compiler may warn of functions that are not called. */
#if defined(__cplusplus) || (defined(__STDC_VERSION__) && __STDC_VERSION__ >= 199901L)
#define ETHNL_INLINE static inline
#elif defined(__GNUC__)
#define ETHNL_INLINE static __inline__
#else
#define ETHNL_INLINE static
#endif

/* What every call about a box is lent. */
struct ethnl_box {
    uint32_t family, admin;
    const uint8_t *roll;
    size_t roll_len;
    const uint8_t *debug_names;
    size_t debug_names_len;
    const uint8_t *flag_names;
    size_t flag_names_len;
    uint8_t *settings;
    size_t settings_len;
};

struct ethnl_answer {
    uint32_t kind, refusal;
    uint64_t next, next_place, written;
};

/* Which part of a box breaks a rule, and where in it. */
struct ethnl_fault {
    uint32_t part;
    uint64_t offset;
};

/* A normal form: the first `written` bytes; or the refusal, and none. */
struct ethnl_form {
    uint32_t refusal;
    uint64_t written;
    uint8_t bytes[ETHNL_FORM_MAX];
};

/* The bit that has a name, or ETHNL_NOT_FOUND, and how many entries were compared further; or the refusal, 0 and 0. */
struct ethnl_found {
    uint32_t refusal, bit;
    uint64_t compared;
};

/* Position and place are 0 at first, then next and next_place of the answer before. */
ETHNL_INLINE struct ethnl_answer ethnl_box_handle(const struct ethnl_box *box, const uint8_t *datagram,
                                                  size_t datagram_len, uint64_t position, uint64_t place,
                                                  uint8_t *page, size_t page_len)
{
    struct ethnl_answer answer;

    ethnl_handle(box->family, box->admin, box->roll, box->roll_len, box->debug_names, box->debug_names_len,
                 box->flag_names, box->flag_names_len, box->settings, box->settings_len, datagram, datagram_len,
                 position, place, page, page_len, &answer.kind, &answer.refusal, &answer.next, &answer.next_place,
                 &answer.written);
    return answer;
}

ETHNL_INLINE struct ethnl_fault ethnl_box_check(const struct ethnl_box *box)
{
    struct ethnl_fault fault;

    fault.part = ethnl_check_box(box->family, box->admin, box->roll, box->roll_len, box->debug_names,
                                 box->debug_names_len, box->flag_names, box->flag_names_len, box->settings,
                                 box->settings_len, &fault.offset);
    return fault;
}

/* The normal form of a bitset's contents; names is the list of its set, as box.flag_names. */
ETHNL_INLINE struct ethnl_form ethnl_form_of(const uint8_t *contents, size_t contents_len, const uint8_t *names,
                                             size_t names_len)
{
    struct ethnl_form form;

    form.refusal = ethnl_normalise(contents, contents_len, names, names_len, form.bytes, sizeof form.bytes,
                                   &form.written);
    return form;
}

/* The bit that has a name, which ends in a NUL; names is the list of its set, as box.flag_names. */
ETHNL_INLINE struct ethnl_found ethnl_find_name(const uint8_t *names, size_t names_len, const char *name)
{
    struct ethnl_found found;

    found.refusal = ethnl_find(names, names_len, (const uint8_t *)name, strlen(name), &found.bit, &found.compared);
    return found;
}

/* A sentence for a refusal; for 0 and for every other number too. */
ETHNL_INLINE const char *ethnl_strerror(uint32_t refusal)
{
    static const char *const sentences[] = {
        "There is no refusal.",
        "The box or the name list breaks a rule, or the place is above the number of ports.",
        "The page is too short.",
        "The datagram is too long, the position is past its end, or 1 to 15 bytes are left.",
        "The message's length is below 16 or more than is left of the datagram.",
        "The message's type is not the family's number.",
        "The message ends inside the generic header.",
        "The command is none of those that are served.",
        "Both DUMP flags stand in a SET or STRSET_GET, or in a request that names a port.",
        "The sender is not admin and may not change settings.",
        "An attribute's length is below 4 or more than is left, or 1 to 3 bytes are left.",
        "An attribute's type is not listed at its place.",
        "An attribute's payload or type bits are wrong.",
        "A required attribute is missing.",
        "The request names no port, neither by index nor by name.",
        "The header has a flag other than compact (1) and omit reply (2).",
        "There is no such port.",
        "The port with this index has another name.",
        "The bitset mixes a bitmap with a bit list, or NOMASK with MASK.",
        "A bitmap is shorter than SIZE says.",
        "A bit's number is at or past the end of the set.",
        "A bit's name is not in the list.",
        "A bit has neither index nor name.",
        "The index and the name of a bit mean two bits.",
        "The id of a name list isn't offered, or needs a port.",
        "The reply with the name lists is too long.",
    };

    return refusal < sizeof sentences / sizeof *sentences ? sentences[refusal] : "The number is not that of a refusal.";
}

/* A sentence for a part of ethnl_check_box; for every other number too. */
ETHNL_INLINE const char *ethnl_strpart(uint32_t part)
{
    static const char *const sentences[] = {
        "The box keeps every rule.",
        "The family is not 16 to 65535.",
        "Admin is not 0 or 1.",
        "The roll breaks a rule.",
        "The list of debug names breaks a rule.",
        "The list of flag names breaks a rule.",
        "The settings have a wrong length, or a bit past the end of its set.",
    };

    return part < sizeof sentences / sizeof *sentences ? sentences[part] : "The number is not that of a part.";
}

#endif
