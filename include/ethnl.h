/*
 * ethnl: answers ethtool netlink requests for a box of switch ports.
 *
 * Five commands are served: STRSET_GET (1), DEBUG_GET (7), DEBUG_SET (8), PRIVFLAGS_GET (13), PRIVFLAGS_SET (14).
 * The library opens nothing, allocates nothing and keeps nothing between calls: all state is lent by
 * the caller. Every input has an answer; nothing needs to be checked before a call. ethnl_box.h has the same
 * functions over structs instead of a row of buffers (ethnl_box_handle, ethnl_form_of, ethnl_find_name,
 * ethnl_box_check), and a sentence for each refusal and each part of a box (ethnl_strerror, ethnl_strpart).
 *
 * Pointers. Each is followed by its length in bytes and must be valid for that many bytes. It must not be
 * null, not even where the length is 0. Buffers that are written (settings, page, results) must not overlap
 * any other buffer of the call; those that are only read may overlap each other. No alignment is needed.
 * All numbers inside buffers are little-endian.
 *
 * Threads. Several may call at once, also on the same roll and name lists, as long as none uses a buffer that
 * another's call writes: settings, page and results.
 *
 * Stack. A call needs at most ETHNL_STACK_MAX bytes of it: about twice what was measured on the largest box, 29,400 bytes
 * in a SET. This is tested, not proved.
 *
 * Names. The kernel's headers have those of the message header, its flags and the error message
 * (linux/netlink.h), of the generic header (linux/genetlink.h), and of commands, attributes and header flags
 * (linux/ethtool_netlink.h: ETHTOOL_MSG_, ETHTOOL_A_, ETHTOOL_FLAG_).
 *
 * Receiving. Have a buffer of ETHNL_DATAGRAM_MAX bytes. A datagram that is longer than the buffer arrives cut,
 * and recv with MSG_TRUNC then returns more than the buffer holds: drop it, and don't pass on what did arrive
 * as if it were whole.
 *
 * Answering a datagram, message by message:
 *
 *     uint64_t position = 0, place = 0, next, next_place, written;
 *     uint32_t kind, refusal;
 *     for (;; position = next, place = next_place) {
 *         ethnl_handle(family, admin, roll, roll_len, debug_names, debug_names_len,
 *                      flag_names, flag_names_len, settings, settings_len,
 *                      datagram, datagram_len, position, place, page, page_len,
 *                      &kind, &refusal, &next, &next_place, &written);
 *         if (kind == ETHNL_END ||
 *             (kind == ETHNL_REFUSED && refusal <= ETHNL_LAST_SILENT))
 *             break;
 *         send_messages(page, written);
 *     }
 *
 * Dumps. A GET with both DUMP flags (NLM_F_DUMP) whose header nest names no port asks for all ports, and the loop above
 * goes through its answers: one call for each port and one more. Each writes one message, with the flag NLM_F_MULTI:
 * from place 0 on the replies of the ports in roll order, then, at the place that is the number of ports, NLMSG_DONE.
 * ACK adds nothing. Until NLMSG_DONE the same position is handed back, with the next place. Every call reads the box
 * anew, so a SET in between, from another socket, is seen by the replies still to come. Keep the roll as it is
 * meanwhile, since places count its ports.
 *
 * Name lists. A STRSET_GET is answered by the names of the private flags (id 2, of a port that is named) and of the
 * message classes (id 10, the debug names), as STRINGSETS lists their ids; without a list by the flags where a port is
 * named, else by the classes. Its reply may fill ETHNL_PAGE_MIN bytes. With its ACK it never takes more, whatever
 * page_len: ETHNL_REFUSAL_REPLY_LEN then; asking for one list, or for COUNTS_ONLY, gets an answer.
 *
 * Sending. The page may hold no message, one, or two: a GET or a STRSET_GET that asks for an ACK gets its reply and right
 * behind it the ACK. Each begins with its own length as 32 bits, a multiple of 4, and goes out as a datagram of its own,
 * as the kernel sends them:
 *
 *     for (at = 0; at < written; at += length) {
 *         memcpy(&length, page + at, 4);
 *         send(socket, page + at, length, 0);
 *     }
 */
#ifndef ETHNL_H
#define ETHNL_H

#include <stddef.h>
#include <stdint.h>

#ifdef __cplusplus
extern "C" {
#endif

/*
 * The version of this header. A program is built with the header of its archive: since 0.4.0 ethnl_handle takes a place
 * behind the position, and hands back next_place behind next. A caller changes its call, as the loop above shows.
 */
#define ETHNL_VERSION_MAJOR 0
#define ETHNL_VERSION_MINOR 6
#define ETHNL_VERSION_PATCH 0
#define ETHNL_VERSION (10000 * ETHNL_VERSION_MAJOR + 100 * ETHNL_VERSION_MINOR + ETHNL_VERSION_PATCH) /* a number for #if */
#define ETHNL_VERSION_STRING ETHNL_DOTTED(ETHNL_VERSION_MAJOR, ETHNL_VERSION_MINOR, ETHNL_VERSION_PATCH) /* major.minor.patch */
#define ETHNL_DOTTED(major, minor, patch) ETHNL_DOTTED_TEXT(major, minor, patch)
#define ETHNL_DOTTED_TEXT(major, minor, patch) #major "." #minor "." #patch
#define ETHNL_LEVEL 14 /* the number of the highest change request that the library has */

/* Sizes in bytes. */
#define ETHNL_PAGE_MIN 32768     /* shortest answer page of ethnl_handle */
#define ETHNL_DATAGRAM_MAX 32768 /* longest datagram, and longest contents of ethnl_normalise */
#define ETHNL_FORM_MAX 144       /* longest normal form, and shortest page of ethnl_normalise */
#define ETHNL_ROLL_RECORD 21     /* one port of the roll: kind 1, index (4), name (16) */
#define ETHNL_PORT_NAME_LEN 16   /* a port's name with its NULs */
#define ETHNL_NAME_LEN 32        /* one entry of a name list */
#define ETHNL_STACK_MAX 65536    /* the most stack that a call needs */
#define ETHNL_SET_LEN(bits) (4 * (((size_t)(bits) + 31) / 32)) /* bytes of one port's set of N bits: W words, N/32 rounded up */

/* Other limits of a box. */
#define ETHNL_FAMILY_MIN 16
#define ETHNL_FAMILY_MAX 65535
#define ETHNL_PORTS_MAX 64
#define ETHNL_INDEX_MAX 2147483647
#define ETHNL_BITS_MAX 512
#define ETHNL_ROLL_PORT 1 /* kind byte of a port's record */

/* Kinds of an answer. */
#define ETHNL_END 0     /* the position is the datagram's end */
#define ETHNL_SKIPPED 1 /* message type below 16, or not a request: nothing written */
#define ETHNL_DONE 2    /* served: a reply, an ACK, both, the end of a dump, or nothing was written */
#define ETHNL_REFUSED 3 /* see the refusal number */

/*
 * Refusals. The first four write nothing and hand back the position given; the others write one error message.
 * The errno stands in it as a negative number. Behind the request's header, which it quotes, there may be a
 * detail: OFFS (NLMSGERR_ATTR_OFFS), where in the request the fault stands, or ETHNL_MISS_TYPE and perhaps
 * ETHNL_MISS_NEST, what is missing and in which nest.
 */
#define ETHNL_REFUSAL_BOX 1             /* box or list breaks a rule, as ethnl_check_box tells; or place above the number of ports */
#define ETHNL_REFUSAL_PAGE 2            /* page too short */
#define ETHNL_REFUSAL_DATAGRAM 3        /* datagram or contents too long, position past its end, or 1 to 15 bytes left */
#define ETHNL_REFUSAL_MESSAGE_LEN 4     /* message length below 16 or more than is left */
#define ETHNL_REFUSAL_FAMILY 5          /* ENOENT: message type isn't the family */
#define ETHNL_REFUSAL_GENERIC_HEADER 6  /* EINVAL: message length 16 to 19 */
#define ETHNL_REFUSAL_COMMAND 7         /* EOPNOTSUPP: command isn't one of the five */
#define ETHNL_REFUSAL_DUMP 8            /* EOPNOTSUPP: both DUMP flags in a SET or STRSET_GET, or in a GET that names a port */
#define ETHNL_REFUSAL_ADMIN 9           /* EPERM: a SET, and the sender isn't admin */
#define ETHNL_REFUSAL_ATTRIBUTE_LEN 10  /* EINVAL: attribute length below 4 or more than is left, or 1 to 3 bytes left; OFFS there */
#define ETHNL_REFUSAL_ATTRIBUTE_TYPE 11 /* EINVAL: attribute type not listed here; OFFS attribute */
#define ETHNL_REFUSAL_PAYLOAD 12        /* EINVAL: attribute's payload or type bits wrong; OFFS attribute */
#define ETHNL_REFUSAL_MISSING 13        /* EINVAL: required attribute absent; ETHNL_MISS_TYPE, ETHNL_MISS_NEST */
#define ETHNL_REFUSAL_NO_PORT 14        /* EINVAL: neither index nor name of a port, and neither dump nor STRSET_GET; OFFS header nest */
#define ETHNL_REFUSAL_HEADER_FLAGS 15   /* EOPNOTSUPP: header flag other than 1 (compact), 2 (omit reply); OFFS flags */
#define ETHNL_REFUSAL_UNKNOWN_PORT 16   /* ENODEV: no such port; OFFS index or name */
#define ETHNL_REFUSAL_OTHER_PORT 17     /* ENODEV: index found, but its port has another name; OFFS header nest */
#define ETHNL_REFUSAL_FORMS_MIXED 18    /* EINVAL: bitmap and bit list mixed, or NOMASK with MASK; OFFS VALUE or MASK */
#define ETHNL_REFUSAL_BITMAP_LEN 19     /* EINVAL: bitmap too short for SIZE; OFFS VALUE or MASK */
#define ETHNL_REFUSAL_BIT_PAST_END 20   /* EOPNOTSUPP: bit number at or past N; OFFS INDEX, VALUE or MASK */
#define ETHNL_REFUSAL_UNKNOWN_BIT 21    /* EOPNOTSUPP: bit name unknown, also beside an index; OFFS NAME */
#define ETHNL_REFUSAL_NO_BIT 22         /* EINVAL: a BIT with neither index nor name; OFFS BIT */
#define ETHNL_REFUSAL_INDEX_NAME 23     /* EINVAL: index and name of a BIT mean two bits; OFFS BIT */
#define ETHNL_REFUSAL_STRING_SET 24     /* EOPNOTSUPP: id of a name list that isn't offered, or 2 without a port; OFFS ID */
#define ETHNL_REFUSAL_REPLY_LEN 25      /* EMSGSIZE: name lists whose reply, with its ACK, has more than 32,768 bytes */
#define ETHNL_LAST_SILENT 4             /* the last refusal that writes nothing */

/* Attributes of an error message. linux/netlink.h has them from Linux 6.1 on only (NLMSGERR_ATTR_MISS_). */
#define ETHNL_MISS_TYPE 5 /* u32: the type of the attribute that is missing */
#define ETHNL_MISS_NEST 6 /* u32: the offset of the nest that lacks it; absent where the top level does */

/* Parts of a box. ethnl_check_box returns one of them. */
#define ETHNL_PART_NONE 0        /* no call with this box is refused by 1, but for its place */
#define ETHNL_PART_FAMILY 1      /* family is not 16 to 65535 */
#define ETHNL_PART_ADMIN 2       /* admin is not 0 or 1 */
#define ETHNL_PART_ROLL 3        /* the roll */
#define ETHNL_PART_DEBUG_NAMES 4 /* the list of debug names */
#define ETHNL_PART_FLAG_NAMES 5  /* the list of flag names */
#define ETHNL_PART_SETTINGS 6    /* the settings */

/* What ethnl_find tells beside the number of a bit. */
#define ETHNL_NOT_FOUND 4294967295u /* no entry of the list has the name */

/*
 * Answers the one message at a position of a datagram; of a dump, which has several answers, the one at a place.
 *
 * The box (checked whole on every call; refusal 1):
 *   family       number of the generic netlink family, 16 to 65535
 *   admin        1 if the sender may SET, else 0; any other number breaks the box
 *   roll         the ports, 1 to 64 records of ETHNL_ROLL_RECORD bytes: the byte 1, the index as 4 bytes
 *                (1 to 2147483647), the name as 16 bytes (1 to 15 that aren't NUL, then NULs only);
 *                indexes distinct, names distinct
 *   debug_names  names of the debug bits, N entries of ETHNL_NAME_LEN bytes, N from 1 to 512: 0 to 31 bytes
 *                that aren't NUL, then NULs only; an empty entry is a bit without a name and may repeat,
 *                other names are distinct. Bit i has the entry i
 *   flag_names   the same for the private flags, with an N of its own
 *   settings     for each port in roll order its debug set, then its flags, ETHNL_SET_LEN(N) bytes each:
 *                32-bit words, lowest bits first, bits from N on 0. Exactly these bytes, no more. Written only
 *                by a SET that is done, and there only in the one set of the one port that it names
 *
 * The message:
 *   datagram     at most ETHNL_DATAGRAM_MAX bytes, as received; may be empty
 *   position     where the message begins: 0, then what the call before handed back in next
 *   place        0, then what the call before handed back in next_place, together with that position. Only a dump's
 *                answer goes by it; but above the number of ports it is refusal 1, whatever the message
 *
 * The answer:
 *   page         at least ETHNL_PAGE_MIN bytes; the answer goes to its start, bytes past `written` stay
 *   kind         ETHNL_END, ETHNL_SKIPPED, ETHNL_DONE or ETHNL_REFUSED
 *   refusal      0, or the number of the refusal where kind is ETHNL_REFUSED
 *   next         the position of the next message; for ETHNL_END, the refusals 1 to 4 and a port's reply in a dump the
 *                one given
 *   next_place   after a port's reply in a dump the next place, else 0
 *   written      bytes written to the page: the lengths of its messages together
 */
void ethnl_handle(uint32_t family, uint32_t admin,
                  const uint8_t *roll, size_t roll_len,
                  const uint8_t *debug_names, size_t debug_names_len,
                  const uint8_t *flag_names, size_t flag_names_len,
                  uint8_t *settings, size_t settings_len,
                  const uint8_t *datagram, size_t datagram_len, uint64_t position, uint64_t place,
                  uint8_t *page, size_t page_len,
                  uint32_t *kind, uint32_t *refusal, uint64_t *next, uint64_t *next_place, uint64_t *written);

/*
 * Writes the normal form of a bitset: two accepted bitsets change every set alike exactly where their normal
 * forms are equal bytes, however they were written (bitmap or bit list, names, numbers or both).
 *
 *   contents     what stands inside a bitset attribute (attribute 2 of a SET, the last where there are several), its
 *                own 4 header bytes left out; at most ETHNL_DATAGRAM_MAX bytes, may be empty
 *   names        the list that names the set's bits, as in ethnl_handle; its number of entries is N
 *   page         at least ETHNL_FORM_MAX bytes; the form goes to its start, bytes past `written` stay
 *   written      bytes of the form, 16 + 2 * ETHNL_SET_LEN(N); 0 if refused
 *
 * The form is the contents of a compact bitset: SIZE N, VALUE, MASK. Returns 0 if accepted, else the number of a
 * refusal: 1 (names), 2 (page), 3 (contents too long), 10 to 13, 18 to 23.
 */
uint32_t ethnl_normalise(const uint8_t *contents, size_t contents_len,
                         const uint8_t *names, size_t names_len,
                         uint8_t *page, size_t page_len, uint64_t *written);

/*
 * Finds the bit that has a name. The length and the last byte of an entry are compared ahead of the rest, and the entries
 * that agree in both are counted, up to the one that has the name.
 *
 *   names        the list that is searched, as in ethnl_handle
 *   name         the bytes of the name, without a NUL behind them; any number of any bytes, may be empty
 *   found        set to the bit that has the name, ETHNL_NOT_FOUND if none has it; 0 if refused
 *   compared     set to the number of entries, up to and with the one found, or in the whole list, that have the name's
 *                length and its last byte; 0 if refused
 *
 * An entry's length and last byte are those of its name, before the NULs; an empty entry agrees with nothing. An empty
 * name is found nowhere and compared with nothing, and so is one of more than 31 bytes, one that begins with a NUL, which
 * is an empty one, and one that ends in a NUL, as no entry does. A name with a NUL in between is found nowhere and
 * compared like any other. Returns 0, also where the name isn't found, or 1 if the list breaks a rule. Nothing but
 * `*found` and `*compared` is written.
 */
uint32_t ethnl_find(const uint8_t *names, size_t names_len,
                    const uint8_t *name, size_t name_len,
                    uint32_t *found, uint64_t *compared);

/*
 * Tells which part of a box breaks a rule (those by which ethnl_handle refuses by 1), and where. Returns the first
 * part at fault, in the order of the ETHNL_PART_ numbers, or ETHNL_PART_NONE.
 *
 *   roll         offset: where its longest right beginning ends, the start of the first record at fault; 0 where no
 *                beginning is right
 *   debug_names  offset: where the list's longest right beginning ends, the start of the first entry at fault; 0
 *                where no beginning is right
 *   flag_names   likewise
 *   settings     see below
 *   offset       set to the offset in the part at fault; 0 for family and admin, and for a box without a fault
 *
 * A beginning of a roll or list is its first n bytes; it is right if it would keep the rule of a roll (list) by
 * itself. So the offset is the start of: a record of unknown kind, a record cut short, one whose index or name is
 * bad, one that repeats the index or the name of a port before it, the 65th; in a list an entry cut short, one that
 * is not a name and then NULs, one that repeats the name of an entry before it, the 513th. An empty roll or list: 0.
 *
 * Settings are judged only where roll and both lists are right, so their right length is known: 4 bytes for each
 * word of all ports' sets. If their length is another: the offset is the smaller of the two lengths (where they end,
 * or where they should). Else it is where the longest beginning of whole words ends that, with zeros behind it up to
 * the right length, is right: the start of the first word that holds a bit at or past N of its set.
 *
 * The settings are only read; nothing but `*offset` is written.
 */
uint32_t ethnl_check_box(uint32_t family, uint32_t admin,
                         const uint8_t *roll, size_t roll_len,
                         const uint8_t *debug_names, size_t debug_names_len,
                         const uint8_t *flag_names, size_t flag_names_len,
                         const uint8_t *settings, size_t settings_len,
                         uint64_t *offset);

#ifdef __cplusplus
}
#endif

#endif
