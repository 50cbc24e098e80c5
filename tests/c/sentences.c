/* Each refusal and each part of a box has its number, and one sentence that is about it. */
#include "check.h"
#include "ethnl_box.h"

#include <string.h>

struct row {
    uint32_t number;
    const char *word;
};

static const struct row refusals[] = {
    {0, "no refusal"},
    {ETHNL_REFUSAL_BOX, "breaks a rule, or the place"},
    {ETHNL_REFUSAL_PAGE, "page"},
    {ETHNL_REFUSAL_DATAGRAM, "datagram is too long"},
    {ETHNL_REFUSAL_MESSAGE_LEN, "message's length"},
    {ETHNL_REFUSAL_FAMILY, "family"},
    {ETHNL_REFUSAL_GENERIC_HEADER, "generic header"},
    {ETHNL_REFUSAL_COMMAND, "command"},
    {ETHNL_REFUSAL_DUMP, "DUMP"},
    {ETHNL_REFUSAL_ADMIN, "not admin"},
    {ETHNL_REFUSAL_ATTRIBUTE_LEN, "attribute's length"},
    {ETHNL_REFUSAL_ATTRIBUTE_TYPE, "attribute's type is"},
    {ETHNL_REFUSAL_PAYLOAD, "payload"},
    {ETHNL_REFUSAL_MISSING, "missing"},
    {ETHNL_REFUSAL_NO_PORT, "names no port"},
    {ETHNL_REFUSAL_HEADER_FLAGS, "flag"},
    {ETHNL_REFUSAL_UNKNOWN_PORT, "no such port"},
    {ETHNL_REFUSAL_OTHER_PORT, "another name"},
    {ETHNL_REFUSAL_FORMS_MIXED, "mixes"},
    {ETHNL_REFUSAL_BITMAP_LEN, "bitmap is shorter"},
    {ETHNL_REFUSAL_BIT_PAST_END, "bit's number"},
    {ETHNL_REFUSAL_UNKNOWN_BIT, "bit's name"},
    {ETHNL_REFUSAL_NO_BIT, "neither index nor name"},
    {ETHNL_REFUSAL_INDEX_NAME, "two bits"},
    {ETHNL_REFUSAL_STRING_SET, "name list"},
    {ETHNL_REFUSAL_REPLY_LEN, "too long"},
};

static const struct row parts[] = {
    {ETHNL_PART_NONE, "every rule"},
    {ETHNL_PART_FAMILY, "family"},
    {ETHNL_PART_ADMIN, "Admin"},
    {ETHNL_PART_ROLL, "roll"},
    {ETHNL_PART_DEBUG_NAMES, "debug names"},
    {ETHNL_PART_FLAG_NAMES, "flag names"},
    {ETHNL_PART_SETTINGS, "settings"},
};

/* Numbers rise by 1 from 0 on, and each sentence has its row's word. */
static void rows(const struct row *from, uint32_t count, const char *(*sentence)(uint32_t))
{
    for (uint32_t at = 0; at < count; at++) {
        const char *said = sentence(at);
        check(from[at].number == at && strstr(said, from[at].word) != NULL && said[strlen(said) - 1] == '.', said);
    }
    check(strstr(sentence(count), "not that of") != NULL && sentence(UINT32_MAX) == sentence(count), sentence(count));
}

int main(void)
{
    rows(refusals, sizeof refusals / sizeof *refusals, ethnl_strerror);
    rows(parts, sizeof parts / sizeof *parts, ethnl_strpart);
    return checked();
}
