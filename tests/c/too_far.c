/*
 * A library that touches one byte too far, to show that `exact`, `faults` and `find` tell: past the end of a buffer, or
 * before its start (-DPAST_END=1, 0).
 */
#include "ethnl.h"

static uint8_t too_far(const volatile uint8_t *bytes, size_t length)
{
    return PAST_END ? bytes[length] : bytes[-1];
}

void ethnl_handle(uint32_t family, uint32_t admin, const uint8_t *roll, size_t roll_len, const uint8_t *debug_names,
                  size_t debug_names_len, const uint8_t *flag_names, size_t flag_names_len, uint8_t *settings,
                  size_t settings_len, const uint8_t *datagram, size_t datagram_len, uint64_t position, uint64_t place,
                  uint8_t *page, size_t page_len, uint32_t *kind, uint32_t *refusal, uint64_t *next,
                  uint64_t *next_place, uint64_t *written)
{
    (void)family, (void)admin, (void)roll, (void)roll_len, (void)debug_names, (void)debug_names_len;
    (void)flag_names, (void)flag_names_len, (void)settings, (void)settings_len, (void)page, (void)page_len;
    (void)position, (void)place;
    *kind = too_far(datagram, datagram_len);
    *refusal = 0;
    *next = *next_place = *written = 0;
}

uint32_t ethnl_normalise(const uint8_t *contents, size_t contents_len, const uint8_t *names, size_t names_len,
                         uint8_t *page, size_t page_len, uint64_t *written)
{
    (void)contents, (void)contents_len, (void)names, (void)names_len, (void)page, (void)page_len;
    *written = 0;
    return 0;
}

uint32_t ethnl_find(const uint8_t *names, size_t names_len, const uint8_t *name, size_t name_len, uint32_t *found,
                    uint64_t *compared)
{
    (void)names, (void)names_len;
    *found = too_far(name, name_len);
    *compared = 0;
    return 0;
}

uint32_t ethnl_check_box(uint32_t family, uint32_t admin, const uint8_t *roll, size_t roll_len, const uint8_t *debug_names,
                         size_t debug_names_len, const uint8_t *flag_names, size_t flag_names_len,
                         const uint8_t *settings, size_t settings_len, uint64_t *offset)
{
    (void)family, (void)admin, (void)debug_names, (void)debug_names_len, (void)flag_names, (void)flag_names_len;
    (void)settings, (void)settings_len;
    *offset = too_far(roll, roll_len);
    return 0;
}
