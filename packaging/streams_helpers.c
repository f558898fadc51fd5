/*
 * The helpers that gwizdorad.h adds, as symbols: plain C, not proved. Those of the number rules stay inline here, since numbers_helpers.c has
 * them as symbols.
 */
#include "gwizdorad_numbers.h"
#undef GWZ_HELPER
#define GWZ_HELPER
#include "gwizdorad.h"

uint32_t gwz_format_major(void)
{
    return GWZ_FORMAT_MAJOR;
}

uint32_t gwz_highest_level(void)
{
    return GWZ_HIGHEST_LEVEL;
}
