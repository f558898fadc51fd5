/*
 * The helpers of gwizdorad_numbers.h as symbols, for languages that read no header. Plain C, not proved: with streams_helpers.c the only such
 * code in the archives.
 */
#define GWZ_HELPER /* not static inline: a symbol of each */
#include "gwizdorad_numbers.h"

const char *gwz_version(void)
{
    return GWZ_VERSION;
}
