/* The number rules alone, with their own header: what a solver links. */
#include <gwizdorad_numbers.h>

#include <stdio.h>

int main(void)
{
    uint32_t code = 0, pattern = 0, away = 9, even = 9;
    uint64_t wide = 9;
    const uint32_t level = 0x3FE7AE14u, quarter = 0x3E800000u; /* 1.81, and 0.25, which is half a bin within 2^-2 */
    int holds = gwz_lossless_restored32(gwz_lossless_code32(level)) == level;
    holds = holds && gwz_refusal(gwz_tolerance_code32(GWZ_HALVES_TO_EVEN, -8, level, &code)) == GWZ_DONE;
    holds = holds && gwz_refusal(gwz_tolerance_restored32(-8, code, &pattern)) == GWZ_DONE;
    holds = holds && gwz_tolerance_code32(GWZ_HALVES_AWAY, -2, quarter, &away) == GWZ_DONE && away == 2;
    holds = holds && gwz_tolerance_code32(GWZ_HALVES_TO_EVEN, -2, quarter, &even) == GWZ_DONE && even == 0;
    holds = holds && gwz_refusal(gwz_tolerance_code64(2, -2, 0, &wide)) == GWZ_NOT_ALLOWED && wide == 9;
    printf("%08lX within 2^-8 is %08lX; version %s; %s\n", (unsigned long)level, (unsigned long)pattern, gwz_version(),
           gwz_refusal_text(gwz_refusal(gwz_bound(33, 0))));
    return !holds;
}
