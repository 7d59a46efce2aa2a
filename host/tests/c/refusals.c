/* Every number that a call answers, and some that none does, in the words of depot_text.h, a line each. */
#include "depot_text.h"

#include <stdio.h>

int main(void)
{
    uint32_t refusal;
    for (refusal = 0; refusal <= 27; refusal++) {
        puts(depot_refusal_text(refusal));
    }
    puts(depot_refusal_text(UINT32_MAX));
    return 0;
}
