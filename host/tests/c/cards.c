/*
 * Cards on standard input, each behind its length in two bytes, little-endian: what depot_card.h says, a line each: 'no card', or n,
 * the plan's end, the order, and start, end and modules of each job.
 */
#include "depot_card.h"

#include <stdio.h>

static void show(const uint8_t *card, size_t card_len)
{
    size_t jobs, i;
    if (!depot_card_is_whole(card, card_len)) {
        puts("no card");
        return;
    }
    jobs = depot_card_jobs(card, card_len);
    printf("%u %u", (unsigned)jobs, (unsigned)depot_card_plan_end(card, jobs));
    for (i = 0; i < jobs; i++) {
        printf(" %u", (unsigned)depot_card_job_at(card, jobs, i));
    }
    for (i = 0; i < jobs; i++) {
        printf(" %u-%u:%llx", (unsigned)depot_card_start(card, i), (unsigned)depot_card_end(card, i),
               (unsigned long long)depot_card_modules(card, i));
    }
    puts("");
}

int main(void)
{
    static uint8_t card[65536];
    uint8_t length[2];
    while (fread(length, 1, sizeof length, stdin) == sizeof length) {
        size_t card_len = (size_t)depot_card_number(length, sizeof length);
        if (fread(card, 1, card_len, stdin) != card_len) {
            return 1;
        }
        show(card, card_len);
    }
    return 0;
}
