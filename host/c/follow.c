/*
 * A cabinet's controller, whole: it writes the night's job sheet, plans it, opens a desk for the yard and a neighbour, starts a runner and
 * steps minute by minute. Between two minutes the neighbour takes all that it is given, and hands something back now and then. Every step
 * is answered: the yard's share is what its plan needs. Firmware would wait for the next minute where this program goes on, and keep desk
 * and runner where this program has its two variables. Exits with 1 where a call is refused or the feeder's limit is passed.
 */
#include "depot.h"
#include "depot_text.h"

#include <stdio.h>

enum { YARD, NEIGHBOUR, CONTROLLERS };
enum { MODULES = 4, MODULE = 300, CHANGEOVER = 5, LIMIT = 3000 }; /* modules of 30 kW on a feeder of 300 kW */

/* label length, modules, minutes, earlier jobs, departure, arrival; N417 waits for N415, and N418 is on the road until minute 20 */
static const struct depot_job jobs[] = {
    {4, 2, 60, 0, 120, 0}, {4, 1, 30, 0, 90, 0}, {4, 4, 25, 1 << 1, 180, 0}, {4, 2, 45, 0, 150, 20}};
static const uint8_t labels[] = {'N', '4', '1', '2', 'N', '4', '1', '5', 'N', '4', '1', '7', 'N', '4', '1', '8'};
enum { JOBS = sizeof jobs / sizeof jobs[0] };

/* Says what was refused, if anything was. */
static int refused(uint32_t refusal, const char *what)
{
    if (refusal != DEPOT_DONE) {
        fprintf(stderr, "follow: %s is refused with %u: %s\n", what, (unsigned)refusal, depot_refusal_text(refusal));
    }
    return refusal != DEPOT_DONE;
}

/* The neighbour between two minutes: it claims what a look shows, and every seventh minute hands a third back. 1 where it is refused. */
static int neighbour_calls(struct depot_desk *desk, uint32_t minute)
{
    struct depot_looked looked = depot_desk_look(desk, NEIGHBOUR);
    if (looked.power > 0 && refused(depot_desk_claim(desk, NEIGHBOUR, looked.power), "the neighbour's claim")) {
        return 1;
    }
    return minute % 7 == 6 && desk->held[NEIGHBOUR] >= 3 &&
           refused(depot_desk_hand_back(desk, NEIGHBOUR, desk->held[NEIGHBOUR] / 3), "the neighbour's hand-back");
}

/* Follows the plan until the last hand-back. The calls of a minute show in what the yard holds. */
static int follow(struct depot_runner runner, struct depot_desk desk)
{
    for (;;) {
        uint32_t minute = runner.minute, held = desk.held[YARD];
        struct depot_stepped stepped = depot_runner_step(runner, desk);
        if (refused(stepped.refusal, "a minute")) {
            return 1;
        }
        if (stepped.runner.minute == minute) {
            return desk.held[YARD] != 0; /* the last hand-back is behind */
        }
        runner = stepped.runner;
        desk = stepped.desk;
        if (desk.held[YARD] != held) {
            printf("minute %3u: the yard goes from %4u to %4u, beside %4u\n", (unsigned)minute, (unsigned)held,
                   (unsigned)desk.held[YARD], (unsigned)desk.held[NEIGHBOUR]);
        }
        if (neighbour_calls(&desk, minute)) {
            return 1;
        }
        if (desk.held[YARD] + desk.held[NEIGHBOUR] > desk.limit) {
            fputs("follow: the feeder's limit is passed\n", stderr);
            return 1;
        }
    }
}

int main(void)
{
    static const uint32_t assured[CONTROLLERS] = {MODULES * MODULE, 600}, ceilings[CONTROLLERS] = {LIMIT, LIMIT};
    static uint8_t sheet[DEPOT_LONGEST_SHEET], card[DEPOT_CARD_BYTES(JOBS)], work[1 << 16];
    struct depot_desk desk = {0};
    struct depot_written written;
    struct depot_started started;

    if (depot_version() != DEPOT_VERSION_NUMBER) {
        return 1;
    }
    written = depot_write(jobs, JOBS, labels, sizeof labels, MODULES, CHANGEOVER, sheet, sizeof sheet);
    if (refused(written.refusal, "the list") ||
        refused(depot_plan(sheet, written.length, card, sizeof card, work, sizeof work), "planning") ||
        refused(depot_desk_open(&desk, LIMIT, assured, CONTROLLERS, ceilings, CONTROLLERS), "the desk") ||
        neighbour_calls(&desk, 0)) {
        return 1;
    }
    started = depot_runner_start(sheet, written.length, card, sizeof card, desk, YARD, MODULE);
    if (refused(started.refusal, "the start")) {
        return 1;
    }
    printf("%d jobs on %d modules of %d hundreds of watts, feeder of %d\n", (int)JOBS, (int)MODULES, (int)MODULE, (int)LIMIT);
    return follow(started.runner, desk);
}
