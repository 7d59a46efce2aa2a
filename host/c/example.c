/*
 * A cabinet's controller in small: it reads and plans the job sheet of the example E1, prints the plan as the printing program
 * does, writes the sheet anew, also with a changeover, follows that plan minute by minute beside another controller, by its own calls and
 * by a runner, and claims and hands back power as in E9 and E10, with modules of 30 kW. It checks all that it gets and exits with 1 where
 * something differs. follow.c is a whole controller without the checks.
 */
#include "depot.h"

#include <stdio.h>
#include <string.h>

static int failures = 0;

static void check(int holds, const char *what)
{
    if (!holds) {
        fprintf(stderr, "example: %s\n", what);
        failures++;
    }
}

/* ---- a plan */

static const uint8_t e1[] = {
    0x41, 0x42, 0x43,                                                       /* labels: A, B, C */
    0x01, 0x01, 0x0A, 0x00, 0x00, 0x00, 0x00, 0x00, 0x1E, 0x00, 0x00, 0x00, /* 1 module for 10 minutes, departure 30, arrival 0 */
    0x01, 0x02, 0x14, 0x00, 0x00, 0x00, 0x00, 0x00, 0x19, 0x00, 0x00, 0x00, /* 2 modules for 20 minutes, departure 25, arrival 0 */
    0x01, 0x01, 0x0A, 0x00, 0x00, 0x00, 0x00, 0x00, 0x1E, 0x00, 0x00, 0x00, /* as the first */
    0x03, 0x00, 0x00, 0x00, 0x03, 0x00, 0x02, 0x00, 0x00, 0x00              /* records from offset 3, 3 jobs, 2 modules, changeover 0 */
};

static const char e1_lines[] = "plan 30 3 2\n"
                               "0 10 -20 0000000000000001 A\n"
                               "10 30 5 0000000000000003 B\n"
                               "0 10 -20 0000000000000002 C\n";

/* The lines of a planned sheet: end, n and N; then start, end, lateness, module set and label of each job. */
static void plan_lines(const uint8_t *sheet, size_t sheet_len, const uint8_t *card, char *text, size_t room)
{
    struct depot_reading reading = depot_read(sheet, sheet_len);
    size_t used, job;
    used = (size_t)snprintf(text, room, "plan %u %u %u\n", (unsigned)depot_card_plan_end(card, reading.count),
                            (unsigned)reading.count, (unsigned)reading.modules);
    for (job = 0; job < reading.count; job++) {
        struct depot_label_place label = depot_label_of(reading, job);
        int start = depot_card_start(card, job), end = depot_card_end(card, job);
        unsigned long long modules = depot_card_modules(card, job);
        check(label.refusal == DEPOT_DONE, "a job that was read has a label");
        used += (size_t)snprintf(text + used, room - used, "%d %d %d %016llX %.*s\n", start, end, end - reading.jobs[job].departure,
                                 modules, (int)label.length, (const char *)sheet + label.offset);
    }
}

static void plan_e1(void)
{
    uint8_t card[DEPOT_LONGEST_CARD], work[4096];
    char text[256];
    size_t i;
    memset(card, 0xEE, sizeof card);
    memset(work, 0xEE, sizeof work);

    check(depot_version() == DEPOT_VERSION_NUMBER, "header and library belong together");
    check(depot_plan(e1, sizeof e1, card, DEPOT_CARD_BYTES(3) - 1, work, sizeof work) == DEPOT_BUFFER_TOO_SHORT,
          "a card with a byte too few is refused");
    check(card[0] == 0xEE && work[0] == 0xEE, "a refused call writes nothing");

    check(depot_plan(e1, sizeof e1, card, sizeof card, work, sizeof work) == DEPOT_DONE, "E1 is planned");
    check(depot_card_job_at(card, 3, 0) == 0 && depot_card_job_at(card, 3, 1) == 2, "E1's order begins with 0, 2");
    check(depot_card_is_whole(card, DEPOT_CARD_BYTES(3)) && depot_card_jobs(card, DEPOT_CARD_BYTES(3)) == 3, "it is a card of 3 jobs");
    check(card[46] == 0 && card[47] == 0xEE, "the card has 47 bytes, and the byte behind it stays");
    for (i = 0; i < sizeof work && work[i] == 0; i++) {
    }
    check(i == sizeof work, "working memory is left all zero");

    plan_lines(e1, sizeof e1, card, text, sizeof text);
    check(strcmp(text, e1_lines) == 0, "E1's lines are as they should be");
    fputs(text, stdout);
}

/* E1 with its first bus on the road until minute 25: it starts then, and the third, which comes behind it in the order, too. */
static void plan_e1_on_the_road(void)
{
    uint8_t sheet[sizeof e1], card[DEPOT_LONGEST_CARD];
    memcpy(sheet, e1, sizeof e1);
    sheet[3 + 10] = 25;

    check(depot_read(sheet, sizeof sheet).jobs[0].arrival == 25, "the arrival stands behind the departure");
    check(depot_plan(sheet, sizeof sheet, card, sizeof card, NULL, 0) == DEPOT_DONE, "E1 with a bus on the road is planned");
    check(depot_card_job_at(card, 3, 0) == 1 && depot_card_job_at(card, 3, 1) == 0, "the order begins with 1, 0");
    check(depot_card_start(card, 0) == 25 && depot_card_start(card, 1) == 0 && depot_card_start(card, 2) == 25, "the starts");
    check(depot_card_plan_end(card, 3) == 35, "the plan ends at 35");
    sheet[3 + 10] = 0xA1;
    sheet[3 + 11] = 0x05;
    check(depot_plan(sheet, sizeof sheet, card, sizeof card, NULL, 0) == DEPOT_RECORD_FIELD, "an arrival of 1441 is refused");
}

/* How large a cabinet E1 asks for. */
static void size_e1(void)
{
    uint8_t card[DEPOT_CARD_BYTES(3)];
    struct depot_sized sized = depot_size(e1, sizeof e1, 20, card, sizeof card, NULL, 0);

    check(sized.refusal == DEPOT_DONE && sized.modules == 3, "by minute 20 E1 takes 3 modules");
    check(depot_card_plan_end(card, 3) == 20, "the card is that of a plan on 3 modules, which ends at 20");
    check(depot_size(e1, sizeof e1, 30, card, sizeof card, NULL, 0).modules == 2, "by minute 30 the 2 of its cabinet are enough");
    sized = depot_size(e1, sizeof e1, 19, card, sizeof card, NULL, 0);
    check(sized.refusal == DEPOT_NO_COUNT_SERVES && sized.modules == 0, "no cabinet ends it by minute 19");
}

/* The use of the cabinet by E1: all of it; with a changeover of 5 minutes 60 of 70 module-minutes; and by no jobs none. */
static void use_of_e1(void)
{
    static const uint8_t none[DEPOT_SHORTEST_SHEET] = {0, 0, 0, 0, 0, 0, 2, 0, 0, 0};
    uint8_t sheet[sizeof e1], work[64];
    struct depot_usage used = depot_use(e1, sizeof e1, NULL, 0);
    check(used.refusal == DEPOT_DONE && used.per_mille == 1000 && used.remainder == 0, "E1 uses the whole cabinet");

    memcpy(sheet, e1, sizeof e1);
    sheet[sizeof sheet - 2] = 5;
    memset(work, 0xEE, sizeof work);
    used = depot_use(sheet, sizeof sheet, work, sizeof work);
    check(used.refusal == DEPOT_DONE && used.per_mille == 857 && used.remainder == 10, "with a changeover 857 per mille, and 10 over");
    check(1000 * 60 == 857 * (2 * 35) + 10 && work[0] == 0, "60 of 70 module-minutes");
    used = depot_use(none, sizeof none, work, sizeof work);
    check(used.refusal == DEPOT_NO_JOBS && used.per_mille == 0 && used.remainder == 0, "without jobs there is no share");
}

/* How long E1's buses may wait. */
static void slack_of_e1(void)
{
    uint8_t work[64];
    struct depot_slacks slacks = depot_slack(e1, sizeof e1, work, sizeof work);

    check(slacks.refusal == DEPOT_DONE && slacks.count == 3, "E1's three jobs have an entry each");
    check(slacks.jobs[0].latest_start == 20 && slacks.jobs[0].slack == 20, "job 0 may wait 20 minutes");
    check(slacks.jobs[1].latest_start == 5 && slacks.jobs[1].slack == -5, "job 1 starts 5 minutes too late");
    check(slacks.jobs[1].implied == 0 && slacks.jobs[3].slack == 0, "no mark is implied, and places past the last job are 0");
    slacks = depot_slack(e1, 0, NULL, 0);
    check(slacks.refusal == DEPOT_SHEET_LENGTH && slacks.count == 0, "a refused call says nothing of any job");
}

/* ---- job sheets */

static void read_and_write_e1(void)
{
    struct depot_reading reading = depot_read(e1, sizeof e1);
    struct depot_label_place label = depot_label(e1, sizeof e1, 2);
    struct depot_written written;
    uint8_t sheet[DEPOT_LONGEST_SHEET];

    check(reading.refusal == DEPOT_DONE && reading.count == 3 && reading.modules == 2, "E1 has 3 jobs and 2 modules");
    check(reading.jobs[1].modules == 2 && reading.jobs[1].minutes == 20 && reading.jobs[1].departure == 25, "E1's job 1");
    check(reading.jobs[1].arrival == 0, "E1's job 1 is there from the start");
    check(reading.jobs[1].label_len == 1 && reading.jobs[1].earlier == 0, "E1's job 1 waits for none");
    check(reading.jobs[3].minutes == 0, "places past the last job are 0");
    check(label.refusal == DEPOT_DONE && label.offset == 2 && label.length == 1, "the label of E1's job 2 is its byte 2");
    check(depot_label(e1, sizeof e1, 3).refusal == DEPOT_NO_SUCH_NUMBER, "E1 has no job 3");
    check(depot_sets(e1, sizeof e1).sets == 8, "E1's three jobs wait for none: 8 sets");
    check(depot_sets(e1, 0).refusal == DEPOT_SHEET_LENGTH && depot_sets(e1, 0).sets == 0, "a refused count is 0");
    check(reading.changeover == 0, "E1's modules need no rest");
    label = depot_label_of(reading, 2);
    check(label.refusal == DEPOT_DONE && label.offset == 2 && label.length == 1, "the reading says where it lies, too");
    check(depot_label_of(reading, 3).refusal == DEPOT_NO_SUCH_NUMBER, "E1's reading has no job 3");
    check(depot_read(e1, sizeof e1 - 1).refusal == DEPOT_TOO_MANY_JOBS, "E1 without its last byte seems to have 768 jobs");

    written = depot_write(reading.jobs, reading.count, e1, 3, reading.modules, reading.changeover, sheet, sizeof sheet);
    check(written.refusal == DEPOT_DONE && written.length == sizeof e1, "writing E1's jobs gives as many bytes");
    check(written.length == DEPOT_SHEET_BYTES(3, 3), "they are as many as the header says");
    check(memcmp(sheet, e1, sizeof e1) == 0, "writing E1's jobs gives E1");
    written = depot_write(reading.jobs, reading.count, e1, 2, reading.modules, reading.changeover, sheet, sizeof sheet);
    check(written.refusal == DEPOT_LABEL_LENGTHS && written.length == 0, "a label byte too few is refused");
    written = depot_write(reading.jobs, reading.count, e1, 3, reading.modules, 31, sheet, sizeof sheet);
    check(written.refusal == DEPOT_CHANGEOVER && written.length == 0, "a changeover of 31 minutes is refused");
}

/* ---- following a plan */

static uint32_t look(const struct depot_desk *desk, uint32_t controller)
{
    struct depot_looked looked = depot_desk_look(desk, controller);
    check(looked.refusal == DEPOT_DONE, "a look is answered");
    return looked.power;
}

/* A greedy controller takes all that it is given. */
static void take_all(struct depot_desk *desk, uint32_t controller)
{
    uint32_t power = look(desk, controller);
    check(power == 0 || depot_desk_claim(desk, controller, power) == DEPOT_DONE, "what a look shows is granted");
}

/*
 * E1 with a changeover of 5 minutes, followed by controller 0, whose share is the cabinet's 2 modules, while controller 1 takes all that
 * it is given. A job's modules are handed back at its end plus the changeover, and a minute's hand-backs come before its claims.
 */
static void follow_e1_with_a_changeover(void)
{
    enum { MODULE = 300, CHANGEOVER = 5 };
    static const uint32_t assured[] = {2 * MODULE, 0}, ceilings[] = {10 * MODULE, 10 * MODULE};
    struct depot_reading reading = depot_read(e1, sizeof e1);
    uint8_t sheet[DEPOT_LONGEST_SHEET], card[DEPOT_LONGEST_CARD];
    struct depot_written written;
    struct depot_desk desk;
    unsigned minute, end;
    size_t job;
    memset(&desk, 0, sizeof desk);

    written = depot_write(reading.jobs, reading.count, e1, 3, reading.modules, CHANGEOVER, sheet, sizeof sheet);
    check(written.refusal == DEPOT_DONE, "E1 is written with a changeover");
    check(depot_read(sheet, written.length).changeover == CHANGEOVER, "reading gives it");
    check(depot_plan(sheet, written.length, card, sizeof card, NULL, 0) == DEPOT_DONE, "E1 with a changeover is planned");
    end = depot_card_plan_end(card, reading.count);
    check(end == 35, "B starts when the modules of A and C have rested, and the plan ends at 35");
    check(depot_desk_open(&desk, 10 * MODULE, assured, 2, ceilings, 2) == DEPOT_DONE, "a desk opens");
    printf("E1 with a changeover of %d, plan's end %u\n", CHANGEOVER, end);
    for (minute = 0; minute <= end + CHANGEOVER; minute++) {
        for (job = 0; job < reading.count; job++) {
            uint32_t power = (uint32_t)reading.jobs[job].modules * MODULE;
            if (depot_card_end(card, job) + CHANGEOVER == (int)minute) {
                check(depot_desk_hand_back(&desk, 0, power) == DEPOT_DONE, "a hand-back of the plan is granted");
                printf("minute %2u: job %u hands back %u modules\n", minute, (unsigned)job, (unsigned)reading.jobs[job].modules);
            }
        }
        for (job = 0; job < reading.count; job++) {
            uint32_t power = (uint32_t)reading.jobs[job].modules * MODULE;
            if (depot_card_start(card, job) == minute) {
                check(depot_desk_claim(&desk, 0, power) == DEPOT_DONE, "a claim of the plan is granted");
                printf("minute %2u: job %u claims %u modules\n", minute, (unsigned)job, (unsigned)reading.jobs[job].modules);
            }
        }
        take_all(&desk, 1);
    }
    check(desk.held[0] == 0 && desk.held[1] == 8 * MODULE, "the plan's controller holds nothing then, the other all but the share");
}

/* E1's plan by a runner, on E9's desk with modules of 30 kW: it claims and hands back what the plan says, minute by minute. */
static void run_e1(void)
{
    enum { MODULE = 300 };
    static const uint32_t assured[] = {4 * MODULE, 3 * MODULE}, ceilings[] = {10 * MODULE, 10 * MODULE};
    static const uint32_t less[] = {2 * MODULE - 1, 0};
    uint8_t card[DEPOT_CARD_BYTES(3)];
    struct depot_desk desk, open;
    struct depot_started started;
    struct depot_stepped stepped;
    unsigned minute;
    memset(&desk, 0, sizeof desk);

    check(depot_plan(e1, sizeof e1, card, sizeof card, NULL, 0) == DEPOT_DONE, "E1 is planned");
    check(depot_desk_open(&desk, 10 * MODULE, assured, 2, ceilings, 2) == DEPOT_DONE, "E9's desk opens");
    open = desk;
    check(depot_runner_start(e1, sizeof e1, card, sizeof card, desk, 2, 0).refusal == DEPOT_NO_SUCH_NUMBER, "there is no controller 2");
    started = depot_runner_start(e1, sizeof e1, card, sizeof card, desk, 0, 0);
    check(started.refusal == DEPOT_MODULE_SIZE && started.runner.sheet_len == 0, "modules of no power are refused");
    stepped = depot_runner_step(started.runner, desk);
    check(stepped.refusal == DEPOT_NO_SUCH_NUMBER, "a refused start's runner is no runner");
    check(depot_desk_change(&open, 10 * MODULE, less, 2, ceilings, 2) == DEPOT_DONE, "the share is lowered");
    check(depot_runner_start(e1, sizeof e1, card, sizeof card, open, 0, MODULE).refusal == DEPOT_NOT_READY, "a share below 2 modules");
    check(depot_runner_start(e1, sizeof e1, card, sizeof card - 1, desk, 0, MODULE).refusal == DEPOT_CARD_UNFIT, "a card too short");

    started = depot_runner_start(e1, sizeof e1, card, sizeof card, desk, 0, MODULE);
    check(started.refusal == DEPOT_DONE && started.runner.minute == 0, "a runner starts");
    stepped.runner = started.runner;
    stepped.desk = desk;
    for (minute = 0; minute <= 30; minute++) {
        take_all(&stepped.desk, 1);
        stepped = depot_runner_step(stepped.runner, stepped.desk);
        check(stepped.refusal == DEPOT_DONE && stepped.runner.minute == minute + 1, "every call of the plan is granted");
        check(stepped.desk.held[0] == (minute < 30 ? 2u * MODULE : 0u), "E1's plan holds both modules until minute 30");
    }
    stepped = depot_runner_step(stepped.runner, stepped.desk);
    check(stepped.refusal == DEPOT_DONE && stepped.runner.minute == 31, "behind the last hand-back a step changes nothing");
    stepped.runner.minute = 32;
    check(depot_runner_step(stepped.runner, stepped.desk).refusal == DEPOT_NO_SUCH_NUMBER, "no steps lead to this minute");
    printf("E1's plan by a runner: minutes 0 to 30, every call granted\n");
}

/* ---- the share desk */

static void claim_and_hand_back(void)
{
    /* modules of 30 kW, in hundreds of watts: E9's desk of 10 modules */
    enum { MODULE = 300 };
    static const uint32_t assured[] = {4 * MODULE, 3 * MODULE}, ceilings[] = {10 * MODULE, 10 * MODULE};
    static const uint32_t too_much[] = {6 * MODULE, 5 * MODULE};
    static const uint32_t new_shares[] = {2 * MODULE, 2 * MODULE}, new_ceilings[] = {6 * MODULE, 6 * MODULE};
    static const uint32_t none[] = {0, 0}, low[] = {2 * MODULE, 2 * MODULE};
    struct depot_desk desk, before;
    memset(&desk, 0, sizeof desk);

    check(depot_desk_open(&desk, 10 * MODULE, assured, 2, ceilings, 2) == DEPOT_DONE, "E9's desk opens");
    check(look(&desk, 0) == 7 * MODULE && look(&desk, 1) == 6 * MODULE, "E9's looks give 7 and 6 modules");
    check(depot_desk_claim(&desk, 0, 7 * MODULE) == DEPOT_DONE, "controller 0 claims 7");
    before = desk;
    check(depot_desk_claim(&desk, 0, 1 * MODULE) == DEPOT_DOES_NOT_FIT, "1 more does not fit");
    check(memcmp(&desk, &before, sizeof desk) == 0, "a refused claim leaves the desk as it was");
    check(depot_desk_claim(&desk, 1, 3 * MODULE) == DEPOT_DONE, "controller 1 claims its share of 3");
    check(depot_desk_claim(&desk, 1, 1 * MODULE) == DEPOT_DOES_NOT_FIT, "1 more does not fit");
    check(desk.held[0] + desk.held[1] == desk.limit, "the feeder is full");
    check(depot_desk_hand_back(&desk, 0, 8 * MODULE) == DEPOT_EXCEEDS_HOLDING, "controller 0 holds no 8");
    check(depot_desk_hand_back(&desk, 0, 7 * MODULE) == DEPOT_DONE, "controller 0 hands 7 back");
    check(desk.held[0] == 0 && desk.held[1] == 3 * MODULE, "then it holds nothing");
    check(depot_desk_claim(&desk, 2, 1 * MODULE) == DEPOT_NO_SUCH_NUMBER, "there is no controller 2");
    check(depot_desk_look(&desk, 2).power == 0, "a refused look shows 0");

    /* the grid operator lowers the limit while controller 1 holds 3 modules */
    before = desk;
    check(depot_desk_change(&desk, 6 * MODULE, too_much, 2, ceilings, 2) == DEPOT_DESK_FIGURES, "a ceiling above the new limit");
    check(memcmp(&desk, &before, sizeof desk) == 0, "a refused change leaves the desk as it was");
    check(depot_desk_change(&desk, 6 * MODULE, new_shares, 2, new_ceilings, 2) == DEPOT_DONE, "the limit is lowered to 6 modules");
    check(desk.limit == 6 * MODULE && desk.held[1] == 3 * MODULE, "the holdings carry over");
    check(look(&desk, 0) == 3 * MODULE, "claims are judged by the new figures");
    check(depot_desk_change(&desk, 2 * MODULE, none, 2, low, 2) == DEPOT_HOLDING_ABOVE_CEILING, "a ceiling below what is held");

    before = desk;
    check(depot_desk_open(&desk, 10 * MODULE, too_much, 2, ceilings, 2) == DEPOT_SHARES_EXCEED_LIMIT, "E11's first desk does not open");
    check(memcmp(&desk, &before, sizeof desk) == 0, "a refused opening leaves the desk as it was");
}

int main(void)
{
    plan_e1();
    plan_e1_on_the_road();
    size_e1();
    use_of_e1();
    slack_of_e1();
    read_and_write_e1();
    follow_e1_with_a_changeover();
    run_e1();
    claim_and_hand_back();
    return failures != 0;
}
