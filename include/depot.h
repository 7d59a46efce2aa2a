/*
 * depot.h: the charging planner, the job sheets, the share desk of one depot feeder and the plan runner, for C.
 *
 * Link target/staticlib/libdepot.a ('tools/staticlib depot' makes it, for x86-64 alone). docs/FIRMWARE.md says how to build, what can be done
 * with other processors, how to size the buffers, and what is proved; docs/PROMISES.md has every promise. host/c/example.c uses every
 * call, host/c/follow.c is a whole controller. depot_card.h reads cards, depot_text.h has the refusals in words; both are for every
 * processor.
 *
 * OF EVERY CALL
 *
 * Answers.    A call answers whatever bytes, numbers and lists it is given: it is done, or it is refused with the number of the
 *             first check that fails (enum depot_refusal). A refused call changes no lent byte and no desk, and every other figure
 *             of its answer is 0; a step's answer has desk and runner as they were. Every call ends.
 *             An answer has to be looked at: a claim that was refused and is taken for granted passes the limit. GCC, Clang and C++17
 *             warn of a call whose answer is left (DEPOT_MUST_USE).
 * Memory.     The caller owns all memory. A call reads and writes what it is lent and its own stack, keeps no pointer when it
 *             returns, allocates nothing and has no state of its own.
 * Buffers.    A buffer is a pointer and the number of its elements. One of 0 elements may have any pointer, NULL too. Every other
 *             pointer must lead to as many elements as are said, aligned as C asks; this is the one thing that no call can check.
 * Overlaps.   What a call writes must not overlap anything else that it is lent. What it only reads may overlap.
 * Threads.    Calls may run at the same time as long as none writes what another is lent.
 * Stack.      Measured, not proved: depot_plan, depot_plan_within, depot_end, depot_use and depot_slack stay within DEPOT_PLAN_STACK bytes,
 *             depot_size within DEPOT_SIZE_STACK, depot_sets within DEPOT_SETS_STACK, depot_runner_start and depot_runner_step within DEPOT_RUNNER_STACK,
 *             every other call within DEPOT_CALL_STACK.
 *             The tests of the host package hold these figures.
 * Names       that begin with depot_ or DEPOT_ belong to the library. It calls none but memcpy, memmove and memset.
 *
 * Numbers of several bytes in a sheet or on a card are little-endian; bit 0 is the lowest.
 */
#ifndef DEPOT_H
#define DEPOT_H

/* The archive is for x86-64: pointers of 64 bits, little-endian, ELF objects, the System V calling convention. There is no other. */
#if !(defined(__x86_64__) && defined(__LP64__) && defined(__ELF__))
#error "depot.h: the library is for x86-64 with 64-bit pointers, ELF and the System V ABI alone; docs/FIRMWARE.md, 'Processors'"
#endif

#include "depot_card.h"

#include <limits.h>
#include <stddef.h>
#include <stdint.h>

/* A condition that the compiler checks; its name is an identifier. */
#if defined(__cplusplus) && __cplusplus >= 201103L
#define DEPOT_STATIC_ASSERT(holds, name) static_assert(holds, #name)
#elif defined(__STDC_VERSION__) && __STDC_VERSION__ >= 201112L
#define DEPOT_STATIC_ASSERT(holds, name) _Static_assert(holds, #name)
#else
#define DEPOT_STATIC_ASSERT(holds, name) typedef char name[(holds) ? 1 : -1]
#endif

/* Of a call: a compiler that can warns where the answer is not looked at. */
#if defined(__cplusplus) && __cplusplus >= 201703L
#define DEPOT_MUST_USE [[nodiscard]]
#elif defined(__GNUC__)
#define DEPOT_MUST_USE __attribute__((warn_unused_result))
#else
#define DEPOT_MUST_USE
#endif

#ifdef __cplusplus
extern "C" {
#endif

/* ---- the version ------------------------------------------------------------------------------------------------------------- */

/* Of this header, and as a number: major * 1000000 + minor * 1000 + patch. Bytes of sheets and cards may differ between minors. */
#define DEPOT_VERSION "0.14.0"
#define DEPOT_VERSION_NUMBER 14000

/*
 * The number of the library that is linked. Compare it with DEPOT_VERSION_NUMBER at the start, so that header and library belong
 * together. Stack: DEPOT_CALL_STACK.
 */
uint32_t depot_version(void);

/* ---- refusals ---------------------------------------------------------------------------------------------------------------- */

/*
 * What a call answers: 0, or the number of the first check that fails. Each call names its checks below, in the order in which it makes
 * them; that is not always the order of their numbers.
 */
enum depot_refusal {
    DEPOT_DONE = 0,
    DEPOT_SHEET_LENGTH = 1,           /* the sheet has fewer than 10 or more than 570 bytes */
    DEPOT_TOO_MANY_JOBS = 2,          /* there are more than 20 jobs */
    DEPOT_CABINET_SIZE = 3,           /* the cabinet has no modules or more than 64 */
    DEPOT_RECORD_OFFSET = 4,          /* the record offset plus 12 for each job plus 10 is not the sheet's length */
    DEPOT_RECORD_FIELD = 5,           /* some record has a field outside its range, or a bit for an earlier job that there is not */
    DEPOT_LABEL_LENGTHS = 6,          /* the label lengths do not add up to the label bytes there are */
    DEPOT_LABEL_BYTE = 7,             /* some label has a byte below 32 or above 126, or begins or ends with a space */
    DEPOT_OVER_WIDE = 8,              /* some job needs more modules than the cabinet has */
    DEPOT_CIRCULAR = 9,               /* some job would have to end before itself, directly or through others */
    DEPOT_BUFFER_TOO_SHORT = 10,      /* the lent buffer for the card, or for the written sheet, is too short */
    DEPOT_LIST_LENGTHS = 11,          /* shares and ceilings are not two lists of one length, 2 to 8, or not of the desk's */
    DEPOT_DESK_FIGURES = 12,          /* the limit is not 1 to 400,000, a share exceeds its ceiling, or a ceiling exceeds the limit */
    DEPOT_SHARES_EXCEED_LIMIT = 13,   /* the assured shares add up to more than the limit */
    DEPOT_NO_SUCH_NUMBER = 14,        /* no job or controller has this number, or no calls can leave this desk or this runner */
    DEPOT_FOR_NOTHING = 15,           /* the call is for no power */
    DEPOT_PASSES_CEILING = 16,        /* the claim would pass the controller's ceiling */
    DEPOT_DOES_NOT_FIT = 17,          /* the claim does not fit beside what the others hold or have reserved */
    DEPOT_EXCEEDS_HOLDING = 18,       /* the hand-back exceeds the holding */
    DEPOT_CHANGEOVER = 19,            /* the changeover is longer than 30 minutes */
    DEPOT_NO_COUNT_SERVES = 20,       /* no cabinet of 1 to 64 modules has a plan that ends by that minute */
    DEPOT_HOLDING_ABOVE_CEILING = 21, /* some holding exceeds its new ceiling */
    DEPOT_HOLDINGS_EXCEED_LIMIT = 22, /* the holdings, each raised to its new share where that is larger, exceed the new limit */
    DEPOT_NO_JOBS = 23,               /* the plan has no jobs */
    DEPOT_MODULE_SIZE = 24,           /* the size of a module is 0 or above 10,000 hundreds of watts */
    DEPOT_NOT_READY = 25,             /* the controller's share is below N times the size of a module, or it holds something */
    DEPOT_CARD_UNFIT = 26             /* the card is not one of a valid plan of the sheet */
};

/* ---- sizes ------------------------------------------------------------------------------------------------------------------- */

#define DEPOT_MOST_JOBS 20
#define DEPOT_MOST_MODULES 64 /* of a cabinet */
#define DEPOT_LONGEST_LABEL 16

#define DEPOT_SHORTEST_SHEET 10
#define DEPOT_LONGEST_SHEET 570
/* the sheet of so many jobs with so many label bytes in all */
#define DEPOT_SHEET_BYTES(jobs, label_bytes) ((size_t)12 * (jobs) + (label_bytes) + 10)

#define DEPOT_FEWEST_CONTROLLERS 2
#define DEPOT_MOST_CONTROLLERS 8
#define DEPOT_MOST_POWER 400000 /* the largest limit of a feeder, in hundreds of watts: 40 MW */
#define DEPOT_LARGEST_SIZE 10000 /* of a module, in hundreds of watts: 1 MW */

#define DEPOT_PLAN_STACK 57344
#define DEPOT_SIZE_STACK 81920
#define DEPOT_SETS_STACK 4096
#define DEPOT_RUNNER_STACK 12288
#define DEPOT_CALL_STACK 2048

/* ---- planning ---------------------------------------------------------------------------------------------------------------- */

/*
 * Plans a job sheet: of all valid plans the one that ends first, by the tie rule. A module rests for the sheet's changeover between two
 * jobs; whoever follows the plan hands a job's modules back at its end plus the changeover.
 *
 * sheet  Read. The sheet's bytes.
 * card   Written. The plan's card goes to its front, DEPOT_CARD_BYTES(n) bytes for n jobs; the bytes behind it stay. A buffer of
 *        DEPOT_LONGEST_CARD bytes is enough for every sheet. depot_card.h has the card's layout, and functions that read it.
 * work   Written. Working memory of any length, 0 too: more of it can make the search shorter. What it holds changes no answer, and
 *        an answered call leaves it all zero.
 *
 * The three do not overlap. Answers 0, or a refusal: 1 to 3, 19, 4 to 10, in this order. Refused, card and work are as before.
 *
 * The time grows steeply with the jobs and nothing interrupts the call: docs/FIRMWARE.md, 'Time'. A task that is killed in it leaks nothing
 * and leaves card and work half written; work may be lent again. Stack: DEPOT_PLAN_STACK.
 */
DEPOT_MUST_USE
uint32_t depot_plan(const uint8_t *sheet, size_t sheet_len, uint8_t *card, size_t card_len, uint8_t *work, size_t work_len);

/* What planning with a limit answers. */
struct depot_limited {
    uint32_t refusal; /* 0, or the refusal's number; then all else is 0 */
    uint16_t end;     /* the minute at which the plan on the card ends */
    uint16_t bound;   /* no valid plan ends before this minute */
    uint32_t exact;   /* 1: the card is the one that depot_plan writes; 0: it may be another */
};

/* The limit at which planning never gives up. */
#define DEPOT_NO_LIMIT UINT64_MAX

/*
 * Plans a job sheet as depot_plan does, and gives up after so many part-plans: the places that the search goes through, up to some million
 * of them a second. The card's plan is always valid. Where exact is 1 it is the plan that depot_plan gives; with DEPOT_NO_LIMIT exact
 * is 1. Where it is 0, the plan may be another; it ends at most `end - bound` minutes later than the earliest plan, and where the two are
 * equal it ends as early.
 *
 * Not proved: it visits at most three times the limit and 16,000 part-plans, the bound's questions included, and spends some 50 ms on list
 * plans where the list is not planned soon. The same limit, sheet and length of work give the same answer; a larger limit can give an
 * earlier end and a later bound.
 *
 * sheet, card, work  As for depot_plan.
 * limit              How many part-plans may be visited, any number.
 *
 * The three do not overlap. Answers the figures, or a refusal: 1 to 3, 19, 4 to 10, in this order. Refused, card and work are as before.
 * Stack: DEPOT_PLAN_STACK.
 */
DEPOT_MUST_USE
struct depot_limited depot_plan_within(const uint8_t *sheet, size_t sheet_len, uint8_t *card, size_t card_len, uint8_t *work,
                                       size_t work_len, uint64_t limit);

/* What the call for the end alone answers. */
struct depot_earliest {
    uint32_t refusal; /* 0, or the refusal's number; then the end is 0 */
    uint16_t end;     /* the minute at which the plan that depot_plan gives ends: no valid plan ends earlier */
};

/*
 * Finds the earliest end of a job sheet's plans, without a card: the end that depot_plan writes on its card. It takes less time, as no
 * order is settled by the tie rule.
 *
 * sheet  Read. The sheet's bytes.
 * work   Written. Working memory as for depot_plan: an answered call leaves it all zero.
 *
 * The two do not overlap. Answers the minute, or a refusal: 1 to 3, 19, 4 to 9, in this order. Refused, work is as before.
 * Stack: DEPOT_PLAN_STACK.
 */
DEPOT_MUST_USE
struct depot_earliest depot_end(const uint8_t *sheet, size_t sheet_len, uint8_t *work, size_t work_len);

/* What the call for the least module count answers. */
struct depot_sized {
    uint32_t refusal; /* 0, or the refusal's number; then the count is 0 */
    uint16_t modules; /* the least count, 1 to 64, with which some valid plan ends by that minute */
};

/*
 * Finds how large a cabinet a job sheet asks for: the least module count with which some valid plan ends by a minute, and the card that
 * depot_plan gives for that count. No smaller count has a valid plan that ends by then. The sheet's own count is checked and otherwise
 * unused; a job may need more modules than that.
 *
 * sheet  Read. The sheet's bytes.
 * by     The minute by which the plan is to end, any number.
 * card   Written. As for depot_plan, for the count that is answered, which the card itself does not name.
 * work   Written. Working memory as for depot_plan: an answered call leaves it all zero.
 *
 * The three do not overlap. Answers the count, or a refusal: 1 to 3, 19, 4 to 7, 9, 20, 10, in this order. Refused, card and work are as
 * before. It plans for one count and decides for up to seven others: docs/FIRMWARE.md, 'Time'. Stack: DEPOT_SIZE_STACK.
 */
DEPOT_MUST_USE
struct depot_sized depot_size(const uint8_t *sheet, size_t sheet_len, uint16_t by, uint8_t *card, size_t card_len, uint8_t *work,
                              size_t work_len);

/* What the call for the use of the cabinet answers. */
struct depot_usage {
    uint32_t refusal;   /* 0, or the refusal's number; then both figures are 0 */
    uint32_t per_mille; /* of the modules times the plan's end, how many thousandths jobs occupy, rounded down: 0 to 1000 */
    uint32_t remainder; /* what the per mille leaves of a thousand times the occupied module-minutes */
};

/*
 * Finds how much of the cabinet the plan that depot_plan gives uses, without a card. A module is occupied while a job runs on it, and
 * not while it rests: changeovers are not counted. The figures are exact: a thousand times the occupied module-minutes is per_mille
 * times the product of the modules and the plan's end, plus the remainder, which is smaller than that product.
 *
 * sheet  Read. The sheet's bytes.
 * work   Written. Working memory as for depot_plan: an answered call leaves it all zero.
 *
 * The two do not overlap. Answers the two figures, or a refusal: 1 to 3, 19, 4 to 9, 23, in this order. Refused, work is as before.
 * It takes the time of depot_end. Stack: DEPOT_PLAN_STACK.
 */
DEPOT_MUST_USE
struct depot_usage depot_use(const uint8_t *sheet, size_t sheet_len, uint8_t *work, size_t work_len);

/* What slack says of a job, beside the plan that depot_plan gives. Minutes are counted from the plan's start. */
struct depot_job_slack {
    int32_t latest_start; /* the latest start by which it and all jobs that follow it can still meet their departures; may be below 0 */
    int32_t slack;        /* the latest start minus the planned one: below 0 where it, or a job that follows it, is late */
    uint32_t implied;     /* its earlier jobs for which it waits by another chain already: these marks could go; bit i for job i */
};

/* What slack answers. */
struct depot_slacks {
    uint32_t refusal; /* 0, or the refusal's number; then all else is 0 */
    struct depot_job_slack jobs[DEPOT_MOST_JOBS]; /* places past the last job are 0 */
    size_t count;     /* n */
};

/*
 * Says of each job how long it may wait: its latest start, if modules were unlimited and arrivals and chains that do not begin at it are left
 * aside, and the slack of its start in the plan that depot_plan gives. Beside it, the earlier-job marks that another chain of marks implies:
 * without all of them every job follows the same jobs, and no further mark could go.
 *
 * sheet  Read. The sheet's bytes.
 * work   Written. Working memory as for depot_plan: an answered call leaves it all zero.
 *
 * The two do not overlap. Answers an entry for each job, or a refusal: 1 to 3, 19, 4 to 9, in this order. Refused, work is as before.
 * It takes the time of depot_plan. Stack: DEPOT_PLAN_STACK, and the answer in the caller's frame.
 */
DEPOT_MUST_USE
struct depot_slacks depot_slack(const uint8_t *sheet, size_t sheet_len, uint8_t *work, size_t work_len);

/* What counting the job sets answers. */
struct depot_set_count {
    uint32_t refusal; /* 0, or the refusal's number; then the count is 0 */
    uint32_t sets;    /* how many sets of jobs a part-plan can hold, 1 to 1,048,576 */
};

/*
 * Counts the sets of jobs that a part-plan of the sheet can hold: those that have, with each job, all its earlier jobs, the empty one and
 * the full one included. A chain of n jobs has n + 1, n jobs without marks 2 to the power n. It tells what planning is in for; nothing is
 * planned, and no working memory is lent.
 *
 * sheet  Read. The sheet's bytes.
 *
 * Answers the count, or a refusal: 1 to 3, 19, 4 to 9, in this order. Stack: DEPOT_SETS_STACK.
 */
DEPOT_MUST_USE
struct depot_set_count depot_sets(const uint8_t *sheet, size_t sheet_len);

/* ---- job sheets -------------------------------------------------------------------------------------------------------------- */

/* A job, in the widths of its record. */
struct depot_job {
    uint8_t label_len;  /* 1 to 16 */
    uint8_t modules;    /* that it needs, 1 to 255 */
    uint16_t minutes;   /* 1 to 1440 */
    uint32_t earlier;   /* bit i: job i must have ended first */
    uint16_t departure; /* a minute counted from the plan's start, 0 to 2880; it may lie before the arrival */
    uint16_t arrival;   /* the minute from which on it may start, 0 to 1440 */
};

/* What reading answers. */
struct depot_reading {
    uint32_t refusal;                       /* 0, or the refusal's number; then all else is 0 */
    struct depot_job jobs[DEPOT_MOST_JOBS]; /* in order; 0 in the places past the last job */
    size_t count;                           /* n, the number of jobs */
    uint16_t modules;                       /* N, the modules in the cabinet */
    uint16_t changeover;                    /* the minutes that a module rests between two jobs, 0 to 30 */
};

/*
 * Reads a job sheet. Where its labels lie comes from depot_label_of.
 *
 * sheet  Read. The sheet's bytes.
 *
 * Answers the jobs, n, N and the changeover, or a refusal: 1 to 3, 19, 4 to 7, in this order. Stack: DEPOT_CALL_STACK, and the answer
 * in the caller's frame.
 */
DEPOT_MUST_USE
struct depot_reading depot_read(const uint8_t *sheet, size_t sheet_len);

/* Where a label lies. */
struct depot_label_place {
    uint32_t refusal; /* 0, or the refusal's number; then all else is 0 */
    size_t offset;    /* of the label's first byte in the sheet */
    size_t length;    /* of the label, 1 to 16 */
};

/*
 * Finds the label of a job: the length bytes from sheet + offset, in the caller's sheet, where they stay. No 0 ends them. The sheet is
 * read for it; who has read it already calls depot_label_of.
 *
 * sheet  Read. The sheet's bytes.
 * job    The job's number, from 0.
 *
 * Answers the label's place, or a refusal: 1 to 3, 19, 4 to 7, 14, in this order. Stack: DEPOT_CALL_STACK.
 */
DEPOT_MUST_USE
struct depot_label_place depot_label(const uint8_t *sheet, size_t sheet_len, size_t job);

/*
 * Finds the label of a job in a sheet that was read, without reading it again: for the reading that depot_read gave of a sheet it
 * answers what depot_label answers for that sheet.
 *
 * reading  What depot_read answered. Whatever else it is, the call answers: the sum of the first label lengths and the next one.
 * job      The job's number, from 0.
 *
 * Answers the label's place, or a refusal: the reading's own, then 14 for a job that the reading does not count or has no place for.
 * Stack: DEPOT_CALL_STACK, and the reading.
 */
DEPOT_MUST_USE
struct depot_label_place depot_label_of(struct depot_reading reading, size_t job);

/* What writing answers. */
struct depot_written {
    uint32_t refusal; /* 0, or the refusal's number; then the length is 0 */
    size_t length;    /* of the sheet */
};

/*
 * Writes a job sheet. Reading it gives the same jobs, n, N and changeover.
 *
 * jobs        Read. The jobs in order.
 * labels      Read. The jobs' labels run together in the same order: as many bytes as the label lengths add up to, each 32 to 126; a
 *             label neither begins nor ends with a space.
 * modules     N, the modules in the cabinet.
 * changeover  The minutes that a module rests between two jobs, 0 to 30.
 * sheet       Written. The sheet goes to its front, DEPOT_SHEET_BYTES(jobs_len, labels_len) bytes; the bytes behind it stay. A buffer of
 *             DEPOT_LONGEST_SHEET bytes is enough for every sheet.
 *
 * sheet does not overlap jobs or labels. Answers the sheet's length, or a refusal: 2, 3, 19, 5, 6, 7, 10, in this order. Refused, no byte
 * is written.
 * Stack: DEPOT_CALL_STACK.
 */
DEPOT_MUST_USE
struct depot_written depot_write(const struct depot_job *jobs, size_t jobs_len, const uint8_t *labels, size_t labels_len,
                                 uint16_t modules, uint16_t changeover, uint8_t *sheet, size_t sheet_len);

/* ---- the share desk ---------------------------------------------------------------------------------------------------------- */

/*
 * What 2 to 8 controllers hold on one feeder. Every figure of power is in hundreds of watts, so that modules of 30 and of 50 kW,
 * 300 and 500, share a feeder. The caller keeps the desk and hands each call the desk as the call before it left it: what is promised
 * of several calls is promised of such a sequence. Calls on one desk come one after another. The fields are open to be read. Whoever
 * writes them makes a desk that later calls may refuse with 14, as every call but opening refuses a desk that no answered opening and
 * later calls can leave.
 */
struct depot_desk {
    uint32_t count;                           /* of controllers */
    uint32_t limit;                           /* of the feeder */
    uint32_t held[DEPOT_MOST_CONTROLLERS];    /* what each controller holds; 0 past the last */
    uint32_t assured[DEPOT_MOST_CONTROLLERS]; /* what each controller is assured of; 0 past the last */
    uint32_t ceiling[DEPOT_MOST_CONTROLLERS]; /* what each controller may hold at most; 0 past the last */
};

/*
 * Opens a desk, on which nobody holds anything.
 *
 * desk      Written. Its earlier contents do not matter; they stay where the call is refused.
 * limit     The feeder's limit, 1 to 400,000 hundreds of watts.
 * assured   Read. What each controller is assured of, for 2 to 8 controllers.
 * ceilings  Read. What each controller may hold at most, for as many.
 *
 * desk overlaps neither list. Answers 0, or a refusal: 11 to 13, in this order. Stack: DEPOT_CALL_STACK.
 */
DEPOT_MUST_USE
uint32_t depot_desk_open(struct depot_desk *desk, uint32_t limit, const uint32_t *assured, size_t assured_len,
                         const uint32_t *ceilings, size_t ceilings_len);

/*
 * Gives a running desk a new limit, new shares and new ceilings, for the same controllers. All holdings carry over. From then on claims
 * are judged by the new figures. A plan that a controller follows keeps its assurance as long as its share stays at what the plan needs.
 *
 * desk      Updated. Refused, it is as before.
 * limit     The new limit, 1 to 400,000 hundreds of watts.
 * assured   Read. The new share of each controller of the desk.
 * ceilings  Read. The new ceiling of each.
 *
 * desk overlaps neither list. Answers 0, or a refusal: 14, 11 to 13, 21, 22, in this order. Stack: DEPOT_CALL_STACK.
 */
DEPOT_MUST_USE
uint32_t depot_desk_change(struct depot_desk *desk, uint32_t limit, const uint32_t *assured, size_t assured_len,
                           const uint32_t *ceilings, size_t ceilings_len);

/*
 * Claims power for a controller. It is granted where the controller's holding plus the claim is within its ceiling and, together
 * with the larger of holding and assured share of every other controller, within the limit.
 *
 * desk        Updated. Refused, it is as before.
 * controller  The controller's number, from 0.
 * power       How much, 1 or more hundreds of watts. For a job of a plan: its modules times the size of a module.
 *
 * Answers 0, or a refusal: 14 to 17, in this order. Stack: DEPOT_CALL_STACK.
 */
DEPOT_MUST_USE
uint32_t depot_desk_claim(struct depot_desk *desk, uint32_t controller, uint32_t power);

/*
 * Hands power of a controller back.
 *
 * desk        Updated. Refused, it is as before.
 * controller  The controller's number, from 0.
 * power       How much, 1 or more hundreds of watts.
 *
 * Answers 0, or a refusal: 14, 15, 18, in this order. Stack: DEPOT_CALL_STACK.
 */
DEPOT_MUST_USE
uint32_t depot_desk_hand_back(struct depot_desk *desk, uint32_t controller, uint32_t power);

/* What a look answers. */
struct depot_looked {
    uint32_t refusal; /* 0, or the refusal's number; then the figure is 0 */
    uint32_t power;   /* the largest claim that would be granted now, 0 if none */
};

/*
 * Gives the largest claim by a controller that would be granted now.
 *
 * desk        Read.
 * controller  The controller's number, from 0.
 *
 * Answers the figure, or the refusal 14. Stack: DEPOT_CALL_STACK.
 */
DEPOT_MUST_USE
struct depot_looked depot_desk_look(const struct depot_desk *desk, uint32_t controller);

/* ---- the plan runner --------------------------------------------------------------------------------------------------------- */

/*
 * A runner follows a plan on a desk, for one controller. Each step does the next minute, the first being 0: it makes the hand-backs and
 * then the claims that fall due, each job's in job order. A job claims its modules at its start and hands them back at its end plus the
 * changeover, at size hundreds of watts a module.
 *
 * The caller keeps the runner. It hands each step the runner that the start or the step before it gave, and the desk as the last call on
 * it left it, and stores what the step gives. From the start on, and between two steps, the other controllers call as they like. Behind an
 * accepted start every call that a step makes is then granted, so that every step answers 0, on two conditions:
 *
 *   until the last hand-back the runner's controller makes no other call on the desk, not through a second runner either;
 *   no change takes that controller's share below N times size.
 *
 * The fields are open to be read. Whoever writes them makes a runner that a step may refuse with 14, as it refuses every runner that no
 * accepted start and later steps can leave. There is padding between the fields: compare two runners field by field.
 */
struct depot_runner {
    uint32_t controller;                /* for which it calls */
    uint32_t size;                      /* of a module, in hundreds of watts, 1 to 10,000 */
    uint32_t minute;                    /* that the next step does; behind the last hand-back it stays */
    size_t sheet_len;                   /* of the sheet */
    uint8_t sheet[DEPOT_LONGEST_SHEET]; /* its bytes; 0 past the last */
    size_t card_len;                    /* of the card */
    uint8_t card[DEPOT_LONGEST_CARD];   /* its bytes; 0 past the last */
};

/* What a start answers. */
struct depot_started {
    uint32_t refusal;           /* 0, or the refusal's number; then the runner is all 0, and every step refuses it with 14 */
    struct depot_runner runner; /* whose next minute is 0 */
};

/*
 * Starts a runner. Sheet and card are kept in it, so that the buffers may go. The desk is only read.
 *
 * sheet       Read. The sheet's bytes.
 * card        Read. The card's bytes and no more, DEPOT_CARD_BYTES(n) for n jobs: the card that depot_plan wrote, or that of any other
 *             valid plan of the sheet. Tested are the length; each row's end and the whole plan's validity, by the rules that the planner
 *             keeps to; an order that names each job once with starts never falling; a trailer with offset 12n, the largest end and n.
 * desk        On which the plan is to be followed.
 * controller  The controller's number, from 0. Its share must be N times size or more, and it must hold nothing.
 * size        Of a module, 1 to 10,000 hundreds of watts.
 *
 * Answers the runner, or a refusal: 1 to 3, 19, 4 to 9, 14, 24, 25, 26, in this order. Stack: DEPOT_RUNNER_STACK, and the answer in the
 * caller's frame.
 */
DEPOT_MUST_USE
struct depot_started depot_runner_start(const uint8_t *sheet, size_t sheet_len, const uint8_t *card, size_t card_len,
                                        struct depot_desk desk, uint32_t controller, uint32_t size);

/* What a step answers. */
struct depot_stepped {
    uint32_t refusal;           /* 0, or the refusal's number; then desk and runner are as before the step */
    struct depot_desk desk;     /* with the minute's calls made */
    struct depot_runner runner; /* for the next minute */
};

/*
 * Does a runner's minute: the hand-backs and then the claims that fall due. Behind the last hand-back, or for a sheet without jobs, it makes
 * no call and changes nothing.
 *
 * runner  What the start or the step before it gave.
 * desk    As the last call on it left it.
 *
 * Answers desk and runner as they then are, or a refusal: 14 for the desk, the controller's number or the runner, calls due or not; then
 * the number of the first call that the desk refuses, 16 to 18. Refused, none of the minute's calls is made, and the step may be made
 * again later. Stack: DEPOT_RUNNER_STACK, and the answer in the caller's frame.
 */
DEPOT_MUST_USE
struct depot_stepped depot_runner_step(struct depot_runner runner, struct depot_desk desk);

/* ---- the layout -------------------------------------------------------------------------------------------------------------- */

/* The sizes with which the archive was compiled: a compiler that has others must not link it. */
DEPOT_STATIC_ASSERT(CHAR_BIT == 8, depot_byte_has_8_bits);
DEPOT_STATIC_ASSERT(sizeof(void *) == 8 && sizeof(size_t) == 8, depot_pointer_has_8_bytes);
DEPOT_STATIC_ASSERT(sizeof(struct depot_limited) == 12, depot_limited_has_12_bytes);
DEPOT_STATIC_ASSERT(sizeof(struct depot_earliest) == 8, depot_earliest_has_8_bytes);
DEPOT_STATIC_ASSERT(sizeof(struct depot_sized) == 8, depot_sized_has_8_bytes);
DEPOT_STATIC_ASSERT(sizeof(struct depot_usage) == 12, depot_usage_has_12_bytes);
DEPOT_STATIC_ASSERT(sizeof(struct depot_job_slack) == 12, depot_job_slack_has_12_bytes);
DEPOT_STATIC_ASSERT(sizeof(struct depot_slacks) == 256, depot_slacks_has_256_bytes);
DEPOT_STATIC_ASSERT(sizeof(struct depot_set_count) == 8, depot_set_count_has_8_bytes);
DEPOT_STATIC_ASSERT(sizeof(struct depot_job) == 12, depot_job_has_12_bytes);
DEPOT_STATIC_ASSERT(sizeof(struct depot_reading) == 264, depot_reading_has_264_bytes);
DEPOT_STATIC_ASSERT(sizeof(struct depot_label_place) == 24, depot_label_place_has_24_bytes);
DEPOT_STATIC_ASSERT(sizeof(struct depot_written) == 16, depot_written_has_16_bytes);
DEPOT_STATIC_ASSERT(sizeof(struct depot_desk) == 104, depot_desk_has_104_bytes);
DEPOT_STATIC_ASSERT(sizeof(struct depot_looked) == 8, depot_looked_has_8_bytes);
DEPOT_STATIC_ASSERT(sizeof(struct depot_runner) == 880, depot_runner_has_880_bytes);
DEPOT_STATIC_ASSERT(sizeof(struct depot_started) == 888, depot_started_has_888_bytes);
DEPOT_STATIC_ASSERT(sizeof(struct depot_stepped) == 992, depot_stepped_has_992_bytes);

#ifdef __cplusplus
}
#endif

#endif
