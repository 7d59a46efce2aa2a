/*
 * depot_card.h: the plan card's bytes, and what they say. For every processor: it needs neither the library nor depot.h, which includes it.
 *
 * A card of n jobs has DEPOT_CARD_BYTES(n) bytes. Numbers of several bytes are little-endian; bit 0 is the lowest.
 *
 *   n rows    in job order: start (2 bytes), end (2), modules (8, bit m for module m)
 *   order     a byte for each job: the jobs in the order in which the plan places them
 *   trailer   offset of the order (4), the plan's end (2), n (2)
 *
 * Minutes are counted from the plan's start. The functions read the card's own bytes and check nothing: a job, or a place in the order, is
 * below n. Of bytes that come from elsewhere ask depot_card_is_whole first.
 */
#ifndef DEPOT_CARD_H
#define DEPOT_CARD_H

#include <stddef.h>
#include <stdint.h>

#define DEPOT_LONGEST_CARD 268
/* the card of so many jobs */
#define DEPOT_CARD_BYTES(jobs) ((size_t)13 * (jobs) + 8)

/* a row, and the places in it */
#define DEPOT_CARD_ROW_BYTES 12
#define DEPOT_CARD_ROW_START 0
#define DEPOT_CARD_ROW_END 2
#define DEPOT_CARD_ROW_MODULES 4

/* the trailer, and the places in it */
#define DEPOT_CARD_TRAILER_BYTES 8
#define DEPOT_CARD_TRAILER_ORDER 0
#define DEPOT_CARD_TRAILER_END 4
#define DEPOT_CARD_TRAILER_JOBS 6

/* A number of so many bytes, little-endian. */
static inline uint64_t depot_card_number(const uint8_t *bytes, size_t count)
{
    uint64_t number = 0;
    while (count > 0) {
        count--;
        number = number << 8 | bytes[count];
    }
    return number;
}

/* Where the row of a job begins. */
static inline const uint8_t *depot_card_row(const uint8_t *card, size_t job)
{
    return card + DEPOT_CARD_ROW_BYTES * job;
}

/* The minute at which a job starts. */
static inline uint16_t depot_card_start(const uint8_t *card, size_t job)
{
    return (uint16_t)depot_card_number(depot_card_row(card, job) + DEPOT_CARD_ROW_START, 2);
}

/* The minute at which a job ends. Its modules rest from there on, for the sheet's changeover. */
static inline uint16_t depot_card_end(const uint8_t *card, size_t job)
{
    return (uint16_t)depot_card_number(depot_card_row(card, job) + DEPOT_CARD_ROW_END, 2);
}

/* The modules of a job, bit m for module m. */
static inline uint64_t depot_card_modules(const uint8_t *card, size_t job)
{
    return depot_card_number(depot_card_row(card, job) + DEPOT_CARD_ROW_MODULES, 8);
}

/* The job at a place of the order, of a card of so many jobs. */
static inline uint8_t depot_card_job_at(const uint8_t *card, size_t jobs, size_t place)
{
    return card[DEPOT_CARD_ROW_BYTES * jobs + place];
}

/* The minute at which the plan ends, of a card of so many jobs. */
static inline uint16_t depot_card_plan_end(const uint8_t *card, size_t jobs)
{
    return (uint16_t)depot_card_number(card + DEPOT_CARD_BYTES(jobs) - DEPOT_CARD_TRAILER_BYTES + DEPOT_CARD_TRAILER_END, 2);
}

/* n, of a card of so many bytes: the bytes of a card and no more. */
static inline size_t depot_card_jobs(const uint8_t *card, size_t card_len)
{
    return (size_t)depot_card_number(card + card_len - DEPOT_CARD_TRAILER_BYTES + DEPOT_CARD_TRAILER_JOBS, 2);
}

/*
 * Whether so many bytes have the length and the offset that their n asks for, n being 20 at most: 1 or 0. Whether the plan is valid the
 * library tells, when a runner is started.
 */
static inline int depot_card_is_whole(const uint8_t *card, size_t card_len)
{
    const uint8_t *trailer;
    size_t jobs;
    if (card_len < DEPOT_CARD_TRAILER_BYTES || card_len > DEPOT_LONGEST_CARD) {
        return 0;
    }
    trailer = card + card_len - DEPOT_CARD_TRAILER_BYTES;
    jobs = depot_card_jobs(card, card_len);
    return card_len == DEPOT_CARD_BYTES(jobs) &&
           depot_card_number(trailer + DEPOT_CARD_TRAILER_ORDER, 4) == (uint64_t)DEPOT_CARD_ROW_BYTES * jobs;
}

#endif
