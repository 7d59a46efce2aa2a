/*
 * depot_text.h: each refusal in plain words, for logs and displays. For every processor: it needs neither the library nor depot.h, whose
 * enum depot_refusal says exactly what each number means.
 */
#ifndef DEPOT_TEXT_H
#define DEPOT_TEXT_H

#include <stdint.h>

/* What a call answered, in words that stay where they are: 0 is done, and a number that no call answers has words of its own. */
static inline const char *depot_refusal_text(uint32_t refusal)
{
    static const char *const texts[] = {
        "done",
        "the sheet has fewer than 10 or more than 570 bytes",
        "there are more than 20 jobs",
        "the cabinet has no modules or more than 64",
        "the records do not lie where the trailer says",
        "some record has a field outside its range, or waits for a job that there is not",
        "the label lengths do not add up to the label bytes there are",
        "some label has a byte below 32 or above 126, or begins or ends with a space",
        "some job needs more modules than the cabinet has",
        "some job would have to end before itself",
        "the lent buffer is too short",
        "shares and ceilings are not two lists of one length, 2 to 8, or not of the desk's",
        "the limit is not 0.1 to 40,000 kW, a share exceeds its ceiling, or a ceiling exceeds the limit",
        "the assured shares add up to more than the limit",
        "no controller or job has this number, or no calls can have left this desk or this runner",
        "the call is for no power",
        "the claim would pass the controller's ceiling",
        "the claim does not fit beside what others hold or have reserved",
        "the hand-back exceeds the holding",
        "the changeover is longer than 30 minutes",
        "no cabinet of up to 64 modules is enough: none has a plan that ends by that minute",
        "some holding exceeds its new ceiling",
        "the holdings, each raised to its new share where that is larger, exceed the new limit",
        "there are no jobs",
        "the size of a module is not 0.1 to 1,000 kW",
        "the controller's assured share is below what the plan needs, or it holds something",
        "the card is not one of a valid plan of the sheet",
    };
    return refusal < sizeof texts / sizeof texts[0] ? texts[refusal] : "no such refusal";
}

#endif
