/* The texts of refusals and stops for C (include/rcm_text.h), from the lines of numbers.def, which the tool `rcm` reads too. Not a part of
 * the proved library. */
#include "rcm_text.h"

struct entry {
    uint64_t number;
    const char *text;
    const char *advice;
};

/* Numbers start at 1: an entry of 0 ends a table, and has the texts of every number that is not in it. */
#define REFUSAL(number, text, advice) { number, text, advice },
#define STOP(number, text, advice)
static const struct entry refusals[] = {
#include "numbers.def"
    { 0, "no number of a refusal", "See that the call was refused: only then is the answer's second number that of a refusal." }
};
#undef REFUSAL
#undef STOP

#define REFUSAL(number, text, advice)
#define STOP(number, text, advice) { number, text, advice },
static const struct entry stops[] = {
#include "numbers.def"
    { 0, "no number of a stop", "See that the module has stopped: only then is the answer's second number that of a stop." }
};
#undef REFUSAL
#undef STOP

static const struct entry *find(const struct entry *entry, uint64_t number)
{
    while (entry->number != 0 && entry->number != number)
        entry++;
    return entry;
}

const char *rcm_refusal_text(uint64_t number)
{
    return find(refusals, number)->text;
}

const char *rcm_refusal_advice(uint64_t number)
{
    return find(refusals, number)->advice;
}

const char *rcm_stop_text(uint64_t number)
{
    return find(stops, number)->text;
}

const char *rcm_stop_advice(uint64_t number)
{
    return find(stops, number)->advice;
}
