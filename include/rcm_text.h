/* A text for each number of a refusal and a stop, in English, for messages to people. These functions are plain C (c/rcm_text.c), outside
 * the proved library: they look at the number alone, and no promise rests on them. Link librcm_text.a, or compile c/rcm_text.c into the
 * host.
 *
 * Every text is a string that stays: never null, never to be freed. A number that is none has a text that says so. */
#ifndef RCM_TEXT_H
#define RCM_TEXT_H

#include <stdint.h>

#ifdef __cplusplus
extern "C" {
#endif

/* What a refusal's number means (enum rcm_refusal), in a few words without a full stop. */
const char *rcm_refusal_text(uint64_t number);

/* What to do about a refusal, in whole sentences. */
const char *rcm_refusal_advice(uint64_t number);

/* What a stop's number means (enum rcm_stop), in a few words without a full stop. */
const char *rcm_stop_text(uint64_t number);

/* What to do about a stop, in whole sentences. */
const char *rcm_stop_advice(uint64_t number);

#ifdef __cplusplus
}
#endif

#endif
