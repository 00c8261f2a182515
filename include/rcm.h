/* Region-checked modules, for C: the checker, opening, going on, the state test and the reader of states. c/coordinator.c is a host to
 * start from.
 *
 * Buffers. Every call reads the buffers that it is lent, writes those that are not const, and keeps none: when it returns, they are the
 * host's again. What a call writes (state and output where they are not const, the answer) shares no byte with another buffer of the same
 * call; nobody writes a lent buffer during a call, nor reads one that the call writes; no pointer is null, also where a length is 0. The
 * promises hold only so. Lengths and bytes are free otherwise: what does not fit is refused. Bytes need no alignment, the answer that of
 * uint64_t.
 *
 * Threads and memory. The library has no variables, allocates nothing, and calls only memcpy and memset. Any number of threads may be in
 * its calls at once, each with its own state, output and answer; one file or form may be lent to all of them. A call takes its memory
 * from the caller's stack, rcm_go the most: about 110 kilobytes on types as deep as a file can have them (measured by bench/costs; no
 * theorem bounds a stack). Give a thread 256 kilobytes or more.
 *
 * Answers. Every call fills all four numbers of its answer; numbers that are not named below are 0. answer[0] is one of enum rcm_answer:
 *   RCM_REFUSED  with [1] the refusal's number and [2] its place (for rcm_object: no object, and all numbers are 0)
 *   RCM_GOOD     accepted, opened, passed or found
 *   RCM_ENDED, RCM_STOPPED, RCM_RUNNING  (rcm_go alone)
 * A refusal changes no byte of state or output. Refusals (enum rcm_refusal) come in the order of their numbers; those of the module, 1 to
 * 8, depend on the file alone: the same file is refused in the same way by every call. The place is the block for 2 and 3 and the record
 * for 4 to 8, each counted through the file from 0, else 0. README.md says whom each number concerns; rcm_text.h has a text for each.
 *
 * A state is RCM_STATE_BYTES bytes, laid out in docs/STATE.md. Between calls it may be copied and stored: no call trusts its bytes. To go
 * on from a stored state later, store the output's bytes with it and know its module file and form: none of them is in the state. The
 * state test keeps every run safe, but it is no proof of origin: a state of another module may pass by chance.
 */
#ifndef RCM_H
#define RCM_H

#include <stddef.h>
#include <stdint.h>

#ifdef __cplusplus
extern "C" {
#endif

/* The version of this header and library, and the edition of the rules: document 01 with P1 and P2 of document 02. */
#define RCM_VERSION "0.2.0"
#define RCM_VERSION_MAJOR 0
#define RCM_VERSION_MINOR 2
#define RCM_VERSION_PATCH 0
#define RCM_EDITION 2

/* Lengths in bytes. A module file has 1 to 64 blocks; a longer file is refused, and so is a longer form. */
#define RCM_BLOCK_BYTES 512
#define RCM_MODULE_MAX 32768
#define RCM_FORM_MAX 4096
#define RCM_STATE_BYTES 24576
#define RCM_OUTPUT_BYTES 4096

/* Arguments of function 0: at most so many, each of so many bytes (see rcm_put_argument). */
#define RCM_ARGUMENTS_MAX 7
#define RCM_ARGUMENT_BYTES 4

/* answer[0] of every call, and what rcm_state_status says of a state. */
enum rcm_answer {
    RCM_REFUSED = 0,
    RCM_GOOD = 1,
    RCM_ENDED = 2,
    RCM_STOPPED = 3,
    RCM_RUNNING = 4
};

/* answer[1] where answer[0] is RCM_REFUSED. */
enum rcm_refusal {
    RCM_REFUSAL_LENGTH = 1,      /* the file is not 1 to 64 blocks of 512 bytes */
    RCM_REFUSAL_BLOCK_PLACE = 2, /* a block says another place or count */
    RCM_REFUSAL_BLOCK_CHECK = 3, /* a block's check does not fit its bytes */
    RCM_REFUSAL_RECORD = 4,      /* a record is unknown, out of order, over a limit or names nothing */
    RCM_REFUSAL_TYPE = 5,        /* a type has no size, is over 256 bytes or is given the wrong regions */
    RCM_REFUSAL_FUNCTION = 6,    /* a function's registers, regions or result break its scope */
    RCM_REFUSAL_INSTRUCTION = 7, /* an instruction breaks its typing rule */
    RCM_REFUSAL_CODE_END = 8,    /* a function's last instruction could run past its end */
    RCM_REFUSAL_INPUT = 9,       /* rcm_open: arguments that are not 4 bytes for each parameter of function 0. rcm_go: a form over
                                    RCM_FORM_MAX bytes */
    RCM_REFUSAL_BUFFER = 20,     /* a state that is not RCM_STATE_BYTES long, or an output that is not RCM_OUTPUT_BYTES long (rcm_go) */
    RCM_REFUSAL_STATE = 21,      /* a state that fails the state test for this module: another module's, or damaged. An older save may
                                    pass, else open anew */
    RCM_REFUSAL_FINISHED = 22    /* a state whose module has already ended or stopped: nothing is left to go on with; open anew */
};

/* answer[1] where answer[0] is RCM_STOPPED. */
enum rcm_stop {
    RCM_STOP_ZERO_ADDRESS = 31, /* a zero address was used */
    RCM_STOP_CHECK = 32,        /* a check of an address failed (kind 22) */
    RCM_STOP_INDEX = 33,        /* an index was not below the array's count */
    RCM_STOP_NO_PAGE = 34,      /* no page was free for a new object */
    RCM_STOP_FRAMES = 35,       /* a call with 16 frames in use */
    RCM_STOP_DIVISION = 36,     /* a zero divisor, or a signed quotient out of range */
    RCM_STOP_SHIFT = 37,        /* a shift by the width or more */
    RCM_STOP_FORM_END = 38,     /* a byte past the form's end was read */
    RCM_STOP_OUTPUT_FULL = 39   /* more than RCM_OUTPUT_BYTES bytes of output */
};

/* The verdict on a module file of any length and any bytes.
 *   RCM_GOOD     accepted: [1] terms, [2] names, [3] functions * 65536 + instructions
 *   RCM_REFUSED  1 to 8
 */
void rcm_check(const uint8_t *file, size_t file_len, uint64_t answer[4]);

/* Opening: the state becomes that of function 0 at its first instruction, with its arguments (4 bytes each, little-endian: see
 * rcm_put_argument). No byte of the old state is looked at. The output starts empty, whatever bytes its buffer has.
 *   RCM_GOOD     opened
 *   RCM_REFUSED  1 to 9, 20
 */
void rcm_open(const uint8_t *file, size_t file_len, const uint8_t *arguments, size_t arguments_len, uint8_t *state, size_t state_len,
              uint64_t answer[4]);

/* Going on from the state for at most budget steps, with this form. What the module emits goes into the output, behind what it emitted in
 * earlier calls (rcm_state_output_count says how much); the other bytes of the output stay as they are. So a host lends the same output
 * from the opening on, and between two calls reads what is new. A call is not interrupted: the budget is what
 * bounds it. Each call checks the module and tests the state again: microseconds, more on a module made to be slow (docs/PERFORMANCE.md).
 *   RCM_ENDED    [1] the module's value, an i32 as a number from 0 to 4,294,967,295, [2] the steps of this call
 *   RCM_STOPPED  [1] the reason (enum rcm_stop), [2] the steps of this call, the one that stopped included. The state can be inspected,
 *                not gone on with
 *   RCM_RUNNING  [2] the steps of this call, which are the whole budget; call again with the state as it was left
 *   RCM_REFUSED  1 to 9, 20, 21, 22
 */
void rcm_go(const uint8_t *file, size_t file_len, const uint8_t *form, size_t form_len, uint8_t *state, size_t state_len, uint8_t *output,
            size_t output_len, uint64_t budget, uint64_t answer[4]);

/* The state test: whether the state is sound for this module. rcm_go makes it too; what passes here it refuses only with 9, 22, or 20 for
 * its output.
 *   RCM_GOOD     passed
 *   RCM_REFUSED  1 to 8, 20, 21
 */
void rcm_test(const uint8_t *file, size_t file_len, const uint8_t *state, size_t state_len, uint64_t answer[4]);

/* The object around an address of the module's memory, used or free; the address may lie inside it. Addresses are the values of the
 * module's pointers, which stand in the registers and objects of a state.
 *   RCM_GOOD     found: its bytes are state[answer[1]] to state[answer[1] + answer[2] - 1]
 *   RCM_REFUSED  no object lies there, or module or state is refused
 */
void rcm_object(const uint8_t *file, size_t file_len, const uint8_t *state, size_t state_len, uint32_t address, uint64_t answer[4]);

/* Accessors, so that a host needs no knowledge of bytes: plain C over docs/STATE.md and the file format, outside the proved library. Those
 * of a state look at its first 8 bytes (0 the status, 2 and 3 the output count, 4 to 7 the result) and believe them: a state that comes
 * from elsewhere is tested first (rcm_test). */

/* Puts an argument of function 0 at its place, 0 to RCM_ARGUMENTS_MAX - 1, into the bytes that rcm_open is lent. */
static inline void rcm_put_argument(uint8_t *arguments, size_t place, uint32_t value)
{
    for (size_t byte = 0; byte < RCM_ARGUMENT_BYTES; byte++)
        arguments[RCM_ARGUMENT_BYTES * place + byte] = (uint8_t)(value >> (8 * byte));
}

/* RCM_RUNNING, RCM_ENDED or RCM_STOPPED; RCM_REFUSED for what is no state. */
static inline enum rcm_answer rcm_state_status(const uint8_t *state)
{
    switch (state[0]) {
    case 0:
        return RCM_RUNNING;
    case 1:
        return RCM_ENDED;
    default:
        return state[0] >= RCM_STOP_ZERO_ADDRESS && state[0] <= RCM_STOP_OUTPUT_FULL ? RCM_STOPPED : RCM_REFUSED;
    }
}

/* Why the module has stopped (enum rcm_stop), 0 where it has not. */
static inline uint64_t rcm_state_stop(const uint8_t *state)
{
    return rcm_state_status(state) == RCM_STOPPED ? state[0] : 0;
}

/* How many bytes of the output the module has written so far: at most RCM_OUTPUT_BYTES, whatever the bytes. */
static inline size_t rcm_state_output_count(const uint8_t *state)
{
    size_t count = state[2] + 256u * state[3];
    return count < RCM_OUTPUT_BYTES ? count : RCM_OUTPUT_BYTES;
}

/* The value with which the module has ended, 0 where it has not. */
static inline uint32_t rcm_state_result(const uint8_t *state)
{
    return state[4] | (uint32_t)state[5] << 8 | (uint32_t)state[6] << 16 | (uint32_t)state[7] << 24;
}

/* How many arguments rcm_open asks for this file, 0 to RCM_ARGUMENTS_MAX; -1 where rcm_check refuses it. A block holds 63 records of 8
 * bytes from byte 4 on; types and structs (kinds 1 to 6) stand before the first function (kind 7), whose byte 5 is the number. */
static inline int rcm_module_parameters(const uint8_t *file, size_t file_len)
{
    uint64_t answer[4];
    rcm_check(file, file_len, answer);
    if (answer[0] != RCM_GOOD)
        return -1;
    for (size_t block = 0; block < file_len; block += RCM_BLOCK_BYTES)
        for (size_t record = block + 4; record < block + RCM_BLOCK_BYTES - 4; record += 8)
            if (file[record] == 7)
                return file[record + 5];
    return -1;
}

#ifdef __cplusplus
}
#endif

#endif
