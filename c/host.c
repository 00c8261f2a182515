/* The C interface tried from C: opens a module, goes on with budgets 0, 1 and many, tests and inspects the state, and
 * shows that a refused call changes no byte. (A host to start from is coordinator.c.) Built with -Wall -Wextra -Werror and the address
 * sanitizer, and run by the gate:
 *
 *     host MODULE FORM
 *
 * prints the program's two lines of document 01; on any surprise it names the call and exits with status 1. */
#include "rcm.h"

#include <inttypes.h>
#include <stdio.h>
#include <stdlib.h>
#include <string.h>

enum {
    MEMORY_AT = 8192,
    MEMORY_BYTES = 16384
};

/* A lent buffer, of its exact length, so that the sanitizer sees a byte read or written beside it. */
struct buffer {
    uint8_t *bytes;
    size_t length;
};

static void fail(const char *what)
{
    fprintf(stderr, "host: %s\n", what);
    exit(1);
}

static void expect(int holds, const char *what)
{
    if (!holds)
        fail(what);
}

/* malloc(0) may be null, and no lent pointer may be: a buffer has room for one byte at least. */
static struct buffer buffer_of(size_t length, int fill)
{
    struct buffer b = { malloc(length > 0 ? length : 1), length };
    expect(b.bytes != NULL, "out of memory");
    memset(b.bytes, fill, length > 0 ? length : 1);
    return b;
}

static struct buffer copy_of(struct buffer from)
{
    struct buffer b = buffer_of(from.length, 0);
    memcpy(b.bytes, from.bytes, from.length);
    return b;
}

static int same(struct buffer a, struct buffer b)
{
    return a.length == b.length && memcmp(a.bytes, b.bytes, a.length) == 0;
}

/* A file of at most so many bytes, and one more, so that a longer one is refused as such. */
static struct buffer read_file(const char *name, size_t most)
{
    FILE *file = fopen(name, "rb");
    if (file == NULL) {
        perror(name);
        exit(1);
    }
    struct buffer whole = buffer_of(most + 1, 0);
    whole.length = fread(whole.bytes, 1, most + 1, file);
    if (ferror(file)) {
        perror(name);
        exit(1);
    }
    fclose(file);
    struct buffer exact = copy_of(whole);
    free(whole.bytes);
    return exact;
}

static void go(struct buffer file, struct buffer form, struct buffer state, struct buffer output, uint64_t budget, uint64_t answer[4])
{
    memset(answer, 0xff, 4 * sizeof answer[0]);
    rcm_go(file.bytes, file.length, form.bytes, form.length, state.bytes, state.length, output.bytes, output.length, budget, answer);
}

static void test(struct buffer file, struct buffer state, uint64_t answer[4])
{
    memset(answer, 0xff, 4 * sizeof answer[0]);
    rcm_test(file.bytes, file.length, state.bytes, state.length, answer);
}

/* A call that must be refused with this number, and leaves state and output as they were. */
static void refused(struct buffer file, struct buffer form, struct buffer state, struct buffer output, uint64_t number, const char *what)
{
    uint64_t answer[4];
    struct buffer old_state = copy_of(state);
    struct buffer old_output = copy_of(output);
    go(file, form, state, output, 1, answer);
    expect(answer[0] == RCM_REFUSED && answer[1] == number, what);
    expect(same(state, old_state) && same(output, old_output), what);
    free(old_state.bytes);
    free(old_output.bytes);
}

/* Refusals 9, 20 and 21 of going on, from a good state. */
static void refusals(struct buffer file, struct buffer form, struct buffer state, struct buffer output)
{
    struct buffer long_form = buffer_of(RCM_FORM_MAX + 1, 0);
    struct buffer short_output = { output.bytes, output.length - 1 };
    struct buffer short_state = { state.bytes, state.length - 1 };
    struct buffer bad_state = copy_of(state);
    struct buffer other_state = copy_of(state);
    bad_state.bytes[63] = 1; /* a spare byte */
    other_state.bytes[9] = 1; /* not all pages */
    refused(file, long_form, state, output, RCM_REFUSAL_INPUT, "a form of 4,097 bytes");
    refused(file, form, state, short_output, RCM_REFUSAL_BUFFER, "an output of 4,095 bytes");
    refused(file, form, short_state, output, RCM_REFUSAL_BUFFER, "a state of 24,575 bytes");
    refused(file, form, bad_state, output, RCM_REFUSAL_STATE, "a spare byte that is set");
    refused(file, form, other_state, output, RCM_REFUSAL_STATE, "a state of a machine with fewer pages");
    free(long_form.bytes);
    free(bad_state.bytes);
    free(other_state.bytes);
}

/* Each address is in the part that the reader gives for it, or in none; the part lies in the pages. */
static uint64_t inspect(struct buffer file, struct buffer state)
{
    uint64_t found = 0;
    for (uint32_t address = 0; address < MEMORY_BYTES; address += 61) {
        uint64_t answer[4];
        rcm_object(file.bytes, file.length, state.bytes, state.length, address, answer);
        if (answer[0] != RCM_GOOD)
            continue;
        uint64_t at = MEMORY_AT + (uint64_t)address;
        expect(answer[1] <= at && at < answer[1] + answer[2], "the part of an address");
        expect(MEMORY_AT <= answer[1] && answer[1] + answer[2] <= RCM_STATE_BYTES, "a part of the pages");
        found++;
    }
    return found;
}

static void print_answer(const uint64_t answer[4])
{
    switch (answer[0]) {
    case RCM_REFUSED:
        printf("refused %" PRIu64 " %" PRIu64 "\n", answer[1], answer[2]);
        break;
    case RCM_ENDED:
        printf("ended %" PRIu64 " %" PRIu64 "\n", answer[1], answer[2]);
        break;
    case RCM_STOPPED:
        printf("stopped %" PRIu64 " %" PRIu64 "\n", answer[1], answer[2]);
        break;
    default:
        printf("running %" PRIu64 "\n", answer[2]);
    }
}

/* What the header's accessors say of a state after a call of going on is what the call answered. */
static void accessors(const uint8_t *state, const uint64_t answer[4])
{
    expect(rcm_state_status(state) == answer[0], "the status of a state");
    expect(rcm_state_stop(state) == (answer[0] == RCM_STOPPED ? answer[1] : 0), "the stop of a state");
    expect(rcm_state_result(state) == (answer[0] == RCM_ENDED ? answer[1] : 0), "the result of a state");
}

/* The run of 1,000,000 steps again, in calls of 0, 1 and then many steps: the same state and output. */
static void split(struct buffer file, struct buffer form, struct buffer state, struct buffer output, uint64_t steps)
{
    uint64_t answer[4];
    struct buffer before = copy_of(state);
    go(file, form, state, output, 0, answer);
    expect(answer[0] == RCM_RUNNING && answer[2] == 0 && same(state, before), "a budget of 0");
    uint64_t taken = 0;
    uint64_t budget = 1;
    do {
        refusals(file, form, state, output);
        go(file, form, state, output, budget, answer);
        expect(answer[0] != RCM_REFUSED, "going on");
        taken += answer[2];
        budget = taken == 1 ? 1000 : 1000000 - taken;
        test(file, state, answer);
        expect(answer[0] == RCM_GOOD, "the state test after a call");
    } while (rcm_state_status(state.bytes) == RCM_RUNNING && taken < 1000000);
    expect(taken == steps, "the steps of a split budget");
    free(before.bytes);
}

/* The run of an opened module, then the same in parts; the state that is left is inspected. */
static void run(struct buffer file, struct buffer form, struct buffer state, struct buffer output)
{
    uint64_t answer[4];
    struct buffer second_state = copy_of(state);
    struct buffer second_output = copy_of(output);
    go(file, form, state, output, 1000000, answer);
    print_answer(answer);
    if (answer[0] != RCM_REFUSED) {
        accessors(state.bytes, answer);
        split(file, form, second_state, second_output, answer[2]);
        expect(same(state, second_state) && same(output, second_output), "the bytes that a split budget leaves");
        if (answer[0] != RCM_RUNNING)
            refused(file, form, state, output, RCM_REFUSAL_FINISHED, "going on after the end");
        fprintf(stderr, "host: %" PRIu64 " parts seen by the reader\n", inspect(file, state));
    }
    free(second_state.bytes);
    free(second_output.bytes);
}

int main(int argc, char **argv)
{
    if (argc != 3) {
        fprintf(stderr, "usage: host MODULE FORM\n");
        return 2;
    }
    uint64_t answer[4];
    struct buffer file = read_file(argv[1], RCM_MODULE_MAX);
    struct buffer form = read_file(argv[2], RCM_FORM_MAX);
    struct buffer none = buffer_of(0, 0);
    struct buffer state = buffer_of(RCM_STATE_BYTES, 0xa5);
    struct buffer output = buffer_of(RCM_OUTPUT_BYTES, 0);
    rcm_check(file.bytes, file.length, answer);
    int parameters = rcm_module_parameters(file.bytes, file.length);
    expect((answer[0] == RCM_GOOD) == (parameters >= 0), "the parameters of an accepted file");
    if (answer[0] == RCM_GOOD) {
        printf("accepted %" PRIu64 " %" PRIu64 " %" PRIu64 " %" PRIu64 "\n", answer[1], answer[2], answer[3] / 65536, answer[3] % 65536);
        rcm_open(file.bytes, file.length, none.bytes, none.length, state.bytes, state.length, answer);
        expect((answer[0] == RCM_GOOD) == (parameters == 0), "opening without arguments");
    }
    if (answer[0] == RCM_GOOD)
        run(file, form, state, output);
    else
        print_answer(answer);
    free(file.bytes);
    free(form.bytes);
    free(none.bytes);
    free(state.bytes);
    free(output.bytes);
    return 0;
}
