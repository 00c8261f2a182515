/* The stack that each call takes: stack MODULE ... runs every call on each module in a thread whose stack is painted before, and prints the
 * most bytes that were overwritten, without those of a thread that does nothing. For bench/costs. */
#define _DEFAULT_SOURCE
#include "rcm.h"

#include <pthread.h>
#include <stdio.h>
#include <stdlib.h>
#include <string.h>
#include <sys/mman.h>

enum { STACK_BYTES = 1 << 20, PAINT = 0xa5, MOST_FILE = 64 * 512, STEPS = 100000, FIRST_ADDRESS = 256 };

static uint8_t file[MOST_FILE + 1], form[RCM_FORM_MAX], state[RCM_STATE_BYTES], output[RCM_OUTPUT_BYTES], none[1];
static size_t file_length;
static uint64_t answer[4];

static void *nothing(void *unused)
{
    return unused;
}

static void *check(void *unused)
{
    rcm_check(file, file_length, answer);
    return unused;
}

static void *open_state(void *unused)
{
    rcm_open(file, file_length, none, 0, state, sizeof state, answer);
    return unused;
}

static void *go(void *unused)
{
    rcm_go(file, file_length, form, sizeof form, state, sizeof state, output, sizeof output, STEPS, answer);
    return unused;
}

static void *test(void *unused)
{
    rcm_test(file, file_length, state, sizeof state, answer);
    return unused;
}

static void *object(void *unused)
{
    rcm_object(file, file_length, state, sizeof state, FIRST_ADDRESS, answer);
    return unused;
}

static void fail(const char *what)
{
    fprintf(stderr, "stack: %s\n", what);
    exit(1);
}

/* How many bytes of its stack a thread that runs this overwrites. */
static size_t stack_of(void *(*call)(void *), uint8_t *stack)
{
    pthread_attr_t attributes;
    pthread_t thread;
    size_t untouched = 0;
    memset(stack, PAINT, STACK_BYTES);
    if (pthread_attr_init(&attributes) != 0 || pthread_attr_setstack(&attributes, stack, STACK_BYTES) != 0 ||
        pthread_create(&thread, &attributes, call, NULL) != 0 || pthread_join(thread, NULL) != 0)
        fail("no thread");
    pthread_attr_destroy(&attributes);
    while (untouched < STACK_BYTES && stack[untouched] == PAINT)
        untouched++;
    return STACK_BYTES - untouched;
}

int main(int count, char **names)
{
    static const struct {
        const char *name;
        void *(*call)(void *);
    } calls[] = { { "rcm_check", check }, { "rcm_open", open_state }, { "rcm_go", go }, { "rcm_test", test }, { "rcm_object", object } };
    enum { CALLS = sizeof calls / sizeof calls[0] };
    size_t most[CALLS] = { 0 };
    uint8_t *stack = mmap(NULL, STACK_BYTES, PROT_READ | PROT_WRITE, MAP_PRIVATE | MAP_ANONYMOUS, -1, 0);
    if (stack == MAP_FAILED)
        fail("no memory");
    size_t least = stack_of(nothing, stack);
    for (int i = 1; i < count; i++) {
        FILE *from = fopen(names[i], "rb");
        if (from == NULL)
            fail(names[i]);
        file_length = fread(file, 1, sizeof file, from);
        fclose(from);
        for (int j = 0; j < CALLS; j++) {
            size_t used = stack_of(calls[j].call, stack) - least;
            if (used > most[j])
                most[j] = used;
        }
    }
    for (int j = 0; j < CALLS; j++)
        printf("%s: %zu bytes of stack\n", calls[j].name, most[j]);
    return 0;
}
