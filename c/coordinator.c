/* A host to start from: runs a module in slices, keeps its state and output on disk between them, and looks at an object.
 *
 *     coordinator run MODULE FORM STATE OUTPUT STEPS SLICES [ARGUMENT ..]
 *     coordinator object MODULE STATE ADDRESS
 *
 * `run` goes on from the state in file STATE, or opens the module with the arguments where there is no such file, for at most SLICES
 * calls of STEPS steps, and saves after each. Killed at any moment and started again with the same words it goes on from the last save.
 * Exit status: 0 ended or found, 1 wrong usage or a file that cannot be read or written, 2 refused or nothing there, 3 stopped,
 * 4 still running. The answers are those of include/rcm.h. */
#include "rcm.h"

#include <errno.h>
#include <inttypes.h>
#include <stdio.h>
#include <stdlib.h>
#include <string.h>
#include <sys/stat.h>

enum { EXIT_DONE = 0, EXIT_BAD = 1, EXIT_REFUSED = 2, EXIT_STOPPED = 3, EXIT_RUNNING = 4 };

/* What the calls are lent. A file and a form have room for one byte more than is taken, so that a longer one is refused and not cut. */
static struct {
    uint8_t module[RCM_MODULE_MAX + 1];
    size_t module_length;
    uint8_t form[RCM_FORM_MAX + 1];
    size_t form_length;
    uint8_t state[RCM_STATE_BYTES + 1];
    size_t state_length;
    uint8_t output[RCM_OUTPUT_BYTES];
} host;

static void fail(const char *name)
{
    perror(name);
    exit(EXIT_BAD);
}

/* Reads at most so many bytes of a file. Gives 0 where the file is not there and may be missing. */
static int read_file(const char *name, int may_be_missing, uint8_t *into, size_t most, size_t *length)
{
    FILE *file = fopen(name, "rb");
    if (file == NULL && may_be_missing && errno == ENOENT)
        return 0;
    if (file == NULL)
        fail(name);
    *length = fread(into, 1, most, file);
    if (ferror(file))
        fail(name);
    fclose(file);
    return 1;
}

/* Writes a file whole: beside its place first, so that whoever stops this program leaves the old file or the new one. (A host that must
 * also outlive a loss of power calls fsync before the rename.) */
static void save_file(const char *name, const uint8_t *bytes, size_t length)
{
    char beside[4096];
    int written = snprintf(beside, sizeof beside, "%s.part", name);
    if (written < 0 || (size_t)written >= sizeof beside) {
        errno = ENAMETOOLONG;
        fail(name);
    }
    FILE *file = fopen(beside, "wb");
    if (file == NULL)
        fail(beside);
    size_t put = fwrite(bytes, 1, length, file);
    if (fclose(file) != 0 || put != length)
        fail(beside);
    if (rename(beside, name) != 0)
        fail(name);
}

static uint64_t number(const char *word, uint64_t most)
{
    char *end;
    errno = 0;
    uint64_t value = strtoull(word, &end, 10);
    if (errno != 0 || end == word || *end != '\0' || word[0] == '-' || value > most) {
        fprintf(stderr, "coordinator: %s is no number from 0 to %" PRIu64 "\n", word, most);
        exit(EXIT_BAD);
    }
    return value;
}

/* Whom a refusal concerns. Nothing has run, and no byte has changed. */
static const char *advice(uint64_t refusal)
{
    switch (refusal) {
    case RCM_REFUSAL_LENGTH:
    case RCM_REFUSAL_BLOCK_PLACE:
    case RCM_REFUSAL_BLOCK_CHECK:
        return "the module file is damaged: ask for it again";
    case RCM_REFUSAL_INPUT:
        return "the arguments do not fit function 0, or the form is too long";
    case RCM_REFUSAL_BUFFER:
        return "the state or the output has a wrong length";
    case RCM_REFUSAL_STATE:
        return "the state is not one of this module, or is damaged: take an older save, or open anew";
    case RCM_REFUSAL_FINISHED:
        return "the module has already ended or stopped: open anew";
    default:
        return "the module breaks a rule: for the laboratory (rcm check says which)";
    }
}

static int refused(const uint64_t answer[4])
{
    fprintf(stderr, "refused %" PRIu64 " %" PRIu64 ": %s\n", answer[1], answer[2], advice(answer[1]));
    return EXIT_REFUSED;
}

/* The state and output of the last save, or of a module opened just now. */
static int take_up(const char *state_name, const char *output_name, char **arguments, size_t count)
{
    uint64_t answer[4];
    uint8_t bytes[RCM_ARGUMENT_BYTES * RCM_ARGUMENTS_MAX];
    if (read_file(state_name, 1, host.state, sizeof host.state, &host.state_length)) {
        size_t length = 0;
        read_file(output_name, 1, host.output, sizeof host.output, &length);
        rcm_test(host.module, host.module_length, host.state, host.state_length, answer);
        if (answer[0] == RCM_GOOD && length < rcm_state_output_count(host.state)) {
            fprintf(stderr, "coordinator: %s lacks bytes that the module has written\n", output_name);
            exit(EXIT_BAD);
        }
        return answer[0] == RCM_GOOD ? EXIT_DONE : refused(answer);
    }
    for (size_t place = 0; place < count; place++)
        rcm_put_argument(bytes, place, (uint32_t)number(arguments[place], UINT32_MAX));
    host.state_length = RCM_STATE_BYTES;
    rcm_open(host.module, host.module_length, bytes, RCM_ARGUMENT_BYTES * count, host.state, host.state_length, answer);
    return answer[0] == RCM_GOOD ? EXIT_DONE : refused(answer);
}

/* One call, then the save. The output goes first: a state without its output's bytes could not go on, an output that is ahead of its
 * state is written again, byte for byte, as the form is the same. */
static int go_on(const char *state_name, const char *output_name, uint64_t steps)
{
    uint64_t answer[4];
    size_t before = rcm_state_output_count(host.state);
    rcm_go(host.module, host.module_length, host.form, host.form_length, host.state, host.state_length, host.output, sizeof host.output,
           steps, answer);
    if (answer[0] == RCM_REFUSED)
        return refused(answer);
    fwrite(host.output + before, 1, rcm_state_output_count(host.state) - before, stdout);
    fflush(stdout);
    save_file(output_name, host.output, rcm_state_output_count(host.state));
    save_file(state_name, host.state, host.state_length);
    switch (answer[0]) {
    case RCM_ENDED:
        fprintf(stderr, "ended %" PRIu64 " %" PRIu64 "\n", answer[1], answer[2]);
        return EXIT_DONE;
    case RCM_STOPPED:
        fprintf(stderr, "stopped %" PRIu64 " %" PRIu64 "\n", answer[1], answer[2]);
        return EXIT_STOPPED;
    default:
        return EXIT_RUNNING;
    }
}

static int run(int count, char **words)
{
    read_file(words[0], 0, host.module, sizeof host.module, &host.module_length);
    read_file(words[1], 0, host.form, sizeof host.form, &host.form_length);
    uint64_t steps = number(words[4], UINT64_MAX);
    uint64_t slices = number(words[5], UINT64_MAX);
    int status = take_up(words[2], words[3], words + 6, (size_t)count - 6);
    if (status != EXIT_DONE)
        return status;
    for (status = EXIT_RUNNING; status == EXIT_RUNNING && slices > 0; slices--)
        status = go_on(words[2], words[3], steps);
    return status;
}

/* The bytes of the object around an address, which the answer gives as a part of the state. */
static int object(char **words)
{
    uint64_t answer[4];
    read_file(words[0], 0, host.module, sizeof host.module, &host.module_length);
    read_file(words[1], 0, host.state, sizeof host.state, &host.state_length);
    rcm_object(host.module, host.module_length, host.state, host.state_length, (uint32_t)number(words[2], UINT32_MAX), answer);
    if (answer[0] != RCM_GOOD) {
        fprintf(stderr, "no object lies there\n");
        return EXIT_REFUSED;
    }
    for (uint64_t i = 0; i < answer[2]; i++)
        printf("%02x%c", host.state[answer[1] + i], i + 1 < answer[2] ? ' ' : '\n');
    return EXIT_DONE;
}

int main(int count, char **words)
{
    umask(077); /* states and outputs hold a patient's data: what is made here is for its owner alone */
    if (count >= 8 && count <= 8 + RCM_ARGUMENTS_MAX && strcmp(words[1], "run") == 0)
        return run(count - 2, words + 2);
    if (count == 5 && strcmp(words[1], "object") == 0)
        return object(words + 2);
    fprintf(stderr, "usage: coordinator run MODULE FORM STATE OUTPUT STEPS SLICES [ARGUMENT ..]\n"
                    "       coordinator object MODULE STATE ADDRESS\n");
    return EXIT_BAD;
}
