/* Opens a module and goes on once: once MODULE FORM BUDGET. For bench/costs, which counts the instructions and the memory of a run. */
#include "rcm.h"

#include <stdio.h>
#include <stdlib.h>

enum { MOST_FILE = 64 * 512 };

static uint8_t file[MOST_FILE + 1], form[RCM_FORM_MAX + 1], state[RCM_STATE_BYTES], output[RCM_OUTPUT_BYTES], none[1];

static size_t read_file(const char *name, uint8_t *into, size_t most)
{
    FILE *from = fopen(name, "rb");
    if (from == NULL) {
        perror(name);
        exit(1);
    }
    size_t length = fread(into, 1, most, from);
    fclose(from);
    return length;
}

int main(int argc, char **argv)
{
    if (argc != 4) {
        fprintf(stderr, "usage: once MODULE FORM BUDGET\n");
        return 2;
    }
    uint64_t answer[4];
    size_t file_length = read_file(argv[1], file, sizeof file);
    size_t form_length = read_file(argv[2], form, sizeof form);
    rcm_open(file, file_length, none, 0, state, sizeof state, answer);
    if (answer[0] != 1) {
        fprintf(stderr, "once: %s is refused with %llu\n", argv[1], (unsigned long long)answer[1]);
        return 1;
    }
    rcm_go(file, file_length, form, form_length, state, sizeof state, output, sizeof output, strtoull(argv[3], NULL, 10), answer);
    printf("%llu\n", (unsigned long long)answer[2]);
    return 0;
}
