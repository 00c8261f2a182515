/* libFuzzer's target over the C interface. An input is a module file and what is done with it; buffers have their exact lengths, so that
 * the address sanitizer sees a byte read or written beside them. Checked on every input: entries of an answer are written, a refused call
 * changes no byte, a run in two calls leaves what the same run in one call leaves, and every state that a call leaves passes the test.
 *
 * The library is not instrumented, so what it answers is the coverage: refusals by number and place, stops by number, steps by their
 * size. See fuzz/run. */
#include "rcm.h"

#include <stdlib.h>
#include <string.h>

enum { BLOCK = 512, CHECK_AT = 508 };

enum { REFUSED = 0, GOOD = 1, RUNNING = 4 };

__attribute__((used, section("__libfuzzer_extra_counters"))) static volatile uint8_t counters[1 << 16];

static void seen(uint64_t what, uint64_t first, uint64_t second)
{
    counters[(what * 8191 + first * 131 + second) % sizeof counters] = 1;
}

static unsigned log_of(uint64_t n)
{
    unsigned bits = 0;
    for (; n > 0; n >>= 1)
        bits++;
    return bits;
}

static uint8_t *copy_of(const uint8_t *from, size_t length)
{
    uint8_t *to = malloc(length > 0 ? length : 1);
    if (to == NULL)
        abort();
    if (length > 0)
        memcpy(to, from, length);
    return to;
}

/* Place, count and check of each block put right, so that inputs get past refusals 2 and 3. */
static void repair(uint8_t *file, size_t length)
{
    size_t blocks = length / BLOCK;
    for (size_t i = 0; i < blocks; i++) {
        uint8_t *block = file + i * BLOCK;
        uint32_t sum = 0;
        block[0] = (uint8_t)i;
        block[1] = (uint8_t)(i >> 8);
        block[2] = (uint8_t)blocks;
        block[3] = (uint8_t)(blocks >> 8);
        for (uint32_t j = 0; j < CHECK_AT; j++)
            sum += (j + 1) * block[j];
        for (int j = 0; j < 4; j++)
            block[CHECK_AT + j] = (uint8_t)(sum >> (8 * j));
    }
}

static void written(const uint64_t answer[4])
{
    for (int i = 0; i < 4; i++)
        if (answer[i] == UINT64_MAX)
            abort();
}

struct machine {
    uint8_t *file;
    size_t file_length;
    uint8_t *form;
    size_t form_length;
    uint8_t *state;
    uint8_t *output;
    uint64_t answer[4];
};

static void go(struct machine *m, uint64_t budget)
{
    memset(m->answer, 0xff, sizeof m->answer);
    rcm_go(m->file, m->file_length, m->form, m->form_length, m->state, RCM_STATE_BYTES, m->output, RCM_OUTPUT_BYTES, budget, m->answer);
    written(m->answer);
    seen(1 + m->answer[0], m->answer[1], m->answer[0] == REFUSED ? m->answer[2] : log_of(m->answer[2]));
}

static void test(struct machine *m, uint64_t answer[4])
{
    memset(answer, 0xff, 4 * sizeof answer[0]);
    rcm_test(m->file, m->file_length, m->state, RCM_STATE_BYTES, answer);
    written(answer);
}

/* A run in one call and in two. */
static void run(struct machine *m, uint64_t budget, uint64_t first)
{
    struct machine parts = *m;
    uint64_t answer[4];
    parts.state = copy_of(m->state, RCM_STATE_BYTES);
    parts.output = copy_of(m->output, RCM_OUTPUT_BYTES);
    go(m, budget);
    go(&parts, first);
    if (parts.answer[0] == RUNNING)
        go(&parts, budget - first);
    if (m->answer[0] == REFUSED || memcmp(m->state, parts.state, RCM_STATE_BYTES) != 0 || memcmp(m->output, parts.output, RCM_OUTPUT_BYTES) != 0)
        abort();
    test(m, answer);
    if (answer[0] != GOOD)
        abort();
    free(parts.state);
    free(parts.output);
}

/* Bits of the state are flipped: it is refused and left as it was, or goes on and passes the test again. */
static void damaged(struct machine *m, const uint8_t *bits, size_t count)
{
    uint64_t answer[4];
    for (size_t i = 0; i + 2 <= count; i += 2)
        m->state[(bits[i] * 256u + bits[i + 1]) % RCM_STATE_BYTES] ^= (uint8_t)(1u << (bits[i] % 8));
    uint8_t *before = copy_of(m->state, RCM_STATE_BYTES);
    test(m, answer);
    int passes = answer[0] == GOOD;
    go(m, 300);
    if (m->answer[0] == REFUSED) {
        if (memcmp(before, m->state, RCM_STATE_BYTES) != 0)
            abort();
    } else if (!passes) {
        abort();
    } else {
        test(m, answer);
        if (answer[0] != GOOD)
            abort();
    }
    free(before);
}

/* The first four bytes say the blocks, the form's length, a budget and where to cut it; then come the form, some flips, and the file. */
int LLVMFuzzerTestOneInput(const uint8_t *data, size_t size)
{
    enum { HEAD = 4, FORM = 16, FLIPS = 8 };
    if (size < HEAD + FORM + FLIPS)
        return 0;
    const uint8_t *body = data + HEAD + FORM + FLIPS;
    size_t given = size - HEAD - FORM - FLIPS;
    size_t length = ((size_t)(data[0] % 4) + 1) * BLOCK;
    uint8_t *file = calloc(length, 1);
    if (file == NULL)
        abort();
    memcpy(file, body, given < length ? given : length);
    if (data[0] < 250)
        repair(file, length);
    struct machine m = { file, length, copy_of(data + HEAD, data[1] % (FORM + 1)), data[1] % (FORM + 1), NULL, NULL, { 0 } };
    memset(m.answer, 0xff, sizeof m.answer);
    rcm_check(file, length, m.answer);
    written(m.answer);
    seen(0, m.answer[1], m.answer[0] == REFUSED ? m.answer[2] : 0);
    if (m.answer[0] == GOOD) {
        uint8_t arguments[28] = { 0 };
        m.state = malloc(RCM_STATE_BYTES);
        m.output = calloc(RCM_OUTPUT_BYTES, 1);
        if (m.state == NULL || m.output == NULL)
            abort();
        memset(m.state, 0xa5, RCM_STATE_BYTES);
        size_t count = 0;
        do {
            rcm_open(file, length, arguments, count, m.state, RCM_STATE_BYTES, m.answer);
            count += 4;
        } while (m.answer[0] != GOOD && count <= sizeof arguments);
        if (m.answer[0] != GOOD)
            abort();
        run(&m, data[2] * 4u, data[2] * 4u * data[3] / 256u);
        damaged(&m, data + HEAD + FORM, FLIPS);
        free(m.state);
        free(m.output);
    }
    free(m.form);
    free(file);
    return 0;
}
