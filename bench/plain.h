/* A straightforward interpreter of module files in C: what the proved machine's speed is measured against. Not proved; it trusts that
 * the module is accepted. */
#ifndef PLAIN_H
#define PLAIN_H

#include <stddef.h>
#include <stdint.h>

typedef struct plain plain;

/* Prepares an accepted module once; null where there is no memory. */
plain *plain_prepare(const uint8_t *file, size_t file_len);
void plain_release(plain *p);

/* Function 0 at instruction 0 with the arguments, 4 bytes each. */
void plain_open(plain *p, const uint8_t *arguments, size_t arguments_len);

/* Goes on from a running state; the output has 4,096 bytes. The answer is that of rcm_go. */
void plain_go(plain *p, const uint8_t *form, size_t form_len, uint8_t *output, uint64_t budget, uint64_t answer[4]);

#endif
