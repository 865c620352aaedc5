/*
 * The plain Rust loaders (plain.rs, plain_forms.rs), with the areas of
 * rigpollen_answer; the answer has RIGPOLLEN_ANSWER_WORDS words.
 */
#ifndef LOADERS_H
#define LOADERS_H

#include <stdint.h>

void plain_load(const uint8_t *block, uint64_t block_length, const uint8_t *flash, uint64_t flash_length,
                uint32_t flash_start, uint8_t *ram, uint64_t ram_length, uint32_t ram_start, uint32_t *answer);

void plain_forms_load(const uint8_t *block, uint64_t block_length, const uint8_t *flash, uint64_t flash_length,
                      uint32_t flash_start, uint8_t *ram, uint64_t ram_length, uint32_t ram_start, uint32_t *answer);

#endif
