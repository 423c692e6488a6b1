/* The entries of thuyrekho.h in plain C, from document 01 alone: what the product is judged and measured by. */
#ifndef PEER_H
#define PEER_H

#include "thuyrekho.h"

thk_told peer_start(uint32_t *table, size_t words, const uint32_t *identities, size_t n, uint32_t capacity);
thk_told peer_step(uint32_t *table, size_t words, uint32_t chosen);
thk_ran peer_run(uint32_t *table, size_t words, const uint8_t *schedule, size_t length, uint32_t budget);
thk_leading peer_leads(const uint32_t *table, size_t words);
thk_frame peer_read(const uint8_t *bytes, size_t length);
thk_told peer_write(uint8_t *bytes, size_t room, uint32_t generation, uint32_t kind, uint32_t value);

#endif
