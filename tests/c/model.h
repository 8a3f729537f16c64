/* docs/RULES.md, written out once more in plain C and sharing nothing with the library: what the archive must
 * answer. Slow and simple on purpose. Each function has the arguments and the answer of its namesake. */
#ifndef MODEL_H
#define MODEL_H

#include "awirbesh.h"

awirbesh_taken model_take(awirbesh_state state);
awirbesh_raised model_raise(awirbesh_state state, uint64_t step);
awirbesh_checked model_check(const uint8_t *store, size_t store_len, uint64_t length);
awirbesh_recovered model_recover(const uint8_t *store, size_t store_len, uint64_t length, uint64_t stored);
awirbesh_look model_find(const uint8_t *store, size_t store_len, awirbesh_state state, uint64_t id);
awirbesh_look model_lookup(const uint8_t *store, size_t store_len, awirbesh_state state, uint64_t id, uint8_t *out,
                           size_t out_len);
awirbesh_started model_scan(const uint8_t *store, size_t store_len, awirbesh_state state, awirbesh_range range);
awirbesh_stepped model_step(const uint8_t *store, size_t store_len, awirbesh_state state, awirbesh_range range,
                            uint64_t cursor, uint8_t *out, size_t out_len);
awirbesh_pushed model_push(uint8_t *store, size_t store_len, awirbesh_state state, const uint64_t *ids,
                           size_t ids_len, const uint64_t *ends, size_t ends_len, const uint8_t *data,
                           size_t data_len);
awirbesh_noted model_note(uint64_t *words, awirbesh_sequence sequence, uint64_t id);

#endif
