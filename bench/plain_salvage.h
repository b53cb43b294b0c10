/* The salvage of a broken record file in plain C: what the benchmark compares the proved library with. */
#ifndef PLAIN_SALVAGE_H
#define PLAIN_SALVAGE_H

#include "../include/cradlekeel.h"

/* The type of ck_salvage too. */
typedef ck_salvaged salvage(const uint8_t *bytes, size_t length, size_t record_length, const uint32_t *edges, size_t edge_count, uint8_t *file,
                            size_t file_room, uint64_t *dropped, size_t dropped_room);
salvage plain_salvage;

#endif
