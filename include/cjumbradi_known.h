/* Cjumbradi: the calls on a store that do not test the region.
 *
 * For a broker that alone writes its regions, and for measuring: the test of a region takes most of the
 * time of a call. Each takes, answers and refuses what the call of cjumbradi.h without `known` does, but
 * for 11, and it is promised only where the region is a store. On other bytes such a call still ends,
 * and reads and writes nothing but what it was lent; its answer, and what it leaves there, are open.
 *
 * They are in an archive of their own: `tools/host-lib known` writes target/host/libknown.a. A program
 * may link both.
 */
#ifndef CJUMBRADI_KNOWN_H
#define CJUMBRADI_KNOWN_H

#include "cjumbradi.h"

#ifdef __cplusplus
extern "C" {
#endif

uint64_t cjumbradi_known_insert(uint8_t *region, size_t region_len, const uint8_t *filter,
                                size_t filter_len, uint32_t value, uint64_t *answer);
uint64_t cjumbradi_known_remove(uint8_t *region, size_t region_len, const uint8_t *filter,
                                size_t filter_len, uint32_t value, uint64_t *answer);
uint64_t cjumbradi_known_is_match(const uint8_t *region, size_t region_len, const uint8_t *name,
                                  size_t name_len, uint64_t *yes);
uint64_t cjumbradi_known_listing(const uint8_t *region, size_t region_len, const uint8_t *name,
                                 size_t name_len, uint8_t *out, size_t out_len, uint64_t *bytes,
                                 uint64_t *records);

uint64_t cjumbradi_known_set(uint8_t *region, size_t region_len, const uint8_t *name, size_t name_len,
                             uint64_t payload, uint32_t handle, uint64_t expires, uint64_t moment,
                             uint64_t *answer);
uint64_t cjumbradi_known_lookup(const uint8_t *region, size_t region_len, const uint8_t *filter,
                                size_t filter_len, uint64_t clock, uint8_t *out, size_t out_len,
                                uint64_t *bytes, uint64_t *records);
uint64_t cjumbradi_known_page(const uint8_t *region, size_t region_len, uint64_t clock, uint64_t offset,
                              uint64_t limit, uint8_t *out, size_t out_len, uint64_t *bytes,
                              uint64_t *records, uint64_t *more);
uint64_t cjumbradi_known_sweep(uint8_t *region, size_t region_len, uint64_t clock, uint64_t *removed);

#ifdef __cplusplus
}
#endif

#endif
