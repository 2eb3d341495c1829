/* The rules of the paper in plain C, in place, written for speed: the baseline of the benchmark. Nothing here is proved. They are compiled
 * twice: as the compiler would have it, and with INLINED, where `judge` is always inlined and the functions have names of their own. */
#ifndef PLAIN_H
#define PLAIN_H

#include "hvozdalka.h"

#ifdef INLINED
#define plain_query inlined_query
#define plain_enforce inlined_enforce
#define plain_enforce_by_value inlined_enforce_by_value
#define plain_query_by_value inlined_query_by_value
#define plain_effective_flags inlined_effective_flags
#define plain_flag_source inlined_flag_source
#define plain_most_moves inlined_most_moves
#define plain_read_setup inlined_read_setup
#define plain_write_setup inlined_write_setup
#define plain_line inlined_line
#endif

hv_outcome plain_query(const hv_facility *f, uint8_t request, uint8_t process, uint8_t target, uint8_t extra);
hv_outcome plain_enforce(hv_facility *f, uint8_t request, uint8_t process, uint8_t target, uint8_t extra);
hv_enforced plain_enforce_by_value(hv_facility f, uint8_t request, uint8_t process, uint8_t target, uint8_t extra);
hv_outcome plain_query_by_value(hv_facility f, uint8_t request, uint8_t process, uint8_t target, uint8_t extra);
uint8_t plain_effective_flags(const hv_facility *f, uint8_t t);
uint8_t plain_flag_source(const hv_facility *f, uint8_t t, uint8_t flag);
uint32_t plain_most_moves(const hv_facility *f, uint8_t user);
uint8_t plain_read_setup(hv_facility *f, const uint8_t *bytes, size_t length, uint16_t *index);
size_t plain_write_setup(const hv_facility *f, uint8_t *out, size_t length);
size_t plain_line(char *out, uint64_t index, const uint8_t call[4], const hv_facility *f, hv_outcome o);

hv_outcome inlined_query(const hv_facility *f, uint8_t request, uint8_t process, uint8_t target, uint8_t extra);
hv_outcome inlined_enforce(hv_facility *f, uint8_t request, uint8_t process, uint8_t target, uint8_t extra);

#endif
