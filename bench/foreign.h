/* The peers in other languages: each loops over the keys in its own language. */
#ifndef FOREIGN_H
#define FOREIGN_H

#include <stddef.h>
#include <stdint.h>

#ifdef __cplusplus
extern "C" {
#endif

#define FOREIGN_CALLS(peer)                                                                        \
    void *peer##_new(size_t room);                                                                 \
    void peer##_free(void *map);                                                                   \
    uint64_t peer##_define_all(void *map, const uint32_t *keys, size_t n);                         \
    uint64_t peer##_find_all(const void *map, const uint32_t *keys, size_t n);                     \
    uint64_t peer##_change_all(void *map, const uint32_t *keys, size_t n, uint32_t salt);          \
    uint64_t peer##_renew_all(void *map, const uint32_t *keys, size_t n);                          \
    uint32_t peer##_define_one(void *map, uint32_t key, uint32_t value);

FOREIGN_CALLS(ut_map)
FOREIGN_CALLS(rust_map)

#ifdef __cplusplus
}
#endif

#endif
