/* uthash, used as its guide shows: an item for each key from malloc, HASH_FIND before HASH_ADD. */
#include <stdlib.h>
#include <uthash.h>

#include "foreign.h"

struct item {
    uint32_t key;
    uint32_t value;
    UT_hash_handle hh;
};

struct map {
    struct item *head;
};

static inline uint32_t value_of(uint32_t key, uint32_t salt)
{
    return key * 2654435761u + salt;
}

static inline struct item *item_of(const struct map *map, uint32_t key)
{
    struct item *found;
    HASH_FIND(hh, map->head, &key, sizeof key, found);
    return found;
}

static inline uint32_t define_item(struct map *map, uint32_t key, uint32_t value)
{
    if (item_of(map, key))
        return 0;
    struct item *item = malloc(sizeof *item);
    if (!item)
        abort();
    item->key = key;
    item->value = value;
    HASH_ADD(hh, map->head, key, sizeof item->key, item);
    return 1;
}

static inline uint32_t remove_item(struct map *map, uint32_t key)
{
    struct item *item = item_of(map, key);
    if (!item)
        return 1;
    uint32_t old = item->value;
    HASH_DEL(map->head, item);
    free(item);
    return old;
}

/* uthash can not reserve. */
void *ut_map_new(size_t room)
{
    (void)room;
    struct map *map = malloc(sizeof *map);
    if (!map)
        abort();
    map->head = NULL;
    return map;
}

void ut_map_free(void *self)
{
    struct map *map = self;
    struct item *item, *next;
    HASH_ITER(hh, map->head, item, next) {
        HASH_DEL(map->head, item);
        free(item);
    }
    free(map);
}

uint64_t ut_map_define_all(void *self, const uint32_t *keys, size_t n)
{
    uint64_t taken = 0;
    for (size_t i = 0; i < n; i++)
        taken += define_item(self, keys[i], value_of(keys[i], 0));
    return taken;
}

uint64_t ut_map_find_all(const void *self, const uint32_t *keys, size_t n)
{
    uint64_t sum = 0;
    for (size_t i = 0; i < n; i++) {
        const struct item *item = item_of(self, keys[i]);
        sum += item ? item->value : 1;
    }
    return sum;
}

uint64_t ut_map_change_all(void *self, const uint32_t *keys, size_t n, uint32_t salt)
{
    uint64_t sum = 0;
    for (size_t i = 0; i < n; i++) {
        struct item *item = item_of(self, keys[i]);
        sum += item ? item->value : 1;
        if (item)
            item->value = value_of(keys[i], salt);
    }
    return sum;
}

uint64_t ut_map_renew_all(void *self, const uint32_t *keys, size_t n)
{
    uint64_t sum = 0;
    for (size_t i = 0; i < n; i++) {
        sum += remove_item(self, keys[i]);
        sum += define_item(self, keys[i], value_of(keys[i], 0));
    }
    return sum;
}

uint32_t ut_map_define_one(void *self, uint32_t key, uint32_t value)
{
    return define_item(self, key, value);
}
