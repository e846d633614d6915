// The two tables behind one set of names: the store's calls and the limit's.
#ifndef TABLES_H
#define TABLES_H

#include "kt.h"
#include "limit.h"

#define TABLE_CALLS(table)                                                                                             \
    static constexpr auto open = table##_open;                                                                         \
    static constexpr auto find = table##_find;                                                                         \
    static constexpr auto define = table##_define;                                                                     \
    static constexpr auto change = table##_change;                                                                     \
    static constexpr auto remove = table##_remove;                                                                     \
    static constexpr auto settle = table##_settle;                                                                     \
    static constexpr auto check = table##_check;

struct StoreCalls {
    static constexpr auto name = "this store";
    TABLE_CALLS(kt)
};

struct LimitCalls {
    static constexpr auto name = "the limit";
    TABLE_CALLS(limit)
};

#endif
