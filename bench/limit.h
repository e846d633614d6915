/* limit.h: the rules of kt.h by hand in C, with no proof: what the store could cost at best.
 * Every function takes and answers exactly what its namesake kt_... does. */
#ifndef LIMIT_H
#define LIMIT_H

#include "kt.h"

#ifdef __cplusplus
extern "C" {
#endif

extern __typeof__(kt_open) limit_open;
extern __typeof__(kt_find) limit_find;
extern __typeof__(kt_define) limit_define;
extern __typeof__(kt_change) limit_change;
extern __typeof__(kt_remove) limit_remove;
extern __typeof__(kt_settle) limit_settle;
extern __typeof__(kt_check) limit_check;

#ifdef __cplusplus
}
#endif

#endif
