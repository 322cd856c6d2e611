/* What door.h, and tests/targets/ without a C library, need of <stdint.h>: the kit's clang brings no headers. */
#ifndef SHIM_STDINT_H
#define SHIM_STDINT_H

typedef __UINT8_TYPE__ uint8_t;
typedef __UINT32_TYPE__ uint32_t;
typedef __UINT64_TYPE__ uint64_t;
typedef __INT32_TYPE__ int32_t;
typedef __INT64_TYPE__ int64_t;
typedef __UINTPTR_TYPE__ uintptr_t;

#define UINT32_MAX __UINT32_MAX__

#endif
