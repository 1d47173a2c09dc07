/* The kit's clang comes without its headers: what the hosts and include/layout.h use of <stdint.h>. */
#ifndef STDINT_H
#define STDINT_H
typedef __UINT8_TYPE__ uint8_t;
typedef __UINT32_TYPE__ uint32_t;
typedef __INT64_TYPE__ int64_t;
typedef __UINT64_TYPE__ uint64_t;
typedef __UINTPTR_TYPE__ uintptr_t;
#define UINT64_MAX __UINT64_MAX__
#endif
