/* What C's header says, for WebAssembly, where there is no C library. */
#ifndef STDINT_H
#define STDINT_H
typedef __UINT8_TYPE__ uint8_t;
typedef __UINT32_TYPE__ uint32_t;
typedef __UINT64_TYPE__ uint64_t;
typedef __UINTPTR_TYPE__ uintptr_t;
#define PTRDIFF_MAX __PTRDIFF_MAX__
#endif
