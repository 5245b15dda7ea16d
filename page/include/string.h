/* What C's header says, for WebAssembly, where there is no C library: memcpy and memset are
 * instructions there, and nothing that the page calls needs the other. */
#ifndef STRING_H
#define STRING_H
#include <stddef.h>
#define memcpy __builtin_memcpy
#define memset __builtin_memset
size_t strlen(const char *text);
#endif
