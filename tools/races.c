/* Three names that the toolchain's clang calls where it compiles for ThreadSanitizer, and that older runtimes lack.
   Their own memcpy, memmove and memset note what these touch. */

#include <string.h>

__attribute__((weak)) void *__tsan_memcpy(void *to, const void *from, size_t size) { return memcpy(to, from, size); }

__attribute__((weak)) void *__tsan_memmove(void *to, const void *from, size_t size) { return memmove(to, from, size); }

__attribute__((weak)) void *__tsan_memset(void *at, int byte, size_t size) { return memset(at, byte, size); }
