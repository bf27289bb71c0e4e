/* The functions by which the library asks for memory. For GCC and Clang, C99 and C++17.
 *
 * The library has weak definitions of these three, which call malloc, realloc and free. A program that defines them
 * itself has the library call its own: an allocator of its own, a pool, or a count of what is asked for. It defines all
 * three, in an object that is linked as such and not taken from an archive, or in C++ as `extern "C"`.
 *
 *     void *cordyceps_malloc(size_t bytes) { return zmalloc(bytes); }
 *     void *cordyceps_realloc(void *block, size_t bytes) { return zrealloc(block, bytes); }
 *     void cordyceps_free(void *block) { zfree(block); }
 *
 * The caller keeps what cordyceps.h asks of malloc, realloc and free. Any thread that makes a call of the library may
 * call these at any time. They do not call the library with a handle of the call from which they are called. */
#ifndef CORDYCEPS_HEAP_H
#define CORDYCEPS_HEAP_H

#include <stddef.h>

#ifdef __cplusplus
extern "C" {
#endif

/* Answers a new block of that many bytes, which are more than 0, or NULL where memory is refused. */
void *cordyceps_malloc(size_t bytes);

/* Makes a block one of that many bytes, more than 0, and answers where it is then. NULL: memory is refused, and the
 * block is as it was. */
void *cordyceps_realloc(void *block, size_t bytes);

/* Frees a block, which is not NULL. */
void cordyceps_free(void *block);

#ifdef __cplusplus
}
#endif

#endif
