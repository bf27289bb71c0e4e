/* What the tests without a C library share, on x86-64 Linux: the start of a program, its end, and what a compiler calls
 * by itself. A test defines run, malloc, realloc and free. */
#ifndef BARE_H
#define BARE_H

#include "cordyceps.h"

#define CHECK(what) ends_unless(what, __FILE__ ": not so: " #what "\n")

enum { EXIT = 60, WRITE = 1 };

void *malloc(size_t size);
void *realloc(void *block, size_t size);
void free(void *block);
void *memset(void *to, int byte, size_t len);
void *memcpy(void *to, const void *from, size_t len);

/* A call of the system. */
static long system_call(long number, long a, const void *b, size_t c) {
  long answer;
  __asm__ volatile("syscall" : "=a"(answer) : "a"(number), "D"(a), "S"(b), "d"(c) : "rcx", "r11", "memory");
  return answer;
}

static void ends_unless(bool is_so, const char *otherwise) {
  size_t len = 0;
  if (is_so)
    return;
  while (otherwise[len])
    len++;
  system_call(WRITE, 2, otherwise, len);
  system_call(EXIT, 1, NULL, 0);
}

void *memset(void *to, int byte, size_t len) {
  void *at = to;
  __asm__ volatile("rep stosb" : "+D"(at), "+c"(len) : "a"(byte) : "memory");
  return to;
}

void *memcpy(void *to, const void *from, size_t len) {
  void *at = to;
  __asm__ volatile("rep movsb" : "+D"(at), "+S"(from), "+c"(len) : : "memory");
  return to;
}

/* What the program does. It is called at the start, with a stack that is aligned as for each call. */
__attribute__((used)) static void run(void);

__asm__(".globl _start\n_start:\n  xor %ebp, %ebp\n  and $-16, %rsp\n  call run\n  hlt\n");

#endif
