/* How the library asks for memory. Its proved code calls the three functions at the end of this file, and these call
 * cordyceps_malloc, cordyceps_realloc and cordyceps_free, which a program may define in place of the ones here
 * (cordyceps_heap.h). This file includes nothing, so that it can be compiled without a C library. */
typedef __SIZE_TYPE__ size;

#define WEAK __attribute__((weak))
#define HIDDEN __attribute__((visibility("hidden")))

void *malloc(size bytes);
void *realloc(void *block, size bytes);
void free(void *block);

WEAK void *cordyceps_malloc(size bytes);
WEAK void *cordyceps_realloc(void *block, size bytes);
WEAK void cordyceps_free(void *block);

void *cordyceps_malloc(size bytes) { return malloc(bytes); }

void *cordyceps_realloc(void *block, size bytes) { return realloc(block, bytes); }

void cordyceps_free(void *block) { free(block); }

/* A block, or an address of nothing where memory was refused: proved code has no null pointers here. */
struct answer {
  size is_granted;
  void *at;
};

HIDDEN struct answer cordyceps_heap_alloc(size bytes, size align);
HIDDEN struct answer cordyceps_heap_realloc(void *block, size kept, size bytes, size align);
HIDDEN void cordyceps_heap_dealloc(void *block);

static struct answer answer(void *block) {
  static char nothing;
  struct answer it = {block ? 1 : 0, block ? block : &nothing};
  return it;
}

/* A request for no bytes asks for a few, so that its block is one of its own. */
struct answer cordyceps_heap_alloc(size bytes, size align) { return answer(cordyceps_malloc(bytes ? bytes : align)); }

struct answer cordyceps_heap_realloc(void *block, size kept, size bytes, size align) {
  (void)kept;
  return answer(cordyceps_realloc(block, bytes ? bytes : align));
}

void cordyceps_heap_dealloc(void *block) { cordyceps_free(block); }
