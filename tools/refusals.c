// Stands before the allocator of a program, by LD_PRELOAD, and refuses one of its requests for memory, or one of its
// threads. What the C library asks for itself is neither counted nor refused.
//
// REFUSALS_AT and REFUSALS_THREAD say which request and which thread is refused, from 1 on; 0 refuses none.
// REFUSALS_TOLD names a file of the size of `struct told`, which has what happened, however the program ends.

typedef unsigned long word;

struct told {
  word requests;        // for memory, the refused one among them
  word refused;         // of these
  word held;            // blocks that were not given back
  word threads;         // that were to be started, the refused one among them
  word threads_refused; // of these
};

struct header {
  unsigned type, flags;
  word offset, address, physical, in_file, in_memory, align;
};

struct object {
  word base;
  const char *name;
  const struct header *headers;
  unsigned short count;
};

extern void *__libc_malloc(word);
extern void *__libc_calloc(word, word);
extern void *__libc_realloc(void *, word);
extern void __libc_free(void *);
extern char *getenv(const char *);
extern word strtoul(const char *, char **, int);
extern int open(const char *, int, ...);
extern int close(int);
extern void *mmap(void *, word, int, int, int, long);
extern void abort(void);
extern void *dlsym(void *, const char *);
extern int dl_iterate_phdr(int (*)(struct object *, word, void *), void *);

static struct told unheard, *told = &unheard;
static word refuse_at, refuse_thread;
static word first, end; // the addresses of the program itself
static int (*create)(void *, const void *, void *(*)(void *), void *);

// Notes where the program lies, which comes first of all objects.
static int note(struct object *program, word size, void *unused) {
  (void)size, (void)unused;
  first = ~0ul;
  for (int i = 0; i < program->count; i++) {
    const struct header *it = &program->headers[i];
    if (it->type != 1) continue; // (not loaded)
    word from = program->base + it->address, to = from + it->in_memory;
    if (from < first) first = from;
    if (to > end) end = to;
  }
  return 1;
}

static word number(const char *name) {
  const char *text = getenv(name);
  return text ? strtoul(text, 0, 10) : 0;
}

__attribute__((constructor)) static void begin(void) {
  const char *file = getenv("REFUSALS_TOLD");
  int at = file ? open(file, 2) : -1; // (to read and write)
  if (at < 0) abort();
  struct told *here = mmap(0, sizeof *here, 3, 1, at, 0); // (to read and write, shared)
  if (here == (void *)-1) abort();
  close(at);
  dl_iterate_phdr(note, 0);
  create = dlsym((void *)-1, "pthread_create"); // (the next one)
  refuse_at = number("REFUSALS_AT");
  refuse_thread = number("REFUSALS_THREAD");
  told = here;
}

#define BY_PROGRAM ((word)__builtin_return_address(0) - first < end - first)

static int is_refused(void) {
  if (__atomic_add_fetch(&told->requests, 1, 5) != refuse_at) return 0;
  told->refused++;
  return 1;
}

static void *counted(void *block) {
  if (block) __atomic_add_fetch(&told->held, 1, 5);
  return block;
}

void *malloc(word size) {
  if (!BY_PROGRAM) return __libc_malloc(size);
  return is_refused() ? 0 : counted(__libc_malloc(size));
}

void *calloc(word count, word size) {
  if (!BY_PROGRAM) return __libc_calloc(count, size);
  return is_refused() ? 0 : counted(__libc_calloc(count, size));
}

void *realloc(void *block, word size) {
  if (!BY_PROGRAM) return __libc_realloc(block, size);
  if (is_refused()) return 0;
  return block ? __libc_realloc(block, size) : counted(__libc_realloc(block, size));
}

void free(void *block) {
  if (block && BY_PROGRAM) __atomic_sub_fetch(&told->held, 1, 5);
  __libc_free(block);
}

int pthread_create(void *thread, const void *how, void *(*run)(void *), void *with) {
  if (BY_PROGRAM && __atomic_add_fetch(&told->threads, 1, 5) == refuse_thread) {
    told->threads_refused++;
    return 11; // (EAGAIN)
  }
  return create(thread, how, run, with);
}
