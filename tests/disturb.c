/* Stands between the program and the C library, counts what it asks for, and refuses some of it. tests/trial.py builds it, and has it
   loaded with the program (LD_PRELOAD). It needs no header, so that the kit's clang alone builds it.

   DISTURB   letters with numbers behind them, as a12 or O1,w5. The number is that of a call of the kind, counted from 1. A capital is
             that call and each after it.
             a, A   a growth is refused (malloc, realloc)
             t, T   a thread isn't started (pthread_create)
             r, R   a read fails
             s, S   a read gives one byte
             i, I   a read is interrupted
             w, W   a write fails
             o, O   a write takes one byte
             n, N   a write takes none
             u, U   a write is interrupted
             m, M   a file isn't renamed
   COUNTS    a file of eight numbers of eight bytes, in the order of the enumeration below */

typedef unsigned long size;

extern void *__libc_malloc(size);
extern void *__libc_realloc(void *, size);
extern char *getenv(const char *);
extern int open(const char *, int, ...);
extern void *mmap(void *, size, int, int, int, long);
extern long syscall(long, ...);
extern void *dlsym(void *, const char *);
extern int *__errno_location(void);

enum { GROWTHS, THREADS, READS, WRITES, RENAMES, BYTES_READ, LARGEST_GROWTH, UNUSED, COUNTS };
enum { EINTR = 4, EIO = 5, EAGAIN = 11, ENOMEM = 12 };

static size unwatched[COUNTS];
static size *counts = unwatched;
/* the number of the call, by the letter; 0 for none */
static size which[128];

__attribute__((constructor)) static void begin(void) {
  const char *text = getenv("DISTURB"), *file = getenv("COUNTS");
  if (file) {
    int fd = open(file, 2);
    void *at = fd < 0 ? (void *)-1 : mmap(0, sizeof unwatched, 3, 1, fd, 0);
    if (at != (void *)-1)
      counts = at;
    syscall(3, fd);
  }
  while (text && *text) {
    int letter = *text++ & 127;
    size n = 0;
    while (*text >= '0' && *text <= '9')
      n = 10 * n + (size)(*text++ - '0');
    which[letter] = n;
    while (*text == ',')
      text++;
  }
}

static size next(int of) {
  return __atomic_add_fetch(&counts[of], 1, __ATOMIC_SEQ_CST);
}

/* Whether the n-th call is the one of this small letter, or with its capital one from it on. */
static int is_due(char letter, size n) {
  size first = which[letter - 32];
  return n == which[(int)letter] || (first && n >= first);
}

static long fails(int error) {
  *__errno_location() = error;
  return -1;
}

static int is_refused(size bytes) {
  if (bytes > counts[LARGEST_GROWTH])
    counts[LARGEST_GROWTH] = bytes;
  if (!is_due('a', next(GROWTHS)))
    return 0;
  fails(ENOMEM);
  return 1;
}

void *malloc(size bytes) {
  return is_refused(bytes) ? 0 : __libc_malloc(bytes);
}

void *realloc(void *old, size bytes) {
  return is_refused(bytes) ? 0 : __libc_realloc(old, bytes);
}

typedef int starts(void *, const void *, void *(*)(void *), void *);

int pthread_create(void *thread, const void *how, void *(*run)(void *), void *with) {
  starts *start = (starts *)dlsym((void *)-1, "pthread_create");
  return is_due('t', next(THREADS)) ? EAGAIN : start(thread, how, run, with);
}

long read(int fd, void *to, size bytes) {
  size n = next(READS);
  if (is_due('r', n))
    return fails(EIO);
  if (is_due('i', n))
    return fails(EINTR);
  long got = syscall(0, fd, to, is_due('s', n) && bytes ? 1 : bytes);
  if (got > 0)
    counts[BYTES_READ] += (size)got;
  return got;
}

long write(int fd, const void *from, size bytes) {
  size n = next(WRITES);
  if (is_due('w', n))
    return fails(EIO);
  if (is_due('u', n))
    return fails(EINTR);
  if (is_due('n', n))
    return 0;
  return syscall(1, fd, from, is_due('o', n) && bytes ? 1 : bytes);
}

int rename(const char *from, const char *to) {
  return is_due('m', next(RENAMES)) ? (int)fails(EIO) : (int)syscall(82, from, to);
}
