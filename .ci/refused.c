// Loaded before the program's other libraries (LD_PRELOAD), this refuses calls of the program by their number, for
// .ci/refused: REFUSE_OF says of which kind, `memory`, `read`, `write`, `open`, `thread` or `interrupt`, which is of reads
// and writes, as if a signal had come. The calls of that kind are counted together over all threads, from 1, and those
// with the numbers from REFUSE to REFUSE_TO, which stand in the environment too, are refused. It has no #include, so that
// a compiler builds it where the headers of the C library are not installed.

char *getenv(const char *name);
unsigned long strtoul(const char *text, char **end, int base);
int *__errno_location(void);
unsigned alarm(unsigned seconds);
long syscall(long number, ...);
void *dlsym(void *library, const char *name);
void *__libc_malloc(unsigned long size);
void *__libc_calloc(unsigned long count, unsigned long size);
void *__libc_realloc(void *block, unsigned long size);

// Numbers of x86-64 Linux: of its calls, and of what goes wrong.
enum { READ = 0, WRITE = 1, OPEN = 2, EINTR = 4, EIO = 5, EAGAIN = 11, ENOMEM = 12 };

static _Atomic unsigned long calls;

// A run that would never end is not left behind where the check itself was ended.
__attribute__((constructor)) static void begin(void) { alarm(30); }

// Whether this call, of the kind that begins with this letter, is refused.
static int refused(char kind, int why) {
  // (before the C library has begun there is no environment, and what is asked for then is granted)
  const char *of = getenv("REFUSE_OF"), *from = getenv("REFUSE"), *to = getenv("REFUSE_TO");
  if (!of || !from || !to || *of != kind) return 0;
  unsigned long number = ++calls;
  if (number < strtoul(from, 0, 10) || number > strtoul(to, 0, 10)) return 0;
  *__errno_location() = why;
  return 1;
}

// (for want of ENOMEM pthread_create ends the program)
void *malloc(unsigned long size) { return refused('m', ENOMEM) ? 0 : __libc_malloc(size); }
void *calloc(unsigned long count, unsigned long size) { return refused('m', ENOMEM) ? 0 : __libc_calloc(count, size); }
void *realloc(void *block, unsigned long size) { return refused('m', ENOMEM) ? 0 : __libc_realloc(block, size); }

long read(int file, void *room, unsigned long size) {
  return refused('r', EIO) || refused('i', EINTR) ? -1 : syscall(READ, file, room, size);
}
long write(int file, const void *bytes, unsigned long size) {
  return refused('w', EIO) || refused('i', EINTR) ? -1 : syscall(WRITE, file, bytes, size);
}
long __write(int file, const void *bytes, unsigned long size) { return write(file, bytes, size); }
int open(const char *path, int flags, int mode) {
  return refused('o', EIO) ? -1 : (int)syscall(OPEN, path, flags, mode);
}

typedef int (*creates)(void *thread, const void *attributes, void *(*body)(void *), void *argument);
int pthread_create(void *thread, const void *attributes, void *(*body)(void *), void *argument) {
  if (refused('t', EAGAIN)) return EAGAIN;
  // (the next library that has the call)
  creates other = (creates)dlsym((void *)-1L, "pthread_create");
  return other(thread, attributes, body, argument);
}
