// Refuses one allocation of a program that it is preloaded into: the one of the number that REFUSE names, counted from
// 1. With REFUSE=0 none is refused, and how many there were is written to standard error at the end.
// It includes no header, so that a compiler alone builds it.
typedef __SIZE_TYPE__ size_t;

extern char *getenv(const char *);
extern long atol(const char *);
extern int dprintf(int, const char *, ...);
extern long syscall(long, ...);
extern int *__errno_location(void);
extern void *__libc_malloc(size_t);
extern void *__libc_realloc(void *, size_t);

static long count;

static long chosen(void) {
  static long number = -1;
  if (number < 0) {
    const char *text = getenv("REFUSE");
    number = text ? atol(text) : 0;
  }
  return number;
}

static int is_refused(void) {
  count++;
  if (count != chosen()) return 0;
  *__errno_location() = 12; // ENOMEM
  return 1;
}

void *malloc(size_t size) { return is_refused() ? (void *)0 : __libc_malloc(size); }

void *realloc(void *old, size_t size) { return is_refused() ? (void *)0 : __libc_realloc(old, size); }

__attribute__((destructor)) static void tell(void) {
  if (chosen() == 0) dprintf(2, "allocations %ld\n", count);
}

// A program with threads ends by this, without destructors. 231 is exit_group on x86-64.
__attribute__((noreturn)) void _exit(int status) {
  tell();
  for (;;) syscall(231, (long)status);
}
