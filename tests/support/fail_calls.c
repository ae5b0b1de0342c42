// Replaces calls of the C library that allocate, read, write, receive, send and read the clock, by LD_PRELOAD.
//
// REFUSE_MEMORY, REFUSE_READ, REFUSE_WRITE, REFUSE_RECV and REFUSE_SEND give the number of a call, from 1, that fails. If
// INTERRUPTED is set, it fails as if a signal had arrived, except for allocations. If FROM_INPUT is set, allocations count
// from the first read of standard input on. When a call fails, the file that REFUSED names is created. If ONE_OCTET is
// set, each read and each write moves one byte. If CLOCK_STEP is set, each reading of the clock is that many nanoseconds
// later than the one before. The file that HELD names has two numbers of 64 bits: the allocated bytes now, and their
// maximum.
#include <errno.h>
#include <fcntl.h>
#include <malloc.h>
#include <stdint.h>
#include <stdlib.h>
#include <sys/mman.h>
#include <sys/socket.h>
#include <sys/syscall.h>
#include <time.h>
#include <unistd.h>

extern void *__libc_malloc(size_t size);
extern void *__libc_calloc(size_t count, size_t size);
extern void *__libc_realloc(void *block, size_t size);
extern void *__libc_memalign(size_t alignment, size_t size);
extern void __libc_free(void *block);
extern ssize_t __read(int file, void *into, size_t count);
extern ssize_t __write(int file, const void *from, size_t count);

static long memory_left, reads_left, writes_left, receives_left, sends_left, clock_step;
static int from_input, one_octet, file_error, socket_error;
static int64_t none[2], *held = none;

static long number(const char *name) {
  const char *word = getenv(name);
  return word ? atol(word) : 0;
}

__attribute__((constructor)) static void begin(void) {
  memory_left = number("REFUSE_MEMORY");
  reads_left = number("REFUSE_READ");
  writes_left = number("REFUSE_WRITE");
  receives_left = number("REFUSE_RECV");
  sends_left = number("REFUSE_SEND");
  file_error = number("INTERRUPTED") ? EINTR : EIO;
  socket_error = number("INTERRUPTED") ? EINTR : ECONNRESET;
  clock_step = number("CLOCK_STEP");
  from_input = number("FROM_INPUT") != 0;
  one_octet = number("ONE_OCTET") != 0;
  const char *name = getenv("HELD");
  int file = name ? open(name, O_RDWR) : -1;
  if (file < 0) return;
  void *place = mmap(NULL, sizeof none, PROT_READ | PROT_WRITE, MAP_SHARED, file, 0);
  if (place != MAP_FAILED) held = place;
  close(file);
}

static int is_refused(long *left, int error) {
  if (*left == 0 || --*left != 0) return 0;
  const char *told = getenv("REFUSED");
  if (told) close(open(told, O_CREAT | O_WRONLY, 0644));
  errno = error;
  return 1;
}

static int is_memory_refused(void) { return !from_input && is_refused(&memory_left, ENOMEM); }

static void *taken(void *block) {
  held[0] += block ? malloc_usable_size(block) : 0;
  if (held[1] < held[0]) held[1] = held[0];
  return block;
}

static void given_back(void *block) { held[0] -= block ? malloc_usable_size(block) : 0; }

void *malloc(size_t size) { return is_memory_refused() ? NULL : taken(__libc_malloc(size)); }

void *calloc(size_t count, size_t size) { return is_memory_refused() ? NULL : taken(__libc_calloc(count, size)); }

void *realloc(void *block, size_t size) {
  if (is_memory_refused()) return NULL;
  size_t before = block ? malloc_usable_size(block) : 0;
  void *moved = __libc_realloc(block, size);
  if (moved || size == 0) held[0] -= before;
  return taken(moved);
}

void *memalign(size_t alignment, size_t size) {
  return is_memory_refused() ? NULL : taken(__libc_memalign(alignment, size));
}

void *aligned_alloc(size_t alignment, size_t size) { return memalign(alignment, size); }

int posix_memalign(void **into, size_t alignment, size_t size) {
  void *block = memalign(alignment, size);
  if (!block) return ENOMEM;
  *into = block;
  return 0;
}

void free(void *block) {
  given_back(block);
  __libc_free(block);
}

ssize_t read(int file, void *into, size_t count) {
  if (file == STDIN_FILENO) from_input = 0;
  if (file == STDIN_FILENO && is_refused(&reads_left, file_error)) return -1;
  return __read(file, into, one_octet && count > 1 ? 1 : count);
}

ssize_t write(int file, const void *from, size_t count) {
  if (file == STDOUT_FILENO && is_refused(&writes_left, file_error)) return -1;
  return __write(file, from, one_octet && count > 1 ? 1 : count);
}

ssize_t recv(int file, void *into, size_t count, int flags) {
  return is_refused(&receives_left, socket_error) ? -1 : recvfrom(file, into, count, flags, NULL, NULL);
}

ssize_t send(int file, const void *from, size_t count, int flags) {
  return is_refused(&sends_left, socket_error) ? -1 : sendto(file, from, count, flags, NULL, 0);
}

int clock_gettime(clockid_t clock, struct timespec *into) {
  static int64_t now;
  if (clock_step == 0) return syscall(SYS_clock_gettime, clock, into);
  now += clock_step;
  into->tv_sec = now / 1000000000;
  into->tv_nsec = now % 1000000000;
  return 0;
}
