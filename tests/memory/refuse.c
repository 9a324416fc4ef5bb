/* Refuses memory, reads and writes of a program that it is loaded before (LD_PRELOAD), as environment variables ask:

     GROWTH=N       the Nth growth (malloc or realloc) is refused, counted from 1
     GROWTHS=N      that one and all after it
     WRITE=N        the Nth write to standard output fails, and all after it
     NO_WRITE=N     it takes no byte, and nor do those after it
     READ=N         the Nth read fails, and all after it
     ONE_BYTE=1     a read or a write moves one byte at most
     TOLD=FD        takes a byte when the first of these is refused

   refused-memory.py compiles it and sets them. */
#define _GNU_SOURCE
#include <errno.h>
#include <stddef.h>
#include <stdlib.h>
#include <sys/syscall.h>
#include <sys/types.h>
#include <unistd.h>

extern void *__libc_malloc(size_t);
extern void *__libc_realloc(void *, size_t);

static long growth, growths, write_fails, write_takes_none, read_fails, one_byte, told;
static long grown, written, read_so_far, has_told;

static long number(const char *name) {
  const char *text = getenv(name);
  return text ? atol(text) : 0;
}

__attribute__((constructor)) static void look(void) {
  growth = number("GROWTH");
  growths = number("GROWTHS");
  write_fails = number("WRITE");
  write_takes_none = number("NO_WRITE");
  read_fails = number("READ");
  one_byte = number("ONE_BYTE");
  told = number("TOLD");
}

static void tell(void) {
  if (told && __atomic_fetch_add(&has_told, 1, __ATOMIC_SEQ_CST) == 0)
    syscall(SYS_write, told, "!", 1);
}

static int is_refused(void) {
  if (!growth && !growths)
    return 0;
  long now = __atomic_add_fetch(&grown, 1, __ATOMIC_SEQ_CST);
  if (now != growth && !(growths && now >= growths))
    return 0;
  tell();
  errno = ENOMEM;
  return 1;
}

void *malloc(size_t size) { return is_refused() ? NULL : __libc_malloc(size); }

void *realloc(void *old, size_t size) { return is_refused() ? NULL : __libc_realloc(old, size); }

ssize_t write(int fd, const void *bytes, size_t count) {
  if (fd == 1 && (write_fails || write_takes_none)) {
    long now = ++written;
    if (write_fails && now >= write_fails) {
      tell();
      errno = EIO;
      return -1;
    }
    if (write_takes_none && now >= write_takes_none) {
      tell();
      return 0;
    }
  }
  return syscall(SYS_write, fd, bytes, one_byte && count ? 1 : count);
}

ssize_t __write(int fd, const void *bytes, size_t count) { return write(fd, bytes, count); }

ssize_t read(int fd, void *bytes, size_t count) {
  if (read_fails && __atomic_add_fetch(&read_so_far, 1, __ATOMIC_SEQ_CST) >= read_fails) {
    tell();
    errno = EIO;
    return -1;
  }
  return syscall(SYS_read, fd, bytes, one_byte && count ? 1 : count);
}

ssize_t __read(int fd, void *bytes, size_t count) { return read(fd, bytes, count); }
