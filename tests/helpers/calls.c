/* Built as a shared library and preloaded, it writes each call by which a program makes, moves or removes a
 * file or a socket to the file that the variable CALLS names, and its answer.
 *
 * FAIL_OPEN=FILE has each open of this path fail with the number OPEN_ERROR. FAIL_ACCEPT=N lets the first N
 * calls of accept4 fail as if descriptors ran out, FAIL_THREAD=N the N-th and each later call that starts a
 * thread, or with FAIL_THREADS=M these M. SLOW_UNLINK=N has each unlink wait for N seconds first, SLOW_COPY=N
 * the third copy of a descriptor. TAKEN=1 creates a file at the place where a link is about to be made.
 * LOCK_AFTER=FILE has the first lock wait until FILE is gone, seven seconds at most, and a second more.
 * SLOW_WAKE=N lets a thread rest for N microseconds after it released a lock that another thread waits for.
 */
#define _GNU_SOURCE
#include <dlfcn.h>
#include <errno.h>
#include <fcntl.h>
#include <linux/futex.h>
#include <pthread.h>
#include <stdarg.h>
#include <stdio.h>
#include <stdlib.h>
#include <string.h>
#include <sys/file.h>
#include <sys/socket.h>
#include <sys/stat.h>
#include <sys/syscall.h>
#include <sys/un.h>
#include <unistd.h>

#define NEXT(name) ((__typeof__(&name))dlsym(RTLD_NEXT, #name))

static int told(int answer, const char *call, const char *path, const char *more)
{
  int error = errno;
  FILE *calls = getenv("CALLS") ? fopen(getenv("CALLS"), "a") : NULL;
  if (calls) {
    fprintf(calls, "%s %s%s %s\n", call, path, more, answer ? "failed" : "done");
    fclose(calls);
  }
  errno = error;
  return answer;
}

static int told_mode(int answer, const char *call, const char *path, mode_t mode)
{
  char text[16];
  snprintf(text, sizeof text, " %o", mode);
  return told(answer, call, path, text);
}

int mkdir(const char *path, mode_t mode) { return told_mode(NEXT(mkdir)(path, mode), "mkdir", path, mode); }

int chmod(const char *path, mode_t mode) { return told_mode(NEXT(chmod)(path, mode), "chmod", path, mode); }

int link(const char *from, const char *to)
{
  char text[256];
  snprintf(text, sizeof text, " %s", to);
  if (getenv("TAKEN")) {
    FILE *file = fopen(to, "w");
    fputs("mine\n", file);
    fclose(file);
  }
  return told(NEXT(link)(from, to), "link", from, text);
}

int unlink(const char *path)
{
  if (getenv("SLOW_UNLINK"))
    sleep(atoi(getenv("SLOW_UNLINK")));
  return told(NEXT(unlink)(path), "unlink", path, "");
}

int rmdir(const char *path) { return told(NEXT(rmdir)(path), "rmdir", path, ""); }

int open(const char *path, int flags, ...)
{
  const char *failing = getenv("FAIL_OPEN");
  va_list more;
  va_start(more, flags);
  mode_t mode = va_arg(more, mode_t);
  va_end(more);
  if (failing && strcmp(path, failing) == 0) {
    errno = atoi(getenv("OPEN_ERROR"));
    return -1;
  }
  return NEXT(open)(path, flags, mode);
}

int bind(int socket, const struct sockaddr *address, socklen_t length)
{
  const char *path = address->sa_family == AF_UNIX ? ((const struct sockaddr_un *)address)->sun_path : "";
  return told(NEXT(bind)(socket, address, length), "bind", path, "");
}

int accept4(int socket, struct sockaddr *address, socklen_t *length, int flags)
{
  static int left = -1;
  if (left < 0)
    left = getenv("FAIL_ACCEPT") ? atoi(getenv("FAIL_ACCEPT")) : 0;
  if (left > 0) {
    left--;
    errno = EMFILE;
    return -1;
  }
  return NEXT(accept4)(socket, address, length, flags);
}

int flock(int file, int how)
{
  static int begun;
  const char *path = getenv("LOCK_AFTER");
  for (int look = 0; path && !begun && look < 700 && access(path, F_OK) == 0; look++)
    usleep(10000);
  if (path && !begun)
    sleep(1);
  begun = 1;
  return NEXT(flock)(file, how);
}

int fcntl(int file, int command, ...)
{
  static int copies;
  va_list more;
  va_start(more, command);
  long with = va_arg(more, long);
  va_end(more);
  if (command == F_DUPFD_CLOEXEC && ++copies == 3 && getenv("SLOW_COPY"))
    sleep(atoi(getenv("SLOW_COPY")));
  return NEXT(fcntl)(file, command, with);
}

int pthread_create(pthread_t *thread, const pthread_attr_t *how, void *(*work)(void *), void *with)
{
  static int begun;
  int failing = getenv("FAIL_THREAD") ? atoi(getenv("FAIL_THREAD")) : 0;
  int most = getenv("FAIL_THREADS") ? atoi(getenv("FAIL_THREADS")) : 1 << 30;
  if (++begun >= failing && failing && begun - failing < most)
    return EAGAIN;
  return NEXT(pthread_create)(thread, how, work, with);
}

long syscall(long number, ...)
{
  long word[6];
  va_list more;
  va_start(more, number);
  for (int i = 0; i < 6; i++)
    word[i] = va_arg(more, long);
  va_end(more);
  long answer = NEXT(syscall)(number, word[0], word[1], word[2], word[3], word[4], word[5]);
  int error = errno;
  /* A lock wakes one thread, a condition all of them. */
  if (number == SYS_futex && (word[1] & FUTEX_CMD_MASK) == FUTEX_WAKE && word[2] == 1 && getenv("SLOW_WAKE"))
    usleep(atoi(getenv("SLOW_WAKE")));
  errno = error;
  return answer;
}
