/* Built as a shared library and preloaded, it lets calls of a program fail once, with a chosen
 * errno: FAULT=NAME:N:ERRNO lets the N-th call of this name fail, counted from 1, and FAULT=NAME:N+:ERRNO
 * that and each later one. ERRNO is a name of the table below, or a number. Several faults are joined by
 * commas, each with a count of its own.
 *
 *   NAME        calls
 *   getdents64  getdents64
 *   read        read, pread
 *   open        open, openat
 *   statx       statx
 *   accept4     accept4
 *   dup         fcntl with F_DUPFD_CLOEXEC or F_DUPFD, dup, dup2, dup3
 *   write       write, writev, pwrite
 *   fsync       fsync, fdatasync
 *   rename      rename, renameat, renameat2
 *   chmod       chmod, fchmod, fchmodat
 *   unlink      unlink, unlinkat
 *
 * With FAULT_PATH=PATH only calls on this file, or on files below this folder, are counted: calls by a path
 * by where that leads, calls by a descriptor by /proc/self/fd; rename by either of its paths. A socket is on
 * no path, so accept4 and the copies of a socket are counted only without FAULT_PATH.
 *
 * The file that FAULT_TOLD names gets a line `NAME N` for each call that failed so. Calls by way of syscall
 * are looked at too, but only the program's own: the C library calls the kernel without these names. What
 * make quick builds has functions of the same names in it, which call on to these. */
#define _GNU_SOURCE
#include <dlfcn.h>
#include <errno.h>
#include <fcntl.h>
#include <limits.h>
#include <stdarg.h>
#include <stdatomic.h>
#include <stdio.h>
#include <stdlib.h>
#include <string.h>
#include <sys/socket.h>
#include <sys/stat.h>
#include <sys/syscall.h>
#include <sys/uio.h>
#include <unistd.h>

#define NEXT(name) ((__typeof__(&name))dlsym(RTLD_NEXT, #name))
#define MOST_FAULTS 8

struct fault {
  char name[16];
  long first;        /* the call that fails, from 1 */
  int each_later;    /* whether later ones do too */
  int error;
  atomic_long calls; /* how many there were */
};

static struct fault faults[MOST_FAULTS];
static int count;
static char limit[PATH_MAX]; /* the path of FAULT_PATH, or empty */

static const struct {
  const char *name;
  int number;
} errors[] = {
    {"EPERM", EPERM}, {"ENOENT", ENOENT}, {"EINTR", EINTR}, {"EIO", EIO}, {"EBADF", EBADF},
    {"EAGAIN", EAGAIN}, {"ENOMEM", ENOMEM}, {"EACCES", EACCES}, {"EEXIST", EEXIST}, {"EXDEV", EXDEV},
    {"ENOTDIR", ENOTDIR}, {"EISDIR", EISDIR}, {"EINVAL", EINVAL}, {"ENFILE", ENFILE}, {"EMFILE", EMFILE},
    {"EFBIG", EFBIG}, {"ENOSPC", ENOSPC}, {"EROFS", EROFS}, {"EDQUOT", EDQUOT},
    {"ECONNABORTED", ECONNABORTED}, {"ESTALE", ESTALE}, {"ETXTBSY", ETXTBSY}, {"ENOBUFS", ENOBUFS},
};

static const char *const names[] = {"getdents64", "read", "open", "statx", "accept4", "dup",
                                    "write", "fsync", "rename", "chmod", "unlink"};

static int is_name(const char *word)
{
  for (size_t at = 0; at < sizeof names / sizeof *names; at++)
    if (!strcmp(word, names[at]))
      return 1;
  return 0;
}

static int error_of(const char *word)
{
  for (size_t at = 0; at < sizeof errors / sizeof *errors; at++)
    if (!strcmp(word, errors[at].name))
      return errors[at].number;
  return atoi(word);
}

/* The path without links of the file at this path; of a missing file, the path that it would have. */
static int place_of(const char *path, char *found)
{
  char folder[PATH_MAX], whole[PATH_MAX];
  if (realpath(path, found))
    return 1;
  if (snprintf(folder, sizeof folder, "%s", path) >= (int)sizeof folder)
    return 0;
  char *last = strrchr(folder, '/');
  const char *name = last ? last + 1 : path;
  if (last)
    *(last == folder ? last + 1 : last) = 0;
  if (!realpath(last ? folder : ".", whole))
    return 0;
  return snprintf(found, PATH_MAX, "%s/%s", strcmp(whole, "/") ? whole : "", name) < PATH_MAX;
}

/* Faults that can't be read end the program: a case with one would check nothing. */
static void refuse(const char *what)
{
  fprintf(stderr, "faults.c: %s\n", what);
  _exit(99);
}

__attribute__((constructor)) static void begin(void)
{
  const char *given = getenv("FAULT"), *path = getenv("FAULT_PATH");
  char text[512], error[32], later[2], *rest = text;
  if (path && !place_of(path, limit))
    refuse("FAULT_PATH leads nowhere");
  if (!given)
    return;
  snprintf(text, sizeof text, "%s", given);
  for (char *word; (word = strsep(&rest, ",")); count++) {
    struct fault *fault = &faults[count];
    if (count == MOST_FAULTS)
      refuse("too many faults");
    later[0] = 0;
    if (sscanf(word, "%15[a-z0-9]:%ld%1[+]:%31s", fault->name, &fault->first, later, error) != 4) {
      later[0] = 0;
      if (sscanf(word, "%15[a-z0-9]:%ld:%31s", fault->name, &fault->first, error) != 3)
        refuse("FAULT is NAME:N:ERRNO");
    }
    fault->each_later = later[0] == '+';
    fault->error = error_of(error);
    if (fault->first < 1 || fault->error < 1 || !is_name(fault->name))
      refuse("FAULT is NAME:N:ERRNO");
  }
}

static void tell(const char *name, long call)
{
  char line[64];
  const char *path = getenv("FAULT_TOLD");
  int length = snprintf(line, sizeof line, "%s %ld\n", name, call);
  if (!path)
    return;
  int file = (int)NEXT(syscall)(SYS_openat, AT_FDCWD, path, O_WRONLY | O_CREAT | O_APPEND | O_CLOEXEC, 0600);
  if (file >= 0) {
    (void)!NEXT(syscall)(SYS_write, file, line, length);
    NEXT(syscall)(SYS_close, file);
  }
}

static int is_below(const char *path)
{
  size_t length = strlen(limit);
  if (strncmp(path, limit, length))
    return 0;
  return path[length] == 0 || path[length] == '/' || limit[length - 1] == '/';
}

/* Whether a call on this descriptor counts. */
static int counts_at(int file)
{
  char link[32], path[PATH_MAX];
  if (!limit[0])
    return 1;
  snprintf(link, sizeof link, "/proc/self/fd/%d", file);
  ssize_t length = readlink(link, path, sizeof path - 1);
  if (length < 0)
    return 0;
  path[length] = 0;
  return is_below(path);
}

/* Whether a call by this path counts, which is seen from the folder. */
static int counts_by(int folder, const char *path)
{
  char joined[PATH_MAX], whole[PATH_MAX], link[32];
  if (!limit[0])
    return 1;
  if (!path || !path[0])
    return counts_at(folder);
  if (path[0] == '/' || folder == AT_FDCWD)
    return place_of(path, whole) && is_below(whole);
  snprintf(link, sizeof link, "/proc/self/fd/%d", folder);
  ssize_t length = readlink(link, joined, sizeof joined - 1);
  if (length < 0)
    return 0;
  int room = (int)(sizeof joined - length);
  if (snprintf(joined + length, room, "/%s", path) >= room)
    return 0;
  return place_of(joined, whole) && is_below(whole);
}

/* Whether a call of this name, which counts, fails now; errno is set then, and left as it was else. */
static int fails(const char *name)
{
  for (int at = 0; at < count; at++) {
    struct fault *fault = &faults[at];
    if (strcmp(fault->name, name))
      continue;
    long call = atomic_fetch_add(&fault->calls, 1) + 1;
    if (call == fault->first || (fault->each_later && call > fault->first)) {
      tell(name, call);
      errno = fault->error;
      return 1;
    }
  }
  return 0;
}

static int is_asked_for(const char *name)
{
  for (int at = 0; at < count; at++)
    if (!strcmp(faults[at].name, name))
      return 1;
  return 0;
}

static int fails_at(const char *name, int file)
{
  int error = errno;
  int counts = is_asked_for(name) && counts_at(file);
  errno = error;
  return counts && fails(name);
}

static int fails_by(const char *name, int folder, const char *path)
{
  int error = errno;
  int counts = is_asked_for(name) && counts_by(folder, path);
  errno = error;
  return counts && fails(name);
}

static int fails_between(const char *name, int folder, const char *from, int other, const char *to)
{
  int error = errno;
  int counts = is_asked_for(name) && (counts_by(folder, from) || counts_by(other, to));
  errno = error;
  return counts && fails(name);
}

ssize_t getdents64(int file, void *bytes, size_t room)
{
  return fails_at("getdents64", file) ? -1 : NEXT(getdents64)(file, bytes, room);
}

ssize_t read(int file, void *bytes, size_t room)
{
  return fails_at("read", file) ? -1 : NEXT(syscall)(SYS_read, file, bytes, room);
}

ssize_t pread(int file, void *bytes, size_t room, off_t from)
{
  return fails_at("read", file) ? -1 : NEXT(pread)(file, bytes, room, from);
}

ssize_t pread64(int file, void *bytes, size_t room, off_t from)
{
  return fails_at("read", file) ? -1 : NEXT(pread64)(file, bytes, room, from);
}

#define MODE(flags) \
  mode_t mode = 0; \
  if ((flags) & (O_CREAT | O_TMPFILE)) { \
    va_list more; \
    va_start(more, flags); \
    mode = va_arg(more, mode_t); \
    va_end(more); \
  }

int open(const char *path, int flags, ...)
{
  MODE(flags)
  return fails_by("open", AT_FDCWD, path) ? -1 : NEXT(open)(path, flags, mode);
}

int open64(const char *path, int flags, ...)
{
  MODE(flags)
  return fails_by("open", AT_FDCWD, path) ? -1 : NEXT(open64)(path, flags, mode);
}

int openat(int folder, const char *path, int flags, ...)
{
  MODE(flags)
  return fails_by("open", folder, path) ? -1 : NEXT(openat)(folder, path, flags, mode);
}

int openat64(int folder, const char *path, int flags, ...)
{
  MODE(flags)
  return fails_by("open", folder, path) ? -1 : NEXT(openat64)(folder, path, flags, mode);
}

int statx(int folder, const char *path, int flags, unsigned int asked, struct statx *found)
{
  return fails_by("statx", folder, path) ? -1 : NEXT(statx)(folder, path, flags, asked, found);
}

int accept4(int socket, struct sockaddr *address, socklen_t *length, int flags)
{
  return fails_at("accept4", socket) ? -1 : NEXT(accept4)(socket, address, length, flags);
}

int dup(int file) { return fails_at("dup", file) ? -1 : NEXT(dup)(file); }

int dup2(int file, int number) { return fails_at("dup", file) ? -1 : NEXT(dup2)(file, number); }

int dup3(int file, int number, int flags)
{
  return fails_at("dup", file) ? -1 : NEXT(dup3)(file, number, flags);
}

int fcntl(int file, int command, ...)
{
  va_list more;
  va_start(more, command);
  long with = va_arg(more, long);
  va_end(more);
  if ((command == F_DUPFD_CLOEXEC || command == F_DUPFD) && fails_at("dup", file))
    return -1;
  return NEXT(fcntl)(file, command, with);
}

int fcntl64(int file, int command, ...)
{
  va_list more;
  va_start(more, command);
  long with = va_arg(more, long);
  va_end(more);
  if ((command == F_DUPFD_CLOEXEC || command == F_DUPFD) && fails_at("dup", file))
    return -1;
  return NEXT(fcntl)(file, command, with);
}

ssize_t write(int file, const void *bytes, size_t length)
{
  return fails_at("write", file) ? -1 : NEXT(syscall)(SYS_write, file, bytes, length);
}

ssize_t __write(int file, const void *bytes, size_t length) { return write(file, bytes, length); }

ssize_t writev(int file, const struct iovec *parts, int number)
{
  return fails_at("write", file) ? -1 : NEXT(writev)(file, parts, number);
}

ssize_t pwrite(int file, const void *bytes, size_t length, off_t from)
{
  return fails_at("write", file) ? -1 : NEXT(pwrite)(file, bytes, length, from);
}

ssize_t pwrite64(int file, const void *bytes, size_t length, off_t from)
{
  return fails_at("write", file) ? -1 : NEXT(pwrite64)(file, bytes, length, from);
}

int fsync(int file) { return fails_at("fsync", file) ? -1 : NEXT(fsync)(file); }

int fdatasync(int file) { return fails_at("fsync", file) ? -1 : NEXT(fdatasync)(file); }

int rename(const char *from, const char *to)
{
  return fails_between("rename", AT_FDCWD, from, AT_FDCWD, to) ? -1 : NEXT(rename)(from, to);
}

int renameat(int folder, const char *from, int other, const char *to)
{
  return fails_between("rename", folder, from, other, to) ? -1 : NEXT(renameat)(folder, from, other, to);
}

int renameat2(int folder, const char *from, int other, const char *to, unsigned int flags)
{
  return fails_between("rename", folder, from, other, to) ? -1
                                                           : NEXT(renameat2)(folder, from, other, to, flags);
}

int chmod(const char *path, mode_t mode)
{
  return fails_by("chmod", AT_FDCWD, path) ? -1 : NEXT(chmod)(path, mode);
}

int fchmod(int file, mode_t mode) { return fails_at("chmod", file) ? -1 : NEXT(fchmod)(file, mode); }

int fchmodat(int folder, const char *path, mode_t mode, int flags)
{
  return fails_by("chmod", folder, path) ? -1 : NEXT(fchmodat)(folder, path, mode, flags);
}

int unlink(const char *path) { return fails_by("unlink", AT_FDCWD, path) ? -1 : NEXT(unlink)(path); }

int unlinkat(int folder, const char *path, int flags)
{
  return fails_by("unlink", folder, path) ? -1 : NEXT(unlinkat)(folder, path, flags);
}

/* A call of the kernel by its number. */
static int fails_by_number(long number, const long *word)
{
  switch (number) {
  case SYS_getdents64:
    return fails_at("getdents64", (int)word[0]);
  case SYS_read:
  case SYS_pread64:
    return fails_at("read", (int)word[0]);
  case SYS_openat:
    return fails_by("open", (int)word[0], (const char *)word[1]);
  case SYS_statx:
    return fails_by("statx", (int)word[0], (const char *)word[1]);
  case SYS_accept4:
    return fails_at("accept4", (int)word[0]);
  case SYS_dup:
  case SYS_dup3:
    return fails_at("dup", (int)word[0]);
  case SYS_fcntl:
    return (word[1] == F_DUPFD_CLOEXEC || word[1] == F_DUPFD) && fails_at("dup", (int)word[0]);
  case SYS_write:
  case SYS_writev:
  case SYS_pwrite64:
    return fails_at("write", (int)word[0]);
  case SYS_fsync:
  case SYS_fdatasync:
    return fails_at("fsync", (int)word[0]);
  case SYS_renameat2:
    return fails_between("rename", (int)word[0], (const char *)word[1], (int)word[2], (const char *)word[3]);
  case SYS_fchmod:
    return fails_at("chmod", (int)word[0]);
  case SYS_unlinkat:
    return fails_by("unlink", (int)word[0], (const char *)word[1]);
  default:
    return 0;
  }
}

long syscall(long number, ...)
{
  long word[6];
  va_list more;
  va_start(more, number);
  for (int i = 0; i < 6; i++)
    word[i] = va_arg(more, long);
  va_end(more);
  if (fails_by_number(number, word))
    return -1;
  return NEXT(syscall)(number, word[0], word[1], word[2], word[3], word[4], word[5]);
}
