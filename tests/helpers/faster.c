/* Built as a shared library and preloaded, it lets a program's clock run FASTER times as fast as the machine's, from
 * the first look at it on: what the program reads of CLOCK_MONOTONIC, and how long it sleeps, waits for another
 * thread, or waits for a socket. What make quick builds has a clock_gettime in it that calls on to this one. */
#include <errno.h>
#include <linux/futex.h>
#include <stdarg.h>
#include <stdlib.h>
#include <sys/socket.h>
#include <sys/syscall.h>
#include <sys/time.h>
#include <time.h>

#define SECOND 1000000000LL

static long long begun; /* in nanoseconds, by the machine's clock */

/* A call of the system. Looking for the library's own function would ask for memory, too early for what make quick
 * builds. */
static long call(long number, long one, long two, long three, long four, long five, long six)
{
  register long r10 __asm__("r10") = four;
  register long r8 __asm__("r8") = five;
  register long r9 __asm__("r9") = six;
  long answer;
  __asm__ volatile("syscall"
                   : "=a"(answer)
                   : "0"(number), "D"(one), "S"(two), "d"(three), "r"(r10), "r"(r8), "r"(r9)
                   : "rcx", "r11", "memory");
  if (answer < 0 && answer > -4096) {
    errno = -answer;
    return -1;
  }
  return answer;
}

static long long faster(void)
{
  static long long times;
  if (!times)
    times = getenv("FASTER") ? atoll(getenv("FASTER")) : 1;
  return times;
}

static long long nanoseconds(const struct timespec *time) { return time->tv_sec * SECOND + time->tv_nsec; }

static struct timespec timespec(long long nanoseconds)
{
  struct timespec time = {nanoseconds / SECOND, nanoseconds % SECOND};
  return time;
}

int clock_gettime(clockid_t clock, struct timespec *time)
{
  int answer = call(SYS_clock_gettime, clock, (long)time, 0, 0, 0, 0);
  if (answer || clock != CLOCK_MONOTONIC)
    return answer;
  if (!begun)
    begun = nanoseconds(time);
  *time = timespec(begun + (nanoseconds(time) - begun) * faster());
  return 0;
}

int nanosleep(const struct timespec *time, struct timespec *rest)
{
  struct timespec less = timespec(nanoseconds(time) / faster());
  return call(SYS_nanosleep, (long)&less, (long)rest, 0, 0, 0, 0);
}

int setsockopt(int socket, int level, int option, const void *value, socklen_t length)
{
  struct timeval less;
  if (level == SOL_SOCKET && (option == SO_RCVTIMEO || option == SO_SNDTIMEO) && length == sizeof less) {
    const struct timeval *whole = value;
    long long all = whole->tv_sec * 1000000LL + whole->tv_usec;
    all = all ? all / faster() + 1 : 0;
    less.tv_sec = all / 1000000;
    less.tv_usec = all % 1000000;
    value = &less;
  }
  return call(SYS_setsockopt, socket, level, option, (long)value, length, 0);
}

long syscall(long number, ...)
{
  long word[6];
  struct timespec until;
  va_list more;
  va_start(more, number);
  for (int i = 0; i < 6; i++)
    word[i] = va_arg(more, long);
  va_end(more);
  /* The one waits for a span, the other up to a moment of the clock. */
  int how = number == SYS_futex && word[3] ? word[1] & FUTEX_CMD_MASK : -1;
  if (how == FUTEX_WAIT)
    until = timespec(nanoseconds((struct timespec *)word[3]) / faster());
  else if (how == FUTEX_WAIT_BITSET && !(word[1] & FUTEX_CLOCK_REALTIME))
    until = timespec(begun + (nanoseconds((struct timespec *)word[3]) - begun) / faster());
  else
    how = -1;
  return call(number, word[0], word[1], word[2], how < 0 ? word[3] : (long)&until, word[4], word[5]);
}
