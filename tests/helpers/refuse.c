/* Built as a shared library and preloaded, it refuses one request for memory of a program, the one whose
 * number the variable REFUSED has, from 1 on. Requests are counted from the program's start or, with
 * IN_CALL=1, from the line `call begins` to the line `call ended`, which the program writes on standard
 * error and which get no further. When the program ends, the file TOLD gets `refused` or `spared`.
 *
 * A request is one that the program's own code makes, by malloc and realloc; the C library's own are none.
 * What `make quick` builds has an allocator of its own, in which rt try counts requests: the variable
 * `calls` has how many there were, and the one whose number tools/tried.py gives (REFUSED_BY_TRY) is
 * refused. So the count is set to that less. */
#define _GNU_SOURCE
#include <elf.h>
#include <errno.h>
#include <fcntl.h>
#include <link.h>
#include <stdatomic.h>
#include <stdlib.h>
#include <string.h>
#include <sys/mman.h>
#include <sys/stat.h>
#include <sys/syscall.h>
#include <unistd.h>

#define REFUSED_BY_TRY (1L << 30)

extern void *__libc_malloc(size_t);
extern void *__libc_realloc(void *, size_t);

static uintptr_t first, last;     /* where the program's own code is */
static _Atomic long *calls_of_try; /* NULL where rt try did not build the program */
static _Atomic long left;          /* requests up to the one that is refused; 0 and below: none */
static long wanted;
static int is_counting, was_refused;

static int find_code(struct dl_phdr_info *program, size_t size, void *base)
{
  (void)size;
  *(uintptr_t *)base = program->dlpi_addr;
  for (int at = 0; at < program->dlpi_phnum; at++) {
    const ElfW(Phdr) *part = &program->dlpi_phdr[at];
    if (part->p_type == PT_LOAD && part->p_flags & PF_X) {
      first = program->dlpi_addr + part->p_vaddr;
      last = first + part->p_memsz;
    }
  }
  return 1; /* the first one is the program */
}

/* Where the program has what is of this name, if it is one alone. */
static void *find(const char *name, uintptr_t base)
{
  void *found = NULL;
  struct stat about;
  int file = open("/proc/self/exe", O_RDONLY | O_CLOEXEC), count = 0;
  if (file < 0 || fstat(file, &about) != 0)
    return NULL;
  char *image = mmap(NULL, about.st_size, PROT_READ, MAP_PRIVATE, file, 0);
  close(file);
  if (image == MAP_FAILED)
    return NULL;
  const ElfW(Ehdr) *head = (void *)image;
  const ElfW(Shdr) *parts = (void *)(image + head->e_shoff);
  for (int at = 0; at < head->e_shnum; at++) {
    if (parts[at].sh_type != SHT_SYMTAB)
      continue;
    const char *names = image + parts[parts[at].sh_link].sh_offset;
    const ElfW(Sym) *symbols = (void *)(image + parts[at].sh_offset);
    for (size_t place = 0; place < parts[at].sh_size / sizeof *symbols; place++) {
      if (symbols[place].st_shndx != SHN_UNDEF && !strcmp(names + symbols[place].st_name, name)) {
        found = (void *)(base + symbols[place].st_value);
        count++;
      }
    }
  }
  munmap(image, about.st_size);
  return count == 1 ? found : NULL;
}

static void count_on(void)
{
  is_counting = 1;
  if (calls_of_try)
    *calls_of_try = REFUSED_BY_TRY - wanted;
  else
    left = wanted;
}

static void count_no_more(void)
{
  if (!is_counting)
    return;
  is_counting = 0;
  if (calls_of_try) {
    was_refused = *calls_of_try >= REFUSED_BY_TRY;
    *calls_of_try = 0;
  } else {
    was_refused = left <= 0;
    left = 0;
  }
}

__attribute__((constructor)) static void begin(void)
{
  uintptr_t base = 0;
  dl_iterate_phdr(find_code, &base);
  calls_of_try = find("try_rattle_alloc", base) ? find("calls", base) : NULL;
  wanted = getenv("REFUSED") ? atol(getenv("REFUSED")) : 0;
  if (wanted > 0 && !getenv("IN_CALL"))
    count_on();
}

__attribute__((destructor)) static void end(void)
{
  count_no_more();
  int file = getenv("TOLD") ? open(getenv("TOLD"), O_WRONLY | O_CREAT | O_CLOEXEC, 0600) : -1;
  const char *told = was_refused ? "refused" : "spared";
  if (file >= 0) {
    (void)!syscall(SYS_write, file, told, strlen(told));
    close(file);
  }
}

/* How nodeagent ends: without waiting for who writes lines. */
void _exit(int status)
{
  end();
  syscall(SYS_exit_group, status);
  __builtin_unreachable();
}

/* Whether a request that comes from there is the one to refuse. */
static int is_refused(void *from)
{
  if (left <= 0 || (uintptr_t)from < first || (uintptr_t)from >= last)
    return 0;
  return atomic_fetch_sub(&left, 1) == 1;
}

void *malloc(size_t size)
{
  if (is_refused(__builtin_return_address(0))) {
    errno = ENOMEM;
    return NULL;
  }
  return __libc_malloc(size);
}

void *realloc(void *block, size_t size)
{
  if (is_refused(__builtin_return_address(0))) {
    errno = ENOMEM;
    return NULL;
  }
  return __libc_realloc(block, size);
}

ssize_t write(int file, const void *bytes, size_t count)
{
  static const char begins[] = "call begins\n", ended[] = "call ended\n";
  if (file == STDERR_FILENO && getenv("IN_CALL")) {
    if (count == strlen(begins) && !memcmp(bytes, begins, count)) {
      if (wanted > 0)
        count_on();
      return count;
    }
    if (count == strlen(ended) && !memcmp(bytes, ended, count)) {
      count_no_more();
      return count;
    }
  }
  return syscall(SYS_write, file, bytes, count);
}
