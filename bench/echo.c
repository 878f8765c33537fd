/* A plain server and a client of the frames of a runtime's socket, side by side with scriptd: calls a second.
 *
 *   echo serve PATH         answers each frame with the reply below, a thread for each connection
 *   echo call PATH COUNT    makes COUNT calls, each on a connection of its own, and prints how many a second
 */
#include <pthread.h>
#include <stdint.h>
#include <stdio.h>
#include <stdlib.h>
#include <string.h>
#include <sys/socket.h>
#include <sys/un.h>
#include <time.h>
#include <unistd.h>

static const char REQUEST[] = "\0\0\0\x31{\"call\":\"ListContainers\",\"id\":7,\"uid\":\"u1\",\"v\":1}";
static const char REPLY[] = "\0\0\0\x25{\"id\":7,\"ok\":{\"containers\":[]},\"v\":1}";

static struct sockaddr_un address_of(const char *path) {
  struct sockaddr_un address = {.sun_family = AF_UNIX};
  strncpy(address.sun_path, path, sizeof address.sun_path - 1);
  return address;
}

/* Whether exactly so many bytes came. */
static int read_whole(int stream, char *into, size_t count) {
  while (count > 0) {
    ssize_t came = read(stream, into, count);
    if (came <= 0)
      return 0;
    into += came;
    count -= (size_t)came;
  }
  return 1;
}

static int write_whole(int stream, const char *from, size_t count) {
  while (count > 0) {
    ssize_t went = write(stream, from, count);
    if (went <= 0)
      return 0;
    from += went;
    count -= (size_t)went;
  }
  return 1;
}

static size_t length_of(const char *head) {
  return (size_t)(uint8_t)head[1] << 16 | (size_t)(uint8_t)head[2] << 8 | (uint8_t)head[3];
}

static void *answer(void *given) {
  int stream = (int)(intptr_t)given;
  char head[4], *text;
  while (read_whole(stream, head, sizeof head) && (text = malloc(length_of(head)))) {
    int whole = read_whole(stream, text, length_of(head)) && write_whole(stream, REPLY, sizeof REPLY - 1);
    free(text);
    if (!whole)
      break;
  }
  close(stream);
  return NULL;
}

static int serve(const char *path) {
  struct sockaddr_un address = address_of(path);
  int listener = socket(AF_UNIX, SOCK_STREAM, 0);
  if (listener < 0 || bind(listener, (struct sockaddr *)&address, sizeof address) || listen(listener, 4096))
    return perror(path), 1;
  for (;;) {
    pthread_t thread;
    int stream = accept(listener, NULL, NULL);
    if (stream >= 0 && pthread_create(&thread, NULL, answer, (void *)(intptr_t)stream) == 0)
      pthread_detach(thread);
  }
}

static int call(const char *path) {
  struct sockaddr_un address = address_of(path);
  char reply[4096];
  int stream = socket(AF_UNIX, SOCK_STREAM, 0);
  int done = stream >= 0 && connect(stream, (struct sockaddr *)&address, sizeof address) == 0 &&
             write_whole(stream, REQUEST, sizeof REQUEST - 1) && read_whole(stream, reply, 4) &&
             length_of(reply) <= sizeof reply && read_whole(stream, reply, length_of(reply));
  close(stream);
  return done;
}

int main(int count, char **words) {
  if (count == 3 && strcmp(words[1], "serve") == 0)
    return serve(words[2]);
  if (count == 4 && strcmp(words[1], "call") == 0) {
    long calls = atol(words[3]);
    struct timespec from, to;
    clock_gettime(CLOCK_MONOTONIC, &from);
    for (long done = 0; done < calls; done++)
      if (!call(words[2]))
        return fprintf(stderr, "call %ld failed\n", done), 1;
    clock_gettime(CLOCK_MONOTONIC, &to);
    printf("%.0f\n",
           (double)calls / ((double)(to.tv_sec - from.tv_sec) + (double)(to.tv_nsec - from.tv_nsec) / 1e9));
    return 0;
  }
  return fprintf(stderr, "usage: echo serve PATH | echo call PATH COUNT\n"), 2;
}
