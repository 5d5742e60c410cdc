/* Sends one request again and again over many connections to a server on this machine, and compares each reply.

   load_clients PORT CONNECTIONS IN_FLIGHT SECONDS REQUEST REPLY

   REQUEST and REPLY are files: the bytes of a request, and those of the reply that each request must get. On each connection IN_FLIGHT
   requests are under way at a time. The first half second isn't counted. It prints the requests that were answered, the seconds, and the
   50th and 99th percentile of the time of a request, in microseconds. It ends with status 1 where a reply differs. */
#define _GNU_SOURCE
#include <arpa/inet.h>
#include <errno.h>
#include <fcntl.h>
#include <netinet/tcp.h>
#include <stdint.h>
#include <stdio.h>
#include <stdlib.h>
#include <string.h>
#include <sys/epoll.h>
#include <sys/resource.h>
#include <sys/socket.h>
#include <time.h>
#include <unistd.h>

enum { EVENTS = 1024, ROOM = 1 << 16, MOST_TIMES = 1 << 22 };
static const double BEFORE = 0.5;

struct bytes {
  char *at;
  size_t length;
};

struct client {
  int socket;
  size_t owed;      /* bytes of requests that are to be sent */
  size_t sent;      /* bytes that were sent, at most those of one request */
  size_t taken;     /* bytes of a reply that have come */
  double *begun;    /* when the requests that are under way began, the oldest at `oldest` */
  size_t oldest, newest;
};

static struct bytes request, reply, batch;
static size_t in_flight;
static double *times;
static size_t times_kept;
static uint64_t answered;
static double counted_from;

static void fail(const char *what) {
  perror(what);
  exit(1);
}

static double now(void) {
  struct timespec it;
  clock_gettime(CLOCK_MONOTONIC, &it);
  return it.tv_sec + it.tv_nsec * 1e-9;
}

static struct bytes read_file(const char *path) {
  FILE *file = fopen(path, "rb");
  struct bytes found = {malloc(ROOM), 0};
  if (!file || !found.at) fail(path);
  found.length = fread(found.at, 1, ROOM, file);
  if (!found.length || !feof(file)) {
    fprintf(stderr, "%s is empty or too long\n", path);
    exit(1);
  }
  fclose(file);
  return found;
}

/* as many requests as may be under way, and one more, one behind the other */
static void make_batch(void) {
  batch.length = request.length * (in_flight + 1);
  batch.at = malloc(batch.length);
  if (!batch.at) fail("memory");
  for (size_t i = 0; i <= in_flight; i++) memcpy(batch.at + i * request.length, request.at, request.length);
}

static void begin_request(struct client *it, double at) {
  it->begun[it->newest] = at;
  it->newest = (it->newest + 1) % in_flight;
  it->owed += request.length;
}

static void connect_client(struct client *it, int port, int poll, uint32_t number) {
  struct sockaddr_in address = {.sin_family = AF_INET, .sin_port = htons(port), .sin_addr.s_addr = htonl(INADDR_LOOPBACK)};
  struct epoll_event event = {.events = EPOLLIN | EPOLLOUT | EPOLLET, .data.u32 = number};
  int one = 1;
  it->socket = socket(AF_INET, SOCK_STREAM, 0);
  it->begun = calloc(in_flight, sizeof(double));
  if (it->socket < 0 || !it->begun) fail("socket");
  if (connect(it->socket, (struct sockaddr *)&address, sizeof address)) fail("connect");
  setsockopt(it->socket, IPPROTO_TCP, TCP_NODELAY, &one, sizeof one);
  fcntl(it->socket, F_SETFL, O_NONBLOCK);
  if (epoll_ctl(poll, EPOLL_CTL_ADD, it->socket, &event)) fail("epoll_ctl");
}

static void send_owed(struct client *it) {
  while (it->owed) {
    ssize_t n = write(it->socket, batch.at + it->sent, it->owed);
    if (n < 0) {
      if (errno == EAGAIN) return;
      fail("write");
    }
    it->owed -= n;
    it->sent = (it->sent + n) % request.length;
  }
}

/* a whole reply has come, so the next request begins */
static void note_reply(struct client *it, double at) {
  if (at >= counted_from) {
    answered++;
    if (times_kept < MOST_TIMES) times[times_kept++] = at - it->begun[it->oldest];
  }
  it->oldest = (it->oldest + 1) % in_flight;
  it->taken = 0;
  begin_request(it, at);
}

static void take(struct client *it, const char *bytes, size_t length, double at) {
  while (length) {
    size_t wanted = reply.length - it->taken, n = length < wanted ? length : wanted;
    if (memcmp(bytes, reply.at + it->taken, n)) {
      fprintf(stderr, "a reply differs: %.*s\n", (int)(length < 200 ? length : 200), bytes);
      exit(1);
    }
    it->taken += n;
    bytes += n;
    length -= n;
    if (it->taken == reply.length) note_reply(it, at);
  }
}

static void receive(struct client *it) {
  static char buffer[ROOM];
  for (;;) {
    ssize_t n = read(it->socket, buffer, sizeof buffer);
    if (n == 0) {
      fprintf(stderr, "the server closed a connection\n");
      exit(1);
    }
    if (n < 0) {
      if (errno == EAGAIN) return;
      fail("read");
    }
    take(it, buffer, n, now());
    if ((size_t)n < sizeof buffer) return;
  }
}

static int rising(const void *a, const void *b) {
  double x = *(const double *)a, y = *(const double *)b;
  return x < y ? -1 : x > y;
}

static void allow_descriptors(void) {
  struct rlimit it;
  getrlimit(RLIMIT_NOFILE, &it);
  it.rlim_cur = it.rlim_max;
  setrlimit(RLIMIT_NOFILE, &it);
}

int main(int count, char **words) {
  static struct epoll_event events[EVENTS];
  if (count != 7) {
    fprintf(stderr, "usage: load_clients PORT CONNECTIONS IN_FLIGHT SECONDS REQUEST REPLY\n");
    return 2;
  }
  int port = atoi(words[1]), connections = atoi(words[2]), poll = epoll_create1(0);
  double seconds = atof(words[4]);
  in_flight = atoi(words[3]);
  request = read_file(words[5]);
  reply = read_file(words[6]);
  make_batch();
  allow_descriptors();
  struct client *clients = calloc(connections, sizeof *clients);
  times = malloc(MOST_TIMES * sizeof *times);
  if (!clients || !times) fail("memory");
  for (int i = 0; i < connections; i++) connect_client(&clients[i], port, poll, i);
  counted_from = now() + BEFORE;
  for (int i = 0; i < connections; i++) {
    for (size_t j = 0; j < in_flight; j++) begin_request(&clients[i], now());
    send_owed(&clients[i]);
  }
  double end = counted_from + seconds;
  while (now() < end) {
    int found = epoll_wait(poll, events, EVENTS, 100);
    for (int i = 0; i < found; i++) {
      struct client *it = &clients[events[i].data.u32];
      receive(it);
      send_owed(it);
    }
  }
  qsort(times, times_kept, sizeof *times, rising);
  if (!times_kept) {
    fprintf(stderr, "nothing was answered\n");
    return 1;
  }
  printf("%lu %.3f %.0f %.0f\n", (unsigned long)answered, seconds, times[times_kept / 2] * 1e6, times[(size_t)(times_kept * 0.99)] * 1e6);
  return 0;
}
