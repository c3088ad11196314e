// Sessions that type letters, with one submission under way each, for bench/serve.py: what a client costs shouldn't crowd out the
// server that is measured. The sockets are open already, and their wavelets too.
//
//   writers EACH ALL     stdin: a line "fd client number first version hash name" for each session, and then "go"
//
// Each session has EACH submissions acknowledged and sees the ALL updates of its wavelet; then "done" is printed. Anything else ends it
// with status 1.
#include <poll.h>
#include <stdio.h>
#include <stdlib.h>
#include <string.h>
#include <sys/socket.h>

#define MOST 4096
#define ROOM (1 << 20)

struct session {
  int fd;
  unsigned long long client, number, first, version;
  char hash[64], name[256];
  long left, updates;
  size_t kept;
  unsigned char *data;
};

static struct session sessions[MOST];
static struct pollfd polls[MOST];

static void fail(const char *what) {
  fprintf(stderr, "writers: %s\n", what);
  exit(1);
}

// A letter at the front of a document in which each delta since the first version typed one.
static void type_letter(struct session *s) {
  char text[1024], rest[64] = "";
  unsigned char frame[1100];
  unsigned long long count = s->version - s->first;
  if (count) snprintf(rest, sizeof rest, ",{\"retain_item_count\":%llu}", count);
  int n = snprintf(text, sizeof text,
                   "{\"type\":\"submit\",\"wavelet\":\"%s\",\"client\":%llu,\"number\":%llu,\"version\":%llu,\"hash\":\"%s\",\"operations\":"
                   "[{\"type\":\"mutate\",\"document\":\"b+1\",\"operation\":[{\"characters\":\"x\"}%s]}]}",
                   s->name, s->client, ++s->number, s->version, s->hash, rest);
  if (n < 126 || n >= (int)sizeof text) fail("a submission of another size");
  // a text frame under a mask of zeros
  unsigned char head[8] = {0x81, 0xfe, n >> 8, n & 255, 0, 0, 0, 0};
  memcpy(frame, head, 8);
  memcpy(frame + 8, text, n);
  if (send(s->fd, frame, n + 8, 0) != n + 8) fail("a socket took nothing");
}

static void acknowledged(struct session *s, const char *text) {
  const char *hash = strstr(text, "\"hash\":\""), *number = strstr(text, "\"number\":"), *version = strstr(text, "\"version\":");
  if (!hash || !number || !version || strtoull(number + 9, 0, 10) != s->number) fail(text);
  hash += 8;
  size_t n = strcspn(hash, "\"");
  if (n >= sizeof s->hash) fail(text);
  memcpy(s->hash, hash, n);
  s->hash[n] = 0;
  s->version = strtoull(version + 10, 0, 10);
  if (--s->left) type_letter(s);
}

static void heard(struct session *s, char *text, size_t n) {
  char end = text[n];
  text[n] = 0;
  if (!strncmp(text, "{\"at\"", 5))
    acknowledged(s, text);
  else if (!strncmp(text, "{\"author\"", 9))
    s->updates++;
  else
    fail(text);
  text[n] = end;
}

static void take(struct session *s) {
  ssize_t got = recv(s->fd, s->data + s->kept, ROOM - 1 - s->kept, 0);
  if (got <= 0) fail("the server let go of a link");
  unsigned char *d = s->data;
  size_t have = s->kept + got, at = 0;
  while (have - at >= 2) {
    size_t n = d[at + 1] & 127, h = 2;
    if (n > 125) {
      h = n == 126 ? 4 : 10;
      if (have - at < h) break;
      n = 0;
      for (size_t i = 2; i < h; i++) n = n << 8 | d[at + i];
    }
    if (have - at < h + n) break;
    if ((d[at] & 15) != 1) fail("no text");
    heard(s, (char *)d + at + h, n);
    at += h + n;
  }
  memmove(d, d + at, have - at);
  s->kept = have - at;
}

int main(int count, char **words) {
  long each = count > 1 ? atol(words[1]) : 0, all = count > 2 ? atol(words[2]) : 0;
  char line[1024];
  int n = 0;
  while (fgets(line, sizeof line, stdin) && strcmp(line, "go\n")) {
    struct session *s = &sessions[n];
    if (n == MOST || sscanf(line, "%d %llu %llu %llu %llu %63s %255s", &s->fd, &s->client, &s->number, &s->first, &s->version, s->hash, s->name) != 7)
      fail(line);
    s->left = each;
    s->data = malloc(ROOM);
    polls[n++] = (struct pollfd){.fd = s->fd, .events = POLLIN};
  }
  for (int i = 0; i < n; i++) type_letter(&sessions[i]);
  for (int waiting = n; waiting;) {
    if (poll(polls, n, 60000) <= 0) fail("stuck");
    for (int i = 0; i < n; i++)
      if (polls[i].revents) {
        long before = sessions[i].updates;
        take(&sessions[i]);
        waiting -= before < all && sessions[i].updates >= all;
      }
  }
  for (int i = 0; i < n; i++)
    if (sessions[i].left || sessions[i].kept) fail("something is left");
  puts("done");
  return 0;
}
