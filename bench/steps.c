/* What a step costs through libkr. `steps N` prints a script of N uniform steps of 8 transactions on 1,000 keys for `kr run`;
   `steps N session` does the same steps in a session, and prints the processor time of one. */
#include <inttypes.h>
#include <stdio.h>
#include <stdlib.h>
#include <string.h>
#include <time.h>

#include "kr.h"

enum { KEYS = 1000, TXNS = 8 };
static const uint32_t ops[] = {KR_FETCH, KR_FETCH, KR_FETCH, KR_FETCH, KR_INSERT, KR_INSERT, KR_DELETE, KR_COMMIT};
static const char *const words[] = {[KR_FETCH] = "fetch", [KR_INSERT] = "insert", [KR_DELETE] = "delete", [KR_COMMIT] = "commit"};
static char opening[1 << 16], text[1 << 16];
static uint64_t state = 88172645463325252u;

static uint64_t next(void) {
  state ^= state << 13;
  state ^= state >> 7;
  return state ^= state << 17;
}

static void open_session(kr_session *session, size_t length) {
  memcpy(opening + length, "]}", 3);
  size_t told;
  int code = kr_open(session, "@kvl", 4, opening, length + 2, text, sizeof text, &told);
  if (code == KR_OK) return;
  printf("%s %.*s\n", kr_errmsg(code), (int)told, text);
  exit(1);
}

static void print(long i, uint32_t txn, uint32_t op, uint64_t key, uint64_t value) {
  printf("%s[%" PRIu32 ",\"%s\"", i ? "," : "", txn, words[op]);
  if (op != KR_COMMIT) printf(",%" PRIu64, key);
  printf(op == KR_INSERT ? ",%" PRIu64 "]" : "]", value);
}

int main(int argc, char **argv) {
  long count = argc > 1 ? atol(argv[1]) : 100000, done = 0;
  int is_session = argc > 2;
  size_t length = (size_t)sprintf(opening, "{\"format\":1,\"opening\":[");
  for (int i = 0; i < KEYS; i++) length += (size_t)sprintf(opening + length, "%s[%d,%d]", i ? "," : "", 2 * i, i);
  length += (size_t)sprintf(opening + length, "],\"steps\":[");
  kr_session session = KR_SESSION;
  if (is_session) open_session(&session, length);
  else fputs(opening, stdout);
  uint32_t txns[TXNS], fresh = TXNS;
  for (uint32_t i = 0; i < TXNS; i++) txns[i] = i;
  clock_t start = clock();
  for (long i = 0; i < count; i++) {
    uint64_t random = next(), key = (random >> 8) % (2 * KEYS), value = random >> 40;
    uint32_t *txn = &txns[random % TXNS], op = ops[(random >> 4) % TXNS];
    kr_reply reply;
    if (!is_session) print(i, *txn, op, key, value);
    else if (kr_step(&session, *txn, op, key, value, &reply)) return 1;
    else done += reply.kind != KR_BLOCKED && reply.kind != KR_REFUSED;
    if (op == KR_COMMIT) *txn = fresh++;
  }
  double seconds = (double)(clock() - start) / CLOCKS_PER_SEC;
  if (!is_session) puts("]}");
  else printf("%ld steps, of which %ld are done: %.0f ns each\n", count, done, seconds / (double)count * 1e9);
  return is_session ? kr_close(&session) : 0;
}
