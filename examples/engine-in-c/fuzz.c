/* Fuzzes the engine of engine.c in this process: each step is attempted in the engine and in a session of libkr under @im, and
   both have to answer alike. Where the engine grants what the table blocks, a lock is missing: the schedule is made as short as
   dropping steps makes it, and printed as a script for `kr run`, with what both answer to its last step. Status 1 where one is
   found. A schedule on which both differ else, as where the engine locks too much, is counted.

     fuzz [SCHEDULES] */
#include <inttypes.h>
#include <stdio.h>
#include <stdlib.h>
#include <string.h>

#include "engine.h"
#include "kr.h"

enum { STEPS = 60, KEYS = 12, WRITERS = 3 };

struct step {
  uint32_t txn, op;
  uint64_t key;
};

static const char *const words[] = {[KR_FETCH] = "fetch", [KR_INSERT] = "insert", [KR_DELETE] = "delete", [KR_COMMIT] = "commit"};
static const char *const outcomes[] = {"found", "none", "done", "duplicate", "deleted", "absent", "committed", "blocked"};
static const uint32_t kinds[] = {KR_FOUND, KR_NONE, KR_DONE, KR_DUPLICATE, KR_DELETED, KR_ABSENT, KR_COMMITTED, KR_BLOCKED};
static const char opening[] = "{\"format\":1,\"opening\":[],\"steps\":[]}";

static uint64_t state = 1;
static uint32_t below(uint32_t bound) {
  state = state * 6364136223846793005u + 1442695040888963407u;
  return (uint32_t)(state >> 33) % bound;
}

static struct answer attempt(struct engine *engine, struct step step) {
  switch (step.op) {
  case KR_FETCH: return engine_fetch(engine, step.txn, step.key);
  case KR_INSERT: return engine_insert(engine, step.txn, step.key, step.key);
  case KR_DELETE: return engine_delete(engine, step.txn, step.key);
  default: return engine_commit(engine, step.txn);
  }
}

struct difference {
  size_t at; /* the step whose answers differ; as many as there are steps where none does */
  struct answer engine;
  kr_reply table;
  uint32_t blocker;
};

/* Whether the engine granted what the table blocks. */
static int is_missing(struct difference found) { return found.table.kind == KR_BLOCKED && found.engine.outcome != BLOCKED; }

/* Runs a schedule in both. */
static struct difference differs(const struct step *steps, size_t count) {
  struct difference found = {0};
  struct engine *engine = engine_new();
  kr_session session = KR_SESSION;
  char text[256];
  size_t length;
  int code = kr_open(&session, "@im", 3, opening, strlen(opening), text, sizeof text, &length);
  if (code) {
    fprintf(stderr, "fuzz: %s %.*s\n", kr_errmsg(code), (int)length, text);
    exit(2);
  }
  for (found.at = 0; found.at < count; found.at++) {
    struct step step = steps[found.at];
    found.engine = attempt(engine, step);
    code = kr_step(&session, step.txn, step.op, step.key, step.op == KR_INSERT ? step.key : 0, &found.table);
    if (code || found.table.kind != kinds[found.engine.outcome] || found.table.value != found.engine.value) break;
  }
  if (is_missing(found)) kr_blockers(&session, &found.blocker, 1, &length);
  kr_close(&session);
  engine_free(engine);
  return found;
}

/* Drops each step without which a lock is still missing. */
static size_t shorten(struct step *steps, size_t count) {
  for (size_t i = count; i-- > 0;) {
    struct step rest[STEPS];
    memcpy(rest, steps, i * sizeof *rest);
    memcpy(rest + i, steps + i + 1, (count - i - 1) * sizeof *rest);
    struct difference found = differs(rest, count - 1);
    if (found.at == count - 1 || !is_missing(found)) continue;
    count = found.at + 1;
    memcpy(steps, rest, count * sizeof *rest);
    if (i > count) i = count;
  }
  return count;
}

static void print(const struct step *steps, size_t count) {
  struct difference found = differs(steps, count);
  printf("{\"format\":1,\"opening\":[],\"steps\":[");
  for (size_t i = 0; i < count; i++) {
    printf("%s[%" PRIu32 ",\"%s\"", i ? "," : "", steps[i].txn, words[steps[i].op]);
    if (steps[i].op != KR_COMMIT) printf(",%" PRIu64, steps[i].key);
    printf(steps[i].op == KR_INSERT ? ",%" PRIu64 "]" : "]", steps[i].key);
  }
  printf("]}\nthe engine answers %s to the last step, and the table ", outcomes[found.engine.outcome]);
  for (size_t i = 0; i < sizeof kinds / sizeof *kinds; i++)
    if (kinds[i] == found.table.kind) printf("%s", outcomes[i]);
  if (found.table.kind == KR_BLOCKED) printf(" by %" PRIu32, found.blocker);
  putchar('\n');
}

/* A schedule of transactions that do random operations and commit now and then. */
static void make(struct step *steps) {
  static const uint32_t ops[] = {KR_FETCH, KR_FETCH, KR_INSERT, KR_INSERT, KR_INSERT, KR_DELETE, KR_COMMIT};
  uint32_t txns[WRITERS], fresh = WRITERS + 1;
  for (uint32_t i = 0; i < WRITERS; i++) txns[i] = i + 1;
  for (size_t i = 0; i < STEPS; i++) {
    uint32_t *txn = &txns[below(WRITERS)], op = ops[below(sizeof ops / sizeof *ops)];
    steps[i] = (struct step){*txn, op, op == KR_COMMIT ? 0 : below(KEYS)};
    if (op == KR_COMMIT) *txn = fresh++;
  }
}

int main(int argc, char **argv) {
  long schedules = argc > 1 ? atol(argv[1]) : 10000, others = 0;
  for (long i = 1; i <= schedules; i++) {
    struct step steps[STEPS];
    make(steps);
    struct difference found = differs(steps, STEPS);
    if (!is_missing(found)) {
      others += found.at < STEPS;
      continue;
    }
    printf("schedule %ld:\n", i);
    print(steps, shorten(steps, found.at + 1));
    return 1;
  }
  printf("%ld schedules of %d steps: no lock is missing, and on %ld both differ\n", schedules, STEPS, others);
  return others != 0;
}
