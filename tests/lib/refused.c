/* Each growth refused in turn: malloc and realloc are wrapped by the linker (-Wl,--wrap), and the growth of each number is refused
   until all pass. Each call returns the code that it returns else, or KR_NOMEM with the session as it was; and tried again it does
   what it does else. Of the explanation of a table and of the script of its first cause only some growths are refused, evenly from the
   first on. The arguments are the table's file, and how many. Prints how many growths there were; status 1 where something differs. */
#include <limits.h>
#include <stdio.h>
#include <stdlib.h>
#include <string.h>

#include "kr.h"

void *__real_malloc(size_t);
void *__real_realloc(void *, size_t);
static long left = -1; /* growths until the one that is refused; below 0 none is */
static int is_refused(void) { return left >= 0 && left-- == 0; }
void *__wrap_malloc(size_t size) { return is_refused() ? NULL : __real_malloc(size); }
void *__wrap_realloc(void *at, size_t size) { return is_refused() ? NULL : __real_realloc(at, size); }

#define PURGE 99
typedef struct { uint32_t txn, op; uint64_t first, second; } move;

/* What is done, and what is there at the end: without ghosts, and with them. */
static const struct given {
  const char *table, *script;
  size_t checked, count, index, ghosts, locks, unfinished;
  move moves[16];
} givens[] = {
  {"@kvl", "{\"format\":2,\"opening\":[[10,1],[20,2],[30,3]],\"steps\":[[1,\"fetch\",15],[2,\"insert\",17,5],[1,\"commit\"]]}", 39, 12, 3, 0, 1, 1,
   {{1, KR_FETCH, 15, 0}, {2, KR_INSERT, 17, 5}, {3, KR_SCAN, 25, 40}, {3, KR_GO, 0, 0}, {1, KR_COMMIT, 0, 0}, {2, KR_INSERT, 17, 5},
    {2, KR_DELETE, 20, 0}, {3, KR_COMMIT, 0, 0}, {2, KR_INSERT, 40, 6}, {2, KR_BACK, 0, 0}, {2, KR_ABORT, 0, 0}, {4, KR_FETCH, 20, 0}}},
  {"@record-gap", "{\"format\":3,\"opening\":[[10,1],[20,2],[30,3]],\"steps\":[[1,\"delete\",20],[1,\"commit\"],[\"purge\",20]]}", 40, 14, 2, 1, 2, 2,
   {{1, KR_DELETE, 20, 0}, {2, KR_INSERT, 20, 5}, {0, PURGE, 20, 0}, {1, KR_COMMIT, 0, 0}, {3, KR_SCAN, 15, 30}, {3, KR_GO, 0, 0},
    {0, PURGE, 20, 0}, {2, KR_INSERT, 17, 5}, {3, KR_COMMIT, 0, 0}, {2, KR_INSERT, 17, 5}, {2, KR_BACK, 0, 0}, {2, KR_ABORT, 0, 0},
    {4, KR_FETCH, 30, 0}, {5, KR_SCAN, 5, 25}}}};

static char state[4096], text[4096], first_text[4096];
static long refused;
static int failed;

static void wrong(const char *what, long number) {
  printf("refused.c: %s at growth %ld\n", what, number);
  failed = 1;
}

/* The state of a session as bytes, told without a refusal. */
static size_t state_of(kr_session *session, char *into) {
  long kept = left;
  size_t n, m, k;
  kr_pair pairs[16] = {{0, 0}};
  kr_lock locks[64];
  uint32_t txns[16] = {0};
  uint64_t ghosts[16] = {0};
  size_t g;
  memset(locks, 0, sizeof locks);
  left = -1;
  kr_index(session, pairs, 16, &n);
  kr_ghosts(session, ghosts, 16, &g);
  kr_locks(session, locks, 64, &m);
  kr_unfinished(session, txns, 16, &k);
  left = kept;
  memcpy(into, ghosts, g * sizeof *ghosts);
  into += g * sizeof *ghosts;
  memcpy(into, pairs, n * sizeof *pairs);
  memcpy(into + n * sizeof *pairs, locks, m * sizeof *locks);
  memcpy(into + n * sizeof *pairs + m * sizeof *locks, txns, k * sizeof *txns);
  return g * sizeof *ghosts + n * sizeof *pairs + m * sizeof *locks + k * sizeof *txns;
}

/* Calls until the code isn't KR_NOMEM, which it is once at most. */
#define AGAIN(code, call)            \
  do {                               \
    (code) = (call);                 \
    if ((code) != KR_NOMEM) break;   \
    refused++;                       \
    if (n != 0) wrong("a text", number); \
    (code) = (call);                 \
  } while (0)

/* Does a move, of whose reply only that memory was refused matters. */
static int done(kr_session *session, const move *move, kr_reply *reply) {
  uint32_t purged;
  if (move->op == PURGE) return kr_purge(session, move->first, &purged);
  return kr_step(session, move->txn, move->op, move->first, move->second, reply);
}

static void moves_with(kr_session *session, const struct given *given, long number) {
  for (size_t i = 0; i < given->count; i++) {
    static char after[4096];
    const move *move = &given->moves[i];
    kr_reply reply = {KR_REFUSED, KR_OUT_OF_MEMORY, 0, 0};
    size_t before = state_of(session, state);
    int code = done(session, move, &reply);
    if (code == KR_NOMEM) {
      refused++;
      if (reply.kind != KR_REFUSED || reply.refusal != KR_OUT_OF_MEMORY) wrong("a reply", number);
      if (state_of(session, after) != before || memcmp(state, after, before)) wrong("a state", number);
      code = done(session, move, &reply);
    }
    if (code != KR_OK || (move->op != PURGE && reply.kind == KR_REFUSED && reply.refusal == KR_OUT_OF_MEMORY)) wrong("a move", number);
  }
}

static int all_with(const struct given *given, long number) {
  int code;
  size_t n = 0, t = strlen(given->table), m = strlen(given->script);
  kr_session session = KR_SESSION;
  left = number;
  AGAIN(code, kr_check(given->table, t, text, sizeof text, &n));
  if (code != KR_OK || n != given->checked) wrong("check", number);
  AGAIN(code, kr_decide(given->table, t, text, sizeof text, &n));
  if (code != KR_OK) wrong("decide", number);
  AGAIN(code, kr_run(given->table, t, given->script, m, text, sizeof text, &n));
  if (number < 0) memcpy(first_text, text, n);
  if (code != KR_OK || memcmp(text, first_text, n)) wrong("run", number);
  AGAIN(code, kr_open(&session, given->table, t, given->script, m, text, sizeof text, &n));
  if (code != KR_OK) wrong("open", number);
  moves_with(&session, given, number);
  kr_pair pairs[8];
  kr_lock locks[8];
  uint32_t txns[8];
  uint64_t ghosts[8];
  AGAIN(code, kr_index(&session, pairs, 8, &n));
  if (code != KR_OK || n != given->index) wrong("index", number);
  AGAIN(code, kr_ghosts(&session, ghosts, 8, &n));
  if (code != KR_OK || n != given->ghosts) wrong("ghosts", number);
  AGAIN(code, kr_locks(&session, locks, 8, &n));
  if (code != KR_OK || n != given->locks) wrong("locks", number);
  AGAIN(code, kr_unfinished(&session, txns, 8, &n));
  if (code != KR_OK || n != given->unfinished) wrong("unfinished", number);
  AGAIN(code, kr_verdict(&session, text, sizeof text, &n));
  if (code != KR_OK) wrong("verdict", number);
  if (kr_close(&session) != KR_OK) wrong("close", number);
  return left >= 0;
}

/* Refuses each growth in turn until all pass; gives how many there were. */
static long each_with(const struct given *given) {
  long number = 0;
  all_with(given, -1);
  while (!all_with(given, number)) number++;
  return number;
}

/* Explains a table with the growth of this number refused, or else with none. Gives how many growths there were. */
static long explain_with(const char *table, size_t size, long number) {
  static char told[1 << 16], wanted[1 << 16];
  static size_t lengths[2];
  int code;
  long growths = 0;
  for (int is_script = 0; is_script < 2; is_script++) {
    size_t n = 0;
    left = number < 0 ? LONG_MAX : number;
    AGAIN(code, is_script ? kr_explain_script(table, size, 1, told, sizeof told, &n) : kr_explain(table, size, told, sizeof told, &n));
    if (number < 0) {
      memcpy(wanted + is_script * sizeof wanted / 2, told, lengths[is_script] = n);
      if (LONG_MAX - left > growths) growths = LONG_MAX - left;
    }
    if (code != (is_script ? KR_OK : KR_NO) || n != lengths[is_script] || memcmp(told, wanted + is_script * sizeof wanted / 2, n))
      wrong("an explanation", number);
  }
  left = -1;
  return growths;
}

static void explanations(const char *name, long most) {
  static char table[1 << 16];
  FILE *file = fopen(name, "rb");
  if (!file) exit(2);
  size_t size = fread(table, 1, sizeof table, file);
  fclose(file);
  long growths = explain_with(table, size, -1);
  for (long number = 0; number < growths; number += 1 + growths / most) explain_with(table, size, number);
}

int main(int count, char **words) {
  if (count != 3) return 2;
  long number = each_with(&givens[0]) + each_with(&givens[1]);
  printf("%ld growths, each refused in turn; KR_NOMEM %ld times\n", number, refused);
  refused = 0;
  explanations(words[1], atol(words[2]));
  printf("an explanation and a script: KR_NOMEM %ld times\n", refused);
  return failed;
}
