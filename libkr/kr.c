/* The C side of kr.h: turns null addresses and broken sessions away, and calls the exports of crates/kr_c, whose contracts say
   the rest. It takes no memory and has no loop. */
#include "kr.h"

/* A session as crates/kr_c has it: the first field of a kr_session. */
typedef struct handle { void *at; } handle;

/* The exports of crates/kr_c: a slice is an address and a length, and `&mut` an address. */
uint32_t krr_check(const void *, size_t, void *, size_t, size_t *);
uint32_t krr_decide(const void *, size_t, void *, size_t, size_t *);
uint32_t krr_explain(const void *, size_t, void *, size_t, size_t *);
uint32_t krr_explain_script(const void *, size_t, size_t, void *, size_t, size_t *);
uint32_t krr_run(const void *, size_t, const void *, size_t, void *, size_t, size_t *);
uint32_t krr_mode(const void *, size_t, uint32_t, void *, size_t, size_t *);
uint32_t krr_open(handle *, const void *, size_t, const void *, size_t, void *, size_t, size_t *);
uint32_t krr_step(handle *, uint32_t, uint32_t, uint64_t, uint64_t, kr_reply *);
uint32_t krr_purge(handle *, uint64_t, uint32_t *);
uint32_t krr_blockers(handle *, uint32_t *, size_t, size_t *);
uint32_t krr_rows(handle *, kr_pair *, size_t, size_t *);
uint32_t krr_index(handle *, kr_pair *, size_t, size_t *);
uint32_t krr_ghosts(handle *, uint64_t *, size_t, size_t *);
uint32_t krr_locks(handle *, kr_lock *, size_t, size_t *);
uint32_t krr_unfinished(handle *, uint32_t *, size_t, size_t *);
uint32_t krr_verdict(handle *, void *, size_t, size_t *);
uint32_t krr_close(handle *);

/* An address for a slice of no elements, which is never null there. */
static const uint64_t nothing[2];
#define AT(p) ((p) ? (void *)(p) : (void *)nothing)

/* Whether a list is null where it has elements, or longer than any object is. */
static int is_bad(const void *at, size_t count, size_t size) { return (!at && count) || count > PTRDIFF_MAX / size; }

/* What a session was opened with: its box and its own place. */
static uint64_t seal_of(const kr_session *session) {
  uint64_t mixed = (uint64_t)(uintptr_t)session->at * 0x9e3779b97f4a7c15u ^ (uint64_t)(uintptr_t)session;
  return (mixed ^ mixed >> 29) | 1;
}

/* KR_OK of an open session, KR_CLOSED of one with the value KR_SESSION, and KR_MISUSE of a broken one. */
static int state_of(const kr_session *session) {
  if (!session) return KR_MISUSE;
  if (!session->at) return session->seal ? KR_MISUSE : KR_CLOSED;
  return session->seal == seal_of(session) ? KR_OK : KR_MISUSE;
}

const char *kr_version(void) { return KR_VERSION; }

const char *kr_errmsg(int code) {
  static const char *const messages[] = {
    "KR_OK: all is well",
    "KR_NO: rejected, not safe, not serializable, or none is there",
    "KR_TABLE: the bytes are no table",
    "KR_SCRIPT: the bytes are no script",
    "KR_NOMEM: out of memory",
    "KR_CLOSED: the session isn't open",
    "KR_ISOPEN: the session is open already",
    "KR_MISUSE: a null address, a number that stands for nothing, or a broken session",
  };
  return code >= KR_OK && code <= KR_MISUSE ? messages[code] : "unknown code";
}

int kr_check(const void *table, size_t n, void *text, size_t room, size_t *length) {
  if (is_bad(table, n, 1) || is_bad(text, room, 1) || !length) return KR_MISUSE;
  return (int)krr_check(AT(table), n, AT(text), room, length);
}

int kr_decide(const void *table, size_t n, void *text, size_t room, size_t *length) {
  if (is_bad(table, n, 1) || is_bad(text, room, 1) || !length) return KR_MISUSE;
  return (int)krr_decide(AT(table), n, AT(text), room, length);
}

int kr_explain(const void *table, size_t n, void *text, size_t room, size_t *length) {
  if (is_bad(table, n, 1) || is_bad(text, room, 1) || !length) return KR_MISUSE;
  return (int)krr_explain(AT(table), n, AT(text), room, length);
}

int kr_explain_script(const void *table, size_t n, size_t number, void *text, size_t room, size_t *length) {
  if (is_bad(table, n, 1) || is_bad(text, room, 1) || !length) return KR_MISUSE;
  return (int)krr_explain_script(AT(table), n, number, AT(text), room, length);
}

int kr_run(const void *table, size_t n, const void *script, size_t m, void *text, size_t room, size_t *length) {
  if (is_bad(table, n, 1) || is_bad(script, m, 1) || is_bad(text, room, 1) || !length) return KR_MISUSE;
  return (int)krr_run(AT(table), n, AT(script), m, AT(text), room, length);
}

int kr_mode(const void *table, size_t n, uint32_t mode, void *text, size_t room, size_t *length) {
  if (is_bad(table, n, 1) || is_bad(text, room, 1) || !length) return KR_MISUSE;
  return (int)krr_mode(AT(table), n, mode, AT(text), room, length);
}

int kr_open(kr_session *session, const void *table, size_t n, const void *script, size_t m, void *text, size_t room,
            size_t *length) {
  if (is_bad(table, n, 1) || is_bad(script, m, 1) || is_bad(text, room, 1) || !length) return KR_MISUSE;
  int state = state_of(session);
  if (state == KR_MISUSE) return KR_MISUSE;
  *length = 0;
  if (state == KR_OK) return KR_ISOPEN;
  int code = (int)krr_open((handle *)&session->at, AT(table), n, AT(script), m, AT(text), room, length);
  if (code == KR_OK) session->seal = seal_of(session);
  return code;
}

int kr_step(kr_session *session, uint32_t txn, uint32_t op, uint64_t first, uint64_t second, kr_reply *reply) {
  int state = state_of(session);
  if (state == KR_MISUSE || !reply || op > KR_BACK) return KR_MISUSE;
  return state ? state : (int)krr_step((handle *)&session->at, txn, op, first, second, reply);
}

int kr_purge(kr_session *session, uint64_t key, uint32_t *purged) {
  int state = state_of(session);
  if (state == KR_MISUSE || !purged) return KR_MISUSE;
  return state ? state : (int)krr_purge((handle *)&session->at, key, purged);
}

/* A call that reads a session into a list. */
#define READS(name, type, size)                                                \
  int kr_##name(kr_session *session, type *out, size_t room, size_t *length) { \
    int state = state_of(session);                                             \
    if (state == KR_MISUSE || is_bad(out, room, size) || !length) return KR_MISUSE; \
    *length = 0;                                                               \
    return state ? state : (int)krr_##name((handle *)&session->at, AT(out), room, length); \
  }

READS(blockers, uint32_t, sizeof(uint32_t))
READS(rows, kr_pair, sizeof(kr_pair))
READS(index, kr_pair, sizeof(kr_pair))
READS(ghosts, uint64_t, sizeof(uint64_t))
READS(locks, kr_lock, sizeof(kr_lock))
READS(unfinished, uint32_t, sizeof(uint32_t))
READS(verdict, void, 1)

int kr_close(kr_session *session) {
  int state = state_of(session);
  if (state) return state;
  session->seal = 0;
  return (int)krr_close((handle *)&session->at);
}
