/* kr.h: kr inside a program. Checks and explains tables of key-range locking protocols, runs scripts under them, and opens
   sessions that say of one step at a time what the table answers. The functions need the C library and nothing else.

   A table is the word of a bundled one, "@kvl", "@kvl-update", "@im" or "@range-key", or the text of one in TOML. A script is
   a text in JSON. Both are given by an address and a length in bytes, and need no zero at the end. docs/TABLES.md and
   docs/SCRIPTS.md of kr describe them.

   GHOSTS. Under "@record-gap", "@range-ghost", "@next-key-ghost" and tables of format 3 a deleted key stays as a ghost until it is
   purged (docs/GHOSTS.md). All functions take them. Scripts under them may be of format 3, with purges.

   CODES. Each function but kr_version and kr_errmsg returns a code of enum kr_code. KR_OK is 0.

   TEXTS AND LISTS are written into memory of the caller's. `room` is how many bytes, or elements, it has room for; as many are
   written, from the front, with no zero at the end, and *length is the length of the whole. Where *length is above room, call
   again with more room. Where the code says that nothing is told, *length is 0. An address may be null where its length or room
   is 0. Memory that is written must not overlap other arguments.

   MEMORY. No function hands out memory. A session owns memory that malloc gave, and kr_close alone gives it back. Where malloc
   or realloc refuses, the code is KR_NOMEM, and a session is as it was before the call.

   THREADS. There are no globals. Any two sessions may be used at the same time, and the calls without a session at any time. One
   session is used by one thread at a time: order its calls by a lock or a join. No function may be called from a signal handler.

   No function prints, reads a file, starts a thread, calls back or ends the process.

   TRUSTED. kr's proofs hold for a caller that gives valid addresses: each is aligned for its type, and its memory is initialised
   where it is read, has the length that is told, and is changed by nobody else during the call. malloc, realloc and free are of
   one allocator. docs/PROVED.md of kr says the rest. */
#ifndef KR_H
#define KR_H

#include <stddef.h>
#include <stdint.h>

#ifdef __cplusplus
extern "C" {
#endif

#define KR_VERSION "0.9.0"

/* What a function returns. */
enum kr_code {
  KR_OK = 0,      /* accepted; safe; serializable; found; done */
  KR_NO = 1,      /* rejected; not safe; not serializable; none is there */
  KR_TABLE = 2,   /* the bytes are no table: the text tells their first fault */
  KR_SCRIPT = 3,  /* the bytes are no script: the text tells their first fault */
  KR_NOMEM = 4,   /* malloc or realloc refused */
  KR_CLOSED = 5,  /* the session isn't open */
  KR_ISOPEN = 6,  /* the session is open already */
  KR_MISUSE = 7   /* a null address, a number that stands for nothing, or a broken session; nothing is written */
};

/* Operations of a transaction. Operands that are not named are not looked at. */
enum kr_op {
  KR_FETCH = 0,   /* first: the key */
  KR_SCAN = 1,    /* first, second: the lower and the upper end, both in the range */
  KR_GO = 2,      /* goes on with the scan in progress, by one name */
  KR_INSERT = 3,  /* first, second: the key and its value */
  KR_DELETE = 4,  /* first: the key */
  KR_UPDATE = 5,  /* first, second: the key and its new value */
  KR_COMMIT = 6,
  KR_ABORT = 7,
  KR_BACK = 8     /* undoes the transaction's newest change */
};

/* Replies to a step. */
enum kr_kind {
  KR_FOUND = 0,       /* value: that of the key */
  KR_NONE = 1,        /* the fetched key is absent */
  KR_GOING = 2,       /* value: the key that the scan has read; it goes on */
  KR_ROWS = 3,        /* count: of the pairs that the scan ended with, which kr_rows tells */
  KR_DONE = 4,        /* the key is inserted */
  KR_DUPLICATE = 5,   /* the key to insert is present */
  KR_DELETED = 6,     /* value: that of the deleted key */
  KR_ABSENT = 7,      /* the key to delete or update is absent */
  KR_UPDATED = 8,     /* value: that of the key before */
  KR_COMMITTED = 9,
  KR_ABORTED = 10,
  KR_UNDONE = 11,     /* value: how many changes are left to undo */
  KR_BLOCKED = 12,    /* count: of the transactions whose locks conflict, which kr_blockers tells */
  KR_REFUSED = 13     /* refusal: why */
};

/* Why a step is refused. */
enum kr_refusal {
  KR_ENDED = 1,         /* the transaction has committed or aborted */
  KR_BUSY = 2,          /* its scan is in progress, and the operation neither goes on with it nor undoes a change */
  KR_NO_SCAN = 3,       /* it has no scan to go on with */
  KR_BAD_RANGE = 4,     /* the lower end is above the upper end */
  KR_FULL = 5,          /* 64 transactions are active, and this isn't one of them */
  KR_OUT_OF_MEMORY = 6, /* malloc or realloc refused; the code is KR_NOMEM */
  KR_NO_UPDATE = 7,     /* the table has no rule for updates */
  KR_ROLLING_BACK = 8,  /* a change of it was undone, and the operation undoes none */
  KR_NOTHING_LEFT = 9   /* it has no change left to undo */
};

typedef struct kr_reply {
  uint32_t kind;     /* of enum kr_kind */
  uint32_t refusal;  /* of enum kr_refusal; 0 where nothing is refused */
  uint64_t value;    /* as enum kr_kind says, else 0 */
  uint64_t count;    /* as enum kr_kind says, else 0 */
} kr_reply;

typedef struct kr_pair {
  uint64_t key;
  uint64_t value;
} kr_pair;

typedef struct kr_lock {
  uint64_t key;     /* 0 where is_end is 1 */
  uint32_t is_end;  /* 1 for infinity, the name past all keys, else 0 */
  uint32_t txn;     /* the transaction that holds it */
  uint32_t mode;    /* from 1; kr_mode tells its name */
  uint32_t unused;  /* 0 */
} kr_lock;

/* A session, in the caller's memory. Give it the value KR_SESSION before kr_open, and leave its fields alone. It stays where it
   was opened: a copy of it, and one that was moved, is broken, and each call on it returns KR_MISUSE. */
typedef struct kr_session {
  void *at;
  uint64_t seal;
} kr_session;
#define KR_SESSION { 0, 0 }

/* The library's version, a constant. Compare it with KR_VERSION. */
const char *kr_version(void);

/* What a code means, a constant, as "KR_CLOSED: the session isn't open". Of a number that is no code "unknown code". */
const char *kr_errmsg(int code);

/* Checks a table. KR_OK: all cases hold, and every run under it is serializable in commit order. KR_NO: some case fails. The text
   is the line that `kr check` prints, without its line feed.
   Also KR_TABLE with the fault's line, KR_NOMEM, KR_MISUSE. */
int kr_check(const void *table, size_t table_length, void *text, size_t room, size_t *length);

/* Decides whether a table is safe: every run under it is serializable in commit order. KR_OK: it is. KR_NO: some lock lets in what
   it has to keep out. No text in both cases.
   Also KR_TABLE with the fault's line, KR_NOMEM, KR_MISUSE. */
int kr_decide(const void *table, size_t table_length, void *text, size_t room, size_t *length);

/* Explains a table. KR_OK: it is safe, accepted or not. KR_NO: it is rejected, or not known to be safe. The text is what
   `kr explain` prints of a file named `table`, to its last line feed: the verdict, and where cases fail, each cause, with a
   schedule that goes wrong where one is known, and what mends it.
   Also KR_TABLE with the fault's line, KR_NOMEM, KR_MISUSE. */
int kr_explain(const void *table, size_t table_length, void *text, size_t room, size_t *length);

/* The script of the schedule that kr_explain shows of a cause, which has its number in that text, from 1. A table with ghosts has
   one schedule at most, of number 1. KR_OK: the text is the script, as a line of JSON without a line feed, which kr_run and
   kr_open take. Its run under the table isn't serializable in commit order, and each of its steps is granted. KR_NO, with no
   text: there is no such cause, or no schedule of it is shown. Each call explains the table anew. Also KR_TABLE with the fault's
   line, KR_NOMEM, KR_MISUSE. */
int kr_explain_script(const void *table, size_t table_length, size_t number, void *text, size_t room, size_t *length);

/* Runs a script under a table. KR_OK: the run is serializable in commit order. KR_NO: it isn't. The text is the line that `kr run`
   prints, without its line feed.
   Also KR_TABLE and KR_SCRIPT with the fault's line, the table's first, KR_NOMEM, KR_MISUSE. */
int kr_run(const void *table, size_t table_length, const void *script, size_t script_length, void *text, size_t room,
           size_t *length);

/* The name of a mode of a table. KR_OK with the name, which is empty where the table has no mode of this number.
   Also KR_TABLE with the fault's line, KR_NOMEM, KR_MISUSE. */
int kr_mode(const void *table, size_t table_length, uint32_t mode, void *text, size_t room, size_t *length);

/* Opens a session: an index with the opening pairs of the script, under the table, with no transactions and no ghosts. None of
   the script's steps is attempted, and no purge is done. KR_OK: close it by kr_close. Else the session is as it was: KR_TABLE and
   KR_SCRIPT with the fault's line, the table's first, KR_NOMEM, KR_ISOPEN, KR_MISUSE. */
int kr_open(kr_session *session, const void *table, size_t table_length, const void *script, size_t script_length, void *text,
            size_t room, size_t *length);

/* Attempts a step of a transaction. KR_OK with the table's reply. KR_NOMEM: the reply is KR_REFUSED with KR_OUT_OF_MEMORY. A step
   that is blocked or refused changes nothing but the last reply, and may be tried again. A transaction begins with its first
   step that is done, and its number is any that hasn't ended.
   Also KR_CLOSED, KR_MISUSE: then no step was attempted, and *reply isn't written. */
int kr_step(kr_session *session, uint32_t txn, uint32_t op, uint64_t first, uint64_t second, kr_reply *reply);

/* Purges a ghost, at any time: no transaction does it. KR_OK: *purged is 1 where the key was a ghost and is no name any more; and
   else 0, and nothing changes: the key is no ghost, a transaction can still undo a change of it, or it is locked and the table
   lets no locks be inherited. Without ghosts *purged is always 0. The last reply, with its blockers and rows, stays.
   Also KR_CLOSED, KR_NOMEM, KR_MISUSE: then nothing changes, and *purged isn't written. */
int kr_purge(kr_session *session, uint64_t key, uint32_t *purged);

/* What the last reply has more of: the transactions that block the step, rising; the pairs of its rows, keys rising. The list is
   empty after any other reply. KR_OK, KR_CLOSED, KR_NOMEM, KR_MISUSE. */
int kr_blockers(kr_session *session, uint32_t *txns, size_t room, size_t *length);
int kr_rows(kr_session *session, kr_pair *pairs, size_t room, size_t *length);

/* The state: the pairs of the index, keys rising; the ghosts, rising, none where deletes leave none; the locks that are held, by
   name, infinity last, and then by transaction; the active transactions, rising. KR_OK, KR_CLOSED, KR_NOMEM, KR_MISUSE. */
int kr_index(kr_session *session, kr_pair *pairs, size_t room, size_t *length);
int kr_ghosts(kr_session *session, uint64_t *keys, size_t room, size_t *length);
int kr_locks(kr_session *session, kr_lock *locks, size_t room, size_t *length);
int kr_unfinished(kr_session *session, uint32_t *txns, size_t room, size_t *length);

/* The verdict on the transactions that have committed so far. KR_OK: they are serializable in commit order. KR_NO: they aren't. The
   text is the line that `kr judge` prints of a script named `session`, without its line feed. It takes the time of running
   them again. Also KR_CLOSED, KR_NOMEM, KR_MISUSE. */
int kr_verdict(kr_session *session, void *text, size_t room, size_t *length);

/* Closes a session and frees what it has. KR_OK, KR_CLOSED where it wasn't open, KR_MISUSE. It may then be opened again. */
int kr_close(kr_session *session);

#ifdef __cplusplus
}
#endif
#endif
