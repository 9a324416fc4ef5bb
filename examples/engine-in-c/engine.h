/* A toy engine: a B-tree of one level, and a lock manager for key-range locking with S and X, as the table @im has it. */
#ifndef ENGINE_H
#define ENGINE_H

#include <stdint.h>

/* What an operation comes to. */
enum outcome { FOUND, NONE, DONE, DUPLICATE, DELETED, ABSENT, COMMITTED, BLOCKED };

struct answer {
  enum outcome outcome;
  uint64_t value; /* of FOUND and DELETED, else 0 */
};

struct engine;

struct engine *engine_new(void);
void engine_free(struct engine *);

/* Each attempts an operation of a transaction. One that is blocked has changed nothing. */
struct answer engine_fetch(struct engine *, uint32_t txn, uint64_t key);
struct answer engine_insert(struct engine *, uint32_t txn, uint64_t key, uint64_t value);
struct answer engine_delete(struct engine *, uint32_t txn, uint64_t key);
struct answer engine_commit(struct engine *, uint32_t txn);

#endif
