/* A toy engine, with one planted bug. Leaves hold the keys, in order, and each leaf leads to the next. Built with -DMENDED it has
   no bug that is known. */
#include "engine.h"

#include <stdlib.h>
#include <string.h>

enum { ROOM = 4, MOST_LOCKS = 1024 };
#define INFINITY_NAME UINT64_MAX /* the name past all keys: no key is so great */

struct leaf {
  unsigned count;
  uint64_t keys[ROOM], values[ROOM];
  struct leaf *next;
};

enum mode { NO_LOCK, S, X };

struct lock {
  uint64_t name;
  uint32_t txn;
  enum mode mode;
};

struct engine {
  struct leaf *first;
  struct lock locks[MOST_LOCKS];
  unsigned lock_count;
};

static void *must(void *at) {
  if (!at) abort();
  return at;
}

struct engine *engine_new(void) {
  struct engine *engine = must(calloc(1, sizeof *engine));
  engine->first = must(calloc(1, sizeof *engine->first));
  return engine;
}

void engine_free(struct engine *engine) {
  for (struct leaf *leaf = engine->first, *next; leaf; leaf = next) {
    next = leaf->next;
    free(leaf);
  }
  free(engine);
}

/* The tree */

struct place {
  struct leaf *leaf;
  unsigned at; /* of the first key of the leaf that isn't below the key */
};

/* Where a key is, or would be put. */
static struct place place_of(const struct engine *engine, uint64_t key) {
  struct place place = {engine->first, 0};
  while (place.leaf->next && place.leaf->next->keys[0] <= key) place.leaf = place.leaf->next;
  while (place.at < place.leaf->count && place.leaf->keys[place.at] < key) place.at++;
  return place;
}

static int is_present(struct place place, uint64_t key) {
  return place.at < place.leaf->count && place.leaf->keys[place.at] == key;
}

/* The key at a place or, past the end of its leaf, the first key of the next leaf; or infinity. */
static uint64_t name_at(struct place place) {
  if (place.at < place.leaf->count) return place.leaf->keys[place.at];
  return place.leaf->next ? place.leaf->next->keys[0] : INFINITY_NAME;
}

static struct place after(struct place place) {
  place.at++;
  return place;
}

static void split(struct leaf *leaf) {
  struct leaf *right = must(calloc(1, sizeof *right));
  right->count = leaf->count / 2;
  leaf->count -= right->count;
  memcpy(right->keys, leaf->keys + leaf->count, right->count * sizeof *right->keys);
  memcpy(right->values, leaf->values + leaf->count, right->count * sizeof *right->values);
  right->next = leaf->next;
  leaf->next = right;
}

static void put(struct engine *engine, uint64_t key, uint64_t value) {
  struct place place = place_of(engine, key);
  if (place.leaf->count == ROOM) {
    split(place.leaf);
    place = place_of(engine, key);
  }
  unsigned behind = place.leaf->count++ - place.at;
  memmove(place.leaf->keys + place.at + 1, place.leaf->keys + place.at, behind * sizeof key);
  memmove(place.leaf->values + place.at + 1, place.leaf->values + place.at, behind * sizeof value);
  place.leaf->keys[place.at] = key;
  place.leaf->values[place.at] = value;
}

static void take(struct engine *engine, struct place place) {
  struct leaf *leaf = place.leaf;
  unsigned behind = --leaf->count - place.at;
  memmove(leaf->keys + place.at, leaf->keys + place.at + 1, behind * sizeof *leaf->keys);
  memmove(leaf->values + place.at, leaf->values + place.at + 1, behind * sizeof *leaf->values);
  if (leaf->count || leaf == engine->first) return;
  struct leaf *before = engine->first;
  while (before->next != leaf) before = before->next;
  before->next = leaf->next;
  free(leaf);
}

/* The lock manager */

static struct lock *own_lock(struct engine *engine, uint32_t txn, uint64_t name) {
  for (unsigned i = 0; i < engine->lock_count; i++)
    if (engine->locks[i].txn == txn && engine->locks[i].name == name) return &engine->locks[i];
  return NULL;
}

/* Whether a transaction may have a mode on a name: no other holds one there that conflicts. */
static int may_lock(struct engine *engine, uint32_t txn, uint64_t name, enum mode mode) {
  struct lock *own = own_lock(engine, txn, name);
  enum mode wanted = own && own->mode > mode ? own->mode : mode;
  for (unsigned i = 0; i < engine->lock_count; i++) {
    struct lock *it = &engine->locks[i];
    if (it->name == name && it->txn != txn && (it->mode == X || wanted == X)) return 0;
  }
  return 1;
}

/* Keeps a lock to commit. */
static void keep_lock(struct engine *engine, uint32_t txn, uint64_t name, enum mode mode) {
  struct lock *own = own_lock(engine, txn, name);
  if (!own) {
    if (engine->lock_count == MOST_LOCKS) abort();
    own = &engine->locks[engine->lock_count++];
    *own = (struct lock){name, txn, mode};
  } else if (own->mode < mode) {
    own->mode = mode;
  }
}

/* The operations */

static struct answer answer(enum outcome outcome, uint64_t value) { return (struct answer){outcome, value}; }

/* Reads the key at a place, or the gap below it, under S to commit. */
static struct answer read(struct engine *engine, uint32_t txn, struct place place, struct answer told) {
  if (!may_lock(engine, txn, name_at(place), S)) return answer(BLOCKED, 0);
  keep_lock(engine, txn, name_at(place), S);
  return told;
}

struct answer engine_fetch(struct engine *engine, uint32_t txn, uint64_t key) {
  struct place place = place_of(engine, key);
  if (!is_present(place, key)) return read(engine, txn, place, answer(NONE, 0));
  return read(engine, txn, place, answer(FOUND, place.leaf->values[place.at]));
}

/* X on the key to commit, and X for an instant on the next one, whose gap it is put into. */
struct answer engine_insert(struct engine *engine, uint32_t txn, uint64_t key, uint64_t value) {
  struct place place = place_of(engine, key);
  if (is_present(place, key)) return read(engine, txn, place, answer(DUPLICATE, 0));
#ifdef MENDED
  uint64_t next = name_at(place);
#else
  /* The planted bug: at the end of a leaf, the next key is in another leaf. */
  uint64_t next = place.at < place.leaf->count ? place.leaf->keys[place.at] : INFINITY_NAME;
#endif
  if (!may_lock(engine, txn, key, X) || !may_lock(engine, txn, next, X)) return answer(BLOCKED, 0);
  keep_lock(engine, txn, key, X);
  put(engine, key, value);
  return answer(DONE, 0);
}

/* X for an instant on the key, and X to commit on the next one, whose gap grows. */
struct answer engine_delete(struct engine *engine, uint32_t txn, uint64_t key) {
  struct place place = place_of(engine, key);
  if (!is_present(place, key)) return read(engine, txn, place, answer(ABSENT, 0));
  uint64_t next = name_at(after(place)), value = place.leaf->values[place.at];
  if (!may_lock(engine, txn, key, X) || !may_lock(engine, txn, next, X)) return answer(BLOCKED, 0);
  keep_lock(engine, txn, next, X);
  take(engine, place);
  return answer(DELETED, value);
}

struct answer engine_commit(struct engine *engine, uint32_t txn) {
  unsigned kept = 0;
  for (unsigned i = 0; i < engine->lock_count; i++)
    if (engine->locks[i].txn != txn) engine->locks[kept++] = engine->locks[i];
  engine->lock_count = kept;
  return answer(COMMITTED, 0);
}
