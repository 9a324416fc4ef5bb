/* Does what lines on standard input say through libkr, and prints a line for each: by it compare.py compares libkr with kr.

     open TABLE SCRIPT        the files of a table and a script
     check TABLE              the file of a table: prints the code, the length, and the report
     run TABLE SCRIPT         the same of the run of a script
     step TXN OP FIRST SECOND prints the reply
     purge KEY                prints 1 where a ghost was purged, else 0
     explain TABLE            the file of a table: prints the code, the length, and the explanation
     script TABLE NUMBER      the same of the script of a cause
     state                    prints the index, the ghosts, the locks, the active transactions and the verdict
     close */
#include <inttypes.h>
#include <stdio.h>
#include <stdlib.h>
#include <string.h>

#include "kr.h"

static const char *const kinds[] = {"found",   "none",    "going",     "rows",    "done",   "duplicate", "deleted",
                                    "absent",  "updated", "committed", "aborted", "undone", "blocked",   "refused"};
static kr_session session = KR_SESSION;
static char text[1 << 20];
static kr_pair pairs[1000];
static kr_lock locks[10000];
static uint32_t txns[1000];
static uint64_t ghosts[1000];
static char table[1 << 16], script[1 << 20];

static void must(int code) {
  if (code != KR_OK) {
    fprintf(stderr, "driver: %s\n", kr_errmsg(code));
    exit(2);
  }
}

static size_t bytes_of(const char *name, char *into, size_t room) {
  FILE *file = fopen(name, "rb");
  size_t length = file ? fread(into, 1, room, file) : 0;
  if (file) fclose(file);
  return length;
}

static void print_told(int code, size_t length) {
  if (code > KR_NO) must(code);
  printf("%d %zu %.*s\n", code, length, (int)length, text);
}

static void explain(const char *name, size_t number) {
  size_t length, n = bytes_of(name, table, sizeof table);
  int code = number ? kr_explain_script(table, n, number, text, sizeof text, &length) : kr_explain(table, n, text, sizeof text, &length);
  print_told(code, length);
}

static void check(const char *name) {
  size_t length, n = bytes_of(name, table, sizeof table);
  int code = kr_check(table, n, text, sizeof text, &length);
  print_told(code, length);
}

static void run(const char *name, const char *other) {
  size_t length, n = bytes_of(name, table, sizeof table), m = bytes_of(other, script, sizeof script);
  int code = kr_run(table, n, script, m, text, sizeof text, &length);
  print_told(code, length);
}

static void open_files(const char *name, const char *other) {
  size_t length, n = bytes_of(name, table, sizeof table), m = bytes_of(other, script, sizeof script);
  must(kr_open(&session, table, n, script, m, text, sizeof text, &length));
  puts("opened");
}

static void purge(uint64_t key) {
  uint32_t purged = 77;
  must(kr_purge(&session, key, &purged));
  printf("purge %" PRIu32 "\n", purged);
}

static void print_pairs(size_t length) {
  for (size_t i = 0; i < length; i++) printf(" %" PRIu64 ":%" PRIu64, pairs[i].key, pairs[i].value);
}

static void print_txns(size_t length) {
  for (size_t i = 0; i < length; i++) printf(" %" PRIu32, txns[i]);
}

static void step(uint32_t txn, uint32_t op, uint64_t first, uint64_t second) {
  kr_reply reply;
  size_t length;
  must(kr_step(&session, txn, op, first, second, &reply));
  printf("%s", kinds[reply.kind]);
  if (reply.kind == KR_ROWS) {
    must(kr_rows(&session, pairs, 1000, &length));
    if (length != reply.count) exit(3);
    print_pairs(length);
  } else if (reply.kind == KR_BLOCKED) {
    must(kr_blockers(&session, txns, 1000, &length));
    if (length != reply.count) exit(3);
    print_txns(length);
  } else {
    printf(" %" PRIu64 " %" PRIu32, reply.value, reply.refusal);
  }
  putchar('\n');
}

static void state(void) {
  size_t length;
  must(kr_index(&session, pairs, 1000, &length));
  printf("index");
  print_pairs(length);
  must(kr_ghosts(&session, ghosts, 1000, &length));
  printf(" ghosts");
  for (size_t i = 0; i < length; i++) printf(" %" PRIu64, ghosts[i]);
  must(kr_locks(&session, locks, 10000, &length));
  printf(" locks");
  for (size_t i = 0; i < length; i++)
    printf(" %" PRIu64 ",%" PRIu32 ",%" PRIu32 ",%" PRIu32, locks[i].key, locks[i].is_end, locks[i].txn, locks[i].mode);
  must(kr_unfinished(&session, txns, 1000, &length));
  printf(" unfinished");
  print_txns(length);
  int code = kr_verdict(&session, text, sizeof text, &length);
  if (code > KR_NO) must(code);
  printf(" verdict %d %.*s\n", code, (int)length, text);
}

int main(void) {
  static char line[1 << 12], a[1 << 11], b[1 << 11];
  uint32_t txn, op;
  uint64_t first, second;
  size_t number;
  while (fgets(line, sizeof line, stdin)) {
    if (sscanf(line, "open %2047s %2047s", a, b) == 2) open_files(a, b);
    else if (sscanf(line, "check %2047s", a) == 1) check(a);
    else if (sscanf(line, "run %2047s %2047s", a, b) == 2) run(a, b);
    else if (sscanf(line, "purge %" SCNu64, &first) == 1) purge(first);
    else if (sscanf(line, "explain %2047s", a) == 1) explain(a, 0);
    else if (sscanf(line, "script %2047s %zu", a, &number) == 2) explain(a, number);
    else if (sscanf(line, "step %" SCNu32 " %" SCNu32 " %" SCNu64 " %" SCNu64, &txn, &op, &first, &second) == 4) step(txn, op, first, second);
    else if (!strcmp(line, "state\n")) state();
    else if (!strcmp(line, "close\n")) must(kr_close(&session));
    else return 2;
  }
  return 0;
}
