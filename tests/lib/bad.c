/* Bad use of libkr: each call returns the code that kr.h says, and writes nothing that kr.h doesn't say. Prints each line that
   doesn't hold; status 1 where one doesn't. Its argument is the file of a table that isn't safe, whose first cause has a script. It is
   built with -fsanitize=address,undefined. */
#include <stdio.h>
#include <stdlib.h>
#include <string.h>

#include "kr.h"

static int failed;
static void holds(int is, int line, const char *what) {
  if (is) return;
  printf("bad.c:%d: %s\n", line, what);
  failed = 1;
}
#define HOLDS(is) holds((is), __LINE__, #is)

static const char script[] = "{\"format\":1,\"opening\":[[10,1],[20,2]],\"steps\":[]}";
#define SCRIPT script, sizeof script - 1

/* A text of exactly this length, which the sanitizer guards, with no zero behind it. */
static char *exactly(const char *bytes, size_t length) {
  char *copy = malloc(length ? length : 1);
  if (!copy) exit(2);
  memcpy(copy, bytes, length);
  return copy;
}

static int starts(const char *text, size_t length, const char *with) {
  return length >= strlen(with) && !memcmp(text, with, strlen(with));
}

/* A call on a table that writes a text refuses each argument that it cannot take, and then changes nothing. */
static void of_arguments(int call(const void *, size_t, void *, size_t, size_t *)) {
  char text[4096];
  size_t n = 7;
  HOLDS(call(NULL, 5, text, sizeof text, &n) == KR_MISUSE && n == 7);
  HOLDS(call("@kvl", 4, NULL, 5, &n) == KR_MISUSE && n == 7);
  HOLDS(call("@kvl", 4, text, sizeof text, NULL) == KR_MISUSE);
  HOLDS(call("@kvl", SIZE_MAX, text, sizeof text, &n) == KR_MISUSE && n == 7);
  HOLDS(call("@kvl", 4, text, SIZE_MAX, &n) == KR_MISUSE && n == 7);
}

static void of_texts(void) {
  char text[4096];
  size_t n = 7;
  of_arguments(kr_check);
  HOLDS(kr_check("@kvl", 4, NULL, 0, &n) == KR_OK && n == 39);
  HOLDS(kr_check(NULL, 0, text, sizeof text, &n) == KR_TABLE && starts(text, n, "table: fault "));
  HOLDS(kr_check("", 0, text, sizeof text, &n) == KR_TABLE);
  HOLDS(kr_check("@none", 5, text, sizeof text, &n) == KR_TABLE);
  HOLDS(kr_check("\xff\xfe", 2, text, sizeof text, &n) == KR_TABLE && starts(text, n, "table: fault 2 NotToml"));
  HOLDS(kr_check("a\0b", 3, text, sizeof text, &n) == KR_TABLE);
  HOLDS(kr_decide("x", 1, text, sizeof text, &n) == KR_TABLE && n > 0);
  HOLDS(kr_decide("@kvl", 4, text, sizeof text, &n) == KR_OK && n == 0);
  HOLDS(kr_mode("@kvl", 4, 1, text, sizeof text, &n) == KR_OK && n == 2 && !memcmp(text, "IS", 2));
  HOLDS(kr_mode("@kvl", 4, 6, text, sizeof text, &n) == KR_OK && n == 0);
  HOLDS(kr_mode("@kvl", 4, 256, text, sizeof text, &n) == KR_OK && n == 0);
  HOLDS(kr_mode("@kvl", 4, UINT32_MAX, text, sizeof text, &n) == KR_OK && n == 0);
  HOLDS(kr_run("@kvl", 4, "", 0, text, sizeof text, &n) == KR_SCRIPT && starts(text, n, "script: fault 2 NotJson"));
  HOLDS(kr_run("@kvl", 4, NULL, 0, text, sizeof text, &n) == KR_SCRIPT);
  HOLDS(kr_run("@kvl", 4, NULL, 1, text, sizeof text, &n) == KR_MISUSE);
  HOLDS(kr_run("@kvl", 4, "\xff", 1, text, sizeof text, &n) == KR_SCRIPT);
  HOLDS(kr_run("x", 1, "x", 1, text, sizeof text, &n) == KR_TABLE);
  HOLDS(!strcmp(kr_version(), KR_VERSION));
  HOLDS(!strncmp(kr_errmsg(KR_CLOSED), "KR_CLOSED", 9));
  HOLDS(!strcmp(kr_errmsg(-1), "unknown code") && !strcmp(kr_errmsg(8), "unknown code"));
}

static void of_explanations(void) {
  static char text[1 << 16];
  size_t n = 7;
  of_arguments(kr_explain);
  HOLDS(kr_explain_script(NULL, 5, 1, text, sizeof text, &n) == KR_MISUSE && n == 7);
  HOLDS(kr_explain_script("@kvl", 4, 1, NULL, 5, &n) == KR_MISUSE && n == 7);
  HOLDS(kr_explain_script("@kvl", 4, 1, text, sizeof text, NULL) == KR_MISUSE);
  HOLDS(kr_explain_script("@kvl", SIZE_MAX, 1, text, sizeof text, &n) == KR_MISUSE && n == 7);
  HOLDS(kr_explain_script("@kvl", 4, 1, text, SIZE_MAX, &n) == KR_MISUSE && n == 7);
  HOLDS(kr_explain(NULL, 0, text, sizeof text, &n) == KR_TABLE && starts(text, n, "table: fault "));
  HOLDS(kr_explain("\xff\xfe", 2, text, sizeof text, &n) == KR_TABLE && starts(text, n, "table: fault 2 NotToml"));
  HOLDS(kr_explain_script("x", 1, 1, text, sizeof text, &n) == KR_TABLE && starts(text, n, "table: fault "));
  HOLDS(kr_explain("@kvl", 4, NULL, 0, &n) == KR_OK && n == 90);
  HOLDS(kr_explain("@kvl", 4, text, sizeof text, &n) == KR_OK && starts(text, n, "accepted: all 244 cases hold. ") && text[n - 1] == '\n');
  text[0] = '.';
  HOLDS(kr_explain_script("@kvl", 4, 1, text, sizeof text, &n) == KR_NO && n == 0 && text[0] == '.');
}

/* A table that isn't safe: its text in less room than it has, and its script, which goes wrong. */
static void of_causes(const char *name) {
  static char table[1 << 16], text[1 << 16];
  FILE *file = fopen(name, "rb");
  if (!file) exit(2);
  size_t n, length, size = fread(table, 1, sizeof table, file);
  fclose(file);
  HOLDS(kr_decide(table, size, text, sizeof text, &n) == KR_NO);
  HOLDS(kr_explain(table, size, text, sizeof text, &length) == KR_NO && starts(text, length, "rejected: "));
  char *room = exactly(text, length - 1);
  memset(room, '.', length - 1);
  HOLDS(kr_explain(table, size, room, length - 1, &n) == KR_NO && n == length && !memcmp(room, text, length - 1));
  free(room);
  HOLDS(kr_explain_script(table, size, 1, text, sizeof text, &length) == KR_OK && starts(text, length, "{\"format\":"));
  char *script = exactly(text, length);
  HOLDS(kr_run(table, size, script, length, text, sizeof text, &n) == KR_NO);
  HOLDS(kr_run("@kvl-update", 11, script, length, text, sizeof text, &n) == KR_OK);
  kr_session session = KR_SESSION;
  HOLDS(kr_open(&session, table, size, script, length, text, sizeof text, &n) == KR_OK && kr_close(&session) == KR_OK);
  HOLDS(kr_explain_script(table, size, 1, NULL, 0, &n) == KR_OK && n == length);
  free(script);
  HOLDS(kr_explain_script(table, size, 0, text, sizeof text, &n) == KR_NO && n == 0);
  HOLDS(kr_explain_script(table, size, 1000, text, sizeof text, &n) == KR_NO && n == 0);
  HOLDS(kr_explain_script(table, size, SIZE_MAX, text, sizeof text, &n) == KR_NO && n == 0);
}

/* Texts at the limits, each in memory of its own length. */
static void of_lengths(void) {
  static char long_text[(1 << 24) + 2];
  char text[256];
  size_t n;
  memset(long_text, ' ', sizeof long_text);
  char *table = exactly(long_text, 65536), *longer = exactly(long_text, 65537);
  HOLDS(kr_check(table, 65536, text, sizeof text, &n) == KR_TABLE && !starts(text, n, "table: fault 1 TooLong"));
  HOLDS(kr_check(longer, 65537, text, sizeof text, &n) == KR_TABLE && starts(text, n, "table: fault 1 TooLong"));
  char *most = exactly(long_text, 1 << 24), *more = exactly(long_text, (1 << 24) + 1);
  HOLDS(kr_run("@kvl", 4, most, 1 << 24, text, sizeof text, &n) == KR_SCRIPT && starts(text, n, "script: fault 2 NotJson"));
  HOLDS(kr_run("@kvl", 4, more, (1 << 24) + 1, text, sizeof text, &n) == KR_SCRIPT && starts(text, n, "script: fault 1 TooLong"));
  free(table);
  free(longer);
  free(most);
  free(more);
}

/* Room for each length from none to one more than the text. */
static void of_rooms(void) {
  static const char report[] = "{\"accepted\":true,\"cases\":244,\"modes\":5}";
  for (size_t room = 0; room <= sizeof report; room++) {
    char *text = exactly("........................................................", room);
    size_t n = 0, written = room < sizeof report - 1 ? room : sizeof report - 1;
    HOLDS(kr_check("@kvl", 4, text, room, &n) == KR_OK && n == sizeof report - 1);
    HOLDS(!memcmp(text, report, written) && (room == written || text[written] == '.'));
    free(text);
  }
}

static void of_sessions(void) {
  char text[4096];
  size_t n = 7;
  kr_session session = KR_SESSION, copy;
  kr_reply reply = {77, 77, 77, 77};
  HOLDS(kr_step(&session, 1, KR_FETCH, 10, 0, &reply) == KR_CLOSED && reply.kind == 77);
  HOLDS(kr_close(&session) == KR_CLOSED);
  HOLDS(kr_verdict(&session, text, sizeof text, &n) == KR_CLOSED && n == 0);
  HOLDS(kr_open(&session, "x", 1, SCRIPT, text, sizeof text, &n) == KR_TABLE && starts(text, n, "table: "));
  HOLDS(kr_open(&session, "@kvl", 4, "x", 1, text, sizeof text, &n) == KR_SCRIPT && starts(text, n, "script: "));
  HOLDS(kr_open(NULL, "@kvl", 4, SCRIPT, text, sizeof text, &n) == KR_MISUSE);
  HOLDS(kr_open(&session, "@kvl", 4, SCRIPT, NULL, 1, &n) == KR_MISUSE);
  HOLDS(kr_step(&session, 1, KR_FETCH, 10, 0, &reply) == KR_CLOSED);
  HOLDS(kr_open(&session, "@kvl", 4, SCRIPT, text, sizeof text, &n) == KR_OK && n == 0);
  HOLDS(kr_open(&session, "@kvl", 4, SCRIPT, text, sizeof text, &n) == KR_ISOPEN && n == 0);
  HOLDS(kr_step(&session, 1, 9, 10, 0, &reply) == KR_MISUSE && reply.kind == 77);
  HOLDS(kr_step(&session, 1, UINT32_MAX, 10, 0, &reply) == KR_MISUSE && reply.kind == 77);
  HOLDS(kr_step(&session, 1, KR_FETCH, 10, 0, NULL) == KR_MISUSE);
  HOLDS(kr_step(NULL, 1, KR_FETCH, 10, 0, &reply) == KR_MISUSE);
  HOLDS(kr_unfinished(&session, NULL, 0, &n) == KR_OK && n == 0);
  memcpy(&copy, &session, sizeof copy);
  HOLDS(kr_step(&copy, 1, KR_FETCH, 10, 0, &reply) == KR_MISUSE);
  HOLDS(kr_open(&copy, "@kvl", 4, SCRIPT, text, sizeof text, &n) == KR_MISUSE);
  HOLDS(kr_close(&copy) == KR_MISUSE);
  HOLDS(kr_step(&session, UINT32_MAX, KR_FETCH, UINT64_MAX, UINT64_MAX, &reply) == KR_OK && reply.kind == KR_NONE);
  HOLDS(kr_close(&session) == KR_OK);
  HOLDS(kr_close(&session) == KR_CLOSED);
  HOLDS(kr_step(&session, 1, KR_FETCH, 10, 0, &reply) == KR_CLOSED);
  HOLDS(kr_close(&copy) == KR_MISUSE);
  memset(&copy, 0xa5, sizeof copy);
  HOLDS(kr_step(&copy, 1, KR_FETCH, 10, 0, &reply) == KR_MISUSE && kr_close(&copy) == KR_MISUSE);
  HOLDS(kr_open(&session, "@im", 3, SCRIPT, text, sizeof text, &n) == KR_OK);
  HOLDS(kr_close(&session) == KR_OK);
  HOLDS(kr_close(NULL) == KR_MISUSE);
}

/* Purges with ghosts and without, and what stays the same. */
static void of_purges(void) {
  static const char moves[] = "{\"format\":3,\"opening\":[[10,1],[20,2]],\"steps\":[[\"purge\",10]]}";
  char text[256];
  size_t n = 7;
  uint32_t purged = 77, txn;
  uint64_t ghosts[2] = {77, 77};
  kr_session session = KR_SESSION;
  kr_reply reply;
  HOLDS(kr_purge(&session, 10, &purged) == KR_CLOSED && purged == 77);
  HOLDS(kr_ghosts(&session, ghosts, 2, &n) == KR_CLOSED && n == 0);
  HOLDS(kr_purge(NULL, 10, &purged) == KR_MISUSE && purged == 77);
  HOLDS(kr_open(&session, "@kvl", 4, moves, sizeof moves - 1, text, sizeof text, &n) == KR_SCRIPT);
  HOLDS(kr_open(&session, "@kvl", 4, SCRIPT, text, sizeof text, &n) == KR_OK);
  HOLDS(kr_step(&session, 1, KR_DELETE, 10, 0, &reply) == KR_OK && reply.kind == KR_DELETED);
  HOLDS(kr_purge(&session, 10, NULL) == KR_MISUSE);
  HOLDS(kr_purge(&session, 10, &purged) == KR_OK && purged == 0);
  HOLDS(kr_ghosts(&session, ghosts, 2, &n) == KR_OK && n == 0 && ghosts[0] == 77);
  HOLDS(kr_close(&session) == KR_OK);
  HOLDS(kr_open(&session, "@record-gap", 11, moves, sizeof moves - 1, text, sizeof text, &n) == KR_OK);
  HOLDS(kr_step(&session, 1, KR_DELETE, 10, 0, &reply) == KR_OK && reply.kind == KR_DELETED);
  HOLDS(kr_ghosts(&session, ghosts, 0, &n) == KR_OK && n == 1 && ghosts[0] == 77);
  HOLDS(kr_ghosts(&session, ghosts, 2, &n) == KR_OK && n == 1 && ghosts[0] == 10 && ghosts[1] == 77);
  HOLDS(kr_ghosts(&session, NULL, 1, &n) == KR_MISUSE);
  HOLDS(kr_ghosts(&session, ghosts, SIZE_MAX / 8, &n) == KR_MISUSE);
  HOLDS(kr_step(&session, 2, KR_FETCH, 10, 0, &reply) == KR_OK && reply.kind == KR_BLOCKED);
  HOLDS(kr_purge(&session, 10, &purged) == KR_OK && purged == 0);
  HOLDS(kr_purge(&session, 20, &purged) == KR_OK && purged == 0);
  HOLDS(kr_blockers(&session, &txn, 1, &n) == KR_OK && n == 1 && txn == 1);
  HOLDS(kr_step(&session, 1, KR_COMMIT, 0, 0, &reply) == KR_OK && reply.kind == KR_COMMITTED);
  HOLDS(kr_purge(&session, 10, &purged) == KR_OK && purged == 1);
  HOLDS(kr_purge(&session, 10, &purged) == KR_OK && purged == 0);
  HOLDS(kr_ghosts(&session, ghosts, 2, &n) == KR_OK && n == 0);
  HOLDS(kr_verdict(&session, text, sizeof text, &n) == KR_OK);
  HOLDS(kr_close(&session) == KR_OK);
}

/* Lists in rooms that are too small, and the lists of other replies. */
static void of_lists(void) {
  char text[256];
  size_t n;
  kr_session session = KR_SESSION;
  kr_reply reply;
  uint32_t *one = malloc(sizeof *one);
  kr_pair pair[1], pairs[2];
  kr_lock lock[1];
  if (!one) exit(2);
  HOLDS(kr_open(&session, "@kvl", 4, SCRIPT, text, sizeof text, &n) == KR_OK);
  for (uint32_t txn = 1; txn < 4; txn++) HOLDS(kr_step(&session, txn, KR_FETCH, 10, 0, &reply) == KR_OK && reply.value == 1);
  HOLDS(kr_blockers(&session, one, 1, &n) == KR_OK && n == 0);
  HOLDS(kr_rows(&session, pair, 1, &n) == KR_OK && n == 0);
  HOLDS(kr_step(&session, 9, KR_DELETE, 10, 0, &reply) == KR_OK && reply.kind == KR_BLOCKED && reply.count == 3);
  *one = 77;
  HOLDS(kr_blockers(&session, NULL, 0, &n) == KR_OK && n == 3);
  HOLDS(kr_blockers(&session, one, 1, &n) == KR_OK && n == 3 && *one == 1);
  HOLDS(kr_blockers(&session, NULL, 1, &n) == KR_MISUSE);
  HOLDS(kr_blockers(&session, one, SIZE_MAX / 4, &n) == KR_MISUSE);
  HOLDS(kr_blockers(&session, one, 1, NULL) == KR_MISUSE);
  HOLDS(kr_index(&session, pair, 1, &n) == KR_OK && n == 2 && pair[0].key == 10 && pair[0].value == 1);
  HOLDS(kr_locks(&session, lock, 1, &n) == KR_OK && n == 3 && lock[0].key == 10 && lock[0].txn == 1 && lock[0].mode > 0);
  HOLDS(kr_unfinished(&session, one, 1, &n) == KR_OK && n == 3 && *one == 1);
  HOLDS(kr_step(&session, 1, KR_SCAN, 1, 15, &reply) == KR_OK && reply.kind == KR_GOING && reply.value == 10);
  HOLDS(kr_step(&session, 1, KR_GO, 0, 0, &reply) == KR_OK && reply.kind == KR_ROWS && reply.count == 1);
  HOLDS(kr_rows(&session, pairs, 2, &n) == KR_OK && n == 1 && pairs[0].key == 10);
  HOLDS(kr_step(&session, 1, KR_UPDATE, 10, 5, &reply) == KR_OK && reply.kind == KR_REFUSED && reply.refusal == KR_NO_UPDATE);
  HOLDS(kr_step(&session, 1, KR_COMMIT, 0, 0, &reply) == KR_OK && reply.kind == KR_COMMITTED);
  HOLDS(kr_step(&session, 1, KR_COMMIT, 0, 0, &reply) == KR_OK && reply.refusal == KR_ENDED);
  HOLDS(kr_verdict(&session, text, 3, &n) == KR_OK && n == 41 && !memcmp(text, "{\"s", 3));
  HOLDS(kr_close(&session) == KR_OK);
  free(one);
}

int main(int count, char **words) {
  if (count != 2) return 2;
  of_texts();
  of_explanations();
  of_causes(words[1]);
  of_lengths();
  of_rooms();
  of_sessions();
  of_purges();
  of_lists();
  return failed;
}
