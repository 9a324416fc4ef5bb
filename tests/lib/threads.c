/* Two threads, a session each, and calls on bytes beside them: each thread meets what it meets alone. */
#include <pthread.h>
#include <stdio.h>
#include <string.h>

#include "kr.h"

static const char script[] = "{\"format\":1,\"opening\":[[10,1],[20,2]],\"steps\":[]}";

static void *steps(void *wrong) {
  for (int round = 0; round < 50; round++) {
    kr_session session = KR_SESSION;
    kr_reply reply;
    char text[256];
    size_t n;
    if (kr_open(&session, "@kvl", 4, script, sizeof script - 1, text, sizeof text, &n)) ++*(int *)wrong;
    for (uint32_t txn = 0; txn < 200; txn += 2) {
      if (kr_step(&session, txn, KR_FETCH, 15, 0, &reply) || reply.kind != KR_NONE) ++*(int *)wrong;
      if (kr_step(&session, txn + 1, KR_INSERT, 17, 5, &reply) || reply.kind != KR_BLOCKED) ++*(int *)wrong;
      if (kr_step(&session, txn, KR_COMMIT, 0, 0, &reply) || reply.kind != KR_COMMITTED) ++*(int *)wrong;
    }
    if (kr_check("@kvl", 4, text, sizeof text, &n) || n != 39) ++*(int *)wrong;
    if (kr_verdict(&session, text, sizeof text, &n) || kr_close(&session)) ++*(int *)wrong;
  }
  return NULL;
}

int main(void) {
  pthread_t threads[2];
  int wrong[2] = {0, 0};
  for (int i = 0; i < 2; i++)
    if (pthread_create(&threads[i], NULL, steps, &wrong[i])) return 2;
  for (int i = 0; i < 2; i++) pthread_join(threads[i], NULL);
  if (wrong[0] + wrong[1]) printf("threads.c: %d calls are wrong\n", wrong[0] + wrong[1]);
  return wrong[0] + wrong[1] != 0;
}
