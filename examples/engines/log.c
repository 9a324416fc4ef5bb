#include <stdarg.h>
#include <stdio.h>

/* Writes a line of a trace. To be called while the latch of the lock table is held. */
static void trace_line(FILE *trace, unsigned txn, const char *step_and_reply, ...) {
  va_list numbers;
  va_start(numbers, step_and_reply);
  fprintf(trace, "[[%u,", txn);
  vfprintf(trace, step_and_reply, numbers);
  fputs("]]\n", trace);
  va_end(numbers);
}

int main(void) {
  unsigned long long key = 17, value = 5;
  puts("{\"format\":1,\"opening\":[[10,1],[20,2],[30,3]]}");
  /* Granted at once; begins to wait; a transaction ends; granted after a wait; a victim is chosen. */
  trace_line(stdout, 1, "\"fetch\",%llu],[\"none\"", key);
  trace_line(stdout, 2, "\"insert\",%llu,%llu],[\"blocked\",[%u]", key, value, 1);
  trace_line(stdout, 1, "\"commit\"],[\"committed\"");
  trace_line(stdout, 2, "\"insert\",%llu,%llu],[\"done\"", key, value);
  trace_line(stdout, 2, "\"delete\",%llu],[\"aborted\"", key);
}
