// The phantom, step by step, and the faults of kr.hpp. Prints each line that doesn't hold; status 1 where one doesn't.
#include <iostream>

#include "kr.hpp"

static int failed = 0;
#define HOLDS(is) ((is) ? void() : (failed = 1, void(std::cout << "phantom.cpp:" << __LINE__ << ": " #is "\n")))

static const std::string_view script = R"({"format":1,"opening":[[10,1],[20,2],[30,3]],"steps":[]})";

template <class F>
static kr::error thrown(F call) {
  try {
    call();
  } catch (const kr::error &error) {
    return error;
  }
  return {KR_OK, ""};
}

static void steps() {
  kr::session opened("@kvl", script), session(std::move(opened));
  HOLDS(session.step(1, KR_SCAN, 10, 20).value == 10);
  const kr::reply rows = session.step(1, KR_GO);
  HOLDS(rows.kind == KR_ROWS && rows.rows.size() == 2 && rows.rows[1].key == 20);
  HOLDS(session.step(2, KR_INSERT, 15, 5).blockers == std::vector<std::uint32_t>{1});
  HOLDS(session.locks().size() == 2 && kr::mode("@kvl", session.locks()[0].mode) == "S");
  HOLDS(session.step(1, KR_COMMIT).kind == KR_COMMITTED);
  HOLDS(session.step(2, KR_INSERT, 15, 5).kind == KR_DONE);
  HOLDS(session.unfinished() == std::vector<std::uint32_t>{2});
  HOLDS(session.step(2, KR_COMMIT).kind == KR_COMMITTED);
  HOLDS(session.index().size() == 4 && session.index()[1].key == 15);
  HOLDS(session.verdict() && session.verdict().text == R"({"script":"session","verdict":["serial"]})");
  session.close();
  HOLDS(thrown([&] { session.step(1, KR_FETCH, 1); }).code() == KR_CLOSED);
  HOLDS(thrown([&] { opened.step(1, KR_FETCH, 1); }).code() == KR_MISUSE);
}

static void ghosts() {
  kr::session session("@record-gap", script);
  HOLDS(session.step(1, KR_DELETE, 10).value == 1);
  HOLDS(session.ghosts() == std::vector<std::uint64_t>{10} && !session.purge(10));
  HOLDS(session.step(1, KR_COMMIT).kind == KR_COMMITTED);
  HOLDS(session.purge(10) && !session.purge(10) && session.ghosts().empty() && session.index().size() == 2);
  session.close();
  HOLDS(thrown([&] { session.purge(10); }).code() == KR_CLOSED);
}

int main() {
  steps();
  ghosts();
  HOLDS(kr::check("@kvl") && kr::is_safe("@kvl"));
  HOLDS(kr::explain("@kvl") && kr::explain("@kvl").text.rfind("accepted: ", 0) == 0 && !kr::explain_script("@kvl", 1));
  const kr::error table = thrown([] { kr::session("x", script); });
  HOLDS(table.code() == KR_TABLE && table.line().rfind("table: fault 2", 0) == 0);
  HOLDS(thrown([] { kr::run("@kvl", "x"); }).code() == KR_SCRIPT);
  return failed;
}
