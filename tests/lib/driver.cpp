// As driver.c says, through kr.hpp.
#include <fstream>
#include <iostream>
#include <iterator>
#include <memory>
#include <sstream>

#include "kr.hpp"

static const char *const kinds[] = {"found",  "none",    "going",     "rows",    "done",   "duplicate", "deleted",
                                    "absent", "updated", "committed", "aborted", "undone", "blocked",   "refused"};

static std::string bytes_of(const std::string &name) {
  std::ifstream file(name, std::ios::binary);
  return {std::istreambuf_iterator<char>(file), {}};
}

static void step(kr::session &session, std::istream &words) {
  std::uint32_t txn, op;
  std::uint64_t first, second;
  words >> txn >> op >> first >> second;
  const kr::reply reply = session.step(txn, static_cast<kr_op>(op), first, second);
  std::cout << kinds[reply.kind];
  for (const auto &it : reply.rows) std::cout << ' ' << it.key << ':' << it.value;
  for (auto it : reply.blockers) std::cout << ' ' << it;
  if (reply.kind != KR_ROWS && reply.kind != KR_BLOCKED) std::cout << ' ' << reply.value << ' ' << reply.refusal;
  std::cout << '\n';
}

static void state(kr::session &session) {
  std::cout << "index";
  for (const auto &it : session.index()) std::cout << ' ' << it.key << ':' << it.value;
  std::cout << " ghosts";
  for (auto it : session.ghosts()) std::cout << ' ' << it;
  std::cout << " locks";
  for (const auto &it : session.locks()) std::cout << ' ' << it.key << ',' << it.is_end << ',' << it.txn << ',' << it.mode;
  std::cout << " unfinished";
  for (auto it : session.unfinished()) std::cout << ' ' << it;
  const kr::told verdict = session.verdict();
  std::cout << " verdict " << (verdict ? 0 : 1) << ' ' << verdict.text << '\n';
}

static void print_told(const kr::told &told) {
  std::cout << (told ? 0 : 1) << ' ' << told.text.size() << ' ' << told.text << '\n';
}

int main() {
  std::unique_ptr<kr::session> session;
  for (std::string line, word; std::getline(std::cin, line);) {
    std::istringstream words(line);
    words >> word;
    if (word == "open") {
      std::string table, script;
      words >> table >> script;
      kr::session opened(bytes_of(table), bytes_of(script));
      session = std::make_unique<kr::session>(std::move(opened));
      std::cout << "opened\n";
    } else if (word == "explain") {
      std::string table;
      words >> table;
      print_told(kr::explain(bytes_of(table)));
    } else if (word == "check") {
      std::string table;
      words >> table;
      print_told(kr::check(bytes_of(table)));
    } else if (word == "run") {
      std::string table, script;
      words >> table >> script;
      print_told(kr::run(bytes_of(table), bytes_of(script)));
    } else if (word == "purge") {
      std::uint64_t key;
      words >> key;
      std::cout << "purge " << session->purge(key) << '\n';
    } else if (word == "script") {
      std::string table;
      std::size_t number;
      words >> table >> number;
      const std::string script = kr::explain_script(bytes_of(table), number).value_or("");
      std::cout << (script.empty() ? 1 : 0) << ' ' << script.size() << ' ' << script << '\n';
    } else if (word == "step") {
      step(*session, words);
    } else if (word == "state") {
      state(*session);
    } else if (word == "close") {
      session.reset();
    } else {
      return 2;
    }
  }
}
