// kr.hpp: kr in a C++17 program, over kr.h. Header only; link libkr. What the calls mean is said in kr.h.
#pragma once
#include <cstdint>
#include <memory>
#include <optional>
#include <stdexcept>
#include <string>
#include <string_view>
#include <vector>

#include "kr.h"

namespace kr {

// A code other than KR_OK and KR_NO, with the line of the fault where the code has one.
class error : public std::runtime_error {
 public:
  error(int code, const std::string &line)
      : std::runtime_error(line.empty() ? kr_errmsg(code) : std::string(kr_errmsg(code)) + ": " + line), code_(code), line_(line) {}
  int code() const noexcept { return code_; }
  const std::string &line() const noexcept { return line_; }

 private:
  int code_;
  std::string line_;
};

// An answer that is yes or no, with its report.
struct told {
  bool is_yes;
  std::string text;
  explicit operator bool() const { return is_yes; }
};

// A reply with its lists.
struct reply : kr_reply {
  std::vector<std::uint32_t> blockers;
  std::vector<kr_pair> rows;
};

namespace detail {

// Calls with room for a list, and once more where the list was longer. Gives the code.
template <class T, class F>
int fill(T &list, std::size_t room, F call) {
  std::size_t length = 0;
  list.resize(room);
  int code = call(list.data(), list.size(), &length);
  if (length > list.size()) {
    list.resize(length);
    code = call(list.data(), list.size(), &length);
  }
  list.resize(length);
  return code;
}

template <class F>
told tell(F call) {
  std::string text;
  int code = fill(text, 4096, call);
  if (code != KR_OK && code != KR_NO) throw error(code, text);
  return {code == KR_OK, std::move(text)};
}

template <class T, class F>
std::vector<T> list(std::size_t room, F call) {
  std::vector<T> list;
  if (int code = fill(list, room, call)) throw error(code, "");
  return list;
}

}  // namespace detail

// Whether all cases of a table hold, and the report of its check.
inline told check(std::string_view table) {
  return detail::tell([&](char *text, std::size_t room, std::size_t *length) {
    return kr_check(table.data(), table.size(), text, room, length);
  });
}

// Whether every run under a table is serializable in commit order.
inline bool is_safe(std::string_view table) {
  return detail::tell([&](char *text, std::size_t room, std::size_t *length) {
    return kr_decide(table.data(), table.size(), text, room, length);
  }).is_yes;
}

// Whether a table is safe, accepted or not, and its explanation.
inline told explain(std::string_view table) {
  return detail::tell([&](char *text, std::size_t room, std::size_t *length) {
    return kr_explain(table.data(), table.size(), text, room, length);
  });
}

// The script of the schedule that the explanation shows of a cause, from 1; none where it shows none, or there is no such cause.
inline std::optional<std::string> explain_script(std::string_view table, std::size_t number) {
  told found = detail::tell([&](char *text, std::size_t room, std::size_t *length) {
    return kr_explain_script(table.data(), table.size(), number, text, room, length);
  });
  if (!found) return std::nullopt;
  return std::move(found.text);
}

// Whether the run of a script under a table is serializable in commit order, and its report.
inline told run(std::string_view table, std::string_view script) {
  return detail::tell([&](char *text, std::size_t room, std::size_t *length) {
    return kr_run(table.data(), table.size(), script.data(), script.size(), text, room, length);
  });
}

// The name of a mode of a table; empty where it has none of this number.
inline std::string mode(std::string_view table, std::uint32_t mode) {
  return detail::tell([&](char *text, std::size_t room, std::size_t *length) {
    return kr_mode(table.data(), table.size(), mode, text, room, length);
  }).text;
}

// A session, closed by its destructor. One thread uses it at a time. It may be moved: what C holds stays in its place.
class session {
 public:
  // Opens it on the opening map of a script, none of whose steps is attempted.
  session(std::string_view table, std::string_view script) : at_(new kr_session KR_SESSION) {
    detail::tell([&](char *text, std::size_t room, std::size_t *length) {
      return kr_open(at_.get(), table.data(), table.size(), script.data(), script.size(), text, room, length);
    });
  }

  // Attempts a step.
  kr::reply step(std::uint32_t txn, kr_op op, std::uint64_t first = 0, std::uint64_t second = 0) {
    kr::reply reply{};
    int code = kr_step(at_.get(), txn, op, first, second, &reply);
    if (code != KR_OK && code != KR_NOMEM) throw error(code, "");
    if (reply.kind == KR_BLOCKED) reply.blockers = read<std::uint32_t>(reply.count, kr_blockers);
    if (reply.kind == KR_ROWS) reply.rows = read<kr_pair>(reply.count, kr_rows);
    return reply;
  }

  // Purges a ghost, and says whether it did: never where deletes leave no ghosts.
  bool purge(std::uint64_t key) {
    std::uint32_t purged = 0;
    if (int code = kr_purge(at_.get(), key, &purged)) throw error(code, "");
    return purged == 1;
  }

  std::vector<kr_pair> index() { return read<kr_pair>(64, kr_index); }
  std::vector<std::uint64_t> ghosts() { return read<std::uint64_t>(64, kr_ghosts); }
  std::vector<kr_lock> locks() { return read<kr_lock>(64, kr_locks); }
  std::vector<std::uint32_t> unfinished() { return read<std::uint32_t>(64, kr_unfinished); }

  // Whether what has committed so far is serializable in commit order, and the report of that verdict.
  told verdict() {
    return detail::tell([&](char *text, std::size_t room, std::size_t *length) { return kr_verdict(at_.get(), text, room, length); });
  }

  // Closes it before the destructor does. Each later call throws KR_CLOSED.
  void close() { kr_close(at_.get()); }

 private:
  struct closes {
    void operator()(kr_session *session) const {
      kr_close(session);
      delete session;
    }
  };

  template <class T>
  std::vector<T> read(std::size_t room, int (*call)(kr_session *, T *, std::size_t, std::size_t *)) {
    return detail::list<T>(room, [&](T *list, std::size_t size, std::size_t *length) { return call(at_.get(), list, size, length); });
  }

  std::unique_ptr<kr_session, closes> at_;
};

}  // namespace kr
