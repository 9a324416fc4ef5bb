// For rocksdb.cc and berkeleydb.cc, which process.py drives: a thread for each transaction does its steps.
//
// A line of standard input is a transaction's number and a step, with tabs between, and has a line of answer: the number and a
// reply, or `fault` and a text. `close` ends a thread, and has no answer. The number 0 is of no transaction: `open KEY VALUE ..`
// fills the index anew and answers `ok`. `waits` answers `ok` and a text for each transaction that waits: its number, the name of
// the lock, and the numbers of those that are in its way, with blanks between.
#include <condition_variable>
#include <cstdint>
#include <cstdlib>
#include <deque>
#include <iostream>
#include <map>
#include <memory>
#include <mutex>
#include <sstream>
#include <string>
#include <thread>
#include <vector>

using Words = std::vector<std::string>;

inline std::string key_of(uint64_t number) {
  std::string key(8, '\0');
  for (int i = 7; i >= 0; i--, number >>= 8) key[i] = char(number & 255);
  return key;
}

inline uint64_t number_of(const char* key) {
  uint64_t number = 0;
  for (int i = 0; i < 8; i++) number = number << 8 | (unsigned char)key[i];
  return number;
}

inline void say(const std::string& number, const std::string& answer) {
  static std::mutex lock;
  std::lock_guard<std::mutex> hold(lock);
  std::cout << number << '\t' << answer << std::endl;
}

// A thread with a transaction of an engine: Txn has `answer(words)` and `close()`.
template <class Txn>
class Session {
 public:
  explicit Session(const std::string& number) : number(number) {
    std::thread([this] { run(); }).detach();
  }

  void put(const Words& words) {
    std::lock_guard<std::mutex> hold(lock);
    queue.push_back(words);
    ready.notify_one();
  }

  Txn txn;

 private:
  std::string number;
  std::deque<Words> queue;
  std::mutex lock;
  std::condition_variable ready;

  Words take() {
    std::unique_lock<std::mutex> hold(lock);
    ready.wait(hold, [this] { return !queue.empty(); });
    Words words = queue.front();
    queue.pop_front();
    return words;
  }

  void run() {
    for (Words words = take(); words[1] != "close"; words = take()) say(number, txn.answer(words));
    txn.close();
  }
};

template <class Txn>
using Sessions = std::map<std::string, std::unique_ptr<Session<Txn>>>;

template <class Txn>
int serve(Sessions<Txn>& sessions, std::string (*open)(const Words&), std::string (*waits)()) {
  for (std::string line; std::getline(std::cin, line);) {
    Words words;
    std::istringstream parts(line);
    for (std::string word; std::getline(parts, word, '\t');) words.push_back(word);
    if (words[0] == "0") {
      say("0", words[1] == "open" ? open(words) : waits());
      continue;
    }
    auto& session = sessions[words[0]];
    if (!session) session.reset(new Session<Txn>(words[0]));
    session->put(words);
  }
  std::_Exit(0);
}
