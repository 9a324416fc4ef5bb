// Berkeley DB's transactions, for berkeleydb.py: FOLDER.
//
// The index is a B-tree, whose pages are locked to commit. A page has 512 bytes and some three pairs, so that a small index has
// several.
#include "process.h"

#include <cstdio>
#include <cstring>

#include <db.h>

static DB_ENV* env;
static DB* db;
static std::mutex ending;
static std::string printed;

// A value fills some hundred bytes.
static std::string wide(const std::string& value) {
  return value + std::string(100 - value.size(), ' ');
}

static DBT of(const std::string& text) {
  DBT it;
  memset(&it, 0, sizeof it);
  it.data = (void*)text.data();
  it.size = text.size();
  return it;
}

struct Room : DBT {
  char room[128];

  Room() : DBT() {
    data = room;
    ulen = sizeof room;
    flags = DB_DBT_USERMEM;
  }

  std::string value() {
    std::string text(room, size);
    return text.substr(0, text.find(' '));
  }
};

struct Txn {
  DB_TXN* txn = nullptr;
  u_int32_t id;

  Txn() {
    if (env->txn_begin(env, nullptr, &txn, 0)) std::abort();
    id = txn->id(txn);
  }

  void end(bool commits) {
    std::lock_guard<std::mutex> hold(ending);
    if (txn) commits ? txn->commit(txn, DB_TXN_NOSYNC) : txn->abort(txn);
    txn = nullptr;
  }

  void close() { end(false); }

  std::string failed(int code) {
    if (code != DB_LOCK_DEADLOCK && code != DB_LOCK_NOTGRANTED) return std::string("fault\t") + db_strerror(code);
    end(false);
    return "aborted";
  }

  std::string scan(uint64_t low, uint64_t high) {
    DBC* cursor;
    int code = db->cursor(db, txn, &cursor, 0);
    if (code) return failed(code);
    std::string rows = "rows";
    Room key, value;
    memcpy(key.room, key_of(low).data(), 8);
    key.size = 8;
    code = cursor->get(cursor, &key, &value, DB_SET_RANGE);
    while (!code && number_of(key.room) <= high) {
      rows += "\t" + std::to_string(number_of(key.room)) + " " + value.value();
      if (number_of(key.room) == high) break;
      code = cursor->get(cursor, &key, &value, DB_NEXT);
    }
    int closed = cursor->close(cursor);
    return code && code != DB_NOTFOUND ? failed(code) : closed ? failed(closed) : rows;
  }

  std::string answer(const Words& words) {
    const std::string& word = words[1];
    if (word == "commit" || word == "abort") {
      end(word == "commit");
      return word == "commit" ? "committed" : "aborted";
    }
    if (word == "scan") return scan(std::stoull(words[2]), std::stoull(words[3]));
    std::string key_text = key_of(std::stoull(words[2])), value_text = words.size() > 3 ? wide(words[3]) : "";
    DBT key = of(key_text), value = of(value_text);
    Room old;
    if (word == "insert") {
      int code = db->put(db, txn, &key, &value, DB_NOOVERWRITE);
      return !code ? "done" : code == DB_KEYEXIST ? "duplicate" : failed(code);
    }
    int code = db->get(db, txn, &key, &old, word == "fetch" ? 0 : DB_RMW);
    if (code) return code != DB_NOTFOUND ? failed(code) : word == "fetch" ? "none" : "absent";
    if (word == "fetch") return "found\t" + old.value();
    code = word == "delete" ? db->del(db, txn, &key, 0) : db->put(db, txn, &key, &value, 0);
    return code ? failed(code) : (word == "delete" ? "deleted\t" : "updated\t") + old.value();
  }
};

static Sessions<Txn> sessions;

static void print(const DB_ENV*, const char* text) {
  printed += text;
  printed += "\n";
}

// By the lock table as text: a line for each lock, with its owner, mode, count, status, and what it is on.
static std::string waits() {
  std::lock_guard<std::mutex> hold(ending);
  std::map<std::string, std::string> numbers;
  for (auto& it : sessions) {
    char id[16];
    snprintf(id, sizeof id, "%x", it.second->txn.id);
    if (it.second->txn.txn) numbers[id] = it.first;
  }
  printed.clear();
  env->lock_stat_print(env, DB_STAT_LOCK_OBJECTS);
  struct Lock {
    std::string number, mode, status, object;
  };
  std::vector<Lock> locks;
  std::istringstream lines(printed);
  for (std::string line; std::getline(lines, line);) {
    std::istringstream parts(line);
    std::string owner, mode, count, status, object;
    if (!(parts >> owner >> mode >> count >> status) || !numbers.count(owner)) continue;
    std::getline(parts, object);
    locks.push_back({numbers[owner], mode, status, object});
  }
  std::string text = "ok";
  for (auto& one : locks) {
    if (one.status != "WAIT") continue;
    text += "\t" + one.number + " " + one.object.substr(one.object.find_last_of(" \t") + 1);
    for (auto& it : locks)
      if (it.status == "HELD" && it.object == one.object && it.number != one.number && (it.mode == "WRITE" || one.mode == "WRITE"))
        text += " " + it.number;
  }
  return text;
}

static std::string open(const Words& words) {
  static int opened = 0;
  if (db) db->close(db, DB_NOSYNC);
  std::string name = std::to_string(++opened);
  int code = db_create(&db, env, 0);
  if (!code) code = db->set_pagesize(db, 512);
  if (!code) code = db->open(db, nullptr, name.c_str(), nullptr, DB_BTREE, DB_CREATE | DB_THREAD | DB_AUTO_COMMIT, 0);
  for (size_t i = 2; !code && i + 1 < words.size(); i += 2) {
    std::string key_text = key_of(std::stoull(words[i])), value_text = wide(words[i + 1]);
    DBT key = of(key_text), value = of(value_text);
    code = db->put(db, nullptr, &key, &value, 0);
  }
  return code ? std::string("fault\t") + db_strerror(code) : "ok";
}

int main(int, char** words) {
  if (db_env_create(&env, 0)) return 2;
  env->set_msgcall(env, print);
  env->set_lk_detect(env, DB_LOCK_DEFAULT);
  env->set_cachesize(env, 0, 32 << 20, 1);
  env->set_tx_max(env, 10000);
  env->set_flags(env, DB_TXN_NOSYNC, 1);
  env->log_set_config(env, DB_LOG_IN_MEMORY, 1);
  env->set_lg_bsize(env, 64 << 20);
  u_int32_t flags = DB_CREATE | DB_INIT_TXN | DB_INIT_LOCK | DB_INIT_LOG | DB_INIT_MPOOL | DB_THREAD | DB_PRIVATE;
  int code = env->open(env, words[1], flags, 0);
  if (code) {
    std::cerr << db_strerror(code) << std::endl;
    return 2;
  }
  return serve(sessions, open, waits);
}
