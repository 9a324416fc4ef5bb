// RocksDB's pessimistic transactions, for rocksdb.py: FOLDER, and how they lock.
//
//     point     each key that is read or written, present or not; a scan locks the keys that it finds
//     snapshot  the same, and each lock is validated against a snapshot of the transaction's begin
//     range     with the range lock manager: a scan locks its range
#include "process.h"

#include <rocksdb/db.h>
#include <rocksdb/options.h>
#include <rocksdb/utilities/transaction.h>
#include <rocksdb/utilities/transaction_db.h>

using namespace rocksdb;

static TransactionDB* db;
static std::string way;
static std::mutex closing;

struct Txn {
  Transaction* txn;

  Txn() {
    TransactionOptions options;
    options.deadlock_detect = true;
    options.set_snapshot = way == "snapshot";
    options.lock_timeout = 1000000;
    txn = db->BeginTransaction(WriteOptions(), options);
  }

  void close() {
    std::lock_guard<std::mutex> hold(closing);
    delete txn;
    txn = nullptr;
  }

  ReadOptions reading() {
    ReadOptions options;
    options.snapshot = way == "snapshot" ? txn->GetSnapshot() : nullptr;
    return options;
  }

  Status read(uint64_t key, std::string* value, bool to_write) {
    return txn->GetForUpdate(reading(), key_of(key), value, to_write);
  }

  std::string failed(const Status& status) {
    if (!status.IsBusy() && !status.IsTimedOut() && !status.IsTryAgain()) return "fault\t" + status.ToString();
    txn->Rollback();
    return "aborted";
  }

  std::string fetch(uint64_t key) {
    std::string value;
    Status status = read(key, &value, false);
    return status.ok() ? "found\t" + value : status.IsNotFound() ? "none" : failed(status);
  }

  std::string scan(uint64_t low, uint64_t high) {
    if (way == "range") {
      Status status = txn->GetRangeLock(db->DefaultColumnFamily(), Endpoint(key_of(low)), Endpoint(key_of(high)));
      if (!status.ok()) return failed(status);
    }
    std::string rows = "rows";
    for (uint64_t from = low; from <= high;) {
      std::unique_ptr<Iterator> at(txn->GetIterator(reading()));
      at->Seek(key_of(from));
      if (!at->Valid() || number_of(at->key().data()) > high) break;
      uint64_t key = number_of(at->key().data());
      std::string value;
      Status status = way == "range" ? txn->Get(reading(), key_of(key), &value) : read(key, &value, false);
      if (!status.ok() && !status.IsNotFound()) return failed(status);
      if (status.ok()) rows += "\t" + std::to_string(key) + " " + value;
      from = key + 1;
    }
    return rows;
  }

  std::string change(const std::string& word, uint64_t key, const std::string& value) {
    std::string old;
    Status status = read(key, &old, true);
    if (!status.ok() && !status.IsNotFound()) return failed(status);
    if (word == "insert" && status.ok()) return "duplicate";
    if (word != "insert" && !status.ok()) return "absent";
    status = word == "delete" ? txn->Delete(key_of(key)) : txn->Put(key_of(key), value);
    if (!status.ok()) return failed(status);
    return word == "insert" ? "done" : (word == "delete" ? "deleted\t" : "updated\t") + old;
  }

  std::string answer(const Words& words) {
    const std::string& word = words[1];
    if (word == "commit") {
      Status status = txn->Commit();
      return status.ok() ? "committed" : failed(status);
    }
    if (word == "abort") {
      txn->Rollback();
      return "aborted";
    }
    uint64_t key = std::stoull(words[2]);
    if (word == "fetch") return fetch(key);
    if (word == "scan") return scan(key, std::stoull(words[3]));
    return change(word, key, word == "delete" ? "" : words[3]);
  }
};

static Sessions<Txn> sessions;

static std::string waits() {
  std::lock_guard<std::mutex> hold(closing);
  std::map<TransactionID, std::string> numbers;
  for (auto& it : sessions)
    if (it.second->txn.txn) numbers[it.second->txn.txn->GetID()] = it.first;
  std::string text = "ok";
  for (auto& it : sessions) {
    if (!it.second->txn.txn) continue;
    uint32_t family;
    std::string key;
    std::vector<TransactionID> ids = it.second->txn.txn->GetWaitingTxns(&family, &key);
    if (ids.empty()) continue;
    text += "\t" + it.first + " " + (key.size() == 8 ? std::to_string(number_of(key.data())) : "range");
    for (auto id : ids) text += " " + numbers[id];
  }
  return text;
}

static std::string open(const Words& words) {
  DB* base = db->GetBaseDB();
  std::unique_ptr<Iterator> at(base->NewIterator(ReadOptions()));
  for (at->SeekToFirst(); at->Valid(); at->Next()) base->Delete(WriteOptions(), at->key());
  for (size_t i = 2; i + 1 < words.size(); i += 2) base->Put(WriteOptions(), key_of(std::stoull(words[i])), words[i + 1]);
  return "ok";
}

int main(int, char** words) {
  way = words[2];
  Options options;
  options.create_if_missing = true;
  TransactionDBOptions more;
  std::shared_ptr<RangeLockManagerHandle> ranges;
  if (way == "range") {
    ranges.reset(NewRangeLockManager(nullptr));
    more.lock_mgr_handle = ranges;
  }
  Status status = TransactionDB::Open(options, more, words[1], &db);
  if (!status.ok()) {
    std::cerr << status.ToString() << std::endl;
    return 2;
  }
  return serve(sessions, open, waits);
}
