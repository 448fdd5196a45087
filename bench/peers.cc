// A peer of bench/run.py, as a program of Keel's language: it reads a workload from standard input and writes the
// replies to standard output. STORE says which peer it is:
//
// - ROCKSDB and LEVELDB: a write buffer of 64 MiB, no compression, and the checks of what is read are tested.
// - SQLITE: one table in WAL mode, and one transaction a put. A put with sync has synchronous=FULL, another NORMAL.
// - LOG: a bare log, which takes puts alone: a write for each, and an fdatasync where it asks for sync.
//
// Usage: peer FOLDER; without words it prints the peer's version.

#include <fcntl.h>
#include <unistd.h>

#include <cstdio>
#include <cstdlib>
#include <string>
#include <string_view>

#define LOG 1
#define ROCKSDB 2
#define LEVELDB 3
#define SQLITE 4

using Bytes = std::string_view;

[[noreturn]] void stop(const std::string& why) {
  std::fprintf(stderr, "%s\n", why.c_str());
  std::exit(1);
}

#if STORE == LOG

struct Store {
  static std::string version() { return "log"; }

  explicit Store(const std::string& folder) {
    log = open((folder + "/log").c_str(), O_WRONLY | O_CREAT | O_APPEND, 0644);
    int dir = open(folder.c_str(), O_RDONLY | O_DIRECTORY);
    if (log < 0 || dir < 0 || fsync(dir) != 0) stop("the log can't be made");
    close(dir);
  }
  ~Store() { close(log); }

  // A record is two lengths, the key and the value.
  void put(Bytes key, Bytes value, bool sync) {
    unsigned lengths[2] = {unsigned(key.size()), unsigned(value.size())};
    record.assign(reinterpret_cast<char*>(lengths), sizeof lengths);
    record.append(key).append(value);
    if (write(log, record.data(), record.size()) != ssize_t(record.size())) stop("a write failed");
    if (sync && fdatasync(log) != 0) stop("a sync failed");
  }
  bool get(Bytes, std::string*) { stop("a log has no gets"); }
  template <class Row>
  void scan(Bytes, Bytes, Row) { stop("a log has no scans"); }

  int log;
  std::string record;
};

#elif STORE == ROCKSDB || STORE == LEVELDB

#if STORE == ROCKSDB
#include <rocksdb/db.h>
#include <rocksdb/version.h>
namespace lib = rocksdb;
#define VERSION "RocksDB", ROCKSDB_MAJOR, ROCKSDB_MINOR, ROCKSDB_PATCH
#else
#include <leveldb/db.h>
namespace lib = leveldb;
#define VERSION "LevelDB", lib::kMajorVersion, lib::kMinorVersion, 0
#endif

struct Store {
  static std::string version() {
    char text[64];
    std::snprintf(text, sizeof text, "%s %d.%d.%d", VERSION);
    return text;
  }

  explicit Store(const std::string& folder) {
    lib::Options options;
    options.create_if_missing = true;
    options.write_buffer_size = 64 << 20;
    options.compression = lib::kNoCompression;
    must(lib::DB::Open(options, folder, &db));
    reads.verify_checksums = true;
  }
  ~Store() { delete db; }

  void put(Bytes key, Bytes value, bool sync) {
    lib::WriteOptions options;
    options.sync = sync;
    must(db->Put(options, slice(key), slice(value)));
  }
  bool get(Bytes key, std::string* value) {
    lib::Status found = db->Get(reads, slice(key), value);
    if (!found.IsNotFound()) must(found);
    return found.ok();
  }
  template <class Row>
  void scan(Bytes from, Bytes to, Row row) {
    lib::Iterator* at = db->NewIterator(reads);
    for (at->Seek(slice(from)); at->Valid() && (to.empty() || at->key().compare(slice(to)) < 0); at->Next())
      row(Bytes(at->key().data(), at->key().size()), Bytes(at->value().data(), at->value().size()));
    must(at->status());
    delete at;
  }

  static lib::Slice slice(Bytes bytes) { return {bytes.data(), bytes.size()}; }
  static void must(const lib::Status& status) {
    if (!status.ok()) stop(status.ToString());
  }
  lib::DB* db = nullptr;
  lib::ReadOptions reads;
};

#elif STORE == SQLITE

#include <sqlite3.h>

struct Store {
  static std::string version() { return "SQLite " SQLITE_VERSION; }

  explicit Store(const std::string& folder) {
    must(sqlite3_open((folder + "/rows.db").c_str(), &db) == SQLITE_OK);
    run("PRAGMA journal_mode = WAL; PRAGMA synchronous = NORMAL;"
        "CREATE TABLE IF NOT EXISTS rows (key BLOB PRIMARY KEY, value BLOB) WITHOUT ROWID");
    puts = prepare("REPLACE INTO rows VALUES (?, ?)");
    gets = prepare("SELECT value FROM rows WHERE key = ?");
    scans = prepare("SELECT key, value FROM rows WHERE key >= ? ORDER BY key");
    ranges = prepare("SELECT key, value FROM rows WHERE key >= ? AND key < ? ORDER BY key");
  }
  ~Store() {
    for (sqlite3_stmt* each : {puts, gets, scans, ranges}) sqlite3_finalize(each);
    must(sqlite3_close(db) == SQLITE_OK);
  }

  void put(Bytes key, Bytes value, bool sync) {
    if (sync != full) run(sync ? "PRAGMA synchronous = FULL" : "PRAGMA synchronous = NORMAL");
    full = sync;
    bind(puts, 1, key);
    bind(puts, 2, value);
    must(sqlite3_step(puts) == SQLITE_DONE);
    sqlite3_reset(puts);
  }
  bool get(Bytes key, std::string* value) {
    bind(gets, 1, key);
    bool found = next(gets);
    if (found) value->assign(column(gets, 0));
    sqlite3_reset(gets);
    return found;
  }
  template <class Row>
  void scan(Bytes from, Bytes to, Row row) {
    sqlite3_stmt* rows = to.empty() ? scans : ranges;
    bind(rows, 1, from);
    if (!to.empty()) bind(rows, 2, to);
    while (next(rows)) row(column(rows, 0), column(rows, 1));
    sqlite3_reset(rows);
  }

  void must(bool well) {
    if (!well) stop(sqlite3_errmsg(db));
  }
  void run(const char* text) { must(sqlite3_exec(db, text, nullptr, nullptr, nullptr) == SQLITE_OK); }
  sqlite3_stmt* prepare(const char* text) {
    sqlite3_stmt* made = nullptr;
    must(sqlite3_prepare_v2(db, text, -1, &made, nullptr) == SQLITE_OK);
    return made;
  }
  void bind(sqlite3_stmt* of, int place, Bytes bytes) {
    const char* data = bytes.empty() ? "" : bytes.data();
    must(sqlite3_bind_blob(of, place, data, int(bytes.size()), SQLITE_STATIC) == SQLITE_OK);
  }
  bool next(sqlite3_stmt* of) {
    int answer = sqlite3_step(of);
    must(answer == SQLITE_ROW || answer == SQLITE_DONE);
    return answer == SQLITE_ROW;
  }
  static Bytes column(sqlite3_stmt* of, int place) {
    return {static_cast<const char*>(sqlite3_column_blob(of, place)), size_t(sqlite3_column_bytes(of, place))};
  }
  sqlite3* db = nullptr;
  sqlite3_stmt *puts, *gets, *scans, *ranges;
  bool full = false;
};

#endif

std::string replies;

void flush() {
  for (Bytes rest = replies; !rest.empty();) {
    ssize_t count = write(1, rest.data(), rest.size());
    if (count < 0) stop("a reply can't be written");
    rest.remove_prefix(count);
  }
  replies.clear();
}

void reply(Bytes word, Bytes first = {}, Bytes second = {}) {
  replies.append(word);
  for (Bytes each : {first, second})
    if (!each.empty()) replies.append(" ").append(each);
  replies.append("\n");
  if (replies.size() > 1 << 16) flush();
}

Bytes word_of(Bytes* line) {
  size_t end = line->find(' ');
  Bytes word = line->substr(0, end);
  line->remove_prefix(end == Bytes::npos ? line->size() : end + 1);
  return word;
}

void answer(Bytes line, Store*& store, const std::string& folder) {
  static unsigned long writes = 0;
  static std::string value;
  Bytes name = word_of(&line), first = word_of(&line), second = word_of(&line);
  if (name == "put") {
    store->put(first, second, line == "sync");
    reply("ok", std::to_string(++writes));
  } else if (name == "get") {
    store->get(first, &value) ? reply("value", value) : reply("absent");
  } else if (name == "scan") {
    size_t rows = 0;
    store->scan(first == "%" ? "" : first, second == "%" ? "" : second, [&](Bytes key, Bytes found) {
      reply("row", key, found);
      rows++;
    });
    reply("rows", std::to_string(rows));
  } else if (name == "open") {
    store = new Store(folder);
    reply("opened", "0");
  } else if (name == "drain") {
    reply("quiet");
  } else if (name == "option") {
    reply(name, first, second);
  } else {
    stop("not a command of the bench");
  }
}

int main(int count, char** words) {
  if (count != 2) return std::puts(Store::version().c_str()) < 0;
  Store* store = nullptr;
  static char piece[1 << 16];
  std::string input;
  for (ssize_t size; (size = read(0, piece, sizeof piece)) > 0; flush()) {
    input.append(piece, size);
    size_t at = 0;
    for (size_t end; (end = input.find('\n', at)) != std::string::npos; at = end + 1)
      answer(Bytes(input).substr(at, end - at), store, words[1]);
    input.erase(0, at);
  }
  delete store;
}
