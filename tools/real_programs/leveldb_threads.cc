// Three threads that put, get, delete and iterate in one database of LevelDB, whose buffer is so small that its own thread compacts
// tables meanwhile. The words are a folder for the database and how many keys each thread handles.
#include <cstdio>
#include <cstdlib>
#include <memory>
#include <string>
#include <thread>
#include <vector>

#include "leveldb/db.h"

namespace {

constexpr int kThreads = 3;
constexpr std::size_t kWriteBuffer = 64 << 10;
constexpr std::size_t kValue = 2400;

std::string KeyOf(int thread, int number) {
  return "key" + std::to_string(thread) + "." + std::to_string(number);
}

// Puts each key, reads it back, and deletes every third; true where each was read as it was put.
bool PutAndGet(leveldb::DB* db, int thread, int keys) {
  bool same = true;
  for (int number = 0; number < keys; number++) {
    const std::string key = KeyOf(thread, number);
    const std::string value(kValue, static_cast<char>('a' + number % 26));
    std::string read;
    same &= db->Put(leveldb::WriteOptions(), key, value).ok();
    same &= db->Get(leveldb::ReadOptions(), key, &read).ok() && read == value;
    if (number % 3 == 0) same &= db->Delete(leveldb::WriteOptions(), key).ok();
  }
  return same;
}

int CountKeys(leveldb::DB* db) {
  std::unique_ptr<leveldb::Iterator> place(db->NewIterator(leveldb::ReadOptions()));
  int count = 0;
  for (place->SeekToFirst(); place->Valid(); place->Next()) count++;
  return count;
}

}  // namespace

int main(int argc, char** argv) {
  if (argc != 3) return 2;
  const int keys = std::atoi(argv[2]);
  leveldb::Options options;
  options.create_if_missing = true;
  options.write_buffer_size = kWriteBuffer;
  leveldb::DB* opened = nullptr;
  if (!leveldb::DB::Open(options, argv[1], &opened).ok()) return 3;
  std::unique_ptr<leveldb::DB> db(opened);
  int same[kThreads] = {};
  std::vector<std::thread> threads;
  for (int thread = 0; thread < kThreads; thread++) {
    threads.emplace_back([&db, &same, thread, keys] { same[thread] = PutAndGet(db.get(), thread, keys); });
  }
  for (std::thread& thread : threads) thread.join();
  const int left = CountKeys(db.get());
  std::printf("%d keys\n", left);
  return same[0] && same[1] && same[2] && left == kThreads * (keys - (keys + 2) / 3) ? 0 : 1;
}
