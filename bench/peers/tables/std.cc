// 64 of std::unordered_map, each under a lock of its own that readers share.
#include <mutex>
#include <shared_mutex>
#include <unordered_map>

#include "class.h"

namespace {

struct Sharded {
  static constexpr unsigned BITS = 6;
  struct alignas(128) Shard {
    std::shared_mutex lock;
    std::unordered_map<uint32_t, uint32_t> map;
  } shards[1 << BITS];

  explicit Sharded(uint32_t expected) {
    for (auto &shard : shards) shard.map.reserve(expected >> BITS);
  }
  Shard &shard_of(uint32_t key) { return shards[key * 0x9e3779b1u >> (32 - BITS)]; }
  bool find(uint32_t key, uint32_t &value) {
    Shard &shard = shard_of(key);
    std::shared_lock held(shard.lock);
    auto at = shard.map.find(key);
    if (at == shard.map.end()) return false;
    value = at->second;
    return true;
  }
  bool insert(uint32_t key, uint32_t value) {
    Shard &shard = shard_of(key);
    std::unique_lock held(shard.lock);
    return shard.map.emplace(key, value).second;
  }
  bool remove(uint32_t key) {
    Shard &shard = shard_of(key);
    std::unique_lock held(shard.lock);
    return shard.map.erase(key) == 1;
  }
  uint64_t count() {
    uint64_t sum = 0;
    for (auto &shard : shards) sum += shard.map.size();
    return sum;
  }
};

}  // namespace

const table the_table = PlugIn<Sharded>::named("std", "64 of std::unordered_map, each under a std::shared_mutex");
