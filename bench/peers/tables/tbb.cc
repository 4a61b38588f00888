// oneTBB's concurrent_hash_map: a lock for each entry, also for who looks it up.
#include <oneapi/tbb/concurrent_hash_map.h>

#include "class.h"

namespace {

struct Hashed {
  using Map = tbb::concurrent_hash_map<uint32_t, uint32_t>;
  Map map;

  explicit Hashed(uint32_t expected) : map(expected > 0 ? expected : 1) {}
  bool find(uint32_t key, uint32_t &value) {
    Map::const_accessor at;
    if (!map.find(at, key)) return false;
    value = at->second;
    return true;
  }
  bool insert(uint32_t key, uint32_t value) { return map.insert(Map::value_type(key, value)); }
  bool remove(uint32_t key) { return map.erase(key); }
  uint64_t count() { return map.size(); }
};

}  // namespace

const table the_table = PlugIn<Hashed>::named("TBB", "concurrent_hash_map, with its own hash");
