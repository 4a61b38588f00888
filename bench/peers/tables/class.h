// A plug-in over a class in C++, which has find, insert, remove and count, and is made for so many expected keys.
#ifndef CLASS_H
#define CLASS_H

#include <new>

#include "table.h"

template <class Class> struct PlugIn {
  static Class &at(void *table) { return *static_cast<Class *>(table); }
  static void *open(uint32_t expected) { return new (std::nothrow) Class(expected); }
  static void close(void *table) { delete &at(table); }
  static void *enter(void *table) { return table; }
  static void leave(void *, void *) {}
  static bool find(void *table, void *, uint32_t key, uint32_t *value) { return at(table).find(key, *value); }
  static table_answer insert(void *table, void *, uint32_t key, uint32_t value) {
    return at(table).insert(key, value) ? TABLE_DONE : TABLE_EXISTS;
  }
  static bool remove(void *table, void *, uint32_t key) { return at(table).remove(key); }
  static uint64_t count(void *table, void *) { return at(table).count(); }

  // The struct that the driver asks for. These tables aren't resized from without.
  static constexpr table named(const char *name, const char *what) {
    return {name, what, 0, false, open, close, enter, leave, find, insert, remove, nullptr, nullptr, count};
  }
};

#endif
