/*
 * The calls of `floor.c` for `bench/count`, which reads from callgrind what each loop takes: each of so
 * many ports is bound, looked up and released, and as many others are looked up, in a table whose
 * buckets are then half full. Ends with 1 where a call has another reply than it must have.
 */
#define main floor_main
#include "floor.c"
#undef main

LOOP releases(const struct table *t, struct ports ports) {
  u32 right = 0;
  for (u32 i = 0; i < ports.count; i++) right += is_done(release(t, ports.caller, port_in(ports, ports.first + i), OWNER));
  return right;
}

int main(int count, char **words) {
  struct ports ports = {0, count > 1 ? (u32)strtoul(words[1], NULL, 10) : 1000, 0, net_of_ports, NULL};
  struct table t;
  open_table(&t, 65536, 2048, 1, ports.count);
  u32 right = binds(&t, ports);
  right += hits(&t, ports);
  right += misses(&t, ports);
  right += releases(&t, ports);
  return right != 4 * ports.count;
}
