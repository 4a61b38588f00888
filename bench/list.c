/*
 * The plain walk of a list beside which `bench/lease` measures a sweep: how many of so many leases have ended
 * at a moment, counted so many times. Ends with 1 where one has, since none may.
 */
#include <stdint.h>
#include <stdlib.h>

struct lease {
  struct {
    uint32_t number;
    uint16_t net;
  } port;
  uint32_t owner;
  uint64_t last;
};

__attribute__((noinline)) static uint32_t ended(const struct lease *leases, uint32_t count, uint64_t now) {
  uint32_t found = 0;
  for (uint32_t i = 0; i < count; i++)
    if (leases[i].last < now) found++;
  return found;
}

int main(int count, char **words) {
  if (count != 3) return 2;
  uint32_t many = (uint32_t)strtoul(words[1], NULL, 10), times = (uint32_t)strtoul(words[2], NULL, 10);
  struct lease *leases = calloc(many, sizeof *leases);
  if (leases == NULL) return 2;
  for (uint32_t i = 0; i < many; i++) leases[i] = (struct lease){{i, 0}, 1, 10};
  uint32_t found = 0;
  for (uint32_t i = 0; i < times; i++) found += ended(leases, many, 10 - (i & 1));
  free(leases);
  return found != 0;
}
