/* Threads of the tables whose readers are liburcu's, of the flavour memb. */
#ifndef URCU_H
#define URCU_H

static void *enter(void *table) {
  (void)table;
  rcu_register_thread();
  return NULL;
}

static void leave(void *table, void *seat) {
  (void)table;
  (void)seat;
  rcu_unregister_thread();
}

#endif
