/* Two counters for hunts of Rust and of Python: a wrong one, that adds by a load and a store, and a right one, whose
 * lock spins. */
#include "selfcheck.h"

struct counter {
    uint32_t number, locked;
};

uint32_t torn_inc(struct counter *counter) {
    selfcheck_point();
    uint32_t number = __atomic_load_n(&counter->number, __ATOMIC_SEQ_CST);
    selfcheck_point();
    __atomic_store_n(&counter->number, number + 1, __ATOMIC_SEQ_CST);
    return number;
}

uint32_t locked_inc(struct counter *counter) {
    do
        selfcheck_point();
    while (__atomic_exchange_n(&counter->locked, 1, __ATOMIC_SEQ_CST));
    uint32_t number = torn_inc(counter);
    selfcheck_point();
    __atomic_store_n(&counter->locked, 0, __ATOMIC_SEQ_CST);
    return number;
}

/* Waits for what nobody does. */
uint32_t endless_inc(struct counter *counter) {
    while (!__atomic_load_n(&counter->locked, __ATOMIC_SEQ_CST))
        selfcheck_point();
    return 0;
}
