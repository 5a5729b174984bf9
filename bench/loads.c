/* Bare atomic loads: each of so many threads loads three words of a transaction, one after the other, so often, all over the
   words of 65,536 transactions. The words: how many threads, and how many rounds each. */
#include <pthread.h>
#include <stdatomic.h>
#include <stdint.h>
#include <stdio.h>
#include <stdlib.h>

enum { TXNS = 65536 };
static _Atomic uint64_t words[3 * TXNS];
static uint64_t rounds;

static void *read_all(void *first) {
    uint64_t txn = (uint64_t)(uintptr_t)first, committed = 0;
    for (uint64_t k = 0; k < rounds; k++) {
        txn = (txn * 25173 + 13849) % TXNS;
        uint64_t registered = atomic_load(&words[3 * txn]), decided = atomic_load(&words[3 * txn + 1]), done = atomic_load(&words[3 * txn + 2]);
        committed += registered & decided & done & 1;
    }
    return (void *)(uintptr_t)committed;
}

int main(int count, char **given) {
    if (count != 3) return 1;
    int threads = atoi(given[1]);
    rounds = strtoull(given[2], NULL, 10);
    for (int k = 0; k < 3 * TXNS; k++) atomic_store(&words[k], k % 3 == 1 ? 1 : 3);
    pthread_t started[8];
    uint64_t all = 0;
    if (threads < 1 || threads > 8) return 1;
    for (int k = 0; k < threads; k++) if (pthread_create(&started[k], NULL, read_all, (void *)(uintptr_t)(k + 1))) return 2;
    for (int k = 0; k < threads; k++) {
        void *committed;
        if (pthread_join(started[k], &committed)) return 3;
        all += (uint64_t)(uintptr_t)committed;
    }
    printf("%llu\n", (unsigned long long)all);
    return 0;
}
