/* The least that a damped solve with the last of n columns frozen does beside the reduced problem's own solve: no test is made twice, no room
   is cleared, nothing is proved. docs/SPEED.md, 'With marks', counts it:
       gcc -O2 -static -o least tools/frozen-least.c
       tools/insns ./least 2 1000 1    and    tools/insns ./least 2 1000 0
   are n, how often, and whether the last column is frozen; the difference over how often is what a mark costs. */
#include <stddef.h>
#include <stdint.h>
#include <stdlib.h>

__attribute__((noinline)) static void solve(double *store, size_t n, const size_t *order, const double *diag, double *x) {
    __asm__ volatile("" ::"r"(store), "r"(n), "r"(order), "r"(diag), "r"(x) : "memory");
}

static int frozen(uint16_t marks, size_t k) { return (marks >> (15 - k)) & 1; }

__attribute__((noinline)) static int damped(size_t n, uint16_t marks, double *store, const size_t *order, const double *diag, double *out) {
    double small[320], ds[16], x[16];
    size_t free, i, j, k;
    if (!marks) {
        solve(store, n, order, diag, out);
        return 0;
    }
    if ((uint16_t)(marks << n)) return 2;
    for (free = 0, k = 0; k < n; k++) free += !frozen(marks, k);
    for (k = free; k < n; k++)
        if (order[k] != k) return 4;
    for (k = 0; k < n; k++)
        if (frozen(marks, k) && !(diag[k] - diag[k] == 0)) return 6;
    if (!free) return 9;
    for (k = 0; k < free; k++)
        for (i = 0; i < free; i++) small[k * free + i] = store[k * n + i];
    for (k = 0; k < 4; k++)
        for (i = 0; i < free; i++) small[free * free + k * free + i] = store[n * n + k * n + i];
    for (j = 0, k = 0; k < n; k++)
        if (!frozen(marks, k)) ds[j++] = diag[k];
    solve(small, free, order, ds, x);
    for (k = 0; k < n; k++)
        for (i = k + 1; i < n; i++) store[k * n + i] = k < free && i < free ? small[k * free + i] : 0.0;
    for (i = 0; i < n; i++) {
        store[n * n + 2 * n + i] = i < free ? small[free * free + 2 * free + i] : 0.0;
        store[n * n + 3 * n + i] = 0.0;
    }
    for (j = 0, k = 0; k < n; k++) out[k] = frozen(marks, k) ? 0.0 : x[j++];
    return 0;
}

int main(int count, char **words) {
    static double store[400], diag[16], out[16];
    size_t order[16], n, times, k;
    int bad = 0;
    if (count != 4) return 2;
    n = (size_t)atoi(words[1]), times = (size_t)atoi(words[2]);
    for (k = 0; k < 16; k++) order[k] = k, diag[k] = 1;
    for (k = 0; k < times; k++) bad |= damped(n, atoi(words[3]) ? (uint16_t)(0x8000 >> (n - 1)) : 0, store, order, diag, out);
    return bad;
}
