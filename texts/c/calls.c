// Varargs, function pointers, recursion, attributes, builtins, atomics.
#include <stdarg.h>
#include <stdatomic.h>
#include <stdio.h>
#include <stdlib.h>

typedef int (*handler)(int, void *);
typedef void (*plain)(void);
extern plain plains[4];

int c_print(int a, const char *s) { return printf("%d %s %f\n", a, s, a * 0.5); }
int c_sum(int n, ...) {
    va_list l;
    va_start(l, n);
    int s = 0;
    while (n--)
        s += va_arg(l, int);
    va_end(l);
    return s;
}
int c_indirect(handler h, int a, void *p) { return h ? h(a, p) : -1; }
void c_table(int i) { plains[i & 3](); }
handler c_pick(int k, handler a, handler b) { return k ? a : b; }
int c_fact(int n) { return n < 2 ? 1 : n * c_fact(n - 1); }
int c_tail(int n, int acc) { return n == 0 ? acc : c_tail(n - 1, acc + n); }
_Noreturn void c_die(int code) { printf("stop\n"); exit(code); }
int c_unreachable(int k) { if (k == 3) return 1; __builtin_unreachable(); }
__attribute__((noinline, cold)) int c_cold(int a) { return a + 1; }
__attribute__((always_inline)) inline int c_inline(int a) { return a + 2; }
int c_uses(int a) { return c_inline(a) + c_cold(a); }
static __attribute__((noinline)) int c_static(int a, int b) { return a / (b + 1); }
int c_fast(int a) { return c_static(a, a * 2) + c_static(3, a); }
__attribute__((weak)) int c_weak(void) { return 5; }
__attribute__((visibility("hidden"))) int c_hidden(void) { return 6; }
int c_expect(int a) { return __builtin_expect(a, 0) ? abs(a) : __builtin_popcount(a); }
int c_overflow(int a, int b) { int r; return __builtin_add_overflow(a, b, &r) ? -1 : r; }
int a_load(_Atomic int *p) { return atomic_load(p); }
void a_store(_Atomic int *p, int v) { atomic_store_explicit(p, v, memory_order_release); }
int a_add(_Atomic int *p) { return atomic_fetch_add(p, 3); }
int a_exchange(_Atomic long *p, long from, long to) { return atomic_compare_exchange_strong(p, &from, to); }
void a_fence(void) { atomic_thread_fence(memory_order_seq_cst); }
void a_signal(void) { atomic_signal_fence(memory_order_acquire); }
int a_spin(atomic_int *lock) {
    int zero = 0, n = 0;
    while (!atomic_compare_exchange_weak_explicit(lock, &zero, 1, memory_order_acquire, memory_order_relaxed)) {
        zero = 0;
        n++;
    }
    return n;
}
int c_compare(const void *a, const void *b) { return *(const int *)a - *(const int *)b; }
void c_sort(int *a, size_t n) { qsort(a, n, sizeof *a, c_compare); }
void *c_alloc(size_t n) { void *p = malloc(n); return p ? p : calloc(1, n); }
int c_label(int i) {
    static void *const to[] = { &&a, &&b };
    goto *to[i & 1];
a:
    return 1;
b:
    return 2;
}
