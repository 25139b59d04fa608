/* Two accounts count cues in shared memory. */
#include <stdatomic.h>

struct account {
  atomic_uint fired, lit;
  _Atomic(const char *) last;
};

extern struct account accounts[2];
void fire(int bar);

/* A cue fires on the count's first turn alone. */
void count_and_fire(int who, int bar) {
  if (atomic_fetch_add(&accounts[who & 1].fired, 1) == 0)
    fire(bar);
}

unsigned take_back(int who) { return atomic_fetch_sub_explicit(&accounts[who & 1].fired, 1, memory_order_release); }

/* Each bar has a bit; the old bits say whether it was lit. */
int light(int who, unsigned bar) { return atomic_fetch_or_explicit(&accounts[who & 1].lit, 1u << bar, memory_order_acquire) >> bar & 1; }

unsigned put_out(int who, unsigned bar) { return atomic_fetch_and(&accounts[who & 1].lit, ~(1u << bar)); }

unsigned turn_over(int who, unsigned bars) { return atomic_fetch_xor_explicit(&accounts[who & 1].lit, bars, memory_order_relaxed); }

unsigned all_but(volatile unsigned *lit, unsigned bars) { return __atomic_fetch_nand(lit, bars, __ATOMIC_ACQ_REL); }

const char *hand_over(int who, const char *cue) { return atomic_exchange(&accounts[who & 1].last, cue); }

/* The higher of two counts: an operation that is not read. */
unsigned highest(unsigned *count, unsigned other) { return __atomic_fetch_max(count, other, __ATOMIC_SEQ_CST); }
