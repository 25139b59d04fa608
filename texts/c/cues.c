// Small cue-like functions: fire channels, wait, fade, count.
#include <stdint.h>

void fire(int channel);
void fade(int channel, int level, int ms);
void wait_ms(int ms);
int level_of(int channel);
int armed(int channel);
extern int master;
extern const char *names[16];

void cue_single(void) { fire(7); }

void cue_pair(int a, int b) {
    fire(a);
    wait_ms(250);
    fire(b);
}

void cue_sweep(int from, int to) {
    for (int c = from; c <= to; c++) {
        fire(c);
        wait_ms(40);
    }
}

void cue_back(int from, int to) {
    int c = from;
    do {
        fire(c);
        c--;
    } while (c > to);
}

int cue_guard(int channel) {
    if (!armed(channel))
        return -1;
    fire(channel);
    return 0;
}

int cue_level(int channel) {
    int l = level_of(channel) * master / 255;
    return l > 255 ? 255 : l < 0 ? 0 : l;
}

void cue_crossfade(int a, int b) {
    for (int i = 0; i <= 255; i += 5) {
        fade(a, 255 - i, 20);
        fade(b, i, 20);
    }
}

void cue_table(const int *list, int n) {
    while (n-- > 0)
        fire(*list++);
}

int cue_kind(int k) {
    switch (k) {
    case 0: return 10;
    case 1: return 20;
    case 2: return 5;
    case 17: fire(1); return 1;
    case -4: fire(2); return 2;
    case 1000000: return 7;
    default: return 0;
    }
}

void cue_select(int k) {
    switch (k & 7) {
    case 0: fire(1); break;
    case 1: fire(2);
    case 2: fire(3); break;
    case 3: wait_ms(1); break;
    case 4: fade(1, 2, 3); break;
    case 5: return;
    default: fire(0);
    }
}

static int nested(int a) { return a * 3 + 1; }

int cue_nested(int a) {
    int s = 0;
    for (int i = 0; i < a; i++)
        for (int j = i; j < a; j++)
            s += nested(i ^ j);
    return s;
}

const char *cue_name(unsigned i) { return i < 16 ? names[i] : "none"; }

int cue_goto(int n) {
again:
    if (n > 100)
        goto out;
    fire(n);
    n += 7;
    goto again;
out:
    return n;
}

unsigned cue_hash(const char *s) {
    unsigned h = 2166136261u;
    while (*s)
        h = (h ^ (unsigned char)*s++) * 16777619u;
    return h;
}

int cue_clamp(int x, int lo, int hi) {
    if (x < lo) return lo;
    if (x > hi) return hi;
    return x;
}
