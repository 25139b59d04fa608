// Loops and searches with more blocks, as they come out of an optimizer.
#include <stdint.h>

int l_collatz(unsigned n) {
    int k = 0;
    while (n != 1) {
        n = n & 1 ? 3 * n + 1 : n / 2;
        k++;
    }
    return k;
}
int l_gcd(int a, int b) {
    while (b) {
        int t = a % b;
        a = b;
        b = t;
    }
    return a;
}
int l_search(const int *a, int n, int x) {
    int lo = 0, hi = n - 1;
    while (lo <= hi) {
        int mid = lo + (hi - lo) / 2;
        if (a[mid] == x)
            return mid;
        if (a[mid] < x)
            lo = mid + 1;
        else
            hi = mid - 1;
    }
    return -1;
}
void l_bubble(int *a, int n) {
    for (int i = 0; i < n; i++)
        for (int j = 0; j + 1 < n - i; j++)
            if (a[j] > a[j + 1]) {
                int t = a[j];
                a[j] = a[j + 1];
                a[j + 1] = t;
            }
}
uint32_t l_crc(const uint8_t *p, int n) {
    uint32_t c = ~0u;
    for (int i = 0; i < n; i++) {
        c ^= p[i];
        for (int k = 0; k < 8; k++)
            c = c >> 1 ^ (0xedb88320u & -(c & 1));
    }
    return ~c;
}
int l_parse(const char *s) {
    int sign = 1, v = 0;
    while (*s == ' ' || *s == '\t')
        s++;
    if (*s == '-') {
        sign = -1;
        s++;
    }
    for (; *s >= '0' && *s <= '9'; s++)
        v = v * 10 + (*s - '0');
    return sign * v;
}
int l_state(const char *s) {
    int state = 0;
    for (; *s; s++) {
        switch (state) {
        case 0: state = *s == 'a' ? 1 : 0; break;
        case 1: state = *s == 'b' ? 2 : *s == 'a' ? 1 : 0; break;
        case 2: return 1;
        }
    }
    return state == 2;
}
int l_vowels(const char *s) {
    int n = 0;
    for (; *s; s++)
        switch (*s) {
        case 'a': case 'e': case 'i': case 'o': case 'u': n++;
        }
    return n;
}
void l_matrix(float *a, const float *b, const float *c, int n) {
    for (int i = 0; i < n; i++)
        for (int j = 0; j < n; j++) {
            float s = 0;
            for (int k = 0; k < n; k++)
                s += b[i * n + k] * c[k * n + j];
            a[i * n + j] = s;
        }
}
int l_break(int n) {
    int i, s = 0;
    for (i = 0;; i++) {
        if (i % 3 == 0)
            continue;
        if (s > n)
            break;
        s += i;
    }
    return s + i;
}
void l_fill(int *a, int n) {
    for (int i = 0; i < n; i++)
        a[i] = 7;
}
