// Structs, arrays, unions, pointers, string constants, memcpy.
#include <stddef.h>
#include <stdint.h>
#include <string.h>

struct point { int x, y; };
struct cue { char name[16]; struct point at; double level; struct cue *next; };
struct __attribute__((packed)) tight { char tag; int value; short rest; };
union bits { float f; uint32_t u; };
struct flags { unsigned a : 3, b : 5, c : 24; };

struct point corner = { 3, 4 };
int table[8] = { 1, 2, 3, 4, 5, 6, 7, 8 };
struct cue show[4];
static const int lookup[16] = { 3, 1, 4, 1, 5, 9, 2, 6, 5, 3, 5, 8, 9, 7, 9, 3 };
int matrix[4][5];

int m_field(struct point *p) { return p->x * p->y; }
void m_set(struct cue *c, double l) { c->level = l; c->at.y = 9; }
struct point m_point(int x, int y) { struct point p = { x, y }; return p; }
struct cue m_cue(void) { struct cue c = { "opening", { 1, 2 }, 0.5, 0 }; return c; }
void m_byval(struct cue c, int *out) { *out = c.at.x + (int)c.level; }
int m_tight(struct tight *t) { return t->value + t->rest + t->tag; }
uint32_t m_union(float f) { union bits b; b.f = f; return b.u; }
unsigned m_bitfield(struct flags f) { return f.a + f.b * f.c; }
int m_lookup(int i) { return lookup[i & 15] + table[i & 7]; }
int m_matrix(int i, int j) { return matrix[i][j] += 1; }
int m_global(void) { return corner.x + show[2].at.y; }
int *m_address(int i) { return &table[i]; }
size_t m_offset(void) { return (size_t)&((struct cue *)0)->level; }
void m_copy(struct cue *a, const struct cue *b) { *a = *b; }
void m_clear(void *p, size_t n) { memset(p, 0, n); }
void m_move(char *a, const char *b, size_t n) { memcpy(a, b, n); memmove(a + 1, b, n); }
int m_local(int n) {
    int a[10] = { 1, 2, 3 };
    a[n % 10] = n;
    int s = 0;
    for (int i = 0; i < 10; i++)
        s += a[i];
    return s;
}
int m_vla(int n) {
    int a[n];
    for (int i = 0; i < n; i++)
        a[i] = i * i;
    return a[n / 2];
}
size_t m_strlen(const char *s) { const char *p = s; while (*p) p++; return (size_t)(p - s); }
char *m_text(void) { static char text[] = "a\tb\"c\\d\n"; return text; }
struct cue *m_list(struct cue *c) { while (c && c->next) c = c->next; return c; }
int m_sum(struct cue *c) { int s = 0; for (; c; c = c->next) s += c->at.x; return s; }
long m_difference(int *a, int *b) { return a - b; }
int m_volatile(volatile int *p) { *p = 3; return *p + *p; }
void m_swap(int *restrict a, int *restrict b) { int t = *a; *a = *b; *b = t; }
_Alignas(64) int aligned[16];
int m_aligned(int i) { return aligned[i]; }
