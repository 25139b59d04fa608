// Structs that the calling convention hands over by a pointer: clang 22 marks the argument `dead_on_return`.
struct bar { long at; int level; int colour; };
struct cue { struct bar bars[3]; double hold; };
struct show { struct cue cues[4]; int count; };
struct pixels { float v[9]; };

extern void fire(struct cue c);
extern struct cue next(int n);
extern int judge_show(struct show s, int n);
extern void log_two(struct cue a, struct cue b, const char *why);

struct cue p_same(struct cue c) { return c; }
struct cue p_shift(struct cue c, long by)
{
    for (int i = 0; i < 3; i++)
        c.bars[i].at += by;
    return c;
}
int p_level(struct cue c, int i) { return c.bars[i].level; }
double p_hold(const struct cue c) { return c.hold; }
long p_both(struct cue a, struct cue b) { return a.bars[0].at - b.bars[2].at; }
void p_fire(struct cue c, int n)
{
    while (n-- > 0)
        fire(c);
}
void p_fire_next(int n) { fire(next(n)); }
struct cue p_pick(struct cue a, struct cue b, int first) { return first ? a : b; }
int p_show(struct show s)
{
    int sum = 0;
    for (int i = 0; i < s.count; i++)
        sum += s.cues[i].bars[0].level;
    return judge_show(s, sum);
}
struct show p_add(struct show s, struct cue c)
{
    if (s.count < 4)
        s.cues[s.count++] = c;
    return s;
}
float p_pixels(struct pixels p, int i)
{
    switch (i) {
    case 0: return p.v[0];
    case 1: return p.v[4] * 2.0f;
    default: return p.v[8];
    }
}
void p_log(struct cue a) { log_two(a, p_same(a), "same"); }
int p_by_call(int (*f)(struct cue, int), struct cue c) { return f(c, 7); }
