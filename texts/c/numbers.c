// Integers of every width, floats, conversions, comparisons.
#include <stdint.h>

int8_t n_add8(int8_t a, int8_t b) { return a + b; }
uint16_t n_mul16(uint16_t a, uint16_t b) { return a * b; }
int64_t n_div64(int64_t a, int64_t b) { return a / b; }
uint64_t n_rem64(uint64_t a, uint64_t b) { return a % b; }
__int128 n_wide(__int128 a, __int128 b) { return a * b + ((__int128)1 << 100); }
unsigned __int128 n_big(void) { return ((unsigned __int128)0x0123456789abcdefULL << 64) | 42; }
uint32_t n_rotate(uint32_t x, unsigned k) { return x << (k & 31) | x >> (-k & 31); }
int n_shift(int a, int b) { return (a >> b) + (int)((unsigned)a >> b) + (a << 3); }
int n_bits(int a, int b) { return (a & b) | (a ^ ~b); }
int n_narrow(long a) { return (char)a + (short)a + (int)a; }
long n_widen(char a, unsigned char b, short c) { return a + b + c; }
_Bool n_bool(int a, int b) { return a < b && b != 3; }

float f_mix(float a, float b, float t) { return a + (b - a) * t; }
double f_poly(double x) { return ((1.5 * x - 0.1) * x + 3.25) * x - 1e-3; }
double f_div(double a, double b) { return a / b; }
float f_neg(float a) { return -a; }
double f_ext(float a) { return a * 2.0; }
float f_trunc(double a) { return (float)(a / 3.0); }
int f_int(double a) { return (int)a; }
unsigned f_uint(float a) { return (unsigned)a; }
float f_from(int a) { return a; }
double f_fromu(uint64_t a) { return a; }
int f_compare(double a, double b) { return (a < b) | (a <= b) << 1 | (a == b) << 2 | (a != b) << 3 | (a > b) << 4; }
int f_unordered(float a, float b) { return !(a < b) + 2 * !(a >= b) + 4 * __builtin_isunordered(a, b); }
double f_max(double a, double b) { return a > b ? a : b; }
float f_infinite(int k) { return k ? __builtin_inff() : -__builtin_inff(); }
double f_nan(void) { return __builtin_nan(""); }
float f_third(float a) { return a + 1.0f / 3.0f; }
double f_sum(const double *a, int n) {
    double s = 0;
    for (int i = 0; i < n; i++)
        s += a[i];
    return s;
}
float f_rem(float a, float b) { return __builtin_fmodf(a, b); }
