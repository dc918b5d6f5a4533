/* How far tono_exp is from the true exponential where k is -1023 or 1024, in units of the last place of the true value,
 * which is expq of gcc's libquadmath (113 digits of 2).
 *
 *     gcc -O2 -I../../include last_place.c ../../target/staticlib/libtono.a -lquadmath -lm -o last_place
 *     ./last_place COUNT SEED
 *
 * Of each k COUNT random arguments are tried over its whole range, and COUNT over the twentieth of it that is nearest
 * to 0, where the largest distances were found. */
#include "tono.h"

#include <math.h>
#include <quadmath.h>
#include <stdio.h>
#include <stdlib.h>
#include <string.h>

static uint64_t state;

/* SplitMix64 */
static uint64_t draw(void)
{
    uint64_t z = state += 0x9e3779b97f4a7c15;
    z = (z ^ (z >> 30)) * 0xbf58476d1ce4e5b9;
    z = (z ^ (z >> 27)) * 0x94d049bb133111eb;
    return z ^ (z >> 31);
}

static double value(uint64_t bits)
{
    double x;
    memcpy(&x, &bits, sizeof x);
    return x;
}

static uint64_t pattern(double x)
{
    uint64_t bits;
    memcpy(&bits, &x, sizeof bits);
    return bits;
}

/* The pattern of the least x above 0 whose k is at least `power`. */
static uint64_t first(double power)
{
    uint64_t below = pattern(700.0), from = pattern(720.0);
    while (below + 1 < from) {
        uint64_t middle = below + (from - below) / 2;
        if (round(value(middle) * 0x1.71547652b82fep0) >= power)
            from = middle;
        else
            below = middle;
    }
    return from;
}

/* The distance of tono_exp(x) from the true value; an infinity, a NaN or a 0 is infinitely far. */
static double distance(double x)
{
    double got = tono_exp(x);
    if (!isfinite(got) || got <= 0)
        return INFINITY;
    __float128 asked = expq(x);
    int exponent;
    frexpq(asked, &exponent);
    int unit = exponent - 53 < -1074 ? -1074 : exponent - 53;
    return (double)scalbnq(fabsq(got - asked), -unit);
}

/* `count` patterns from `low` on, `places` of them to choose from, with the sign of `sign` */
static void measure(const char *name, double sign, uint64_t low, uint64_t places, uint64_t count)
{
    double most = 0, at = 0;
    uint64_t not_nearest = 0;
    for (uint64_t i = 0; i < count; i++) {
        double x = copysign(value(low + draw() % places), sign);
        double far = distance(x);
        not_nearest += far > 0.5;
        if (far > most) {
            most = far;
            at = x;
        }
    }
    printf("%s: %llu tried from %.17g on, at most %.4f, at %016llx; %llu not the nearest f64\n", name, (unsigned long long)count,
           copysign(value(low), sign), most, (unsigned long long)pattern(at), (unsigned long long)not_nearest);
}

int main(int argc, char **argv)
{
    if (argc != 3) {
        fputs("usage: last_place COUNT SEED\n", stderr);
        return 2;
    }
    uint64_t count = strtoull(argv[1], NULL, 10);
    state = strtoull(argv[2], NULL, 10);
    uint64_t low = first(1023), high = first(1024), cutoff = 0x40862e42fefa39e6;
    measure("k = -1023", -1, low, high - low, count);
    measure("k = -1023, a twentieth", -1, low, (high - low) / 20, count);
    measure("k = 1024", 1, high, cutoff - high + 1, count);
    measure("k = 1024, a twentieth", 1, high, (cutoff - high + 1) / 20, count);
    return 0;
}
