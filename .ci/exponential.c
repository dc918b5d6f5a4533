/* Holds tono_exp to what tono.h says of it; to decimals of e^x (from mpmath, at 40 digits) and to the C library's exp
 * within one step of an f64, over the whole range and more closely at its ends. Prints what is wrong; the status is 1
 * then. */
#include "tono.h"

#include <math.h>
#include <stdio.h>
#include <string.h>

static int wrong;

static double value(uint64_t bits)
{
    double x;
    memcpy(&x, &bits, sizeof x);
    return x;
}

static uint64_t pattern(double x)
{
    uint64_t bits;
    memcpy(&bits, &x, sizeof bits);
    return bits;
}

static void report(double x, double got, double asked)
{
    wrong = 1;
    printf("tono_exp(%.17g) is %.17g and not %.17g\n", x, got, asked);
}

static void exactly(double x, double asked)
{
    double got = tono_exp(x);
    if (pattern(got) != pattern(asked))
        report(x, got, asked);
}

/* Patterns of numbers that are not negative stand in the order of the numbers. */
static void within_a_step(double x, double asked)
{
    double got = tono_exp(x);
    uint64_t a = pattern(got), b = pattern(asked);
    if (!isfinite(got) || signbit(got) || (a > b ? a - b : b - a) > 1)
        report(x, got, asked);
}

/* count arguments from low to high against exp */
static void range(double low, double high, int count)
{
    for (int i = 0; i < count; i++) {
        double x = low + (high - low) * i / (count - 1);
        within_a_step(x, exp(x));
    }
}

int main(void)
{
    const double highest = value(0x40862e42fefa39e6), lowest = value(0xc0874910d52d3050);
    if (!isnan(tono_exp(NAN)))
        report(NAN, tono_exp(NAN), NAN);
    exactly(INFINITY, INFINITY);
    exactly(value(0x40862e42fefa39e7), INFINITY);
    exactly(highest, value(0x7fefffffffffdb2a));
    exactly(0.0, 1.0);
    exactly(-0.0, 1.0);
    exactly(lowest, 0.0);
    exactly(value(0xc0874910d52d3051), 0.0);
    exactly(-INFINITY, 0.0);
    within_a_step(1.0, 2.71828182845904523536);
    within_a_step(10.0, 22026.4657948067165);
    within_a_step(-10.0, 4.53999297624848515e-5);
    within_a_step(100.0, 2.68811714181613545e43);
    within_a_step(-100.0, 3.72007597602083596e-44);
    range(-744.78, highest, 100001);
    range(-709.5, -708.7, 100001);
    range(709.4, highest, 100001);
    return wrong;
}
