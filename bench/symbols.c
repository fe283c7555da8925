/* The deciding of a symbol in plain C (paper 02, K12): the same sums and products of doubles, and a cast to tell whole numbers. */
#include "plain.h"

static int whole(double x, double low, double high)
{
    return x >= low && x <= high && (double)(int)x == x;
}

static double sum_eight(const double *from)
{
    double sum = 0.0;
    for (int k = 0; k < 8; k++)
        sum += from[2 * k];
    return sum;
}

struct plain_decided plain_decide(struct plain_pair state, const double *symbol, size_t n)
{
    struct plain_decided d = {0, 2, 0.0, state};
    if (!whole(state.inphase, -524280, 524280) || !whole(state.quadrature, -524280, 524280)) {
        d.answer = 28;
        return d;
    }
    if (n != 32) {
        d.answer = 37;
        return d;
    }
    for (size_t k = 0; k < 32; k++)
        if (!whole(symbol[k], -32768, 32767)) {
            d.answer = 38;
            return d;
        }
    struct plain_pair pair = {sum_eight(symbol) - sum_eight(symbol + 16), sum_eight(symbol + 1) - sum_eight(symbol + 17)};
    d.product = 0.0 + state.inphase * pair.inphase + state.quadrature * pair.quadrature;
    d.verdict = d.product > 0.0 ? 0 : d.product < 0.0 ? 1 : 2;
    d.state = pair;
    return d;
}
