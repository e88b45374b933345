#include "filter.h"

// A table: the weights of the newest sample and of the three before it.
static const int weights[TAPS] = {7, 3, -2, 1};

void filter(int *output, const int *input, int divisor)
{
    for (int n = TAPS - 1; n < SAMPLES; n++) {
        int sum = 0;
        for (int k = 0; k < TAPS; k++)
            sum += weights[k] * input[n - k];
        *output++ = sum / divisor;
    }
}
