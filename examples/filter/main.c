// Filters a signal, and returns the sum of the outputs, which start.s leaves in x10.
#include "filter.h"

// Initialised data: the program may change it, so the compiler has to load it.
int divisor = 9;
int signal[SAMPLES] = {3, 14, 15, -92, 65, 35, -89, 79, 32, 38, -46, 26};

// Data without initial values, which is zero.
int filtered[SAMPLES - TAPS + 1];

int main(void)
{
    int sum = 0;
    filter(filtered, signal, divisor);
    for (int n = 0; n < SAMPLES - TAPS + 1; n++)
        sum += filtered[n];
    return sum;
}
