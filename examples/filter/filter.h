// A filter of four taps over a signal.
enum { TAPS = 4, SAMPLES = 12 };

// Writes SAMPLES - TAPS + 1 outputs.
void filter(int *output, const int *input, int divisor);
