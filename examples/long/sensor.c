// What a sensor's firmware does, round after round: it makes samples, filters them and counts remainders; every fourth
// round it also sums the elements of a product of matrices. A checksum is left in x10. With these numbers it runs three
// million instructions, which is too long for a study; docs/PROGRAMS.md shows what to do.

#ifndef SAMPLES
#define SAMPLES 64
#endif
#ifndef ROUNDS
#define ROUNDS 100
#endif
#ifndef SIDE
#define SIDE 24
#endif

static int samples[SAMPLES], taps[8], table[256];
static int left[SIDE][SIDE], right[SIDE][SIDE];

static unsigned state = 1;

static unsigned next(void)
{
    state = state * 1103515245u + 12345u;
    return state >> 8;
}

static void prepare(void)
{
    for (int k = 0; k < 8; k++)
        taps[k] = (int)(next() % 15) - 7;
    for (int row = 0; row < SIDE; row++)
        for (int column = 0; column < SIDE; column++) {
            left[row][column] = (int)(next() % 100);
            right[row][column] = (int)(next() % 100);
        }
}

static void read_samples(void)
{
    for (int k = 0; k < SAMPLES; k++)
        samples[k] = (int)(next() % 4096) - 2048;
}

static int filter(void)
{
    int sum = 0;
    for (int k = 7; k < SAMPLES; k++) {
        int value = 0;
        for (int tap = 0; tap < 8; tap++)
            value += taps[tap] * samples[k - tap];
        sum ^= value;
    }
    return sum;
}

static void count(int value)
{
    for (int k = 0; k < SAMPLES; k++)
        table[(unsigned)(samples[k] ^ value) % 251u]++;
}

static int report(void)
{
    int sum = 0;
    for (int row = 0; row < SIDE; row++)
        for (int column = 0; column < SIDE; column++)
            for (int k = 0; k < SIDE; k++)
                sum += left[row][k] * right[k][column];
    return sum;
}

void _start(void)
{
    int sum = 0;
    prepare();
    for (int round = 0; round < ROUNDS; round++) {
        read_samples();
        int value = filter();
        count(value);
        sum += value;
        if (round % 4 == 3)
            sum += report();
    }
    register int result __asm__("a0") = sum + table[7];
    __asm__ volatile("ebreak" : : "r"(result));
}
