// Four kernels that differ in what they ask of a machine: a filter, a product of matrices, a sort, and a
// checksum of what they leave. The checksum is in x10 at the end.
// A program for tomex has no operating system below it: ../start.s calls main, and ends by EBREAK.

#define TAPS 8
#define SAMPLES 64
#define SIDE 8
#define KEYS 48

static int h[TAPS], x[SAMPLES], y[SAMPLES];
static int a[SIDE][SIDE], b[SIDE][SIDE], c[SIDE][SIDE];
static unsigned keys[KEYS];
static unsigned seed = 12345;

static unsigned next(void)
{
    seed = seed * 1103515245 + 12345;
    return seed >> 16;
}

__attribute__((noinline)) void fir(void)
{
    for (int n = TAPS; n < SAMPLES; n++) {
        int sum = 0;
        for (int k = 0; k < TAPS; k++)
            sum += h[k] * x[n - k];
        y[n] = sum >> 4;
    }
}

__attribute__((noinline)) void product(void)
{
    for (int i = 0; i < SIDE; i++)
        for (int j = 0; j < SIDE; j++) {
            int sum = 0;
            for (int k = 0; k < SIDE; k++)
                sum += a[i][k] * b[k][j];
            c[i][j] = sum;
        }
}

__attribute__((noinline)) void sort(unsigned *v, int n)
{
    for (int i = 1; i < n; i++) {
        unsigned key = v[i];
        int j = i;
        while (j > 0 && v[j - 1] > key) {
            v[j] = v[j - 1];
            j--;
        }
        v[j] = key;
    }
}

static unsigned crc_word(unsigned crc, unsigned word)
{
    crc ^= word;
    for (int bit = 0; bit < 8; bit++)
        crc = crc & 1 ? crc >> 1 ^ 0xEDB88320 : crc >> 1;
    return crc;
}

__attribute__((noinline)) unsigned checksum(void)
{
    unsigned crc = 0xFFFFFFFF;
    for (int i = 0; i < SAMPLES; i++)
        crc = crc_word(crc, y[i]);
    for (int i = 0; i < SIDE; i++)
        crc = crc_word(crc, c[i][i]);
    for (int i = 0; i < KEYS; i++)
        crc = crc_word(crc, keys[i]);
    return ~crc;
}

int main(void)
{
    for (int i = 0; i < SAMPLES; i++)
        x[i] = next() & 255;
    for (int i = 0; i < SIDE; i++) {
        h[i] = next() & 15;
        for (int j = 0; j < SIDE; j++) {
            a[i][j] = next() & 63;
            b[i][j] = next() & 63;
        }
    }
    for (int i = 0; i < KEYS; i++)
        keys[i] = next();
    fir();
    product();
    sort(keys, KEYS);
    return checksum();
}
