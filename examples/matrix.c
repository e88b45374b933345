// Multiplies two matrices of 12 by 12 and leaves the trace of their product in x10.
// A program for tomex has no operating system below it: it starts at _start and ends by EBREAK.

#define SIDE 12

static int left[SIDE][SIDE], right[SIDE][SIDE], product[SIDE][SIDE];

static void fill(void)
{
    for (int row = 0; row < SIDE; row++)
        for (int column = 0; column < SIDE; column++) {
            left[row][column] = row + column;
            right[row][column] = row * column + 1;
        }
}

static void multiply(void)
{
    for (int row = 0; row < SIDE; row++)
        for (int column = 0; column < SIDE; column++) {
            int sum = 0;
            for (int k = 0; k < SIDE; k++)
                sum += left[row][k] * right[k][column];
            product[row][column] = sum;
        }
}

static int trace(void)
{
    int sum = 0;
    for (int k = 0; k < SIDE; k++)
        sum += product[k][k];
    return sum;
}

void _start(void)
{
    fill();
    multiply();
    register int result __asm__("a0") = trace();
    __asm__ volatile("ebreak" : : "r"(result));
}
