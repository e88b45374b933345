// Counts the primes below 1000 by the sieve of Eratosthenes, and leaves the count in x10.
// A program for tomex has no operating system below it: it starts at _start and ends by EBREAK.

static unsigned char composite[1000];

static int primes_below(int limit)
{
    int count = 0;
    for (int n = 2; n < limit; n++) {
        if (composite[n])
            continue;
        count++;
        for (int multiple = n * n; multiple < limit; multiple += n)
            composite[multiple] = 1;
    }
    return count;
}

void _start(void)
{
    register int count __asm__("a0") = primes_below(1000);
    __asm__ volatile("ebreak" : : "r"(count));
}
