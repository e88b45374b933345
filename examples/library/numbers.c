/* Reads numbers from a text, and prints their mean and their greatest one: strtol, errno and printf. */
#include <errno.h>
#include <stdio.h>
#include <stdlib.h>

static const char text[] = "12 7 99999999999 43 0 18 26 5 31 77 2 64 9 38";

int main(void)
{
    long sum = 0, most = 0;
    int count = 0, refused = 0;
    char *next = (char *)text;
    while (*next) {
        errno = 0;
        long number = strtol(next, &next, 10);
        if (errno == ERANGE) {
            refused++;
            continue;
        }
        sum += number;
        most = number > most ? number : most;
        count++;
    }
    printf("%d numbers, %d refused, mean %ld.%02ld, greatest %ld\n", count, refused, sum / count,
           100 * (sum % count) / count, most);
    return count;
}
