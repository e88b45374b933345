/* Counts the words of a text, sorts them by number, and prints them: strings, a growing array, qsort and printf. */
#include <stdio.h>
#include <stdlib.h>
#include <string.h>

static char text[] =
    "a processor issues in order and runs out of order a station holds an operation until its operands are there "
    "a unit takes it and a bus sends the result to each station that waits for it and to the register";

struct word {
    const char *letters;
    int number;
};

static struct word *words;
static int count, room;

static void note(const char *letters)
{
    for (int i = 0; i < count; i++) {
        if (strcmp(words[i].letters, letters) == 0) {
            words[i].number++;
            return;
        }
    }
    if (count == room) {
        room = room ? 2 * room : 4;
        words = realloc(words, room * sizeof *words);
    }
    words[count++] = (struct word){letters, 1};
}

static int by_number(const void *a, const void *b)
{
    const struct word *one = a, *other = b;
    if (one->number != other->number)
        return other->number - one->number;
    return strcmp(one->letters, other->letters);
}

int main(void)
{
    for (char *letters = strtok(text, " "); letters; letters = strtok(0, " "))
        note(letters);
    qsort(words, count, sizeof *words, by_number);
    for (int i = 0; i < 5; i++)
        printf("%2d %s\n", words[i].number, words[i].letters);
    return count;
}
