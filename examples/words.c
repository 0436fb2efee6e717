/* Counts the words of its input. TODO: words of several scripts */
#include <ctype.h>
#include <stdio.h>

#define WIDTH 8

struct count {
    unsigned long words, lines;
};

static int is_part(int c)
{
    return isalnum(c) || c == '\'' || c == '_';
}

int main(void)
{
    struct count n = { 0, 0 };
    int c, inside = 0;

    while ((c = getchar()) != EOF) {
        if (c == '\n')
            n.lines++;
        if (is_part(c) && !inside)
            n.words++;
        inside = is_part(c);
    }
#ifdef DEBUG
    fprintf(stderr, "last: 0x%02x\n", c & 0xff);
#endif
    printf("%*lu words\n%*lu lines\n", WIDTH, n.words, WIDTH, n.lines);
    return n.words == 0;
}
