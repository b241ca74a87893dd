/* The host test of the C calls: test [IMAGES]. IMAGES is the number of images at random, 1,000,000 without it. What is expected comes from
 * docs/IMAGES.md and the outline. Its last line is 'N passed, M failed'; it ends with 1 where any failed. */
#include "test.h"

#include <stdarg.h>
#include <stdio.h>
#include <stdlib.h>

enum { TOLD_LIMIT = 40 }; /* failures that are told one by one */

static unsigned long passed, failed;

void check(bool holds, const char *format, ...)
{
    va_list words;

    if (holds) {
        passed++;
        return;
    }
    if (++failed > TOLD_LIMIT)
        return;
    va_start(words, format);
    printf("test: ");
    vprintf(format, words);
    putchar('\n');
    va_end(words);
}

int main(int argc, char **argv)
{
    uint64_t images = 1000000;

    if (argc > 1) {
        char *end;

        images = strtoull(argv[1], &end, 10);
        if (argc > 2 || end == argv[1] || *end != '\0') {
            fputs("usage: test [number of images at random]\n", stderr);
            return 2;
        }
    }
    test_fields();
    test_grow(2000 + images / 10);
    test_order();
    test_figures();
    test_runs();
    test_exact();
    test_images(images);
    if (failed > TOLD_LIMIT)
        printf("test: and %lu more\n", failed - TOLD_LIMIT);
    printf("%lu passed, %lu failed\n", passed, failed);
    return failed == 0 ? 0 : 1;
}
