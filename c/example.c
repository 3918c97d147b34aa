/* Runs a list of ten lines, once with room for what is printed, once with too little, and once in a map of a wrong size. */
#include "walnutyore.h"

#include <stdio.h>

static uint8_t map[14 * 1024];
static uint8_t labels[16384];
static uint32_t starts[1024];
static uint8_t out[1024];

static const char list[] =
    "E 250 technology\n"
    "E 90 technics\n"
    "E 90 technics\n"
    "F technique\n"
    "F technics\n"
    "S technics\n"
    "C 5 technics\n"
    "P 1\n"
    "D\n"
    "P 7\n";

static void run(const char *title, size_t map_len, size_t out_len)
{
    size_t count = walnutyore_answers(map, map_len, labels, sizeof labels, starts, sizeof starts / sizeof starts[0],
                                      (const uint8_t *)list, sizeof list - 1, out, out_len);
    size_t held = count < out_len ? count : out_len;

    printf("-- %s\n", title);
    fwrite(out, 1, held, stdout);
    printf("-- %zu of %zu bytes\n", held, count);
}

int main(void)
{
    run("room for all", sizeof map, sizeof out);
    run("room for two lines", sizeof map, 20);
    run("a map of a size that is not taken", 100, sizeof out);
    return 0;
}
