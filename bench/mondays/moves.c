/* Writes a moves file: moves KIND LINES. The same file each time. */
#include <stdint.h>
#include <stdio.h>
#include <stdlib.h>
#include <string.h>

static uint64_t state = 88172645463325252u;

/* A number below `limit`, by xorshift. */
static uint32_t below(uint32_t limit)
{
    state ^= state << 13;
    state ^= state >> 7;
    state ^= state << 17;
    return (uint32_t)((state >> 32) * limit >> 32);
}

/* A restart with few moves, and one in fifty with many. */
static uint32_t few(void)
{
    return below(50) ? below(6) : below(129);
}

static uint32_t moves(const char *kind, uint32_t line)
{
    if (strcmp(kind, "few") == 0)
        return few();
    if (strcmp(kind, "random") == 0)
        return below(129);
    if (strcmp(kind, "falling") == 0)
        return 128 - line % 129;
    if (strcmp(kind, "rising") == 0)
        return line % 129;
    exit(2);
}

static void put_word(uint32_t word)
{
    for (int shift = 0; shift < 32; shift += 8)
        putchar((int)(word >> shift & 255));
}

int main(int count, char **words)
{
    if (count != 3)
        return 2;
    uint32_t restart = 0, lines = (uint32_t)strtoul(words[2], NULL, 10);
    for (uint32_t line = 0; line < lines; line++) {
        put_word(restart);
        put_word(moves(words[1], line));
        restart += 1 + (below(8) == 0);
    }
    return fflush(stdout) != 0;
}
