/* Answers a line from the content of an index file: answer INDEX LINE */
#include "alta_embed.h"
#include <stdio.h>
#include <string.h>

static uint8_t index_bytes[1 << 26], replies[1 << 20];

int main(int argc, char **argv) {
    FILE *file = argc == 3 ? fopen(argv[1], "rb") : NULL;
    if (!file) return 1;
    size_t size = fread(index_bytes, 1, sizeof index_bytes, file);
    uint64_t detail;
    int64_t n = alta_embed_answer(index_bytes, size, (uint8_t *)argv[2], strlen(argv[2]), replies, sizeof replies, &detail);
    if (n < 0) return fprintf(stderr, "answer: %d, %llu\n", (int)n, (unsigned long long)detail), 2;
    return fwrite(replies, 1, (size_t)n, stdout) != (size_t)n;
}
