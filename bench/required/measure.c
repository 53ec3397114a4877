/* Times `required`: names that are all keys of one object of 16,000 keys, beside what reading the object takes. The names stand
   in a shuffled order. Each time is the best of many rounds. */
#include <stdbool.h>
#include <stdint.h>
#include <stdio.h>
#include <stdlib.h>
#include <string.h>
#include <time.h>

bool read_document(const uint8_t *bytes, size_t length);
bool compile_keywords(const uint8_t *bytes, size_t length);
size_t check_slice(const uint8_t *keywords, size_t keywords_length, const uint8_t *document, size_t length, size_t rounds);
size_t check_value(const uint8_t *keywords, size_t keywords_length, const uint8_t *document, size_t length, size_t rounds);

enum { KEYS = 16000, ROUNDS = 200 };

struct bytes {
    uint8_t *at;
    size_t length;
};

static void put(struct bytes *b, const void *from, size_t length)
{
    memcpy(b->at + b->length, from, length);
    b->length += length;
}

/* An array or object of strings: `words` is the header word, and each text is an item. */
static struct bytes container(uint32_t header, char (*texts)[16], size_t count, uint32_t kind_of_the_rest, size_t rest)
{
    struct bytes b = {malloc(1 << 20), 0};
    put(&b, &header, 4);
    uint32_t end = 0;
    for (size_t i = 0; i < count + rest; i++) {
        uint32_t length = i < count ? strlen(texts[i]) : 0, kind = i < count ? 0 : kind_of_the_rest;
        end += length;
        uint32_t word = kind | (i % 32 == 0 ? 0x80000000u | end : length);
        put(&b, &word, 4);
    }
    for (size_t i = 0; i < count; i++)
        put(&b, texts[i], strlen(texts[i]));
    return b;
}

/* {"required":[..]} */
static struct bytes keywords_of(char (*names)[16], size_t count)
{
    struct bytes list = container(0x40000000u | count, names, count, 0, 0);
    struct bytes b = {malloc((1 << 20) + 64), 0};
    uint32_t words[] = {0x20000001u, 0x80000008u, 0x50000000u | list.length};
    put(&b, words, sizeof words);
    put(&b, "required", 8);
    put(&b, list.at, list.length);
    return b;
}

static double now(void)
{
    struct timespec t;
    clock_gettime(CLOCK_MONOTONIC, &t);
    return t.tv_sec * 1e6 + t.tv_nsec / 1e3;
}

int main(void)
{
    static char keys[KEYS][16], names[KEYS][16];
    for (int i = 0; i < KEYS; i++) {
        snprintf(keys[i], 16, "k%d", i);
        strcpy(names[i], keys[i]);
    }
    srand(1);
    for (int i = KEYS - 1; i > 0; i--) {
        int j = rand() % (i + 1);
        char t[16];
        strcpy(t, names[i]);
        strcpy(names[i], names[j]);
        strcpy(names[j], t);
    }
    struct bytes document = container(0x20000000u | KEYS, keys, KEYS, 0x40000000u, KEYS);
    double read = 1e18;
    for (int r = 0; r < ROUNDS; r++) {
        double from = now();
        if (!read_document(document.at, document.length))
            return 1;
        double took = now() - from;
        read = took < read ? took : read;
    }
    printf("reading the object: %.0f microseconds\n", read);
    static const size_t counts[] = {1, 16, 100, 250, 251, 1000, 4000, 16000};
    for (size_t c = 0; c < sizeof counts / sizeof *counts; c++) {
        struct bytes keywords = keywords_of(names, counts[c]);
        double compile = 1e18, slice = 1e18, value = 1e18;
        for (int r = 0; r < ROUNDS / 10; r++) {
            double from = now();
            if (!compile_keywords(keywords.at, keywords.length))
                return 2;
            double took = now() - from;
            compile = took < compile ? took : compile;
        }
        for (int r = 0; r < 10; r++) {
            double none = now();
            if (check_slice(keywords.at, keywords.length, document.at, document.length, 1) != 1)
                return 3;
            double from = now();
            if (check_slice(keywords.at, keywords.length, document.at, document.length, 101) != 101)
                return 3;
            double took = ((now() - from) - (from - none)) / 100;
            slice = took < slice ? took : slice;
            none = now();
            if (check_value(keywords.at, keywords.length, document.at, document.length, 1) != 1)
                return 4;
            from = now();
            if (check_value(keywords.at, keywords.length, document.at, document.length, 101) != 101)
                return 4;
            took = ((now() - from) - (from - none)) / 100;
            value = took < value ? took : value;
        }
        printf("| %zu | %.0f | %.0f (%.2f) | %.0f (%.2f) |\n", counts[c], compile, slice, slice / read, value, value / read);
    }
    return 0;
}
