/* Times encoding beside reading: 1,000 documents of about 1 KB, 100 times each. Each time is the best of five rounds. */
#include <stdint.h>
#include <stdio.h>
#include <stdlib.h>
#include <string.h>
#include <time.h>

size_t bytes_of(const uint8_t *text, size_t length, uint8_t *bytes, size_t room);
size_t read_slices(const uint8_t *document, size_t length, size_t rounds);
size_t encode_values(const uint8_t *document, size_t length, size_t rounds);
size_t read_texts(const uint8_t *text, size_t length, size_t rounds);
size_t encode_texts(const uint8_t *text, size_t length, size_t rounds);

enum { DOCUMENTS = 1000, TIMES = 100, ROUNDS = 5, MOST = 4096 };

struct bytes {
    uint8_t at[MOST];
    size_t length;
};

static struct bytes texts[DOCUMENTS], slices[DOCUMENTS];

/* An order with an address and some lines, as {"id":7,"name":"..","lines":[{"sku":"..","count":3},..]}. */
static void make(struct bytes *text)
{
    char *at = (char *) text->at, *end = at + MOST;
    at += snprintf(at, end - at, "{\"id\":%d,\"customer\":{\"name\":\"customer %d\",\"city\":\"Wien\",\"zip\":\"%d\",\"vip\":%s},\"lines\":[",
                   rand(), rand() % 1000, 1000 + rand() % 9000, rand() % 2 ? "true" : "false");
    for (int i = 0; i < 14; i++)
        at += snprintf(at, end - at, "%s{\"sku\":\"sku-%06d\",\"count\":%d,\"cents\":%d,\"note\":null}", i ? "," : "",
                       rand() % 1000000, 1 + rand() % 20, rand() % 100000);
    at += snprintf(at, end - at, "],\"total\":%d,\"tags\":[\"a\",\"new\",\"paid\"]}", rand() % 1000000);
    text->length = at - (char *) text->at;
}

static double now(void)
{
    struct timespec t;
    clock_gettime(CLOCK_MONOTONIC, &t);
    return t.tv_sec * 1e6 + t.tv_nsec / 1e3;
}

/* The microseconds of one call, over all documents. */
static double time_of(size_t (*call)(const uint8_t *, size_t, size_t), const struct bytes *all)
{
    double best = 1e18;
    for (int round = 0; round < ROUNDS; round++) {
        double begin = now();
        for (int i = 0; i < DOCUMENTS; i++)
            if (call(all[i].at, all[i].length, TIMES) != TIMES) {
                puts("an answer is wrong");
                exit(1);
            }
        double took = now() - begin;
        best = took < best ? took : best;
    }
    return best / (DOCUMENTS * (double) TIMES);
}

int main(void)
{
    size_t text_bytes = 0, slice_bytes = 0;
    srand(1);
    for (int i = 0; i < DOCUMENTS; i++) {
        make(&texts[i]);
        slices[i].length = bytes_of(texts[i].at, texts[i].length, slices[i].at, MOST);
        text_bytes += texts[i].length, slice_bytes += slices[i].length;
    }
    double read = time_of(read_slices, slices), encode = time_of(encode_values, slices);
    double read_text = time_of(read_texts, texts), encode_text = time_of(encode_texts, texts);
    printf("documents of %zu bytes of text, and %zu bytes of jsonb, on average\n", text_bytes / DOCUMENTS, slice_bytes / DOCUMENTS);
    printf("read by root:             %6.2f us\n", read);
    printf("encode a value:           %6.2f us, %.2f times root\n", encode, encode / read);
    printf("read text by serde_json:  %6.2f us\n", read_text);
    printf("encode text to hex:       %6.2f us, %.2f times serde_json\n", encode_text, encode_text / read_text);
    return 0;
}
