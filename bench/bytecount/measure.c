/* Times the counts of bytecount: first each answer is held against the plain loop's, at many lengths; then each kernel is
   run at each size in turn, again and again, and its best round is told, in bytes a nanosecond (GB/s). */
#include <stdint.h>
#include <stdio.h>
#include <stdlib.h>
#include <time.h>

typedef size_t count_fn(const uint8_t *bytes, size_t length, uint8_t needle);
typedef size_t chars_fn(const uint8_t *bytes, size_t length);

count_fn plain_count, word_count, vector_count, chosen_count;
chars_fn plain_num_chars, word_num_chars, vector_num_chars, chosen_num_chars;
#ifdef PEER
count_fn peer_count;
chars_fn peer_num_chars;
#endif

struct kernel {
    const char *name;
    count_fn *count;
    chars_fn *chars;
    size_t least; /* the shortest slice that it takes */
    int plain;    /* which kernel is its plain loop */
};

static const struct kernel kernels[] = {
    {"naive_count", plain_count, NULL, 0, 0},
    {"integer_simd::chunk_count", word_count, NULL, 8, 0},
    {"simd::generic::chunk_count", vector_count, NULL, 32, 0},
    {"count", chosen_count, NULL, 0, 0},
#ifdef PEER
    {"peer count", peer_count, NULL, 0, 0},
#endif
    {"naive_num_chars", NULL, plain_num_chars, 0, -1},
    {"integer_simd::chunk_num_chars", NULL, word_num_chars, 8, -1},
    {"simd::generic::chunk_num_chars", NULL, vector_num_chars, 32, -1},
    {"num_chars", NULL, chosen_num_chars, 0, -1},
#ifdef PEER
    {"peer num_chars", NULL, peer_num_chars, 0, -1},
#endif
};
enum { KERNELS = sizeof kernels / sizeof kernels[0], PLAIN_CHARS = KERNELS / 2, ROUNDS = 200 };

static const size_t sizes[] = {16, 100, 1000, 10000, 1000000, 16000000};
enum { SIZES = sizeof sizes / sizeof sizes[0] };

static size_t answer(const struct kernel *k, const uint8_t *bytes, size_t length, uint8_t needle)
{
    return k->count ? k->count(bytes, length, needle) : k->chars(bytes, length);
}

static const struct kernel *plain_of(const struct kernel *k)
{
    return &kernels[k->plain < 0 ? PLAIN_CHARS : k->plain];
}

static int hold(const uint8_t *bytes, size_t length)
{
    for (int k = 0; k < KERNELS; k++)
        if (length >= kernels[k].least && answer(&kernels[k], bytes, length, 77) != answer(plain_of(&kernels[k]), bytes, length, 77)) {
            printf("%s is wrong at %zu bytes\n", kernels[k].name, length);
            return 0;
        }
    return 1;
}

static double seconds(void)
{
    struct timespec t;
    clock_gettime(CLOCK_MONOTONIC, &t);
    return t.tv_sec + t.tv_nsec / 1e9;
}

int main(void)
{
    static double speed[KERNELS][SIZES];
    size_t sum = 0;

    for (size_t n = 0; n < 40000; n = n < 700 ? n + 1 : n + 97) {
        uint8_t *bytes = malloc(n + 1);
        for (size_t i = 0; i < n; i++)
            bytes[i] = (uint8_t)rand();
        if (!hold(bytes, n))
            return 1;
        for (size_t i = 0; i < n; i++)
            bytes[i] = 77;
        if (!hold(bytes, n))
            return 1;
        free(bytes);
    }

    for (int s = 0; s < SIZES; s++) {
        size_t n = sizes[s], calls = 8000000 / (n + 500) + 1;
        uint8_t *bytes = malloc(n);
        for (size_t i = 0; i < n; i++)
            bytes[i] = (uint8_t)(rand() & 63);
        for (int round = 0; round < ROUNDS; round++)
            for (int k = 0; k < KERNELS; k++) {
                if (n < kernels[k].least)
                    continue;
                double t = seconds();
                for (size_t call = 0; call < calls; call++)
                    sum += answer(&kernels[k], bytes, n, (uint8_t)(call & 63));
                t = n * (double)calls / (seconds() - t) / 1e9;
                if (t > speed[k][s])
                    speed[k][s] = t;
            }
        free(bytes);
    }

    printf("| GB/s (times the plain loop) |");
    for (int s = 0; s < SIZES; s++)
        printf(" %zu bytes |", sizes[s]);
    printf("\n|---|");
    for (int s = 0; s < SIZES; s++)
        printf("---|");
    printf("\n");
    for (int k = 0; k < KERNELS; k++) {
        printf("| `%s` |", kernels[k].name);
        for (int s = 0; s < SIZES; s++) {
            double plain = speed[plain_of(&kernels[k]) - kernels][s];
            if (speed[k][s] == 0)
                printf(" |");
            else
                printf(" %.1f (%.1f) |", speed[k][s], speed[k][s] / plain);
        }
        printf("\n");
    }
    return sum == 42; /* so that no call is left out */
}
