/* Times reading a number from its groups and comparing it with a bound, as two states of json_exact do it: `before` and
   `after` in turn, round by round. Of each the median round is told, in nanoseconds a number. */
#include <stdint.h>
#include <stdio.h>
#include <stdlib.h>
#include <time.h>

typedef size_t below_fn(const int16_t *weights, size_t count, const uint8_t *numbers, size_t length, size_t size,
                        int16_t bound_weight, const uint8_t *bound, size_t bound_length);

below_fn before_below, after_below;

static below_fn *const kernels[] = {before_below, after_below};
enum { KERNELS = 2, NUMBERS = 1000, CALLS = 5, ROUNDS = 1000, MOST = 9 };

/* What decides the order: the first group, the place, or the last group alone. */
enum set { FIRST, PLACE, LAST, SETS };
static const char *const names[] = {"the first group", "the place", "the last group"};

static int16_t weights[NUMBERS];
static uint8_t numbers[NUMBERS * 2 * MOST], bound[2 * MOST];

static void put(uint8_t *at, int group)
{
    at[0] = (uint8_t)(group & 255);
    at[1] = (uint8_t)(group >> 8);
}

/* Every number is below the bound, so that no branch on the answer is guessed wrong. */
static void fill(enum set set, int count)
{
    for (int i = 0; i < count; i++)
        put(bound + 2 * i, i == 0 || i == count - 1 ? 5000 : 1 + rand() % 9998);
    for (int j = 0; j < NUMBERS; j++) {
        uint8_t *number = numbers + 2 * count * j;
        weights[j] = set == PLACE ? -1 : 0;
        for (int i = 0; i < count; i++) {
            int below = set == LAST ? i == count - 1 : i == 0;
            put(number + 2 * i, below ? 1 + rand() % 4998 : 1 + rand() % 9998);
            if (set == LAST && !below)
                put(number + 2 * i, bound[2 * i] + 256 * bound[2 * i + 1]);
        }
    }
}

static double nanoseconds(void)
{
    struct timespec t;
    clock_gettime(CLOCK_MONOTONIC, &t);
    return t.tv_sec * 1e9 + t.tv_nsec;
}

static int by_size(const void *a, const void *b)
{
    double x = *(const double *)a, y = *(const double *)b;
    return (x > y) - (x < y);
}

int main(void)
{
    static double times[KERNELS][ROUNDS];

    for (enum set set = FIRST; set < SETS; set++) {
        printf("%s decides\n", names[set]);
        for (int count = 1; count <= MOST; count++) {
            size_t size = 2 * (size_t)count;
            fill(set, count);
            for (int round = 0; round < ROUNDS; round++)
                for (int k = 0; k < KERNELS; k++) {
                    double t = nanoseconds();
                    for (int call = 0; call < CALLS; call++)
                        if (kernels[k](weights, NUMBERS, numbers, NUMBERS * size, size, 0, bound, size) != NUMBERS) {
                            printf("kernel %d is wrong at %d groups\n", k, count);
                            return 1;
                        }
                    times[k][round] = (nanoseconds() - t) / CALLS / NUMBERS;
                }
            for (int k = 0; k < KERNELS; k++)
                qsort(times[k], ROUNDS, sizeof(double), by_size);
            double before = times[0][ROUNDS / 2], after = times[1][ROUNDS / 2];
            printf("| %d | %.1f | %.1f | %.1f |\n", count, before, after, before / after);
        }
    }
    return 0;
}
