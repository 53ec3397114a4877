/* Times reading, judging and looking up in two states of the crates, in turn: 64 rows of 33 members, a flat array of 100,000 numbers, four
   arrays of 20,000 equal elements that are told in other ways, and objects of strings from 1 KB to 64 MB, all from one seed. Each time is the best of several rounds. The first argument is a file for the
   texts of the rows, behind the text of the keywords, and the second one for lines of the program. */
#include <stdint.h>
#include <stdio.h>
#include <stdlib.h>
#include <string.h>
#include <time.h>

#define STATE(NAME) \
    size_t NAME##_bytes_of(const uint8_t *text, size_t length, uint8_t *bytes, size_t room); \
    size_t NAME##_read_slices(const uint8_t *document, size_t length, size_t rounds); \
    size_t NAME##_check_slices(const uint8_t *keywords, size_t keywords_length, const uint8_t *document, size_t length, size_t rounds); \
    size_t NAME##_judge_pairs(const uint8_t *keywords, size_t keywords_length, const uint8_t *document, size_t length, size_t rounds); \
    size_t NAME##_find_keys(const uint8_t *document, size_t length, const uint8_t *key, size_t key_length, size_t rounds);

STATE(before)
STATE(after)

enum { ROUNDS = 15, ROWS = 64, LINES = 20000 };

struct bytes {
    uint8_t *at;
    size_t length;
};

static const char keywords_text[] = "{\"type\":\"object\",\"required\":[\"id\",\"name\",\"email\"],\"minProperties\":3,\"maxProperties\":99}";

static struct bytes encoded(const char *text)
{
    size_t length = strlen(text), room = 8 * length + 64;
    struct bytes made = { malloc(room), 0 };
    if (made.at)
        made.length = after_bytes_of((const uint8_t *) text, length, made.at, room);
    if (!made.length) {
        puts("a text is refused");
        exit(1);
    }
    return made;
}

/* A row of 33 members: texts, numbers, truth values, nulls, a list and an object. */
static char *row(void)
{
    char *text = malloc(4096), *at = text;
    at += sprintf(at, "{\"id\":%d,\"name\":\"Ada Lovelace\",\"email\":\"ada%d@example.org\",\"active\":true,\"score\":%d,", rand() % 10000000, rand() % 1000, rand() % 100);
    at += sprintf(at, "\"tags\":[\"new\",\"paid\",\"vip\"],\"address\":{\"city\":\"London\",\"zip\":\"W1\"}");
    for (int i = 0; i < 26; i++) {
        at += sprintf(at, ",\"field_%02d\":", i);
        switch (rand() % 4) {
        case 0: at += sprintf(at, "%d", rand() % 100000); break;
        case 1: at += sprintf(at, "\"value of field %d\"", rand() % 1000); break;
        case 2: at += sprintf(at, "null"); break;
        default: at += sprintf(at, "false");
        }
    }
    sprintf(at, "}");
    return text;
}

static char *numbers(size_t count)
{
    char *text = malloc(12 * count + 16), *at = text;
    at += sprintf(at, "[");
    for (size_t i = 0; i < count; i++)
        at += sprintf(at, "%s%d", i ? "," : "", (int) (rand() % 10000000));
    sprintf(at, "]");
    return text;
}

static char *repeated(const char *element, size_t count)
{
    char *text = malloc((strlen(element) + 1) * count + 16), *at = text;
    at += sprintf(at, "[");
    for (size_t i = 0; i < count; i++)
        at += sprintf(at, "%s%s", i ? "," : "", element);
    sprintf(at, "]");
    return text;
}

static char *wide_object(size_t bytes)
{
    size_t count = bytes / 28 + 1;
    char *text = malloc(48 * count + 16), *at = text;
    at += sprintf(at, "{");
    for (size_t i = 0; i < count; i++)
        at += sprintf(at, "%s\"key%07zu\":\"text %zu\"", i ? "," : "", i, i);
    sprintf(at, "}");
    return text;
}

static double now(void)
{
    struct timespec t;
    clock_gettime(CLOCK_MONOTONIC, &t);
    return t.tv_sec * 1e9 + t.tv_nsec;
}

/* One scalar pass, with no vectors. */
__attribute__((noinline, optimize("no-tree-vectorize"))) static uint64_t pass(const uint8_t *at, size_t length)
{
    uint64_t sum = 0;
    for (size_t i = 0; i < length; i++)
        sum += at[i];
    return sum;
}

static struct bytes rules, rows[ROWS];
static volatile uint64_t kept;

#define CALLS(NAME) \
    static size_t NAME##_read(struct bytes d, size_t n) { return NAME##_read_slices(d.at, d.length, n); } \
    static size_t NAME##_check(struct bytes d, size_t n) { return NAME##_check_slices(rules.at, rules.length, d.at, d.length, n); } \
    static size_t NAME##_judge(struct bytes d, size_t n) { return NAME##_judge_pairs(rules.at, rules.length, d.at, d.length, n); } \
    static size_t NAME##_find(struct bytes d, size_t n) { return NAME##_find_keys(d.at, d.length, (const uint8_t *) "field_13", 8, n); } \
    static size_t NAME##_rows(struct bytes d, size_t n) \
    { \
        size_t read = 0; \
        for (size_t i = 0; i < n; i++) \
            read += NAME##_read_slices(rows[i % ROWS].at, rows[i % ROWS].length, 1); \
        return read + 0 * d.length; \
    }

CALLS(before)
CALLS(after)

static size_t run_pass(struct bytes d, size_t n)
{
    for (size_t i = 0; i < n; i++)
        kept += pass(d.at, d.length);
    return n;
}

typedef size_t call(struct bytes, size_t);

static double once(call *made, struct bytes document, size_t times)
{
    double begin = now();
    if (made(document, times) != times) {
        puts("an answer is wrong");
        exit(1);
    }
    return (now() - begin) / times;
}

/* The nanoseconds of one call of both, taken in turn, and of one scalar pass. */
static void compare(const char *what, call *first, call *second, struct bytes document, size_t times)
{
    double best[3] = { 1e18, 1e18, 1e18 };
    for (int round = 0; round < ROUNDS; round++) {
        double took[3] = { once(first, document, times), once(second, document, times), once(run_pass, document, times) };
        for (int i = 0; i < 3; i++)
            best[i] = took[i] < best[i] ? took[i] : best[i];
    }
    printf("| %-34s | %9zu | %11.0f | %11.0f | %5.2f | %6.3f | %5.2f |\n", what, document.length, best[0], best[1], best[0] / best[1],
        best[1] / document.length, best[1] / best[2]);
}

static void put_hex(FILE *file, struct bytes b)
{
    for (size_t i = 0; i < b.length; i++)
        fprintf(file, "%02x", b.at[i]);
}

int main(int count, char **words)
{
    srand(1);
    FILE *texts = count > 1 ? fopen(words[1], "w") : NULL;
    if (texts)
        fprintf(texts, "%s\n", keywords_text);
    for (int i = 0; i < ROWS; i++) {
        char *text = row();
        rows[i] = encoded(text);
        if (texts)
            fprintf(texts, "%s\n", text);
        free(text);
    }
    rules = encoded(keywords_text);
    if (texts)
        fclose(texts);
    if (count > 2) {
        FILE *lines = fopen(words[2], "w");
        for (int i = 0; i < LINES; i++) {
            put_hex(lines, rules);
            fputc(' ', lines);
            put_hex(lines, rows[i % ROWS]);
            fputc('\n', lines);
        }
        fclose(lines);
    }
    struct bytes list = encoded(numbers(100000));
    puts("| what | bytes | before, ns | after, ns | before / after | after, ns a byte | of a scalar pass |");
    puts("|---|---|---|---|---|---|---|");
    compare("`root`, one row of 33 members", before_read, after_read, rows[0], 20000);
    compare("`root`, 64 rows in turn", before_rows, after_rows, rows[0], 20000);
    compare("`root` and a check", before_check, after_check, rows[0], 20000);
    compare("`judge`, the keywords too", before_judge, after_judge, rows[0], 20000);
    compare("`get_named`, a key of the row", before_find, after_find, rows[0], 20000);
    compare("`root`, 100,000 numbers", before_read, after_read, list, 20);
    static const char *const elements[][2] = {
        { "`root`, 20,000 texts of 60 bytes", "\"a text of sixty bytes, which is more than are seen in a look\"" },
        { "`root`, 20,000 texts, not ASCII", "\"gr\u00f6\u00dfe 12345\"" },
        { "`root`, 20,000 zeros", "0" },
        { "`root`, 20,000 arrays in an array", "[12345]" },
    };
    for (size_t i = 0; i < sizeof elements / sizeof *elements; i++)
        compare(elements[i][0], before_read, after_read, encoded(repeated(elements[i][1], 20000)), 50);
    for (size_t size = 1 << 10; size <= 1 << 26; size <<= 4) {
        struct bytes wide = encoded(wide_object(size));
        compare("`root`, an object of strings", before_read, after_read, wide, (1 << 26) / size / 8 + 1);
        free(wide.at);
    }
    return 0;
}
