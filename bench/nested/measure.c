/* Times judge_c_tree_each and judge_c_tree on the rows of rows.py, and writes each verdict to the folder's file verdicts.c. */
#include <stdint.h>
#include <stdio.h>
#include <stdlib.h>
#include <string.h>
#include <time.h>

#include "judge_c.h"

enum { ROUNDS = 9, MOST_PATH = 4096 };

struct bytes {
	uint8_t *at;
	size_t length;
};

static void stop(const char *why)
{
	puts(why);
	exit(1);
}

static void path_of(char *path, const char *folder, const char *name)
{
	if (snprintf(path, MOST_PATH, "%s/%s", folder, name) >= MOST_PATH)
		stop("the path is too long");
}

static struct bytes contents(const char *folder, const char *name)
{
	char path[MOST_PATH];
	struct bytes read = {0};
	FILE *file;

	path_of(path, folder, name);
	file = fopen(path, "rb");
	if (!file || fseek(file, 0, SEEK_END) != 0)
		stop("a file is missing");
	read.length = (size_t) ftell(file);
	read.at = malloc(read.length + 1);
	rewind(file);
	if (!read.at || fread(read.at, 1, read.length, file) != read.length)
		stop("a file was not read");
	fclose(file);
	return read;
}

static double now(void)
{
	struct timespec t;

	clock_gettime(CLOCK_MONOTONIC, &t);
	return t.tv_sec * 1e9 + t.tv_nsec;
}

int main(int count, char **words)
{
	if (count != 2)
		stop("measure FOLDER");
	struct bytes schema = contents(words[1], "schema.bin"), rows = contents(words[1], "rows.bin"),
		offsets = contents(words[1], "offsets.bin");
	size_t number = offsets.length / sizeof(size_t) - 1, *at = (size_t *) offsets.at;
	uint32_t *codes = calloc(number, sizeof *codes), *others = calloc(number, sizeof *others);
	double all = 1e18, each = 1e18;

	for (int round = 0; round < ROUNDS; round++) {
		double begin = now();

		if (judge_c_tree_each(schema.at, schema.length, rows.at, rows.length, at, number + 1, codes, number).code != JUDGE_JUDGED)
			stop("the schema is refused");
		if (now() - begin < all)
			all = now() - begin;
		begin = now();
		for (size_t i = 0; i < number; i++)
			others[i] = judge_c_tree(schema.at, schema.length, rows.at + at[i], at[i + 1] - at[i]).code;
		if (now() - begin < each)
			each = now() - begin;
	}
	if (memcmp(codes, others, number * sizeof *codes) != 0)
		stop("the calls differ");

	char path[MOST_PATH];
	size_t valid = 0;

	path_of(path, words[1], "verdicts.c");
	FILE *file = fopen(path, "w");
	for (size_t i = 0; i < number; i++) {
		fprintf(file, "%s\n", judge_code_name(codes[i]));
		valid += codes[i] == JUDGE_VALID;
	}
	fclose(file);
	printf("%zu of %zu rows are valid\n", valid, number);
	printf("  judge_c_tree_each, compiled once:  %7.0f ns a row\n", all / number);
	printf("  judge_c_tree, compiled each time:  %7.0f ns a row\n", each / number);
	return 0;
}
