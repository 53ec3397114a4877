/*
 * Refuses each growth in turn: a request for memory, or for more of it. With one growth refused, a call answers want of memory or
 * what it answers with memory, and every block comes back. This allocator stands in place of the kit's.
 */
#include <stdbool.h>
#include <stdint.h>
#include <stdio.h>
#include <stdlib.h>
#include <string.h>

enum answer { NO, YES, OUT_OF_MEMORY, ANOTHER, TOO_DEEP };

typedef uint32_t (*call)(const uint8_t *one, size_t one_length, const uint8_t *other, size_t other_length);

uint32_t is_valid(const uint8_t *, size_t, const uint8_t *, size_t);
uint32_t is_unique(const uint8_t *, size_t, const uint8_t *, size_t);
uint32_t is_unique_in_memory(const uint8_t *, size_t, const uint8_t *, size_t);
uint32_t is_encoded_again(const uint8_t *, size_t, const uint8_t *, size_t);
uint32_t is_written(const uint8_t *, size_t, const uint8_t *, size_t);
uint32_t is_pattern(const uint8_t *, size_t, const uint8_t *, size_t);
uint32_t is_literal_pattern(const uint8_t *, size_t, const uint8_t *, size_t);

/* ---- the allocator */

struct tried {
	bool ok;
	void *block;
};

static char nothing[16] __attribute__((aligned(16)));
static long growths, refused_growth, live;

static struct tried tried(void *block)
{
	return (struct tried) {block != NULL, block ? block : nothing};
}

static bool is_refused(void)
{
	return ++growths == refused_growth;
}

struct tried rattle_alloc(size_t size, size_t align)
{
	void *block = is_refused() ? NULL : malloc(size ? size : align);

	live += block != NULL;
	return tried(block);
}

struct tried rattle_realloc(void *block, size_t kept, size_t size, size_t align)
{
	(void) kept, (void) align;
	return tried(is_refused() ? NULL : realloc(block, size ? size : 1));
}

void rattle_dealloc(void *block)
{
	live--;
	free(block);
}

/* ---- the rows */

struct bytes {
	uint8_t at[16384];
	size_t length;
};

static void put_text(struct bytes *bytes, const char *text)
{
	memcpy(bytes->at + bytes->length, text, strlen(text));
	bytes->length += strlen(text);
}

/* The bytes of a hex text, in which spaces are passed over. */
static void put_hex(struct bytes *bytes, const char *hex)
{
	unsigned byte;

	for (; *hex; hex++)
		if (*hex != ' ' && sscanf(hex++, "%2x", &byte) == 1)
			bytes->at[bytes->length++] = (uint8_t) byte;
}

static void put_word(struct bytes *bytes, uint32_t word)
{
	memcpy(bytes->at + bytes->length, &word, 4);
	bytes->length += 4;
}

/* So many arrays around an empty one. */
static void put_nested(struct bytes *bytes, int depth)
{
	for (; depth; depth--) {
		put_word(bytes, 0x40000001);
		put_word(bytes, 0xd0000000 | (uint32_t) (8 * depth - 4));
	}
	put_word(bytes, 0x40000000);
}

/* The whole numbers from 0 to 19, and 0 again where it is asked for. */
static void put_numbers(struct bytes *bytes, bool again)
{
	uint32_t count = again ? 21 : 20, number;

	put_word(bytes, 0x40000000 | count);
	for (uint32_t i = 0; i < count; i++) {
		uint32_t length = i == 0 || i == 20 ? 6 : 8;

		/* number 1 has two bytes of padding, behind the six of number 0: all others begin where four divides */
		put_word(bytes, i == 0 ? 0x90000006 : 0x10000000 | (length + (i == 1 ? 2 : 0)));
	}
	for (uint32_t i = 0; i < count; i++) {
		number = i % 20;
		while (bytes->length % 4)
			bytes->at[bytes->length++] = 0;
		if (number) {
			put_hex(bytes, "20000000 0080");
			bytes->at[bytes->length++] = (uint8_t) number;
			bytes->at[bytes->length++] = 0;
		} else {
			put_hex(bytes, "18000000 0080");
		}
	}
}

/* An array of an empty array and 499 strings. */
static void put_strings(struct bytes *bytes)
{
	put_word(bytes, 0x40000000 | 500);
	put_word(bytes, 0xd0000004);
	for (uint32_t i = 1; i < 500; i++)
		put_word(bytes, i % 32 ? 1 : 0x80000000 | (4 + i));
	put_word(bytes, 0x40000000);
	for (uint32_t i = 1; i < 500; i++)
		put_text(bytes, "a");
}

struct row {
	const char *name;
	call call;
	enum answer answer;
	/* whether no late request changes the answer: those numbers are refused that a tree of the document would come to */
	bool needs_no_tree;
	struct bytes one, other;
};

enum { ROWS = 24 };

static struct row rows[ROWS];
static int count;

static struct row *row(const char *name, call call, enum answer answer)
{
	rows[count] = (struct row) {.name = name, .call = call, .answer = answer};
	return &rows[count++];
}

static void row_of_hex(const char *name, call call, enum answer answer, const char *one, const char *other)
{
	struct row *it = row(name, call, answer);

	put_hex(&it->one, one);
	put_hex(&it->other, other);
}

static void row_of_pattern(call call, enum answer answer, const char *text)
{
	put_text(&row(text, call, answer)->one, text);
}

/* {"const":..}, the value so many containers around an empty one */
static void row_of_constant(const char *name, enum answer answer, const char *keywords, int depth)
{
	struct row *it = row(name, is_valid, answer);

	put_hex(&it->one, keywords);
	put_nested(&it->one, depth);
	put_hex(&it->other, "00000020");
}

static void make_rows(void)
{
	static const char *one_and_one = "02000040 08000090 08000010 2000000000800100 2000000080800100";
	static const char *text = "04000020 04000080 07000000 09000000 09000000 06000000 03000000 0a000010 08000010"
		"74797065 7061747465726e 6d61784c656e677468 6d696e4c656e677468 737472696e67 5e782d 0000"
		"2000000000804000 2000000000800100";
	static const char *required = "01000020 08000080 09000050 7265717569726564 0100004001000080 61";
	static const char *has_a = "01000020 01000080 0b000010 61 000000 2000000000800100";
	struct row *it;

	row_of_hex("an integer", is_valid, YES, "01000020 04000080 07000000 74797065696e7465676572", "01000050 08000090 2000000080800100");
	row_of_hex("a required name that is there", is_valid, YES, required, has_a);
	row_of_hex("a required name that is not", is_valid, NO, required, "00000020");
	row_of_constant("a constant of 128 containers", NO, "01000020 05000080 ff030050 636f6e7374000000", 127);
	row_of_constant("a constant of 129 containers", TOO_DEEP, "01000020 05000080 07040050 636f6e7374000000", 128);
	row_of_hex("a text that has the prefix", is_valid, YES, text, "01000050 03000080 782d61");
	row_of_hex("a text that has not", is_valid, NO, text, "01000050 01000080 79");
	put_hex(&(it = row("499 strings behind a container", is_valid, YES))->one, "00000020");
	put_strings(&it->other);
	it->needs_no_tree = true;
	for (int in_memory = 0; in_memory < 2; in_memory++) {
		call unique = in_memory ? is_unique_in_memory : is_unique;

		row_of_hex("[1, true]", unique, YES, "", "02000040 08000090 00000030 2000000000800100");
		row_of_hex("[1, 1.0]", unique, NO, "", one_and_one);
		put_numbers(&row("0 to 19", unique, YES)->other, false);
		put_numbers(&row("0 to 19, and 0", unique, NO)->other, true);
	}
	row_of_hex("a value of a slice", is_encoded_again, YES, "", has_a);
	put_nested(&row("a value of 100 containers", is_encoded_again, YES)->other, 99);
	put_nested(&row("a value of 129 containers", is_encoded_again, TOO_DEEP)->other, 128);
	put_text(&(it = row("a value of a text", is_written, YES))->one, "{\"a\": 1}");
	put_hex(&it->other, has_a);
	row_of_pattern(is_pattern, YES, "^(?<n>a|b)[c-f]+\\k<n>$");
	row_of_pattern(is_pattern, NO, "(a");
	row_of_pattern(is_literal_pattern, YES, "^(a|b|c)$");
}

/* ---- the runs */

/* The answer, while one growth is refused; none is where its number is 0. */
static uint32_t answer_with(const struct row *row, long refuse)
{
	growths = 0, live = 0, refused_growth = refuse;
	return row->call(row->one.at, row->one.length, row->other.at, row->other.length);
}

/* Whether an answer is the row's, or want of memory where that may be, and whether each block came back. */
static bool is_right(const struct row *row, uint32_t answer, bool may_want)
{
	return (answer == row->answer || (may_want && answer == OUT_OF_MEMORY)) && !live;
}

int main(void)
{
	static const long late[] = {200, 300, 400};
	long refused = 0, wrong = 0;

	make_rows();
	for (int i = 0; i < count; i++) {
		const struct row *row = &rows[i];
		bool holds = is_right(row, answer_with(row, 0), false);
		long all = growths, wants = 0, before = wrong;

		wrong += !holds;
		for (long refuse = 1; refuse <= all; refuse++) {
			uint32_t answer = answer_with(row, refuse);

			wants += answer == OUT_OF_MEMORY;
			wrong += !is_right(row, answer, true);
		}
		for (int j = 0; row->needs_no_tree && j < 3; j++)
			wrong += !is_right(row, answer_with(row, late[j]), false);
		refused += all;
		printf("%s%s: %ld growths, %ld answers are want of memory\n", wrong == before ? "" : "WRONG: ", row->name, all, wants);
	}
	printf("%ld growths were refused, and %ld answers were wrong\n", refused, wrong);
	return wrong != 0;
}
