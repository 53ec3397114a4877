/* A line of two hex texts with one space between, as the program reads it. */
#ifndef LINE_H
#define LINE_H

#include <stdint.h>
#include <stdio.h>
#include <string.h>

#define MOST 65536

/* the keywords or the schema, and the document */
struct pair {
	uint8_t rules[MOST], document[MOST];
	size_t rules_len, document_len;
};

static int
digit(char c)
{
	const char *digits = "0123456789abcdefABCDEF", *at = c ? strchr(digits, c) : NULL;
	int place = at ? (int) (at - digits) : -1;

	return place < 16 ? place : place - 6;
}

/* The bytes of a hex text that ends at 'end', and whether it is one. */
static int
read_hex(const char *text, const char *end, uint8_t *bytes, size_t *len)
{
	for (*len = 0; text < end; text += 2) {
		if (end - text < 2 || digit(text[0]) < 0 || digit(text[1]) < 0)
			return 0;
		bytes[(*len)++] = (uint8_t) (16 * digit(text[0]) + digit(text[1]));
	}
	return 1;
}

/* 1: a pair, 0: another line, -1: no line is left. Lines are shorter than MOST. */
static int
read_pair(FILE *file, struct pair *pair)
{
	static char line[MOST];
	char *end, *space;

	if (!fgets(line, sizeof line, file))
		return -1;
	end = line + strcspn(line, "\n");
	space = memchr(line, ' ', (size_t) (end - line));
	return space && read_hex(line, space, pair->rules, &pair->rules_len)
		&& read_hex(space + 1, end, pair->document, &pair->document_len);
}

#endif
