/* Many documents in one call: what is answered, what is written, and which schema and member are named. */
#include <stdio.h>
#include <string.h>

#include "judge_c.h"

#define UNWRITTEN 99
#define NONE {UNWRITTEN, UNWRITTEN, UNWRITTEN, UNWRITTEN}

enum call { FLAT, NESTED };

struct row {
	const char *says;
	enum call call;
	const char *rules;
	size_t rules_len, offsets_len, codes_len;
	size_t offsets[5];
	/* of a flat keyword object the number of the schema is 0 */
	struct judge_tree_answer answer;
	uint32_t codes[4];
};

#define BYTES(text) text, sizeof text - 1

/* Behind one another: 1.0 (16 bytes), 1.5 (18 bytes), 'null' (8 bytes), and an array cut short (3 bytes) */
static const char documents[] =
	"\1\0\0\x50" "\x08\0\0\x90" "\x20\0\0\0" "\x80\x80\1\0"
	"\1\0\0\x50" "\x0a\0\0\x90" "\x28\0\0\0" "\x80\x80\1\0\x88\x13"
	"\1\0\0\x50" "\0\0\0\xc0"
	"\0\0\0";

/* {"type":"integer"}, [], {"type":"integer","x":null} and {"type":"integer","wrong":null} */
#define INTEGER BYTES("\1\0\0\x20" "\4\0\0\x80" "\7\0\0\0" "typeinteger")
#define ARRAY BYTES("\0\0\0\x40")
#define FIRST BYTES("\2\0\0\x20" "\1\0\0\x80" "\4\0\0\0" "\0\0\0\x40" "\7\0\0\0" "xtypeinteger")
#define SECOND BYTES("\2\0\0\x20" "\4\0\0\x80" "\5\0\0\0" "\7\0\0\0" "\0\0\0\x40" "typewronginteger")

/* {"not":X} of the first, the second and the last of these */
#define NOT_INTEGER BYTES("\1\0\0\x20" "\3\0\0\x80" "\x18\0\0\x50" "not\0" "\1\0\0\x20" "\4\0\0\x80" "\7\0\0\0" "typeinteger")
#define NOT_ARRAY BYTES("\1\0\0\x20" "\3\0\0\x80" "\5\0\0\x50" "not\0" "\0\0\0\x40")
#define NOT_SECOND BYTES("\1\0\0\x20" "\3\0\0\x80" "\x25\0\0\x50" "not\0" \
	"\2\0\0\x20" "\4\0\0\x80" "\5\0\0\0" "\7\0\0\0" "\0\0\0\x40" "typewronginteger")

static const struct row rows[] = {
	{"four documents", FLAT, INTEGER, 5, 4, {0, 16, 34, 42, 45}, {JUDGE_JUDGED, 0, 0},
		{JUDGE_VALID, JUDGE_INVALID, JUDGE_INVALID, JUDGE_DOCUMENT_MALFORMED}},
	{"no document", FLAT, INTEGER, 1, 0, {7}, {JUDGE_JUDGED, 0, 0}, NONE},
	{"offsets that fall, repeat and pass the end", FLAT, INTEGER, 5, 4, {16, 0, 16, 16, 46}, {JUDGE_JUDGED, 0, 0},
		{JUDGE_BAD_OFFSETS, JUDGE_VALID, JUDGE_DOCUMENT_MALFORMED, JUDGE_BAD_OFFSETS}},
	{"no offset", FLAT, INTEGER, 0, 0, {0}, {JUDGE_BAD_OFFSETS, 0, 0}, NONE},
	{"an offset too few", FLAT, INTEGER, 2, 2, {0, 16}, {JUDGE_BAD_OFFSETS, 0, 0}, NONE},
	{"an offset too many", FLAT, INTEGER, 3, 1, {0, 16, 34}, {JUDGE_BAD_OFFSETS, 0, 0}, NONE},
	{"keywords that are no object", FLAT, ARRAY, 3, 2, {0, 16, 34}, {JUDGE_NOT_AN_OBJECT, 0, 0}, NONE},
	{"keywords that are cut short", FLAT, BYTES("\0\0\0"), 3, 2, {0, 16, 34}, {JUDGE_KEYWORDS_MALFORMED, 0, 0}, NONE},
	{"an unknown first member", FLAT, FIRST, 3, 2, {0, 16, 34}, {JUDGE_UNKNOWN_KEYWORD, 0, 0}, NONE},
	{"an unknown second member", FLAT, SECOND, 3, 2, {0, 16, 34}, {JUDGE_UNKNOWN_KEYWORD, 0, 1}, NONE},

	{"four documents under a schema", NESTED, NOT_INTEGER, 5, 4, {0, 16, 34, 42, 45}, {JUDGE_JUDGED, 0, 0},
		{JUDGE_INVALID, JUDGE_VALID, JUDGE_VALID, JUDGE_DOCUMENT_MALFORMED}},
	{"offsets that fall and pass the end, under a schema", NESTED, INTEGER, 5, 4, {16, 0, 16, 16, 46}, {JUDGE_JUDGED, 0, 0},
		{JUDGE_BAD_OFFSETS, JUDGE_VALID, JUDGE_DOCUMENT_MALFORMED, JUDGE_BAD_OFFSETS}},
	{"an offset too few under a schema", NESTED, INTEGER, 2, 2, {0, 16}, {JUDGE_BAD_OFFSETS, 0, 0}, NONE},
	{"a root that is no schema", NESTED, ARRAY, 3, 2, {0, 16, 34}, {JUDGE_NOT_A_SCHEMA, 0, 0}, NONE},
	{"a schema that is cut short", NESTED, BYTES("\0\0\0"), 3, 2, {0, 16, 34}, {JUDGE_SCHEMA_MALFORMED, 0, 0}, NONE},
	{"no schema under not", NESTED, NOT_ARRAY, 3, 2, {0, 16, 34}, {JUDGE_NOT_A_SCHEMA, 1, 0}, NONE},
	{"an unknown second member under not", NESTED, NOT_SECOND, 3, 2, {0, 16, 34}, {JUDGE_UNKNOWN_KEYWORD, 1, 1}, NONE},
};

/* The answer to the row's call, in one form for both. */
static struct judge_tree_answer
ask(const struct row *row, uint32_t *codes)
{
	const uint8_t *rules = (const uint8_t *) row->rules, *all = (const uint8_t *) documents;
	struct judge_answer flat;

	if (row->call == NESTED)
		return judge_c_tree_each(rules, row->rules_len, all, sizeof documents - 1,
			row->offsets, row->offsets_len, codes, row->codes_len);
	flat = judge_c_each(rules, row->rules_len, all, sizeof documents - 1, row->offsets, row->offsets_len, codes, row->codes_len);
	return (struct judge_tree_answer) {flat.code, 0, flat.member};
}

/* Whether the row's call answers and writes what the row says. */
static int
agrees(const struct row *row)
{
	uint32_t codes[4] = NONE;
	struct judge_tree_answer answer = ask(row, codes);

	return answer.code == row->answer.code && answer.schema == row->answer.schema && answer.member == row->answer.member
		&& memcmp(codes, row->codes, sizeof codes) == 0;
}

int
main(void)
{
	int failed = 0;

	for (size_t i = 0; i < sizeof rows / sizeof *rows; i++) {
		if (!agrees(&rows[i])) {
			printf("%s: another answer\n", rows[i].says);
			failed = 1;
		}
	}
	return failed;
}
