/*
 * Is a jsonb document valid under a nested schema, or under a flat keyword object? The four proved calls of crates/judge_c.
 *
 * This header is written by hand to fit crates/judge_c/src: nothing compares the two.
 * docs/BINDINGS.md says what is proved, and what a caller owes.
 */
#ifndef JUDGE_C_H
#define JUDGE_C_H

#include <stddef.h>
#include <stdint.h>

#ifdef __cplusplus
extern "C" {
#endif

/* The numbers of the answers. Later versions may add some, and change none. */
enum judge_code {
	JUDGE_INVALID = 0,
	JUDGE_VALID = 1,
	JUDGE_KEYWORDS_MALFORMED = 2, /* keywords alone, to 5 */
	JUDGE_KEYWORDS_NOT_TEXT = 3,
	JUDGE_KEYWORDS_NUMBER_TOO_WIDE = 4,
	JUDGE_NOT_AN_OBJECT = 5,
	JUDGE_UNKNOWN_KEYWORD = 6, /* from here .. */
	JUDGE_BAD_KEYWORD = 7,
	JUDGE_BAD_PATTERN = 8,
	JUDGE_PATTERN_NOT_LITERAL = 9,
	JUDGE_TOO_DEEP = 10, /* .. to here with the place of a member; keywords alone */
	JUDGE_DOCUMENT_MALFORMED = 11,
	JUDGE_DOCUMENT_NOT_TEXT = 12,
	JUDGE_DOCUMENT_NUMBER_TOO_WIDE = 13,
	JUDGE_OUT_OF_MEMORY = 14,
	JUDGE_BAD_OFFSETS = 15, /* judge_c_each and judge_c_tree_each alone */
	JUDGE_JUDGED = 16, /* judge_c_each and judge_c_tree_each alone */
	JUDGE_SCHEMA_MALFORMED = 17, /* schemas alone, from here on */
	JUDGE_SCHEMA_NOT_TEXT = 18,
	JUDGE_SCHEMA_NUMBER_TOO_WIDE = 19,
	JUDGE_SCHEMA_TOO_DEEP = 20,
	JUDGE_NOT_A_SCHEMA = 21, /* with the number of a schema and no member */
};

struct judge_tree_answer {
	uint32_t code;
	/*
	 * The number of the schema at fault, and the place of its faulty member in key order, from 0; where the code names none, 0.
	 * The root has the number 0. Each schema in it has the number one above that of the schema entered last: members are taken
	 * in key order, and the schemas in a member one after the other, each whole before the next.
	 */
	size_t schema;
	size_t member;
};

/* The answer to a nested schema and one document. */
struct judge_tree_answer judge_c_tree(const uint8_t *schema, size_t schema_len,
                                      const uint8_t *document, size_t document_len);

/*
 * Many documents under one nested schema, which is compiled once. They stand one behind another: number i lies from
 * offsets[i] to offsets[i + 1], so offsets_len is codes_len + 1.
 *
 * JUDGE_JUDGED: codes[i] is the code of document number i, JUDGE_OUT_OF_MEMORY, or JUDGE_BAD_OFFSETS where its offsets
 * fall or pass documents_len. Any other code: no place of codes was written. It is JUDGE_BAD_OFFSETS where offsets_len is
 * not codes_len + 1, JUDGE_OUT_OF_MEMORY, or why the schema is refused.
 */
struct judge_tree_answer judge_c_tree_each(const uint8_t *schema, size_t schema_len,
                                           const uint8_t *documents, size_t documents_len,
                                           const size_t *offsets, size_t offsets_len,
                                           uint32_t *codes, size_t codes_len);

struct judge_answer {
	uint32_t code;
	/* The place of the faulty member in key order, from 0; where the code names none, 0. */
	size_t member;
};

/* The answer to a flat keyword object and one document. */
struct judge_answer judge_c_judge(const uint8_t *keywords, size_t keywords_len,
                                  const uint8_t *document, size_t document_len);

/* Many documents under one keyword object, as judge_c_tree_each has them. */
struct judge_answer judge_c_each(const uint8_t *keywords, size_t keywords_len,
                                 const uint8_t *documents, size_t documents_len,
                                 const size_t *offsets, size_t offsets_len,
                                 uint32_t *codes, size_t codes_len);

/* The name of a code, as the program prints it where it does. */
static inline const char *
judge_code_name(uint32_t code)
{
	switch (code) {
	case JUDGE_INVALID: return "invalid";
	case JUDGE_VALID: return "valid";
	case JUDGE_KEYWORDS_MALFORMED: return "Keywords(Malformed)";
	case JUDGE_KEYWORDS_NOT_TEXT: return "Keywords(NotText)";
	case JUDGE_KEYWORDS_NUMBER_TOO_WIDE: return "Keywords(NumberTooWide)";
	case JUDGE_NOT_AN_OBJECT: return "NotAnObject";
	case JUDGE_UNKNOWN_KEYWORD: return "UnknownKeyword";
	case JUDGE_BAD_KEYWORD: return "BadKeyword";
	case JUDGE_BAD_PATTERN: return "BadPattern";
	case JUDGE_PATTERN_NOT_LITERAL: return "PatternNotLiteral";
	case JUDGE_TOO_DEEP: return "TooDeep";
	case JUDGE_DOCUMENT_MALFORMED: return "Document(Malformed)";
	case JUDGE_DOCUMENT_NOT_TEXT: return "Document(NotText)";
	case JUDGE_DOCUMENT_NUMBER_TOO_WIDE: return "Document(NumberTooWide)";
	case JUDGE_OUT_OF_MEMORY: return "OutOfMemory";
	case JUDGE_BAD_OFFSETS: return "BadOffsets";
	case JUDGE_JUDGED: return "Judged";
	case JUDGE_SCHEMA_MALFORMED: return "Schema(Malformed)";
	case JUDGE_SCHEMA_NOT_TEXT: return "Schema(NotText)";
	case JUDGE_SCHEMA_NUMBER_TOO_WIDE: return "Schema(NumberTooWide)";
	case JUDGE_SCHEMA_TOO_DEEP: return "SchemaTooDeep";
	case JUDGE_NOT_A_SCHEMA: return "NotASchema";
	default: return "unknown code";
	}
}

/* Whether the code comes with the place of a member. */
static inline int
judge_code_has_member(uint32_t code)
{
	return code >= JUDGE_UNKNOWN_KEYWORD && code <= JUDGE_TOO_DEEP;
}

/* Whether the code, of a nested schema, comes with the number of a schema. */
static inline int
judge_code_has_schema(uint32_t code)
{
	return judge_code_has_member(code) || code == JUDGE_NOT_A_SCHEMA;
}

#ifdef __cplusplus
}
#endif

#endif
