/* The smallest caller: are the elements of [1.0] integers? It prints 'valid'. */
#include <stdio.h>

#include "judge_c.h"

/* {"items":{"type":"integer"}} and [1.0], as PostgreSQL keeps them */
static const uint8_t schema[] = {
	0x01, 0, 0, 0x20, 5, 0, 0, 0x80, 0x1a, 0, 0, 0x50, 'i', 't', 'e', 'm', 's', 0, 0, 0,
	0x01, 0, 0, 0x20, 4, 0, 0, 0x80, 7, 0, 0, 0, 't', 'y', 'p', 'e', 'i', 'n', 't', 'e', 'g', 'e', 'r'};
static const uint8_t document[] = {0x01, 0, 0, 0x40, 8, 0, 0, 0x90, 0x20, 0, 0, 0, 0x80, 0x80, 1, 0};

int
main(void)
{
	struct judge_tree_answer answer = judge_c_tree(schema, sizeof schema, document, sizeof document);

	puts(judge_code_name(answer.code));
	return answer.code != JUDGE_VALID;
}
