/*
 * The program over again, in C: the answers to the lines of standard input. With the word 'tree' a line is a nested schema and a
 * document, and an answer that names a place shows it, as 'BadKeyword { schema: 1, member: 0 }'.
 */
#include "judge_c.h"
#include "line.h"

static void
put_flat(const struct pair *pair)
{
	puts(judge_code_name(judge_c_judge(pair->rules, pair->rules_len, pair->document, pair->document_len).code));
}

static void
put_nested(const struct pair *pair)
{
	struct judge_tree_answer answer = judge_c_tree(pair->rules, pair->rules_len, pair->document, pair->document_len);

	printf("%s", judge_code_name(answer.code));
	if (judge_code_has_schema(answer.code))
		printf(" { schema: %zu", answer.schema);
	if (judge_code_has_member(answer.code))
		printf(", member: %zu", answer.member);
	puts(judge_code_has_schema(answer.code) ? " }" : "");
}

int
main(int count, char **words)
{
	static struct pair pair;
	int nested = count == 2 && strcmp(words[1], "tree") == 0, read;

	while ((read = read_pair(stdin, &pair)) >= 0) {
		if (!read)
			puts("bad line");
		else if (nested)
			put_nested(&pair);
		else
			put_flat(&pair);
	}
	return 0;
}
