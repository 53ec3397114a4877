/*
 * Each allocation is refused in turn, for the lines of standard input: the answer is want of memory or the same as with
 * memory, and every block comes back. This allocator stands in place of the kit's. With the word 'tree' the lines are nested
 * schemas and documents.
 */
#include <stdlib.h>

#include "judge_c.h"
#include "line.h"

/* what rattle_alloc answers: whether there is a block, and where */
struct tried {
	_Bool ok;
	void *block;
};

static char nothing[16] __attribute__((aligned(16)));
static long calls, refused_call, live, refusals;

static struct tried
tried(void *block)
{
	return (struct tried) {block != NULL, block ? block : nothing};
}

static int
is_refused(void)
{
	return ++calls == refused_call;
}

struct tried
rattle_alloc(size_t size, size_t align)
{
	void *block = is_refused() ? NULL : malloc(size ? size : align);

	live += block != NULL;
	return tried(block);
}

struct tried
rattle_realloc(void *block, size_t kept, size_t size, size_t align)
{
	(void) kept;
	return tried(is_refused() ? NULL : realloc(block, size ? size : align));
}

void
rattle_dealloc(void *block)
{
	live--;
	free(block);
}

/* How a pair is judged: by one call, and by the call for many documents, which gives the code that was written or why none was. */
typedef uint32_t (*judged)(const struct pair *);

static uint32_t
one(const struct pair *pair)
{
	return judge_c_judge(pair->rules, pair->rules_len, pair->document, pair->document_len).code;
}

static uint32_t
each(const struct pair *pair)
{
	size_t offsets[] = {0, pair->document_len};
	uint32_t code = JUDGE_JUDGED, all;

	all = judge_c_each(pair->rules, pair->rules_len, pair->document, pair->document_len, offsets, 2, &code, 1).code;
	return all == JUDGE_JUDGED ? code : all;
}

static uint32_t
tree(const struct pair *pair)
{
	return judge_c_tree(pair->rules, pair->rules_len, pair->document, pair->document_len).code;
}

static uint32_t
tree_each(const struct pair *pair)
{
	size_t offsets[] = {0, pair->document_len};
	uint32_t code = JUDGE_JUDGED, all;

	all = judge_c_tree_each(pair->rules, pair->rules_len, pair->document, pair->document_len, offsets, 2, &code, 1).code;
	return all == JUDGE_JUDGED ? code : all;
}

/* The answer while allocation number 'refuse' is refused; none is where it is 0. */
static uint32_t
with_refusal(judged call, const struct pair *pair, long refuse)
{
	calls = 0, refused_call = refuse;
	return call(pair);
}

/* Refuses each allocation of a call in turn. */
static int
holds(judged call, const struct pair *pair)
{
	uint32_t wanted = with_refusal(call, pair, 0);

	if (wanted == JUDGE_OUT_OF_MEMORY || live)
		return 0;
	for (long refuse = 1;; refuse++) {
		uint32_t code = with_refusal(call, pair, refuse);

		if (live || (code != wanted && code != JUDGE_OUT_OF_MEMORY))
			return 0;
		if (calls < refuse)
			return code == wanted;
		refusals += code == JUDGE_OUT_OF_MEMORY;
	}
}

int
main(int count, char **words)
{
	static struct pair pair;
	int nested = count == 2 && strcmp(words[1], "tree") == 0, read, failed = 0;
	judged of_one = nested ? tree : one, of_many = nested ? tree_each : each;

	for (long number = 1; (read = read_pair(stdin, &pair)) >= 0; number++) {
		if (read && !(holds(of_one, &pair) && holds(of_many, &pair)
				&& with_refusal(of_one, &pair, 0) == with_refusal(of_many, &pair, 0))) {
			printf("line %ld: another answer, or a block that did not come back\n", number);
			failed = 1;
		}
	}
	printf("%ld allocations were refused\n", refusals);
	return failed || refusals == 0;
}
