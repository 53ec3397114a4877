/*
 * jsonb_valid(schema jsonb, document jsonb) and jsonb_valid_flat(keywords jsonb, document jsonb), both returning boolean: each hands
 * both values to the library.
 */
#include "postgres.h"

#include "fmgr.h"
#include "lib/stringinfo.h"
#include "mb/pg_wchar.h"
#include "miscadmin.h"
#include "utils/jsonb.h"
#include "utils/lsyscache.h"

#include "judge_c.h"

PG_MODULE_MAGIC;

PG_FUNCTION_INFO_V1(jsonb_valid_tree);

/* The flat call: databases in which the extension has still version 1.0 call it by this name. */
PG_FUNCTION_INFO_V1(jsonb_valid);

/* What is reported for a refusal. */
struct refusal
{
	int			sqlstate;
	const char *detail;
};

#define WIDE(what) "A number of the " what " has more than 38 digits from the first to the last that is not 0."
#define NO_VALUE(what) "The bytes of the " what " stand for no JSON value."
#define NO_TEXT(what) "A string or a key of the " what " is not UTF-8."

static const struct refusal refusals[] = {
	[JUDGE_KEYWORDS_MALFORMED] = {ERRCODE_DATA_CORRUPTED, NO_VALUE("keywords")},
	[JUDGE_KEYWORDS_NOT_TEXT] = {ERRCODE_CHARACTER_NOT_IN_REPERTOIRE, NO_TEXT("keywords")},
	[JUDGE_KEYWORDS_NUMBER_TOO_WIDE] = {ERRCODE_NUMERIC_VALUE_OUT_OF_RANGE, WIDE("keywords")},
	[JUDGE_NOT_AN_OBJECT] = {ERRCODE_INVALID_PARAMETER_VALUE, "The keywords are no JSON object."},
	[JUDGE_UNKNOWN_KEYWORD] = {ERRCODE_INVALID_PARAMETER_VALUE, "No keyword has this name."},
	[JUDGE_BAD_KEYWORD] = {ERRCODE_INVALID_PARAMETER_VALUE, "The value is not of the form that the keyword asks for."},
	[JUDGE_BAD_PATTERN] = {ERRCODE_INVALID_REGULAR_EXPRESSION, "The value is no pattern of ECMA-262."},
	[JUDGE_PATTERN_NOT_LITERAL] = {ERRCODE_FEATURE_NOT_SUPPORTED, "The value is a pattern, but not a literal one."},
	[JUDGE_TOO_DEEP] = {ERRCODE_PROGRAM_LIMIT_EXCEEDED, "A value that the keyword keeps nests more than 128 arrays and objects."},
	[JUDGE_DOCUMENT_MALFORMED] = {ERRCODE_DATA_CORRUPTED, NO_VALUE("document")},
	[JUDGE_DOCUMENT_NOT_TEXT] = {ERRCODE_CHARACTER_NOT_IN_REPERTOIRE, NO_TEXT("document")},
	[JUDGE_DOCUMENT_NUMBER_TOO_WIDE] = {ERRCODE_NUMERIC_VALUE_OUT_OF_RANGE, WIDE("document")},
	[JUDGE_OUT_OF_MEMORY] = {ERRCODE_OUT_OF_MEMORY, "No memory was left to judge the document."},
	[JUDGE_SCHEMA_MALFORMED] = {ERRCODE_DATA_CORRUPTED, NO_VALUE("schema")},
	[JUDGE_SCHEMA_NOT_TEXT] = {ERRCODE_CHARACTER_NOT_IN_REPERTOIRE, NO_TEXT("schema")},
	[JUDGE_SCHEMA_NUMBER_TOO_WIDE] = {ERRCODE_NUMERIC_VALUE_OUT_OF_RANGE, WIDE("schema")},
	[JUDGE_SCHEMA_TOO_DEEP] = {ERRCODE_PROGRAM_LIMIT_EXCEEDED, "The schema nests more than 128 arrays and objects."},
	[JUDGE_NOT_A_SCHEMA] = {ERRCODE_INVALID_PARAMETER_VALUE, "Neither a truth value nor an object stands where a schema should."},
};

/* The name of the object's member at this place in key order, which is the order in which PostgreSQL keeps them. */
static char *
member_name(JsonbContainer *object, size_t place)
{
	JsonbIterator *members = JsonbIteratorInit(object);
	JsonbValue	value;
	JsonbIteratorToken token;

	while ((token = JsonbIteratorNext(&members, &value, true)) != WJB_DONE)
	{
		if (token == WJB_KEY && place-- == 0)
			return pnstrdup(value.val.string.val, value.val.string.len);
	}
	return pstrdup("?");
}

/*
 * The search for a schema by its number, the way that the library gives numbers: the members of a schema in key order, and the
 * schemas in a member one after the other, each whole before the next. What stands before the schema at fault has no fault.
 */
struct search
{
	size_t		left;			/* how many schemas come before it */
	StringInfoData pointer;		/* where the search is, as a JSON pointer */
	JsonbContainer *found;		/* the schema, where it is an object */
};

static bool find_among(struct search *search, JsonbContainer *all, bool are_members);

/* One more step of the pointer, by RFC 6901. */
static void
push_step(StringInfo pointer, const char *name, int length)
{
	appendStringInfoChar(pointer, '/');
	for (int i = 0; i < length; i++)
	{
		if (name[i] == '~' || name[i] == '/')
			appendStringInfoString(pointer, name[i] == '~' ? "~0" : "~1");
		else
			appendStringInfoChar(pointer, name[i]);
	}
}

/* In a schema. */
static bool
find_in_schema(struct search *search, JsonbValue *schema)
{
	JsonbContainer *object = schema->type == jbvBinary && JsonContainerIsObject(schema->val.binary.data)
		? schema->val.binary.data : NULL;

	check_stack_depth();
	if (search->left == 0)
	{
		search->found = object;
		return true;
	}
	search->left--;
	return object && find_among(search, object, true);
}

static bool
is_named(const char *name, int length, const char *other)
{
	return (size_t) length == strlen(other) && memcmp(name, other, length) == 0;
}

/* In the value of a member of a schema. */
static bool
find_in_member(struct search *search, const char *name, int length, JsonbValue *value)
{
	if (is_named(name, length, "additionalProperties") || is_named(name, length, "items") || is_named(name, length, "not"))
		return find_in_schema(search, value);
	if (is_named(name, length, "properties") || is_named(name, length, "allOf") || is_named(name, length, "anyOf"))
		return value->type == jbvBinary && find_among(search, value->val.binary.data, false);
	return false;
}

/* In the members of a schema; or in schemas, which are the values of an object or of an array. */
static bool
find_among(struct search *search, JsonbContainer *all, bool are_members)
{
	JsonbIterator *values = JsonbIteratorInit(all);
	JsonbValue	key = {0},
				value;
	JsonbIteratorToken token;
	char		digits[16];
	int			place = 0,
				before = search->pointer.len;

	while ((token = JsonbIteratorNext(&values, &value, true)) != WJB_DONE)
	{
		if (token == WJB_KEY)
			key = value;
		if (token == WJB_ELEM)
		{
			key.val.string.val = digits;
			key.val.string.len = snprintf(digits, sizeof digits, "%d", place++);
		}
		if (token == WJB_VALUE || token == WJB_ELEM)
		{
			push_step(&search->pointer, key.val.string.val, key.val.string.len);
			if (are_members ? find_in_member(search, key.val.string.val, key.val.string.len, &value)
				: find_in_schema(search, &value))
				return true;
			search->pointer.len = before;
			search->pointer.data[before] = '\0';
		}
	}
	return false;
}

/* Where a fault is: its member, and the schema as a JSON pointer, if it is not the root. */
static char *
place_of(Jsonb *root, struct judge_tree_answer answer)
{
	JsonbValue	schema = {.type = jbvBinary,.val.binary = {.data = &root->root,.len = VARSIZE(root) - VARHDRSZ}};
	struct search search = {.left = answer.schema};
	StringInfoData place;

	initStringInfo(&place);
	if (!judge_code_has_schema(answer.code))
		return place.data;
	initStringInfo(&search.pointer);
	find_in_schema(&search, &schema);
	if (judge_code_has_member(answer.code) && search.found)
		appendStringInfo(&place, " at member \"%s\"", member_name(search.found, answer.member));
	if (search.pointer.len > 0)
		appendStringInfo(&place, "%s at %s", judge_code_has_member(answer.code) ? " of the schema" : "", search.pointer.data);
	return place.data;
}

static void
refuse_other_encodings(FunctionCallInfo fcinfo)
{
	if (GetDatabaseEncoding() != PG_UTF8)
		ereport(ERROR,
				(errcode(ERRCODE_FEATURE_NOT_SUPPORTED),
				 errmsg("%s: the encoding of the database is %s", get_func_name(fcinfo->flinfo->fn_oid), GetDatabaseEncodingName()),
				 errdetail("Strings are judged as UTF8 alone.")));
}

/* The answer as a verdict, or its refusal. A flat keyword object is the schema number 0 of itself. */
static bool
verdict_of(FunctionCallInfo fcinfo, struct judge_tree_answer answer)
{
	const char *function;

	if (answer.code == JUDGE_VALID || answer.code == JUDGE_INVALID)
		return answer.code == JUDGE_VALID;
	function = get_func_name(fcinfo->flinfo->fn_oid);
	if (answer.code >= lengthof(refusals) || refusals[answer.code].detail == NULL)
		elog(ERROR, "%s: unexpected code %u", function, answer.code);
	ereport(ERROR,
			(errcode(refusals[answer.code].sqlstate),
			 errmsg("%s: %s%s", function, judge_code_name(answer.code), place_of(PG_GETARG_JSONB_P(0), answer)),
			 errdetail("%s", refusals[answer.code].detail)));
}

/* Packed: a stored value keeps its header of one byte and is not copied, since the reader asks for no alignment. */
#define BYTES(value) (const uint8_t *) VARDATA_ANY(value), VARSIZE_ANY_EXHDR(value)

Datum
jsonb_valid_tree(PG_FUNCTION_ARGS)
{
	struct varlena *schema = PG_GETARG_VARLENA_PP(0);
	struct varlena *document = PG_GETARG_VARLENA_PP(1);
	bool		valid;

	refuse_other_encodings(fcinfo);
	valid = verdict_of(fcinfo, judge_c_tree(BYTES(schema), BYTES(document)));
	PG_FREE_IF_COPY(schema, 0);
	PG_FREE_IF_COPY(document, 1);
	PG_RETURN_BOOL(valid);
}

Datum
jsonb_valid(PG_FUNCTION_ARGS)
{
	struct varlena *keywords = PG_GETARG_VARLENA_PP(0);
	struct varlena *document = PG_GETARG_VARLENA_PP(1);
	struct judge_answer answer;
	bool		valid;

	refuse_other_encodings(fcinfo);
	answer = judge_c_judge(BYTES(keywords), BYTES(document));
	valid = verdict_of(fcinfo, (struct judge_tree_answer) {answer.code, 0, answer.member});
	PG_FREE_IF_COPY(keywords, 0);
	PG_FREE_IF_COPY(document, 1);
	PG_RETURN_BOOL(valid);
}
