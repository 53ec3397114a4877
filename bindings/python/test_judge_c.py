"""The calls in Python, by the shared library that is the first argument."""

import sys

from judge_c import Answer, Code, Judge, Refused
from jsonb import encode, loads

INTEGERS = {"items": {"type": "integer"}}

# schema, document, answer to the nested schema
NESTED = [
    (INTEGERS, "[1, 1.0]", Answer(Code.VALID, 0, 0)),
    (INTEGERS, "[1.5]", Answer(Code.INVALID, 0, 0)),
    (True, "null", Answer(Code.VALID, 0, 0)),
    ({"items": 1}, "null", Answer(Code.NOT_A_SCHEMA, 1, 0)),
    ({"title": "x", "not": {"items": {"type": "x", "minimum": 1}}}, "null", Answer(Code.BAD_KEYWORD, 2, 0)),
    ({"not": {"title": "x", "$ref": "#"}}, "null", Answer(Code.UNKNOWN_KEYWORD, 1, 0)),
    ({}, "123456789012345678901234567890123456789", Answer(Code.DOCUMENT_NUMBER_TOO_WIDE, 0, 0)),
]

# keywords, document, answer to the flat keyword object
FLAT = [
    ({"type": "integer"}, "1.0", Answer(Code.VALID, 0, 0)),
    ({"type": "integer", "items": {}}, "1.0", Answer(Code.UNKNOWN_KEYWORD, 0, 1)),
    ([], "1.0", Answer(Code.NOT_AN_OBJECT, 0, 0)),
]


def refusal(call, *arguments):
    try:
        call(*arguments)
    except Refused as refused:
        return refused.answer
    return None


def test(judge):
    for schema, document, answer in NESTED:
        assert judge.tree(encode(schema), loads(document)) == answer, (schema, document)
    for keywords, document, answer in FLAT:
        assert judge.flat(encode(keywords), loads(document)) == answer, (keywords, document)
    assert judge.tree(b"", b"") == Answer(Code.SCHEMA_MALFORMED, 0, 0)
    assert judge.valid(encode(INTEGERS), encode([1])) is True
    assert judge.valid(encode(INTEGERS), encode(["1"])) is False
    assert refusal(judge.valid, encode({"items": 1}), encode(1)) == Answer(Code.NOT_A_SCHEMA, 1, 0)

    documents = [encode([1]), encode(["1"]), b"\0", encode({})]
    codes = [Code.VALID, Code.INVALID, Code.DOCUMENT_MALFORMED, Code.VALID]
    assert judge.tree_each(encode(INTEGERS), documents) == codes
    assert judge.tree_each(encode(INTEGERS), []) == []
    assert refusal(judge.tree_each, encode({"not": 1}), documents) == Answer(Code.NOT_A_SCHEMA, 1, 0)
    assert judge.flat_each(encode({"type": "array"}), documents) == [Code.VALID, Code.VALID, Code.DOCUMENT_MALFORMED, Code.INVALID]
    assert refusal(judge.flat_each, encode(INTEGERS), documents) == Answer(Code.UNKNOWN_KEYWORD, 0, 0)


if __name__ == "__main__":
    test(Judge(sys.argv[1]))
