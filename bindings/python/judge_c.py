"""Is a jsonb value valid under a JSON Schema? The proved calls of crates/judge_c, by ctypes.

    >>> from judge_c import Judge
    >>> from jsonb import encode
    >>> judge = Judge("libjudge_c.so")
    >>> judge.valid(encode({"items": {"type": "integer"}}), encode([1, 1.5]))
    False

Schemas and documents are the bytes that PostgreSQL keeps of a jsonb value, without its length header. docs/BINDINGS.md says how to
build the library, and what is proved.
"""

import ctypes
from enum import IntEnum
from typing import NamedTuple, Sequence


class Code(IntEnum):
    """The numbers of the answers, as bindings/c/judge_c.h has them."""

    INVALID = 0
    VALID = 1
    KEYWORDS_MALFORMED = 2
    KEYWORDS_NOT_TEXT = 3
    KEYWORDS_NUMBER_TOO_WIDE = 4
    NOT_AN_OBJECT = 5
    UNKNOWN_KEYWORD = 6
    BAD_KEYWORD = 7
    BAD_PATTERN = 8
    PATTERN_NOT_LITERAL = 9
    TOO_DEEP = 10
    DOCUMENT_MALFORMED = 11
    DOCUMENT_NOT_TEXT = 12
    DOCUMENT_NUMBER_TOO_WIDE = 13
    OUT_OF_MEMORY = 14
    BAD_OFFSETS = 15
    JUDGED = 16
    SCHEMA_MALFORMED = 17
    SCHEMA_NOT_TEXT = 18
    SCHEMA_NUMBER_TOO_WIDE = 19
    SCHEMA_TOO_DEEP = 20
    NOT_A_SCHEMA = 21


class Answer(NamedTuple):
    """A code, the number of the schema at fault, and the place of its faulty member, both from 0. Where none is named they are 0."""

    code: Code
    schema: int
    member: int


class Refused(ValueError):
    """There is no verdict. `answer` says why."""

    def __init__(self, answer):
        super().__init__(f"{answer.code.name} (schema {answer.schema}, member {answer.member})")
        self.answer = answer


class _Flat(ctypes.Structure):
    _fields_ = [("code", ctypes.c_uint32), ("member", ctypes.c_size_t)]


class _Nested(ctypes.Structure):
    _fields_ = [("code", ctypes.c_uint32), ("schema", ctypes.c_size_t), ("member", ctypes.c_size_t)]


_ONE = [ctypes.c_char_p, ctypes.c_size_t] * 2
_MANY = _ONE + [ctypes.POINTER(ctypes.c_size_t), ctypes.c_size_t, ctypes.POINTER(ctypes.c_uint32), ctypes.c_size_t]


class Judge:
    """The calls of a shared library. Threads may call at once."""

    def __init__(self, library):
        calls = ctypes.CDLL(library)
        self._tree, self._tree_each = calls.judge_c_tree, calls.judge_c_tree_each
        self._flat, self._flat_each = calls.judge_c_judge, calls.judge_c_each
        for call, arguments, result in (
            (self._tree, _ONE, _Nested),
            (self._tree_each, _MANY, _Nested),
            (self._flat, _ONE, _Flat),
            (self._flat_each, _MANY, _Flat),
        ):
            call.argtypes, call.restype = arguments, result

    def tree(self, schema: bytes, document: bytes) -> Answer:
        """The answer to a nested schema and a document."""
        return _answer(self._tree(schema, len(schema), document, len(document)))

    def flat(self, keywords: bytes, document: bytes) -> Answer:
        """The answer to a flat keyword object and a document."""
        return _answer(self._flat(keywords, len(keywords), document, len(document)))

    def valid(self, schema: bytes, document: bytes) -> bool:
        """Whether the document is valid under the nested schema. It raises `Refused` where there is no verdict."""
        answer = self.tree(schema, document)
        if answer.code > Code.VALID:
            raise Refused(answer)
        return answer.code == Code.VALID

    def tree_each(self, schema: bytes, documents: Sequence[bytes]) -> list[Code]:
        """The codes of many documents under a nested schema, which is compiled once. It raises `Refused` where the schema is refused."""
        return _each(self._tree_each, schema, documents)

    def flat_each(self, keywords: bytes, documents: Sequence[bytes]) -> list[Code]:
        """The codes of many documents under a flat keyword object, likewise."""
        return _each(self._flat_each, keywords, documents)


def _answer(given):
    return Answer(Code(given.code), getattr(given, "schema", 0), given.member)


def _each(call, rules, documents):
    ends = [0]
    for document in documents:
        ends.append(ends[-1] + len(document))
    offsets = (ctypes.c_size_t * len(ends))(*ends)
    codes = (ctypes.c_uint32 * len(documents))()
    answer = _answer(call(rules, len(rules), b"".join(documents), ends[-1], offsets, len(ends), codes, len(documents)))
    if answer.code != Code.JUDGED:
        raise Refused(answer)
    return [Code(code) for code in codes]
