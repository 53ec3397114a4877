"""Judges the tests of the public suite by judge_c_tree, and compares: see README.md.

    judge_suite.py LIBRARY FOLDER      prints how many tests ran, how many were left out and why; its status is 1 where an answer is wrong
    judge_suite.py --values FOLDER     prints each schema and document that jsonb holds: its JSON text, a tab, and its bytes in hex
"""

import json
import sys
from collections import Counter
from decimal import Decimal
from pathlib import Path

from jsonb import NotHeld, loads
from judge_c import Code, Judge

# the drafts in which these keywords mean what they mean in 2020-12
DRAFTS = ["draft2020-12", "draft2019-09", "draft7", "draft6"]

FLAT = set(
    "type enum const minimum maximum exclusiveMinimum exclusiveMaximum minLength maxLength pattern minItems maxItems uniqueItems"
    " minProperties maxProperties required default title description $comment examples deprecated readOnly writeOnly".split()
)
ONE_SCHEMA = {"additionalProperties", "items", "not"}
SCHEMAS_IN_LIST = {"allOf", "anyOf"}
SCHEMAS_BY_NAME = {"properties"}

# what is refused by a limit that the project names, and is no wrong answer
LIMITS = {
    Code.PATTERN_NOT_LITERAL: "a pattern that is not literal",
    Code.SCHEMA_NUMBER_TOO_WIDE: "a number of more than 38 digits",
    Code.DOCUMENT_NUMBER_TOO_WIDE: "a number of more than 38 digits",
    Code.SCHEMA_TOO_DEEP: "a schema that nests more than 128 arrays and objects",
}


def not_taken(schema):
    """What of a schema `judge_tree` does not know, wherever a schema stands in it."""
    if not isinstance(schema, dict):
        return
    for name, value in schema.items():
        if name in ONE_SCHEMA and isinstance(value, list):
            yield f"{name} with a list, as older drafts have it"
        elif name in ONE_SCHEMA:
            yield from not_taken(value)
        elif name in SCHEMAS_IN_LIST or name in SCHEMAS_BY_NAME:
            for inner in value if name in SCHEMAS_IN_LIST else value.values():
                yield from not_taken(inner)
        elif name not in FLAT:
            yield name


def written(value):
    """The JSON text of a value, with each number as it was read."""
    if isinstance(value, list):
        return "[" + ",".join(map(written, value)) + "]"
    if isinstance(value, dict):
        return "{" + ",".join(json.dumps(key) + ":" + written(item) for key, item in value.items()) + "}"
    return str(value) if isinstance(value, Decimal) else json.dumps(value)


def tests(folder):
    """Each test: where it stands, its schema without `$schema` at the root, its document, and the verdict that the suite gives."""
    for draft in DRAFTS:
        for path in sorted((folder / draft).rglob("*.json")):
            groups = json.loads(path.read_text(encoding="utf-8"), parse_float=Decimal, parse_int=Decimal)
            for group in groups:
                schema = group["schema"]
                if isinstance(schema, dict):
                    schema = {name: value for name, value in schema.items() if name != "$schema"}
                for test in group["tests"]:
                    place = f"{path.relative_to(folder)}: {group['description']}: {test['description']}"
                    yield draft, place, schema, test["data"], test["valid"]


def left_out(judge, schema, document, valid):
    """Why a test is left out, if it is, and else None; or what is wrong, in a list."""
    unknown = sorted(set(not_taken(schema)))
    if unknown:
        return unknown[0]
    try:
        schema, document = loads(written(schema)), loads(written(document))
    except NotHeld as error:
        return f"jsonb does not hold it: {error}"
    answer = judge.tree(schema, document)
    if answer.code in LIMITS:
        return LIMITS[answer.code]
    return None if answer.code == (Code.VALID if valid else Code.INVALID) else [answer]


def judge_all(library, folder):
    judge = Judge(library)
    ran, out, why, wrong = Counter(), Counter(), Counter(), 0
    for draft, place, schema, document, valid in tests(folder):
        said = left_out(judge, schema, document, valid)
        if isinstance(said, str):
            out[draft] += 1
            why[said] += 1
            continue
        ran[draft] += 1
        if said is not None:
            wrong += 1
            print(f"WRONG: {place}: {said[0]}, and it should be {valid}")
    for draft in DRAFTS:
        if ran[draft] or out[draft]:
            print(f"{draft}: {ran[draft]} ran, {out[draft]} were left out")
        else:
            print(f"{draft}: not in {folder}")
    print("left out for:")
    for reason, count in sorted(why.items(), key=lambda item: (-item[1], item[0])):
        print(f"  {count:5} {reason}")
    print(f"{sum(ran.values())} ran, {wrong} answers were wrong")
    return wrong == 0 and sum(ran.values()) > 0


def print_values(folder):
    values = {written(value) for _, _, schema, document, _ in tests(folder) for value in (schema, document)}
    for text in sorted(values):
        try:
            print(text, loads(text).hex(), sep="\t")
        except NotHeld:
            pass


if __name__ == "__main__":
    first, folder = sys.argv[1], Path(sys.argv[2])
    if first == "--values":
        print_values(folder)
    elif not judge_all(first, folder):
        sys.exit(1)
