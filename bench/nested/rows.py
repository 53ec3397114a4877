"""Makes a schema of 20 properties and 2,000 orders of about 1 KB from a seed, of which about one in ten is invalid.

    rows.py FOLDER      writes schema.json and rows.jsonl, and the same as jsonb: schema.bin, rows.bin, and offsets.bin, 8 bytes each
"""

import json
import random
import sys
from pathlib import Path
from struct import pack

from jsonb import loads

ROWS = 2000
TEXT = {"type": "string", "minLength": 1, "maxLength": 80}
SCHEMA = {
    "type": "object",
    "required": ["id", "customer", "email", "status", "lines", "total", "currency", "created", "address"],
    "additionalProperties": False,
    "properties": {
        "id": {"type": "integer", "minimum": 1},
        "customer": TEXT,
        "email": TEXT,
        "phone": {"anyOf": [{"type": "null"}, TEXT]},
        "status": {"enum": ["new", "paid", "sent", "closed", "returned"]},
        "currency": {"type": "string", "minLength": 3, "maxLength": 3},
        "total": {"type": "integer", "minimum": 0},
        "discount": {"type": "integer", "minimum": 0, "exclusiveMaximum": 100},
        "created": {"type": "string", "pattern": "^2026-"},
        "changed": {"type": ["string", "null"]},
        "paid": {"type": "boolean"},
        "gift": {"type": "boolean"},
        "note": {"type": "string", "maxLength": 200},
        "channel": {"not": {"enum": ["test", "internal"]}, "type": "string"},
        "tags": {"type": "array", "maxItems": 8, "items": {"type": "string", "maxLength": 20}},
        "visits": {"type": "array", "items": {"type": "integer", "minimum": 0}},
        "address": {
            "type": "object",
            "required": ["city", "street"],
            "properties": {"city": TEXT, "street": TEXT, "zip": TEXT, "country": TEXT},
            "additionalProperties": False,
        },
        "lines": {
            "type": "array",
            "minItems": 1,
            "items": {
                "type": "object",
                "required": ["sku", "quantity", "price"],
                "properties": {
                    "sku": {"type": "string", "pattern": "^sku-"},
                    "title": TEXT,
                    "quantity": {"type": "integer", "minimum": 1},
                    "price": {"type": "integer", "minimum": 0},
                },
                "additionalProperties": False,
            },
        },
        "weights": {"type": "array", "items": {"allOf": [{"minimum": 0}, {"maximum": 500}]}},
        "labels": {"type": "object", "additionalProperties": {"type": "string"}},
    },
}
assert len(SCHEMA["properties"]) == 20

WORDS = "river stone paper lamp window garden copper silver north harbor field winter candle bridge market cotton".split()

# what makes a row invalid
FAULTS = [
    lambda row: row.pop("email"),
    lambda row: row.update(status="lost"),
    lambda row: row.update(discount=100),
    lambda row: row.update(extra=1),
    lambda row: row.update(created="1999-12-31"),
    lambda row: row["lines"][-1].update(quantity=0),
    lambda row: row["tags"].append(7),
    lambda row: row["address"].pop("city"),
    lambda row: row.update(channel="test"),
    lambda row: row["labels"].update(size=9),
]


def words(chance, count):
    return " ".join(chance.choice(WORDS) for _ in range(count))


def row(chance, number):
    return {
        "id": number + 1,
        "customer": words(chance, 2),
        "email": f"{chance.choice(WORDS)}.{number}@example.org",
        "phone": chance.choice([None, f"+44 20 {chance.randint(1000000, 9999999)}"]),
        "status": chance.choice(["new", "paid", "sent", "closed"]),
        "currency": chance.choice(["EUR", "GBP", "USD"]),
        "total": chance.randint(0, 500000),
        "discount": chance.randint(0, 99),
        "created": f"2026-{chance.randint(1, 12):02}-{chance.randint(1, 28):02}T10:00:00Z",
        "changed": chance.choice([None, "2026-12-01T10:00:00Z"]),
        "paid": chance.random() < 0.5,
        "gift": chance.random() < 0.1,
        "note": words(chance, chance.randint(8, 24)),
        "channel": chance.choice(["shop", "phone", "fair"]),
        "tags": [chance.choice(WORDS) for _ in range(chance.randint(1, 5))],
        "visits": [chance.randint(0, 90000) for _ in range(chance.randint(2, 8))],
        "address": {"city": words(chance, 1), "street": words(chance, 2), "zip": str(chance.randint(10000, 99999)), "country": "GB"},
        "lines": [
            {
                "sku": f"sku-{chance.randint(1000, 9999)}",
                "title": words(chance, 2),
                "quantity": chance.randint(1, 9),
                "price": chance.randint(10, 90000),
            }
            for _ in range(chance.randint(3, 6))
        ],
        "weights": [chance.randint(0, 500) for _ in range(chance.randint(1, 4))],
        "labels": {chance.choice(WORDS): chance.choice(WORDS) for _ in range(2)},
    }


def rows():
    chance = random.Random(20)
    for number in range(ROWS):
        made = row(chance, number)
        if chance.random() < 0.1:
            chance.choice(FAULTS)(made)
        yield json.dumps(made, separators=(",", ":"))


if __name__ == "__main__":
    folder = Path(sys.argv[1])
    texts = list(rows())
    documents = [loads(text) for text in texts]
    schema = json.dumps(SCHEMA)
    ends = [0]
    for document in documents:
        ends.append(ends[-1] + len(document))
    (folder / "schema.json").write_text(schema)
    (folder / "rows.jsonl").write_text("\n".join(texts) + "\n")
    (folder / "schema.bin").write_bytes(loads(schema))
    (folder / "rows.bin").write_bytes(b"".join(documents))
    (folder / "offsets.bin").write_bytes(pack(f"<{len(ends)}Q", *ends))
    size = sum(map(len, texts))
    print(f"{ROWS} rows, {size // ROWS} bytes of text and {ends[-1] // ROWS} bytes of jsonb each")
