"""Prints values from a seed, each as its JSON text, a tab, and its bytes in hex: wide and deep containers, long keys, and numbers of
every length, sign and scale."""

import json
import random

from jsonb import loads


def number(chance):
    digits = "".join(chance.choice("0123456789") for _ in range(chance.randint(1, 45))).lstrip("0") or "0"
    behind = "".join(chance.choice("0009123456789") for _ in range(chance.randint(0, 45)))
    exponent = chance.choice(["", "", f"e{chance.randint(-300, 300)}", f"E+{chance.randint(0, 30)}"])
    return chance.choice(["", "-"]) + digits + ("." + behind if behind else "") + exponent


def text(chance):
    return json.dumps("".join(chance.choice(["a", "b", "é", "🦀", '"', "\\", "z" * 9]) for _ in range(chance.randint(0, 12))))


def value(chance, depth):
    kind = chance.randint(0, 7 if depth else 4)
    if kind < 2:
        return number(chance)
    if kind < 4:
        return text(chance)
    if kind == 4:
        return chance.choice(["true", "false", "null"])
    many = range(chance.choice([0, 1, 3, 31, 32, 33, 65]) if depth > 2 else chance.randint(0, 4))
    if kind == 5:
        return "{" + ", ".join(text(chance) + ": " + value(chance, depth - 1) for _ in many) + "}"
    return "[" + ", ".join(value(chance, depth - 1) for _ in many) + "]"


if __name__ == "__main__":
    chance = random.Random(7)
    for _ in range(400):
        made = value(chance, 4)
        print(made, loads(made).hex(), sep="\t")
