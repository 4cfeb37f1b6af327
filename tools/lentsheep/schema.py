"""A validator of JSON Schema, of the words that lentsheep.schema.json uses; another word is a fault of the schema.

`faults(value, schema)` lists what is wrong with a value, each with the place of it, as `/result/answers/0/kind`.
"""
from __future__ import annotations

import json
from pathlib import Path
from typing import Any, Iterator

SCHEMA = Path(__file__).resolve().parent / "lentsheep.schema.json"

_TYPES: dict[str, tuple[type, ...]] = {
    "object": (dict,), "array": (list,), "string": (str,), "integer": (int,), "boolean": (bool,), "null": (type(None),),
}  # fmt: skip
# Words that say nothing of a value.
_SILENT = {"$schema", "$id", "$defs", "title", "description"}


def read_schema() -> dict[str, Any]:
    """The schema of what `--json` prints."""
    return json.loads(SCHEMA.read_text("utf-8"))


def faults(value: Any, schema: dict[str, Any]) -> list[str]:
    """What is wrong with the value; nothing where the schema takes it."""
    return list(_faults(value, schema, schema, ""))


def _faults(value: Any, rule: dict[str, Any], schema: dict[str, Any], place: str) -> Iterator[str]:
    for word, wanted in rule.items():
        if word in _SILENT:
            continue
        if word == "$ref":
            yield from _faults(value, schema["$defs"][wanted.removeprefix("#/$defs/")], schema, place)
        elif word == "anyOf":
            tried = [list(_faults(value, choice, schema, place)) for choice in wanted]
            if all(tried):
                yield f"{place or '/'}: none of {len(wanted)} forms: {min(tried, key=len)[0]}"
        else:
            yield from _of_word(word, wanted, value, rule, schema, place)


def _of_word(word: str, wanted: Any, value: Any, rule: dict[str, Any], schema: dict[str, Any], place: str) -> Iterator[str]:
    at = place or "/"
    if word == "type":
        if not any(_has_type(value, name) for name in ([wanted] if isinstance(wanted, str) else wanted)):
            yield f"{at}: {json.dumps(value)[:60]} is no {wanted}"
    elif word == "const":
        if value != wanted:
            yield f"{at}: {json.dumps(value)[:60]} is not {json.dumps(wanted)}"
    elif word == "enum":
        if value not in wanted:
            yield f"{at}: {json.dumps(value)[:60]} is none of {json.dumps(wanted)}"
    elif word == "minimum":
        if isinstance(value, int) and value < wanted:
            yield f"{at}: {value} is below {wanted}"
    elif word == "required":
        yield from (f"{at}: there is no {name}" for name in wanted if isinstance(value, dict) and name not in value)
    elif word == "properties":
        for name, inner in wanted.items():
            if isinstance(value, dict) and name in value:
                yield from _faults(value[name], inner, schema, f"{place}/{name}")
    elif word == "additionalProperties":
        known = rule.get("properties", {})
        for name, it in value.items() if isinstance(value, dict) else ():
            if name in known:
                continue
            yield from [f"{at}: {name} is not known"] if wanted is False else _faults(it, wanted, schema, f"{place}/{name}")
    elif word == "items":
        for number, it in enumerate(value if isinstance(value, list) else []):
            yield from _faults(it, wanted, schema, f"{place}/{number}")
    else:
        raise ValueError(f"the validator does not know the word {word}")


def _has_type(value: Any, name: str) -> bool:
    # a boolean of Python is an int
    return isinstance(value, _TYPES[name]) and not (name == "integer" and isinstance(value, bool))
