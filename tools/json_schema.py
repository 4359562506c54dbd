"""Answers in JSON against the schemas of docs/json/.

Read is a part of JSON Schema, draft 2020-12: $ref, type, const, enum, examples, anyOf, properties, required, items,
minimum, maximum, minItems, maxItems and pattern. Beyond that standard, a member that no `properties` names and a value that
`examples` lacks are faults here, so that the schemas name all that the program answers.
"""
import json
import os
import re

FOLDER = f"{os.path.dirname(os.path.dirname(os.path.abspath(__file__)))}/docs/json"


class Schemas:
    """The schemas of docs/json/, by verb."""

    def __init__(self):
        self.read, self.used = {}, set()

    def at(self, name):
        if name not in self.read:
            with open(f"{FOLDER}/{name}", encoding="utf-8") as file:
                self.read[name] = json.load(file)
        return self.read[name]

    def unused(self):
        """The schemas of verbs that no answer was compared with."""
        return sorted({it for it in os.listdir(FOLDER) if it != "common.json"} - self.used)

    def faults(self, line):
        """What is wrong with a line that is an answer in JSON."""
        value = json.loads(line)
        name = f"{value.get('command')}.json"
        if not os.path.isfile(f"{FOLDER}/{name}"):
            return [f"there is no docs/json/{name}"]
        self.used.add(name)
        return self.check(value, self.at(name), name, "")

    def resolved(self, schema, name):
        if "$ref" not in schema:
            return schema, name
        file, _, inner = schema["$ref"].partition("#/$defs/")
        found = self.at(file or name)
        return (found["$defs"][inner] if inner else found), file or name

    def check(self, value, schema, name, at):
        """The faults of a value, each with its place."""
        schema, name = self.resolved(schema, name)
        if "anyOf" in schema:
            return min((self.check(value, it, name, at) for it in schema["anyOf"]), key=len)
        return [f"{at or 'answer'}: {it}" for it in own_faults(value, schema)] + self.inner(value, schema, name, at)

    def inner(self, value, schema, name, at):
        found = []
        if isinstance(value, dict) and "properties" in schema:
            for key, it in value.items():
                inner = schema["properties"].get(key)
                found += [f"{at}/{key}: the schema has no such member"] if inner is None else self.check(it, inner, name, f"{at}/{key}")
        if isinstance(value, list) and "items" in schema:
            for place, it in enumerate(value):
                found += self.check(it, schema["items"], name, f"{at}/{place}")
        return found


TYPES = {"object": dict, "array": list, "string": str, "boolean": bool, "null": type(None), "integer": int}
KNOWN = {"$schema", "$id", "$defs", "$ref", "title", "description", "type", "const", "enum", "examples", "anyOf", "properties", "required",
         "items", "minimum", "maximum", "minItems", "maxItems", "pattern"}


def is_of(value, name):
    return isinstance(value, TYPES[name]) and not (name == "integer" and isinstance(value, bool))


def own_faults(value, schema):
    """What is wrong with a value, but for its members and items."""
    yield from (f"the schema has {it}, which is not read here" for it in schema.keys() - KNOWN)
    types = schema.get("type", [])
    if types and not any(is_of(value, it) for it in ([types] if isinstance(types, str) else types)):
        yield f"{json.dumps(value)} is not of type {types}"
        return
    if "const" in schema and value != schema["const"]:
        yield f"{json.dumps(value)} is not {json.dumps(schema['const'])}"
    if value not in schema.get("enum", schema.get("examples", [value])):
        yield f"{json.dumps(value)} is none of {json.dumps(schema.get('enum', schema.get('examples')))}"
    if isinstance(value, int) and not schema.get("minimum", value) <= value <= schema.get("maximum", value):
        yield f"{value} is out of range"
    if isinstance(value, list) and not schema.get("minItems", 0) <= len(value) <= schema.get("maxItems", len(value)):
        yield f"{len(value)} items"
    if isinstance(value, str) and not re.search(schema.get("pattern", ""), value):
        yield f"{json.dumps(value)} is not as {schema['pattern']}"
    if isinstance(value, dict):
        yield from (f"{it} is missing" for it in schema.get("required", []) if it not in value)
