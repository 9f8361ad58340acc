#!/usr/bin/env python3
"""validate.py SCHEMA DOCUMENT..: holds each JSON document against a JSON Schema, by as much of draft 2020-12 as docs/json.schema.json uses.

A word of the schema that isn't known here is an error, so that none goes by unread. Prints what a document breaks; the exit status is 1 then.
"""
import json, re, sys

IGNORED = {"$schema", "$defs", "title", "description", "then", "else"}
TYPES = {"object": dict, "array": list, "string": str, "null": type(None)}


def is_type(value, name):
    if name == "boolean":
        return isinstance(value, bool)
    if name == "integer":
        return isinstance(value, int) and not isinstance(value, bool)
    return isinstance(value, TYPES[name])


def members(root, schema, value, where):
    """What breaks the words that speak of an object's members."""
    for name in schema.get("required", ()):
        if name not in value:
            yield "%s has no %s" % (where, name)
    for name, one in schema.get("properties", {}).items():
        if name in value:
            yield from faults(root, one, value[name], where + "." + name)
    if schema.get("additionalProperties") is False:
        for name in value:
            if name not in schema["properties"]:
                yield "%s has a member %s" % (where, name)


def choices(root, key, rule, value, where):
    """What breaks anyOf and oneOf: the faults of the nearest one."""
    each = [list(faults(root, one, value, where)) for one in rule]
    passed = sum(not one for one in each)
    if passed == 0:
        yield from min(each, key=len)
    elif passed > 1 and key == "oneOf":
        yield "%s is %d of them" % (where, passed)


def faults(root, schema, value, where):
    """What the value breaks, each with its place."""
    if isinstance(value, dict):
        yield from members(root, schema, value, where)
    for key, rule in schema.items():
        if key in IGNORED or key in ("properties", "required", "additionalProperties"):
            continue
        if key == "$ref":
            yield from faults(root, root["$defs"][rule.removeprefix("#/$defs/")], value, where)
        elif key in ("anyOf", "oneOf"):
            yield from choices(root, key, rule, value, where)
        elif key == "items":
            for number, one in enumerate(value if isinstance(value, list) else ()):
                yield from faults(root, rule, one, "%s[%d]" % (where, number))
        elif key == "if":
            branch = "else" if list(faults(root, rule, value, where)) else "then"
            yield from faults(root, schema.get(branch, {}), value, where)
        elif not holds(key, rule, value):
            yield "%s breaks %s %r" % (where, key, rule)


def holds(key, rule, value):
    """The words that speak of a value by itself."""
    if key == "type":
        return is_type(value, rule)
    if key == "const":
        return value == rule and type(value) is type(rule)
    if key == "enum":
        return value in rule
    if key == "pattern":
        return not isinstance(value, str) or re.search(rule, value) is not None
    if key == "minimum":
        return not isinstance(value, int) or value >= rule
    if key == "maximum":
        return not isinstance(value, int) or value <= rule
    raise SystemExit("the schema has a word that is not known here: " + key)


def main(schema, *documents):
    with open(schema, encoding="utf-8") as file:
        root = json.load(file)
    bad = 0
    for name in documents:
        with open(name, encoding="utf-8") as file:
            for fault in faults(root, root, json.load(file), "document"):
                bad = 1
                print("%s: %s" % (name, fault))
    return bad


sys.exit(main(*sys.argv[1:]))
