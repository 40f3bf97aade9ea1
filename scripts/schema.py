"""The part of JSON Schema (draft 2020-12) that next/docs/answers.schema.json uses. A keyword that is not known here is an error."""

TYPES = {"object": dict, "array": list, "string": str, "integer": int, "boolean": bool, "null": type(None)}
SILENT = {"$schema", "title", "$defs"}


def same(one, other):
    return type(one) is type(other) and one == other  # 1 and true differ


def listed(types):
    return types if isinstance(types, list) else [types]


# whether a value is right by a keyword; a keyword for another type than the value's says nothing of it
TESTS = {
    "const": same,
    "enum": lambda value, told: any(same(value, other) for other in told),
    "type": lambda value, told: any(type(value) is TYPES[name] for name in listed(told)),
    "required": lambda value, told: type(value) is not dict or all(key in value for key in told),
    "minItems": lambda value, told: type(value) is not list or len(value) >= told,
    "maxItems": lambda value, told: type(value) is not list or len(value) <= told,
    "minimum": lambda value, told: type(value) is not int or value >= told,
    "maximum": lambda value, told: type(value) is not int or value <= told,
}


def faults(root, value, schema, at, met):
    """Where a value breaks a schema that stands at a place; `met` gets the choices that it takes (see `choices`)."""
    for keyword, told in schema.items():
        here = "%s/%s" % (at, keyword)
        if keyword in TESTS:
            if not TESTS[keyword](value, told):
                yield here
        elif keyword == "$ref":
            yield from faults(root, value, root["$defs"][told[len("#/$defs/"):]], told, met)
        elif keyword == "oneOf":
            yield from faults_of_branches(root, value, told, here, met)
        elif keyword == "properties":
            for key in told if type(value) is dict else ():
                if key in value:
                    yield from faults(root, value[key], told[key], "%s/%s" % (here, key), met)
        elif keyword == "additionalProperties" and told is False:
            if type(value) is dict and not value.keys() <= schema["properties"].keys():
                yield here
        elif keyword == "items":
            for item in value if type(value) is list else ():
                yield from faults(root, item, told, here, met)
        elif keyword not in SILENT:
            raise SystemExit("%s: the keyword is not known" % here)
    if "enum" in schema:
        met.add("%s/enum/%s" % (at, value))
    if type(schema.get("type")) is list:
        met.update("%s/type/%s" % (at, name) for name in schema["type"] if type(value) is TYPES[name])


def faults_of_branches(root, value, branches, at, met):
    """A value must fit one branch, and no other; of those that it breaks the one is told that it breaks least."""
    found = []
    for number, branch in enumerate(branches):
        here, inner = "%s/%d" % (at, number), set()
        found.append((list(faults(root, value, branch, here, inner)), inner | {here}))
    fitting = [inner for broken, inner in found if not broken]
    if len(fitting) == 1:
        met |= fitting[0]
    else:
        yield "%s fits %d branches: %s" % (at, len(fitting), min((broken for broken, _ in found), key=len))


def choices(schema, at="#"):
    """The places where values differ: each branch of a oneOf, each value of an enum, each type where there are several."""
    for key, inner in schema.items() if type(schema) is dict else enumerate(schema):
        here = "%s/%s" % (at, key)
        if key == "oneOf":
            yield from ("%s/%d" % (here, number) for number in range(len(inner)))
        elif key == "enum" or (key == "type" and type(inner) is list):
            yield from ("%s/%s" % (here, value) for value in inner)
        if type(inner) in (dict, list):
            yield from choices(inner, here)
