"""What jsonschema finds in documents, for tests/tools/schema_test: it reads a schema and a list of documents, as JSON, and prints for each document the
keys that its errors are about. It runs by a Python that has the package."""

import json
import sys

import jsonschema


def flat(errors):
    """The errors, and those of the choices of which each failed."""
    for error in errors:
        yield error
        yield from flat(error.context)


def keys_of(error):
    """The keys on the way to what is wrong, and those that are missing or that may not stand there."""
    keys = [key for key in error.absolute_path if isinstance(key, str)]
    if error.validator == "required":
        keys += [key for key in error.validator_value if key not in error.instance]
    if error.validator == "additionalProperties":
        keys += [key for key in error.instance if key not in error.schema["properties"]]
    return keys


def main():
    schema, documents = json.load(sys.stdin)
    jsonschema.Draft202012Validator.check_schema(schema)
    validator = jsonschema.Draft202012Validator(schema)
    json.dump([[keys_of(error) for error in flat(validator.iter_errors(document))] for document in documents], sys.stdout)


if __name__ == "__main__":
    main()
