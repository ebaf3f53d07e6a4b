#!/usr/bin/env python3
"""tests/valid_answers.py SCHEMA: how many lines of standard input are valid by the JSON Schema, and each that isn't."""

import json
import sys

import jsonschema

schema = json.loads(open(sys.argv[1]).read())
jsonschema.Draft7Validator.check_schema(schema)
validator = jsonschema.Draft7Validator(schema)
valid = 0
for line in sys.stdin:
    fault = next(validator.iter_errors(json.loads(line)), None)
    if fault is None:
        valid += 1
    else:
        print(f"not valid: {line.rstrip()}: {fault.message}")
print(f"{valid} valid")
