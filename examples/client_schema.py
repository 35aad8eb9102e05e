#!/usr/bin/env python3
"""client_schema.py --request, or client_schema.py QUERY.. < ANSWER: the schema that a client builds.

The first prints the request line of the introspection query of graphql-js, as graphql-core, its port,
has it. The second reads the line that a program answers it, builds the client's schema, prints it, and
tells why the queries in these files are not valid by it, with status 1. Both need graphql-core:

    client_schema.py --request | PROGRAM SCHEMA DATA > ANSWER
    client_schema.py QUERY.. < ANSWER
"""

import json
import pathlib
import sys

from graphql import build_client_schema, get_introspection_query, parse, print_schema, validate


def main():
    if sys.argv[1:] == ["--request"]:
        print(json.dumps({"query": get_introspection_query()}))
        return
    answer = json.loads(sys.stdin.readline())
    schema = build_client_schema(answer["data"])
    print(print_schema(schema))
    told = []
    for path in sys.argv[1:]:
        query = parse(pathlib.Path(path).read_text())
        told += [f"{path}: {error.message}" for error in validate(schema, query)]
    sys.exit("\n".join(told) or None)


main()
