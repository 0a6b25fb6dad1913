#!/usr/bin/env python3
"""Loads an N-Quads document into rdflib's in-memory store and prints its size, or the result of a query as JSON.

    rdflib_peer.py FILE [QUERY]
    rdflib_peer.py --version
"""
import importlib.metadata
import sys


def load(path):
    """Returns rdflib's store of a document. The import is here so that a Python without rdflib can import this file."""
    import rdflib

    dataset = rdflib.Dataset()
    with open(path, "rb") as document:
        dataset.parse(document, format="nquads", publicID="urn:x-rdflib:default")
    return dataset


def main():
    if sys.argv[1] == "--version":
        print(importlib.metadata.version("rdflib"))
        return
    dataset = load(sys.argv[1])
    if len(sys.argv) > 2:
        sys.stdout.buffer.write(dataset.query(sys.argv[2]).serialize(format="json"))
    else:
        print(len(dataset))


if __name__ == "__main__":
    main()
