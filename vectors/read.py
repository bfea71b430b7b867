#!/usr/bin/env python3
"""Reads vectors: a line each, with the id, the question as a line of `bsc check`, and the answer that is due, with tabs between.
Put your own judge in the place of `print`."""
import json
import sys


def place_of(case):
    if case["place"] == "hub":
        return "hub"
    own = f"{case['place']}:{case['own']}"
    return own if case["place"] == "node" else f"{own}:{case['peer'] or '-'}"


for path in sys.argv[1:]:
    with open(path, encoding="utf-8") as file:
        for case in json.load(file):
            question = f"{place_of(case)} {case['phase']} {case['max']} {case['octets']}"
            answer = " ".join(word for word in (case["verdict"], case["check"], case["nak"]) if word)
            print(case["id"], question, answer, sep="\t")
