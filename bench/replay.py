#!/usr/bin/env python3
"""bench/replay.py [PROGRAM] [--most N] [--runs R]: how the time of cedarreplay grows with the number of requests at one gate.

It writes inputs of a bundle of twenty policies and 10, 100, 1,000 and 10,000 requests, each with two entities of its own. It runs PROGRAM
(crates/cedarreplay/out/cedarreplay, if none is named) on each R times (3), and prints the least time of a run, the time each, and how many times
longer it took than the input a tenth as large. It is no test: it judges nothing but that each request is answered.
"""
import json

import times

ATTRIBUTES = {"n": "Long", "ok": "Bool"}


def request(number):
    """A request, and the store that it is asked over."""
    return {
        "request": {"principal": ["User", f"u{number}"], "action": ["Action", "view"], "resource": ["Doc", f"d{number}"]},
        "store": [
            {"uid": ["User", f"u{number}"], "attrs": {"n": number % 20, "ok": True}},
            {"uid": ["Doc", f"d{number}"], "attrs": {"owner": ["uid", "User", f"u{number}"]}},
        ],
        "steps": [],
    }


def policy(number):
    own = ["eq", ["get", ["var", "resource"], "owner"], ["var", "principal"]]
    return {"id": f"p{number}", "effect": "permit", "when": ["and", own, ["eq", ["get", ["var", "principal"], "n"], number]]}


def requests(size):
    types = {"User": {"attrs": ATTRIBUTES}, "Doc": {"attrs": {"owner": {"entity": "User"}}}}
    schema = [{"": {"entityTypes": types, "actions": {"view": {"principals": ["User"], "resources": ["Doc"]}}}}]
    bundle = {"version": 1, "level": 1, "limit": 16, "schema": schema, "policies": [policy(it) for it in range(20)], **request(0)}
    return "".join(json.dumps(it) + "\n" for it in [bundle, *map(request, range(1, size))])


if __name__ == "__main__":
    program, sizes, runs = times.given(__doc__, "cedarreplay", 10_000)
    times.series("requests", requests, program, sizes, runs)
