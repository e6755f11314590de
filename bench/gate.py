#!/usr/bin/env python3
"""bench/gate.py [PROGRAM] [--most N] [--runs R]: how the program's time grows with what the bundle holds.

It writes bundles of 10, 100, 1,000 and 10,000 of each: policies in one environment, policies in four, links of a template, tests of
attributes in one condition (to 100), entity types without parents, with one parent each, in a tree of which each is the parent of ten
others, and in a chain (to 1,000: what descends from each is kept, so that is half the square of the size), actions in one group,
common types of records of which each holds the next (to 100), entities, decisions of one condition of 256 parts, such decisions while an
unknown stands in it, members of a set, wildcards of a pattern that its text just doesn't match (to 1,000), and rounds along a chain of
entities. It runs PROGRAM (crates/cedargate/out/cedargate, if none is named) on each R times (3), and prints the least time of a run, the
time each, and how many times longer it took than the bundle a tenth as large. It is no test: it judges nothing but that each run answers.
"""
import json

import times

PRINCIPAL = ["var", "principal"]


def bundle_of(policies, types=(), level=0, limit=16, steps=(), store=(), attributes=None, kinds=("User",), actions=(), common=None, context=None):
    declared = {**{it: {} for it in kinds}, **dict(types), "User": {"attrs": attributes or {}}}
    view = {"principals": list(kinds), "resources": list(kinds), **({"context": {"record": {"n": "Long"}}} if context else {})}
    return json.dumps({
        "version": 1,
        "level": level,
        "limit": limit,
        "schema": [{"": {"commonTypes": common or {}, "entityTypes": declared, "actions": {"view": view, **dict(actions)}}}],
        "policies": list(policies),
        "request": {"principal": ["User", "u0"], "action": ["Action", "view"], "resource": ["User", "u0"], **({"context": context} if context else {})},
        "store": list(store),
        "steps": list(steps),
    })


def permits(condition, name="p"):
    return {"id": name, "effect": "permit", "when": condition}


def policy(number):
    is_ours = ["eq", PRINCIPAL, ["uid", "User", f"v{number}"]]
    return permits(["and", ["less", number, number + 1], ["not", is_ours]], f"p{number}")


def policies(size):
    return bundle_of(policy(it) for it in range(size))


def policies_in_four(size):
    return bundle_of((policy(it) for it in range(size)), kinds=("User", "Group"))


def links(size):
    return bundle_of({"id": f"p{it}", "effect": "permit", "principal": {"eq": "?"}, "link": {"?principal": ["User", f"u{it}"]}} for it in range(size))


def facts(size):
    condition = True
    for it in reversed(range(size)):
        condition = ["and", ["and", ["has", PRINCIPAL, f"a{it}"], ["get", PRINCIPAL, f"a{it}"]], condition]
    return bundle_of([permits(condition)], level=1, limit=512, attributes={f"a{it}": {"optional": "Bool"} for it in range(size)}, store=[{"uid": ["User", "u0"]}])


def types(size, parents=lambda it: []):
    return bundle_of([policy(1)], types=[(f"T{it}", {"parents": parents(it)}) for it in range(size)])


def types_with_a_parent(size):
    return types(size, lambda it: ["User"])


def tree_of_types(size):
    return types(size, lambda it: [f"T{(it - 1) // 10}"] if it else [])


def chain_of_types(size):
    return types(size, lambda it: [f"T{it - 1}"] if it else [])


def actions(size):
    of_group = {"in": [["Action", "all"]], "principals": ["User"], "resources": ["User"]}
    return bundle_of([policy(1)], actions=[("all", {}), *[(f"a{it}", of_group) for it in range(size)]])


def common_types(size):
    common = {f"C{it}": {"record": {"next": {"common": f"C{it + 1}"} if it + 1 < size else "Long"}} for it in range(size)}
    return bundle_of([policy(1)], common=common, attributes={"first": {"optional": {"common": "C0"}}})


def entities(size):
    return bundle_of([policy(1)], store=[{"uid": ["User", f"u{it}"], "attrs": {"n": it}} for it in range(size)], attributes={"n": "Long"})


def tree(parts):
    """A condition of this many comparisons, half of them on each side."""
    return ["less", parts, parts + 1] if parts == 1 else ["and", tree(parts // 2), tree(parts - parts // 2)]


def decisions(size):
    return bundle_of([permits(tree(256))], limit=64, steps=["decide"] * size)


def open_decisions(size):
    is_less = ["less", 0, ["get", ["var", "context"], "n"]]
    steps = [*["decide"] * size, {"bind": "n", "value": 1}]
    return bundle_of([permits(["and", is_less, tree(256)])], limit=64, steps=steps, context={"n": ["unknown", "n"]})


def members(size):
    return bundle_of([permits(["contains", ["set", *range(size)], size - 1])])


def patterns(size):
    return bundle_of([permits(["not", ["like", "a" * 10 * size, [*[None, "a"] * size, "b"]]])])


def rounds(size):
    next_of = lambda it: {"next": ["uid", "User", f"u{it + 1}"]} if it + 1 < size else {}
    store = [{"uid": ["User", f"u{it}"], "attrs": next_of(it)} for it in range(size)]
    return bundle_of([policy(1)], level=size, store=store, attributes={"next": {"optional": {"entity": "User"}}})


KINDS = {
    "policies": (policies, 10_000), "four": (policies_in_four, 10_000), "links": (links, 10_000), "facts": (facts, 100), "types": (types, 10_000),
    "parents": (types_with_a_parent, 10_000), "tree": (tree_of_types, 10_000), "chain": (chain_of_types, 1_000), "actions": (actions, 10_000),
    "common": (common_types, 100), "entities": (entities, 10_000), "decisions": (decisions, 10_000), "open": (open_decisions, 10_000),
    "members": (members, 10_000), "patterns": (patterns, 1_000), "rounds": (rounds, 10_000),
}


def main():
    program, sizes, runs = times.given(__doc__, "cedargate", 10_000)
    for name, (make, most) in KINDS.items():
        times.series(name, make, program, [it for it in sizes if it <= most], runs)


main()
