#!/usr/bin/env python3
"""bench/libraries.py [PROGRAM] [--most N] [--runs R]: how the main paths of the libraries that no bundle reaches grow with their size.

It has PROGRAM (crates/cedar_bench/out/cedar_bench, if none is named) go over the parts of wide and of deep expressions, put functions into
a table and find them, put values in the place of the unknowns of wide and of deep expressions, and of wide ones through a builder, and ask
a set of texts for each of them, which it keeps hashed (`sets_hashed`), or has in order beside a record (`sets_ordered`); and
authorize 10 to 10,000 policies (`authorized`), authorize them where each second one has an unknown (`half`), and then reauthorize them with
its value (`again`). Each runs R times (3). It prints the least time of a run, the time for one of the size, and how many times longer it
took than the size a tenth as large. Deep expressions end at 10,000, and at 1,000 where values are put into them, since each level takes
some of the machine's stack. It is no test: it judges nothing but that each run ends well.
"""
import times

MOST = {
    "expressions": {"wide": 100_000, "deep": 10_000, "tables": 10_000, "substituted": 100_000, "substituted_deep": 1_000, "built": 100_000, "sets_hashed": 10_000, "sets_ordered": 10_000},
    "authorizer": {"authorized": 10_000, "half": 10_000, "again": 10_000},
}


def main():
    program, sizes, runs = times.given(__doc__, "cedar_bench", 100_000)
    for library, paths in MOST.items():
        for name, most in paths.items():
            times.series(name, lambda size: f"{library} {name} {size}\n", program, [it for it in sizes if it <= most], runs)


main()
