#!/usr/bin/env python3
"""Prints where the time of a crate's proof went, by function: `tests/time-proof.py rb_core [HOW MANY]`.

It reads when each module was left in the crate's out/incremental, so that has to come from one check from nothing on one
processor, and nothing else should work beside it:

    cd crates/rb_core && rm -rf out/incremental && rt check --jobs 1

A module's time is what passed since the one before it was left. Of a function `decls` is its proof, and `Lts` what the
check of its borrows took, in which each place that drops values counts. Derived impls are summed up by their trait.
"""

import collections, glob, os, re, sys

DERIVED = re.compile(r"(Debug|PartialEq|Eq|Clone|PartialOrd|Ord|Default)\.(?:fmt|eq|clone|partial_cmp|cmp|default|The\w+)\b")


def read_times(crate):
    """The modules in the order in which they were left, each with its seconds and its name."""
    left = sorted((os.stat(path).st_mtime_ns, os.path.basename(path)[: -len(".oantt")])
                  for path in glob.glob(f"crates/{crate}/out/incremental/**/*.oantt", recursive=True))
    return [((now - before) / 1e9, name) for (before, _), (now, name) in zip(left, left[1:])]


def main():
    os.chdir(os.path.dirname(os.path.abspath(__file__)) + "/..")
    if not sys.argv[1:]:
        sys.exit("usage: tests/time-proof.py CRATE [HOW MANY]")
    crate, most = sys.argv[1], int(sys.argv[2]) if len(sys.argv) > 2 else 20
    times = read_times(crate)
    if not times:
        sys.exit(f"crates/{crate}/out/incremental has no modules: run `rt check --jobs 1` there first")
    functions, parts, derived = collections.Counter(), collections.defaultdict(collections.Counter), collections.Counter()
    for seconds, module in times:
        name, _, part = module.removeprefix(f"Rattle-{crate}-proofs.").rpartition(".")
        name = name.removesuffix(".Proof")
        functions[name] += seconds
        parts[name][part] += seconds
        if found := DERIVED.search(module):
            derived[found[1]] += seconds
    print(f"{crate}: {len(times) + 1} modules in {sum(it for it, _ in times):.0f} seconds")
    for name, seconds in functions.most_common(most):
        print(f"{seconds:8.1f}  {name}  ({', '.join(f'{part} {it:.1f}' for part, it in parts[name].most_common(2))})")
    print("derived: " + (", ".join(f"{name} {seconds:.1f}" for name, seconds in derived.most_common()) or "nothing"))


if __name__ == "__main__":
    main()
