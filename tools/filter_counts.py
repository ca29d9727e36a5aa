# Prints what crates/filter_check has to print, from a search over all choices that shares no code with it.
# To run, at the top of the repository: python3 tools/filter_counts.py | diff crates/filter_check/stdout -
from itertools import combinations, product

SHAPES = [(1, 1), (1, 2), (2, 1), (2, 2), (1, 3)]
SETS = [s for size in (1, 2, 3) for s in combinations(range(3), size)]


def meets(left, right):
    # the left load is not heavier: with each load written from its highest rank down, the one that comes first is the lighter,
    # and so is one that ends where the other goes on
    return sorted(left, reverse=True) <= sorted(right, reverse=True)


def count(family, left):
    met = [c for c in product(*family) if meets(c[:left], c[left:])]
    kept = [{c[cell] for c in met} for cell in range(len(family))]
    gone = sum(len(s) for s in family) - sum(len(k) for k in kept)
    return (1, 0, gone) if met else (1, 1, 0)


def tell(kind, sets):
    tallies = [count(family, left) for left, right in SHAPES for family in product(sets, repeat=left + right)]
    rules, unmet, went = (sum(column) for column in zip(*tallies))
    print(f"{kind}\n  {rules} rules compared\n  {unmet} could not be met\n  {went} ranks went")


tell("A store of bits, every set", SETS)
tell("A store of bounds, every set without a gap", [s for s in SETS if s != (0, 2)])
