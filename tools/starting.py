"""The starts of runs, by a reading of docs/EXPLORE.md of its own: for what works out expected texts without og."""
import itertools

TRIED = 1_000_000
FEW = 1000
# The values of a variable without a word, and whether one that the precondition does not mention has them too.
NEAR = [(-1, 3, True), (-1, 3, False), (0, 2, False)]


def factors(relation):
    """The sum of a relation that is compared with 0: the variables with their factors, and the constant."""
    sums = {}
    for factor, term in relation.parts[0].terms + [(-factor, term) for factor, term in relation.parts[1].terms]:
        sums[term] = sums.get(term, 0) + factor
    rest = sums.pop(None, 0)
    return {term: factor for term, factor in sums.items() if factor}, rest


def mentioned(test):
    """The variables that occur in an assertion."""
    if test.word in ("<=", "<", ">=", ">", "=", "<>"):
        return set(factors(test)[0])
    return set().union(*(mentioned(part) for part in test.parts))


def bounds(test, name):
    """The least and the greatest value that the conjuncts about this variable alone leave."""
    low, high = -(2**63), 2**63 - 1
    if test.word == "and":
        parts = [bounds(part, name) for part in test.parts]
        return max(part[0] for part in parts), min(part[1] for part in parts)
    if test.word not in ("<=", "<", ">=", ">", "="):
        return low, high
    names, rest = factors(test)
    if list(names) != [name]:
        return low, high
    factor = names[name]
    least = {"<=": None, "<": None, ">=": 0, ">": 1, "=": 0}[test.word]
    most = {"<=": 0, "<": -1, ">=": None, ">": None, "=": 0}[test.word]
    # factor * x + rest lies from least to most
    if factor < 0:
        factor, rest, least, most = -factor, -rest, None if most is None else -most, None if least is None else -least
    if least is not None:
        low = max(low, -((rest - least) // factor))
    if most is not None:
        high = min(high, (most - rest) // factor)
    return low, high


def cut(outline, ranges):
    """The ranges, each cut by the conjuncts about its variable alone."""
    found = {}
    for name, (low, high) in ranges.items():
        least, most = bounds(outline.before, name)
        found[name] = (max(low, least), min(high, most))
    return found


def size(ranges):
    """How many combinations of values there are."""
    count = 1
    for low, high in ranges.values():
        count *= max(high - low + 1, 0)
    return count


def within(outline, ranges):
    """The starts within the ranges, in their order, of the combinations that are tried."""
    rows = itertools.product(*(range(low, high + 1) for low, high in cut(outline, ranges).values()))
    for row in itertools.islice(rows, TRIED):
        values = dict(zip(ranges, row))
        if outline.before.value(outline.start(values).state):
            yield values


def starts(outline, ranges):
    """The starts within the ranges, in their order, and whether all combinations were tried."""
    return list(within(outline, ranges)), size(cut(outline, ranges)) <= TRIED


def given(outline, words):
    """The range that a word gives to each variable that is no auxiliary, None where none does."""
    ranges = dict.fromkeys(outline.names)
    for word in words:
        name, _, value = word.partition("=")
        low, _, high = value.partition("..")
        ranges[name] = (int(low), int(high or low))
    return ranges


def near(outline, said, left=TRIED):
    """The ranges of variables without a word, where few starts lie within those near 0; None where a search is asked for a state."""
    if None not in said.values():
        return said
    occurring = mentioned(outline.before)
    for low, high, wide in NEAR:
        own = {name: (low, high) if wide or name in occurring else (0, 0) for name in said}
        tried = cut(outline, {name: said[name] or own[name] for name in said})
        if not size(tried):
            return None
        if size(tried) > left:
            continue
        count = 0
        for row in itertools.product(*(range(low, high + 1) for low, high in tried.values())):
            left -= 1
            count += outline.before.value(outline.start(dict(zip(said, row))).state)
            if count > FEW:
                break
        if not count:
            return None
        if count <= FEW:
            return {name: said[name] or tried[name] for name in said}
    return None

