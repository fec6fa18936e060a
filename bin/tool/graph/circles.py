"""Circles of a graph. In: its edges, as pairs. Out: the edges on circles."""


def order(edges, names):
    """Returns the names in the order in which a walk along the edges leaves them."""
    seen, left = set(), []
    for start in names:
        rest = [] if start in seen else [(start, iter(edges.get(start, ())))]
        seen.add(start)
        while rest:
            at, below = rest[-1]
            new = next((it for it in below if it not in seen), None)
            if new is None:
                left.append(at)
                rest.pop()
            else:
                seen.add(new)
                rest.append((new, iter(edges.get(new, ()))))
    return left


def circles(pairs):
    """Returns the pairs whose names reach each other."""
    there, back = {}, {}
    for one, other in pairs:
        there.setdefault(one, []).append(other)
        back.setdefault(other, []).append(one)
    part = {}
    for start in reversed(order(there, list(dict.fromkeys(it for pair in pairs for it in pair)))):
        rest = [start]
        while rest:
            at = rest.pop()
            if at not in part:
                part[at] = start
                rest += back.get(at, ())
    return {pair for pair in pairs if part[pair[0]] == part[pair[1]]}
