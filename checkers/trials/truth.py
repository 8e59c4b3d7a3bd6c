"""Decides a rule by other means than the program and the checkers: by endless walks in the graph of pairs of nodes.

    python3 checkers/trials/truth.py WIDTH

compares this with what words and rings up to some length show, for all rules of two states and this width.
"""
import functools
import itertools
import sys

# How long words, words that part, and rings are looked at, by the width: longer ones say nothing new of these rules.
LENGTHS = {2: (7, 6, 6), 3: (10, 12, 9)}


class Pairs:
    """The pairs of nodes, and from each the pairs to which two edges with one label lead."""

    def __init__(self, k, m, f):
        self.N = N = k ** (m - 1)
        self.after = [[] for _ in range(N * N)]
        self.before = [[] for _ in range(N * N)]
        for u, v, a, b in itertools.product(range(N), range(N), range(k), range(k)):
            if f[u * k + a] == f[v * k + b]:
                P, Q = u * N + v, (u * k + a) % N * N + (v * k + b) % N
                self.after[P].append(Q)
                self.before[Q].append(P)
        self.equal = [u * N + u for u in range(N)]
        self.different = [P for P in range(N * N) if P // N != P % N]


def endless(after, before):
    """The pairs from which walks go on for ever: those are left when the ones with no next pair are taken off."""
    left, ahead = set(range(len(after))), [len(pairs) for pairs in after]
    ended = [P for P in left if ahead[P] == 0]
    while ended:
        P = ended.pop()
        left.discard(P)
        for Q in before[P]:
            ahead[Q] -= 1
            if ahead[Q] == 0:
                ended.append(Q)
    return left


def reached(starts, after):
    """The pairs to which walks from these lead, themselves among them."""
    seen, waiting = set(starts), list(starts)
    while waiting:
        for Q in after[waiting.pop()]:
            if Q not in seen:
                seen.add(Q)
                waiting.append(Q)
    return seen


def is_conserving(k, m, f, weights):
    """Whether numbers of the nodes, found from node 0 on, are a flux."""
    N, phi, waiting = k ** (m - 1), {0: 0}, [0]
    gain = [weights[f[w]] - weights[w // N] for w in range(N * k)]
    while waiting:
        u = waiting.pop()
        for w in range(u * k, u * k + k):
            if w % N not in phi:
                phi[w % N] = phi[u] - gain[w]
                waiting.append(w % N)
    return all(gain[w] == phi[w // k] - phi[w % N] for w in range(N * k))


@functools.cache
def verdicts(k, m, f, weights):
    """Surjective, injective, right, left, open and conserving, of the rule with the table f, a tuple."""
    pairs = Pairs(k, m, f)
    ahead, behind = endless(pairs.after, pairs.before), endless(pairs.before, pairs.after)
    parted = {Q for P in pairs.equal for Q in pairs.after[P]} & set(pairs.different)
    parting = {Q for P in pairs.equal for Q in pairs.before[P]} & set(pairs.different)
    right, left = not parted & ahead, not parting & behind
    return (not reached(parted, pairs.after) & set(pairs.equal), not set(pairs.different) & ahead & behind,
            right, left, right and left, is_conserving(k, m, f, weights))


# The same by words and rings

def image(k, m, f, word):
    return tuple(f[functools.reduce(lambda value, a: value * k + a, word[i:i + m])] for i in range(len(word) - m + 1))


def tells_next(k, m, f, length, turned):
    """Whether m - 1 letters and the image of all that follow tell the next letter, in words of this many more; where
    they are turned, read from the right."""
    next_letters = {}
    for word in itertools.product(range(k), repeat=m - 1 + length):
        key = word[:m - 1], image(k, m, f, word[::-1] if turned else word)
        next_letters.setdefault(key, set()).add(word[m - 1])
    return all(len(letters) == 1 for letters in next_letters.values())


def by_words(k, m, f, weights):
    """The verdicts, as far as words and rings up to LENGTHS show them."""
    words, parting, rings = LENGTHS[m]
    onto = all(len({image(k, m, f, word) for word in itertools.product(range(k), repeat=n + m - 1)}) == k ** n
               for n in range(1, words + 1))
    one_to_one = keeps = True
    for n in range(1, rings + 1):
        images = set()
        for word in itertools.product(range(k), repeat=n):
            of_ring = image(k, m, f, word + tuple(word[i % n] for i in range(m - 1)))
            one_to_one = one_to_one and of_ring not in images
            keeps = keeps and sum(weights[a] for a in word) == sum(weights[a] for a in of_ring)
            images.add(of_ring)
    right, left = (tells_next(k, m, f, parting, turned) for turned in (False, True))
    return onto, one_to_one, right, left, right and left, keeps


def differing(k, m):
    """The numbers of the rules of this shape of which both say different things."""
    for number in range(k ** k ** m):
        f = tuple(number // k ** w % k for w in range(k ** m))
        own = tuple(range(k))
        if verdicts(k, m, f, own) != by_words(k, m, f, own):
            yield number


if __name__ == "__main__":
    found = list(differing(2, int(sys.argv[1])))
    print(f"{len(found)} differ: {found}")
    sys.exit(bool(found))
