"""Looks for words of syllables that clash. Found: curulo and dacuba under factor 1, and not under 2; bosineri and
butipodo under each of the factors 1 to 64."""
import itertools
from model import row_hash

syllables = [c + v for c in "bcdfglmnprstv" for v in "aeiou"]


def clashing(words, factors):
    """The pairs of words that have one hash under each of the factors."""
    seen = {}
    for word in words:
        row = "".join(word).encode()
        other = seen.setdefault(row_hash(row, factors[0]), row)
        if other != row and all(row_hash(other, f) == row_hash(row, f) for f in factors):
            yield other.decode(), row.decode()


for one, two in clashing(itertools.product(syllables, repeat=3), [1]):
    again = row_hash(one.encode(), 2) == row_hash(two.encode(), 2)
    print(one, two, "under factor 1" + (" and 2" if again else ", not under 2"))
for one, two in clashing(itertools.product(syllables[:5], *[syllables] * 3), range(1, 65)):
    print(one, two, "under the factors 1 to 64")
