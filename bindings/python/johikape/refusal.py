"""The exception by which the library refuses a call."""

from __future__ import annotations

# Lists that do not fit. The one number that the package itself gives: see `Records`.
BOXES = 8

_SENTENCES = {
    1: "the intersection of two x has two parts",
    3: "a total leaves the range of a 64-bit integer",
    4: "the filter has no nodes, words that are not in fours, or more than 1,024 nodes",
    5: "a node of the filter has an unknown kind",
    7: "the nodes are no tree: a child not below its parent, or a node but the root not used once",
    BOXES: "flags or known bytes are bad, or lists have lengths that do not fit",
    9: "a leaf of the filter names a literal that is not lent",
    10: "a leaf of the filter names a column index for which there is no record",
    11: "a name number stands twice among the records",
    12: "a bbox array has neither four nor six numbers",
    13: "m is known, and a bbox array has no place for it",
    14: "a number is NaN or infinite, or y or z has its low above its high",
    15: "bytes of well-known binary are too few, left over, or over 65,536",
    16: "well-known binary has an unknown byte order or a wrong type code",
    17: "well-known binary has a collection more than 32 deep",
    18: "a size or the sum is missing, negative or over 2**40, or there are over 1,000 sizes",
    19: "a rate is over 10,000 cents",
}


class Refusal(Exception):
    """A call that the library refuses; it has changed nothing.

    >>> refusal = Refusal(3)
    >>> refusal.number
    3
    >>> print(refusal)
    refused by 3: a total leaves the range of a 64-bit integer
    """

    def __init__(self, number: int) -> None:
        super().__init__(number)

    @property
    def number(self) -> int:
        """The number that johikape.h gives the reason."""
        number: int = self.args[0]
        return number

    @property
    def sentence(self) -> str:
        """The reason in words."""
        return _SENTENCES.get(self.number, "a number that this package does not know")

    def __str__(self) -> str:
        return f"refused by {self.number}: {self.sentence}"


def accept(number: int) -> None:
    """Goes on where the number is 0, and raises the refusal where it is not."""
    if number != 0:
        raise Refusal(number)


def answer(number: int) -> bool:
    """What a test says, 0 for no and 1 for yes; any other number refuses it."""
    if number > 1:
        raise Refusal(number)
    return number == 1
