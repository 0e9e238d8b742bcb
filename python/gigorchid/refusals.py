"""The refusals of the library, by number and text as include/gigorchid.h has them, and the exception that tells one."""

from typing import Any

# Number: name, text.
REFUSALS: dict[int, tuple[str, str]] = {
    1: (
        "bad length",
        "N or K is out of range or not the list's own, a step is not below K or a node above N, or a count is not the "
        "one that N, K and the kind ask for",
    ),
    2: (
        "bad link",
        "the node's F, V, W, J, dropped capacity or drop density is out of range, or not zero at node 0",
    ),
    3: (
        "bad ramp",
        "the node's identifier is zero or that of an earlier node, or its C or L is out of range, or not zero at "
        "node N",
    ),
    4: ("bad start", "the node starts with n above J or with l above L"),
    5: (
        "bad demand",
        "Q, b or, at node N, P is above 65,536, or not zero where it is fixed: b at node 0, Q and b at node N",
    ),
    6: ("bad plan", "the plan's rate is above C, or its limit above V"),
    7: (
        "bad fixed word",
        "n or l of state 0 is not the corridor's start, or a word fixed at zero is not zero",
    ),
    8: (
        "bad sending",
        "f is more than the link can send at full speed: above n x V / 65,536, above F, or above its dropped capacity "
        "where n is above its drop density",
    ),
    9: (
        "bad merge",
        "T(f) + r is more than the next link can take in, at node N more than may leave: above S",
    ),
    10: ("bad ramp flow", "r is above l or above C"),
    11: (
        "bad next state",
        "the exit is not f x b / 65,536 rounded down, or n or l of the next state is not what rule 6 gives",
    ),
    12: ("bad queue", "l of the next state is above L"),
    13: ("bad cost", "the cost is not the sum of all n and l over states 1..K"),
    14: ("bad file length", "the file has not the bytes that N, K and its kind ask for"),
    15: ("bad check word", "the block's check word is wrong"),
    16: ("bad kind", "the block's kind is not that of its file, or the file is of another list"),
    17: ("bad block number", "the block's number is not its place in the file"),
    18: ("bad padding", "the block's padding is not zero"),
}


def taken_apart(answer: int) -> tuple[int, int, int]:
    """The refusal number, the row and the node of a call's one number; all are 0 where it accepts."""
    return answer & 255, answer >> 16, answer >> 8 & 255


class Refusal(Exception):
    """A call of the library that refused, with the number and the place it gave.

    The row is the step of 5, 6 and 8 to 12, the state of 7, the block of 15 to 18, and 0 elsewhere; the node is that of
    2 to 12, and 0 elsewhere. `call` names the function that refused, and `work` is the record that a normal form
    refused by 12 leaves.
    """

    def __init__(self, number: int, row: int, node: int, call: str, work: Any = None) -> None:
        """The arguments but for `work` are those of the exception, so that it can be sent to another process."""
        super().__init__(number, row, node, call)
        self.number = number
        self.row = row
        self.node = node
        self.call = call
        self.work = work

    @property
    def text(self) -> str:
        """What the header says of the refusal number."""
        return REFUSALS[self.number][1] if self.number in REFUSALS else "unknown refusal number"

    @property
    def answer(self) -> int:
        """The one number that the library answered."""
        return self.row * 65536 + self.node * 256 + self.number

    def __str__(self) -> str:
        """The refusal as the C host of the examples prints it."""
        return f"refused by {self.number} at row {self.row}, node {self.node}: {self.text}"
