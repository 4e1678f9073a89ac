"""Cases: the files and numbers of one comparison."""
from dataclasses import dataclass, field


@dataclass
class Case:
    """Files by name, and numbers by name. `seed` is that of the runs and changes on which it is tried."""

    files: dict
    numbers: dict = field(default_factory=dict)
    seed: int = 0


class Kind:
    """`make` gives a case, `differences` tells in texts where the built programs answer it in another way than they have to."""

    def make(self, random):
        raise NotImplementedError

    def differences(self, case, programs):
        raise NotImplementedError


def compared(answer, wanted, saved=None):
    """The difference of an answer from a status and an output, and of the files that changed."""
    found = [] if answer.plain() == wanted[:2] else [f"{answer.plain()}\nexpected {tuple(wanted[:2])}"]
    saved = saved or {}
    return found + ([] if answer.saved == saved else [f"saved {answer.saved}\nexpected {saved}"])
