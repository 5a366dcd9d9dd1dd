"""How long a ledger's credits last."""
import math
from dataclasses import dataclass

MONTH = 30.4375 * 86_400
GREATEST_CLASS = 60


@dataclass(slots=True)
class Lasting:
    """Credits that are left, and the hash rate by which they are used up."""

    credits: int
    rate: float

    def seconds(self, class_: int) -> float:
        """How long they last where each share is of this class: a share is 2^class hashes."""
        return self.credits * 2.0**class_ / self.rate


def least_class_for(lasting: Lasting, months: float) -> int:
    """The least class at which the credits last for so many months."""
    if lasting.credits <= 0:
        return GREATEST_CLASS
    wanted = math.log2(lasting.rate * months * MONTH / lasting.credits)
    return min(GREATEST_CLASS, max(0, math.ceil(wanted)))
