"""Runs a program between devices: a library in front of that of C disturbs calls on one file."""
from dataclasses import dataclass

from checks.shared.libraries import behind


@dataclass(frozen=True)
class Device:
    """Which calls on which file are disturbed.

    `on` is the number of a stream or the name of a file. From the call of the number `at` on all
    fail, or go through with 0 bytes where `how` is "nothing"; with `once` that call alone. No call
    takes or gives more bytes than `most`, where that isn't 0.
    """

    call: str
    on: str
    at: int = 1
    how: str = "fail"
    most: int = 0
    once: bool = False

    def environment(self):
        """What the library is told."""
        words = {"CALL": self.call, "ON": self.on, "HOW": self.how}
        return words | {"AT": self.at, "MOST": self.most, "ONCE": int(self.once)}

    def __str__(self):
        """The device, for people."""
        size = f", {self.most} byte a call" if self.most else ""
        way = {"fail": "fails", "nothing": "goes through with 0 bytes"}[self.how]
        further = "" if self.once else ", and each one after it"
        return f"{self.call} {self.at} of {self.on} {way}{further}{size}"


def counting(device, library, run):
    """What a run gives, and how many calls it made on the device's file."""
    made, told = behind(library, run, **device.environment())
    return made, len(told)
