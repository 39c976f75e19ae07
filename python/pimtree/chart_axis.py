"""The time axis of a chart: the forms of moments, and the ticks at round steps."""
from __future__ import annotations

import datetime
import enum
from dataclasses import dataclass
from typing import List

_SECOND = 1_000
_MINUTE = 60 * _SECOND
_HOUR = 60 * _MINUTE
_DAY = 24 * _HOUR
_BEGIN = datetime.datetime(1970, 1, 1)
_MILLISECOND = datetime.timedelta(milliseconds=1)

_DECIMAL_STEPS = [digit * 10**power for power in range(13) for digit in (1, 2, 5)]
_CLOCK_STEPS = [
    *(it for it in _DECIMAL_STEPS if it < _SECOND),
    *(it * _SECOND for it in (1, 2, 5, 10, 30)),
    *(it * _MINUTE for it in (1, 2, 5, 10, 30)),
    *(it * _HOUR for it in (1, 2, 6, 12)),
    *(it * _DAY for it in _DECIMAL_STEPS if it < 100_000),
]


class Form(enum.Enum):
    """The form of moments, as `--time` names it."""

    MS = "ms"
    EPOCH = "epoch"
    UTC = "utc"


@dataclass(frozen=True)
class Tick:
    """A labelled place of the axis."""

    at: int
    label: str
    day: str
    """The date, where it isn't that of the tick before."""


@dataclass(frozen=True)
class Clock:
    """How a chart writes moments, which are in milliseconds since the first record."""

    form: Form
    first: int
    """The moment of the first record, in milliseconds since 1970."""

    @property
    def zero(self) -> int:
        """The moment of the first record in the numbers of this form."""
        return 0 if self.form is Form.MS else self.first

    @property
    def steps(self) -> List[int]:
        """The steps of an axis of this form, in milliseconds."""
        return _CLOCK_STEPS if self.form is Form.UTC else _DECIMAL_STEPS

    def moment(self, at: int) -> str:
        """A moment as a trace writes it."""
        number = self.zero + at
        if self.form is Form.MS:
            return str(number)
        if self.form is Form.EPOCH:
            return f"{number // _SECOND}.{number % _SECOND:03}"
        return (_BEGIN + number * _MILLISECOND).isoformat(timespec="milliseconds") + "Z"

    def ticks(self, begin: int, end: int, room: float) -> List[Tick]:
        """The ticks of an axis from one moment to another that has room for so many characters."""
        step = next(it for it in self.steps if (end - begin) * self._width(end, it) <= it * room)
        first = -(-(begin + self.zero) // step) * step - self.zero
        ticks: List[Tick] = []
        day = ""
        for at in range(first, end + 1, step):
            date = self._day(at)
            ticks.append(Tick(at, self._label(at, step), "" if date == day else date))
            day = date
        return ticks

    def _width(self, at: int, step: int) -> int:
        """The characters that a tick needs, with a gap."""
        return max(len(self._label(at, step)), len(self._day(at))) + 2

    def _label(self, at: int, step: int) -> str:
        text = self.moment(at)
        if self.form is Form.MS:
            return text
        if self.form is Form.EPOCH:
            return text if step < _SECOND else text[: -len(".000")]
        return text[len("1970-01-01T") : -len("Z" if step < _SECOND else ".000Z")]

    def _day(self, at: int) -> str:
        return self.moment(at)[: len("1970-01-01")] if self.form is Form.UTC else ""


def milliseconds(time: str, first: int) -> int:
    """A TIME of the command line in milliseconds since the first record, whose moment in
    milliseconds since 1970 is given."""
    if time.isdigit():
        return int(time)
    seconds, _, fraction = time.partition(".")
    if seconds.isdigit():
        return int(seconds) * _SECOND + int(fraction.ljust(3, "0")) - first
    form = "%Y-%m-%dT%H:%M:%S.%fZ" if fraction else "%Y-%m-%dT%H:%M:%SZ"
    return (datetime.datetime.strptime(time, form) - _BEGIN) // _MILLISECOND - first
