"""Moments as clock times."""
import re
from datetime import datetime, timedelta, timezone
from fractions import Fraction

from .failure import Failure

STEPS = (1, 2, 5, 10, 15, 30, 60, 120, 300, 600, 900, 1800, 3600, 7200, 10800, 21600, 43200, 86400)     # seconds between labels


class Clock:
    """`moment` is how many seconds a moment lasts, 0 where no clock is wanted; `epoch` is the time of moment 0."""

    def __init__(self, moment=0.0, epoch='00:00'):
        self.moment = moment
        self.start, self.dated = read_time(epoch)

    def __bool__(self):
        return self.moment > 0

    def second_of_start(self):
        """How many seconds after midnight moment 0 is."""
        return second_of_day(self.start)

    def time(self, moment):
        return self.start + timedelta(seconds=moment * self.moment)

    def read(self, text):
        """The moment of `1200`, `07:30`, or `2026-11-29T07:30:00Z`, as a fraction. A time without a date is the first such time
        from the epoch on."""
        text = text.strip()
        if re.fullmatch(r'-?\d+', text):
            return Fraction(int(text))
        if not self:
            raise Failure('%s is a time, and how long a moment lasts is not known; say it by --moment SECONDS' % text)
        if re.fullmatch(r'\d{1,2}:\d\d(:\d\d)?', text):
            time, _ = read_time(text)
            return Fraction((second_of_day(time) - self.second_of_start()) % 86400) / Fraction(self.moment)
        if not self.dated:
            raise Failure('%s has a date, and the time of moment 0 has none; give it one by --epoch' % text)
        return Fraction((read_date(text) - self.start).total_seconds()) / Fraction(self.moment)

    def read_length(self, text):
        """How many moments `570`, `95m`, `1h30m` or `90s` are, as a fraction."""
        text = text.strip()
        if re.fullmatch(r'\d+', text):
            return Fraction(int(text))
        if not re.fullmatch(r'(\d+[dhms])+', text):
            raise Failure('%s is no length of time; write 570 for moments, or 95m, 1h30m, 90s, 1d' % text)
        if not self:
            raise Failure('%s is a length of time, and how long a moment lasts is not known; say it by --moment SECONDS' % text)
        seconds = sum(int(number) * {'d': 86400, 'h': 3600, 'm': 60, 's': 1}[unit] for number, unit in re.findall(r'(\d+)([dhms])', text))
        return Fraction(seconds) / Fraction(self.moment)

    def text(self, moment):
        """The time of a moment for a table: in full where the clock has a date."""
        if not self.dated:
            return self.label(moment, True)
        return self.time(moment).astimezone(timezone.utc).strftime('%Y-%m-%dT%H:%M:%SZ')

    def label(self, moment, seconds=None):
        """`06:30`, with `:15` behind it where seconds matter, and `+1` where it is the next day of an undated clock."""
        time = self.time(moment)
        if seconds is None:
            seconds = self.moment % 60 != 0
        text = time.strftime('%H:%M:%S' if seconds else '%H:%M')
        days = (time.date() - self.start.date()).days
        if days and self.dated:
            return time.strftime('%d %b ') + text
        return text + ('+%d' % days if days else '')

    def ticks(self, first, last, wanted):
        """Moments at round times, about as many as wanted, and whether their labels need seconds."""
        span = (last - first) * self.moment / max(1, wanted)
        step = next((step for step in STEPS if step >= span), None) or -(-int(span) // 86400) * 86400
        midnight = self.start.replace(hour=0, minute=0, second=0, microsecond=0)
        offset = (self.time(first) - midnight).total_seconds()
        time = midnight + timedelta(seconds=-(-offset // step) * step)
        found = []
        while time <= self.time(last):
            found.append((time - self.start).total_seconds() / self.moment)
            time += timedelta(seconds=step)
        return found, step % 60 != 0


def second_of_day(time):
    return time.hour * 3600 + time.minute * 60 + time.second


def read_time(text):
    """(time, whether it has a date) of `06:00`, `06:00:30` or `2026-11-29T06:00:00Z`."""
    match = re.fullmatch(r'(\d{1,2}):(\d\d)(?::(\d\d))?', text.strip())
    if match and int(match.group(1)) < 24 and int(match.group(2)) < 60 and int(match.group(3) or 0) < 60:
        hour, minute, second = (int(part or 0) for part in match.groups())
        return datetime(2000, 1, 1, hour, minute, second, tzinfo=timezone.utc), False
    return read_date(text), True


def read_date(text):
    """A time with its date, in UTC where nothing else is said."""
    try:
        time = datetime.fromisoformat(text.strip().replace('Z', '+00:00'))
    except ValueError:
        raise Failure('%s is no time; write 06:00, or 2026-11-29T06:00:00Z' % text)
    return time if time.tzinfo else time.replace(tzinfo=timezone.utc)
