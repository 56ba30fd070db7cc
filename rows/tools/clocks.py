"""Clocks, slowly: the offset of local time at each second, by Python's zoneinfo or fixed."""
import bisect
import datetime
import functools
import math
import zoneinfo

EPOCH = datetime.datetime(1970, 1, 1, tzinfo=datetime.timezone.utc)
FIRST, LAST = -2 ** 31, 2 ** 31 - 1
HALF_DAY = 43200


class Clock:
    """The seconds from which an offset holds, the first of all seconds first, and these offsets, in seconds east of UTC. The first
    offset holds before the first second too, and the last one after the last. A clock of a zone has Python's zone."""

    def __init__(self, starts, offsets, zone=None):
        self.starts, self.offsets, self.zone = starts, offsets, zone

    def at(self, time):
        return self.offsets[max(0, bisect.bisect_right(self.starts, time) - 1)]

    def first_at(self, local):
        """The first second at which the clock shows a local second or a later one."""
        begins, ends = [-math.inf] + self.starts[1:], self.starts[1:] + [math.inf]
        shown = [(max(begin, local - offset), end) for begin, end, offset in zip(begins, ends, self.offsets)]
        return min(time for time, end in shown if time < end)

    def spans(self, begin, end):
        """What lies from a second up to another, as spans of local seconds."""
        cuts = [begin] + [start for start in self.starts if begin < start < end] + [end]
        for one, next_one in zip(cuts, cuts[1:]):
            yield one + self.at(one), next_one + self.at(one)

    def seconds_by_day(self, begin, end):
        days = {}
        for one, next_one in self.spans(begin, end) if begin < end else ():
            for day in range(one // 86400, (next_one - 1) // 86400 + 1):
                days[day] = days.get(day, 0) + min(next_one, 86400 * (day + 1)) - max(one, 86400 * day)
        return days


def fixed(minutes):
    return Clock([FIRST], [60 * minutes])


@functools.lru_cache(None)
def of_zone(name):
    """The clock of a zone of the system, looked at each half day, and between two that differ at each second that halves what is left."""
    zone = zoneinfo.ZoneInfo(name)

    def at(time):
        return int((EPOCH + datetime.timedelta(seconds=time)).astimezone(zone).utcoffset().total_seconds())

    starts, offsets, before = [FIRST], [at(FIRST)], FIRST
    for time in list(range(FIRST + HALF_DAY, LAST, HALF_DAY)) + [LAST]:
        while at(time) != offsets[-1]:
            low, high = before, time
            while low + 1 < high:
                middle = (low + high) // 2
                low, high = (middle, high) if at(middle) == offsets[-1] else (low, middle)
            starts.append(high)
            offsets.append(at(high))
            before = high
        before = time
    return Clock(starts, offsets, zone)
