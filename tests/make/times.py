"""Times as texts (RFC 3339 in this product's profile) and as time stamps (TS 32.298), by re and datetime."""
import re
from datetime import datetime, timedelta, timezone

FIRST = datetime(1970, 1, 1, tzinfo=timezone.utc)
LAST = 3155759999
TEXT = re.compile(
    r"([0-9]{4})-([0-9]{2})-([0-9]{2})[Tt]([0-9]{2}):([0-9]{2}):([0-9]{2})(?:\.[0-9]{1,9})?(?:[Zz]|([+-])([0-9]{2}):([0-9]{2}))")
STAMP = re.compile(r"([0-9]{2})" * 6 + r"(2B|2D)([0-9]{2})([0-9]{2})")


def moment(year, month, day, hour, minute, second, sign, ahead):
    """The moment of a local time that is so many minutes ahead, where the date exists and the moment is in range."""
    if hour > 23 or minute > 59:
        return None
    try:
        local = datetime(year, month, day, hour, minute, second, tzinfo=timezone.utc)
    except ValueError:
        return None
    seconds = (local - FIRST) // timedelta(seconds=1) - sign * 60 * ahead
    return seconds if 0 <= seconds <= LAST else None


def offset(hours, minutes):
    return None if int(hours) > 23 or int(minutes) > 59 else 60 * int(hours) + int(minutes)


def read_time(text):
    match = TEXT.fullmatch(text)
    if not match:
        return None
    *numbers, sign, hours, minutes = match.groups()
    year, month, day, hour, minute, second = map(int, numbers)
    ahead = offset(hours, minutes) if sign else 0
    if ahead is None or second > 60:
        return None
    return moment(year, month, day, hour, minute, min(second, 59), -1 if sign == "-" else 1, ahead)


def clock(seconds):
    return FIRST + timedelta(seconds=seconds)


def write_time(seconds):
    return clock(seconds).strftime("%Y-%m-%dT%H:%M:%SZ")


def write_stamp(seconds):
    return clock(seconds).strftime("%y%m%d%H%M%S") + "2B0000"


def read_stamp(octets):
    match = STAMP.fullmatch(octets)
    if not match:
        return None
    year, month, day, hour, minute, second = map(int, match.groups()[:6])
    sign, hours, minutes = match.groups()[6:]
    ahead = offset(hours, minutes)
    if ahead is None or second > 59:
        return None
    return moment(year + (1900 if year >= 70 else 2000), month, day, hour, minute, second, -1 if sign == "2D" else 1, ahead)
