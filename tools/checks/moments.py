"""Dates and clocks that `one_call` is given, row by row: which values of a field are dates, and what a zone shows of them. What is expected is by
Python's `datetime` and `email.utils`, and by hand from RFC 5322, section 3.3 and appendix A, and RFC 5260.
"""
import datetime

from .dates import EPOCH, LAST_CLOCK, PARTS
from .runs import lines
from .texts import Given

# Values, the minutes from 1970-01-01 00:00 UTC to their dates, the second, and the zone.
READ = {
    "written in the standard": [
        (b"Fri, 21 Nov 1997 09:55:06 -0600", 14_668_795, 6, "-0600"),
        (b"Tue, 1 Jul 2003 10:52:37 +0200", 17_617_492, 37, "+0200"),
        (b"Thu, 13 Feb 1969 23:32:54 -0330", -462_058, 54, "-0330"),
        (b"Mon, 24 Nov 1997 14:22:01 -0800", 14_673_502, 1, "-0800"),
        (b"Thu,\r\n      13\r\n        Feb\r\n          1969\r\n      23:32\r\n               -0330 (Newfoundland Time)", -462_058, 0, "-0330"),
        (b"21 Nov 97 09:55:06 GMT", 14_668_435, 6, "+0000"),
        (b"Fri, 21 Nov 1997 09(comment):   55  :  06 -0600", 14_668_795, 6, "-0600"),
        (b"from node.example by x.y.test; 21 Nov 1997 10:01:22 -0600", 14_668_801, 22, "-0600"),
    ],
    "zones by name and number": [
        (b"5 Jul 2026 12:00:00 UT", 29_720_880, 0, "+0000"),
        (b"5 Jul 2026 12:00:00 GMT", 29_720_880, 0, "+0000"),
        (b"5 Jul 2026 12:00:00 gmt", 29_720_880, 0, "+0000"),
        (b"5 Jul 2026 12:00:00 EST", 29_721_180, 0, "-0500"),
        (b"5 Jul 2026 12:00:00 EDT", 29_721_120, 0, "-0400"),
        (b"5 Jul 2026 12:00:00 CST", 29_721_240, 0, "-0600"),
        (b"5 Jul 2026 12:00:00 CDT", 29_721_180, 0, "-0500"),
        (b"5 Jul 2026 12:00:00 MST", 29_721_300, 0, "-0700"),
        (b"5 Jul 2026 12:00:00 MDT", 29_721_240, 0, "-0600"),
        (b"5 Jul 2026 12:00:00 PST", 29_721_360, 0, "-0800"),
        (b"5 Jul 2026 12:00:00 PDT", 29_721_300, 0, "-0700"),
        (b"5 Jul 2026 12:00:00 pDt", 29_721_300, 0, "-0700"),
        (b"5 Jul 2026 12:00:00 Z", 29_720_880, 0, "-0000"),
        (b"5 Jul 2026 12:00:00 A", 29_720_880, 0, "-0000"),
        (b"5 Jul 2026 12:00:00 CEST", 29_720_880, 0, "-0000"),
        (b"5 Jul 2026 12:00:00 ", 29_720_880, 0, "-0000"),
        (b"5 Jul 2026 12:00:00 +0000", 29_720_880, 0, "+0000"),
        (b"5 Jul 2026 12:00:00 -0000", 29_720_880, 0, "-0000"),
        (b"5 Jul 2026 12:00:00 +1459", 29_719_981, 0, "+1459"),
        (b"5 Jul 2026 12:00:00 -9959", 29_726_879, 0, "-9959"),
        (b"5 Jul 2026 12:00:00 +9959", 29_714_881, 0, "+9959"),
        (b"5 Jul 2026 12:00:00 + 0530", 29_720_550, 0, "+0530"),
        (b"5 Jul 2026 12:00:00 -(x)0530(y)", 29_721_210, 0, "-0530"),
    ],
    "years of two three and four digits": [
        (b"1 Jan 00 00:00 +0000", 15_778_080, 0, "+0000"),
        (b"1 Jan 49 00:00 +0000", 41_551_200, 0, "+0000"),
        (b"1 Jan 50 00:00 +0000", -10_519_200, 0, "+0000"),
        (b"1 Jan 99 00:00 +0000", 15_252_480, 0, "+0000"),
        (b"1 Jan 000 00:00 +0000", -36_816_480, 0, "+0000"),
        (b"1 Jan 070 00:00 +0000", 0, 0, "+0000"),
        (b"1 Jan 126 00:00 +0000", 29_453_760, 0, "+0000"),
        (b"1 Jan 999 00:00 +0000", 488_607_840, 0, "+0000"),
        (b"1 Jan 1900 00:00 +0000", -36_816_480, 0, "+0000"),
        (b"1 Jan 9999 00:00 +0000", 4_222_846_080, 0, "+0000"),
    ],
    "comments and white space": [
        (b"(a)Sun(b),(c)5(d)Jul(e)2026(f)12(g):(h)00(i):(j)59(k)+0200(l)", 29_720_760, 59, "+0200"),
        (b"(a(b(c)d)e) 5 Jul 2026 12:00 (f)(g) +0200 ((()))", 29_720_760, 0, "+0200"),
        (b"5 Jul 2026 12:00 (a\\)b) +0200 (\\(\\\\)", 29_720_760, 0, "+0200"),
        (b"5Jul2026 12:00+0200", 29_720_760, 0, "+0200"),
        (b"sUN,05 jUL 2026 12:00:60 +0200", 29_720_760, 60, "+0200"),
        (b"\t MON , 5\r\n Jul\r\n 2026 23:59 -0000 \r\n", 29_721_599, 0, "-0000"),
        (b"x; y; 5 Jul 2026 12:00 +0200", 29_720_760, 0, "+0200"),
        (b"29 Feb 2000 00:00 +0000", 15_863_040, 0, "+0000"),
        (b"29 Feb 2024 00:00 +0000", 28_486_080, 0, "+0000"),
        (b"31 Dec 1999 23:59:59 -0001", 15_778_080, 59, "-0001"),
    ],
}
# Values that are no date: a part lacks, is too long or past its end, words stand before or after it, or a comment isn't closed.
NONE = [
    b"", b"5 Jul 2026", b"31 Jun 2026 12:00 +0000", b"0 Jul 2026 12:00 +0000", b"29 Feb 1900 00:00 +0000",
    b"29 Feb 2023 00:00 +0000", b"32 Jan 2026 00:00 +0000", b"5 Jul 1899 12:00 +0000", b"5 Jul 02026 12:00 +0000",
    b"5 Jul 6 12:00 +0000", b"5 Juli 2026 12:00 +0000", b"5 7 2026 12:00 +0000", b"5 Jul 2026 24:00 +0000",
    b"5 Jul 2026 12:60 +0000", b"5 Jul 2026 12:00:61 +0000", b"5 Jul 2026 1:00 +0000", b"5 Jul 2026 012:00 +0000",
    b"5 Jul 2026 12:0 +0000", b"5 Jul 2026 12:00:5 +0000", b"5 Jul 2026 12:00: +0000", b"5 Jul 2026 1200 +0000",
    b"5 Jul 2026 12:00 +020", b"5 Jul 2026 12:00 +02000", b"5 Jul 2026 12:00 +0260", b"5 Jul 2026 12:00 0200",
    b"5 Jul 2026 12:00 +02:00", b"5 Jul 2026 12:00 *0200", b"5 Jul 2026 12:00 +0200 CEST",
    b"5 Jul 2026 12:00 GMT+0000", b"Sunday, 5 Jul 2026 12:00 +0000", b"Sun 5 Jul 2026 12:00 +0000",
    b"Sun,, 5 Jul 2026 12:00 +0000", b", 5 Jul 2026 12:00 +0000", b"Foo, 5 Jul 2026 12:00 +0000",
    b"(5 Jul 2026 12:00 +0000", b"5 Jul 2026 12:00 +0000 (", b"5 Jul 2026 12:00 +0000 (a\\)",
    b"5 Jul 2026 12:00 +0000 ((a)", b"5 Jul 2026 12:00 +0000 (\\", b"5 Jul 2026 12:00 +0000)",
    b"5 Jul\\ 2026 12:00 +0000", b"5 Jul 2026 12:00 +0000;", b"5 Jul 2026 12:00 +0000; x",
    b"\"5\" Jul 2026 12:00 +0000", b"5 Jul 2026 12:00 +0000 .", b"2026-07-05T12:00:00Z", b"five Jul 2026 12:00 +0000",
    b"5 Jul 2026 12:00 \xC3\xA9",
]
# A leap day, a turn of the year and one of the century, in three zones: each part.
SHOWN = [
    (b"28 Feb 2024 23:30:09 +0000", "+0030", "2024|02|29|2024-02-29|60369|00|00|09|00:00:09|2024-02-29T00:00:09+00:30|Thu, 29 Feb 2024 00:00:09 +0030|+0030|4"),
    (b"28 Feb 2024 23:30:09 +0000", "-0000", "2024|02|28|2024-02-28|60368|23|30|09|23:30:09|2024-02-28T23:30:09-00:00|Wed, 28 Feb 2024 23:30:09 -0000|-0000|3"),
    (b"28 Feb 2024 23:30:09 +0000", "-1145", "2024|02|28|2024-02-28|60368|11|45|09|11:45:09|2024-02-28T11:45:09-11:45|Wed, 28 Feb 2024 11:45:09 -1145|-1145|3"),
    (b"31 Dec 2026 22:59:59 -0100", "+0030", "2027|01|01|2027-01-01|61406|00|29|59|00:29:59|2027-01-01T00:29:59+00:30|Fri, 01 Jan 2027 00:29:59 +0030|+0030|5"),
    (b"31 Dec 2026 22:59:59 -0100", "-0000", "2026|12|31|2026-12-31|61405|23|59|59|23:59:59|2026-12-31T23:59:59-00:00|Thu, 31 Dec 2026 23:59:59 -0000|-0000|4"),
    (b"31 Dec 2026 22:59:59 -0100", "-1145", "2026|12|31|2026-12-31|61405|12|14|59|12:14:59|2026-12-31T12:14:59-11:45|Thu, 31 Dec 2026 12:14:59 -1145|-1145|4"),
    (b"1 Jan 2000 00:00:00 +0100", "+0030", "1999|12|31|1999-12-31|51543|23|30|00|23:30:00|1999-12-31T23:30:00+00:30|Fri, 31 Dec 1999 23:30:00 +0030|+0030|5"),
    (b"1 Jan 2000 00:00:00 +0100", "-0000", "1999|12|31|1999-12-31|51543|23|00|00|23:00:00|1999-12-31T23:00:00-00:00|Fri, 31 Dec 1999 23:00:00 -0000|-0000|5"),
    (b"1 Jan 2000 00:00:00 +0100", "-1145", "1999|12|31|1999-12-31|51543|11|15|00|11:15:00|1999-12-31T11:15:00-11:45|Fri, 31 Dec 1999 11:15:00 -1145|-1145|5"),
]
# Clocks at their ends, and dates that a zone moves out of the years of four digits.
CLOCKS = [
    (0, "+0000", "1970-01-01T00:00:00+00:00"),
    (0, "-0001", "1969-12-31T23:59:00-00:01"),
    (2_147_483_647, "+0200", "2038-01-19T05:14:07+02:00"),
    (LAST_CLOCK, "+0000", "9999-12-31T23:59:59+00:00"),
    (LAST_CLOCK, "+0001", "none"),
]
# A second that is put in stays, and a year of 1900 is shown.
SECONDS_AND_YEARS = [
    (b"31 Dec 2016 23:59:60 +0000", "+0200", "iso8601", "2017-01-01T01:59:60+02:00"),
    (b"1 Jan 1900 00:00 -0000", "+0200", "iso8601", "1900-01-01T02:00:00+02:00"),
]
NOON = b"5 Jul 2026 12:00:00 +0000"
NO_ZONES = ["", "+", "0200", "+020", "+02000", "+0260", "+02:0", " +0200", "GMT"]
NAMED = [("WeekDay", "0"), ("ISO8601", "2026-07-05T12:00:00+00:00"), ("zones", "none")]


def shown(rows):
    """Rows of a value, a zone and a part, and what is printed of it."""
    return [([value, zone, part], lines(wanted)) for value, zone, part, wanted in rows]


def moments(rows):
    """Rows of a value, and the moment and the zone that it names: the moment is shown in UTC."""
    for value, minutes, second, zone in rows:
        yield value, "+0000", "iso8601", f"{EPOCH + datetime.timedelta(minutes=minutes):%Y-%m-%dT%H:%M}:{second:02}+00:00"
        yield value, "own", "zone", zone


def of_moments(caller):
    """All of them."""
    for title, rows in READ.items():
        yield Given(title, caller, "date", shown(moments(rows)))
    yield Given("no dates", caller, "date", shown((value, "+0000", "date", "none") for value in NONE))
    told = ((value, zone, *it) for value, zone, parts in SHOWN for it in zip(PARTS, parts.split("|")))
    yield Given("each part in zones", caller, "date", shown(told))
    yield Given("ends of years", caller, "clock", shown((str(clock), zone, "iso8601", wanted) for clock, zone, wanted in CLOCKS))
    yield Given("seconds and years", caller, "date", shown(SECONDS_AND_YEARS))
    yield Given("zones that are none", caller, "date", shown((NOON, zone, "zone", "none") for zone in NO_ZONES))
    yield Given("a zone in the west", caller, "date", shown([(NOON, "-0330", "std11", "Sun, 05 Jul 2026 08:30:00 -0330")]))
    yield Given("parts by their names", caller, "date", shown((NOON, "+0000", part, wanted) for part, wanted in NAMED))
