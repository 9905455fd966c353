"""Dates at random, as Python's `email.utils` writes them and `datetime` shifts them. A session has many messages, each with
a date in a shape of its own and the zone in which it is shown; its script stores each message into a mailbox that is called
by all parts of its date. Another session sets its clock again and again, and shows the current date.

A shape has a weekday or none, seconds or none, a year of two digits, of three or of four, a zone by numbers, by letters or
none, any case of letters, and between its words blanks, folds and comments; maybe it stands after a `;`. A second of 60,
which `datetime` doesn't have, is put in where the others are shown.
"""
import datetime
import email.utils
import random
import re

from .runs import SETTINGS, lines, put, session

SESSIONS, MESSAGES, CLOCKS = 5, 2_000, 1_000
PARTS = "year month day date julian hour minute second time iso8601 std11 zone weekday".split()
EPOCH, FIRST_DAY = datetime.datetime(1970, 1, 1), datetime.date(1858, 11, 17)
# The greatest clock, which is the last second of the year 9999.
LAST_CLOCK = 253_402_300_799
# The zones that have letters (RFC 5322, 4.3), and letters that say nothing of a zone.
LETTERS = {
    **{"UT": "+0000", "GMT": "+0000"},
    **{"EST": "-0500", "CST": "-0600", "MST": "-0700", "PST": "-0800"},
    **{"EDT": "-0400", "CDT": "-0500", "MDT": "-0600", "PDT": "-0700"},
}
UNKNOWN = ["A", "z", "UTC", "CET", "Local"]
USUAL = "+0000 -0000 +0100 +0200 -0500 -0800 +0530 +0545 -0330 +1400 -1200".split()
GAPS = ["", " ", " ", "  ", "\t", "\r\n ", "\n\t", "(a)", " (b (c) \\) d) ", "\r\n (e)\r\n\t", "()"]
FRONTS = ["", "", "", "from a.example by b.example (c; d); ", "id 1;"]


class Moment:
    """A moment: its minute in UTC, its second, and the zone in which it is written."""

    def __init__(self, minute, second, zone):
        self.minute, self.second, self.zone = minute, second, zone

    def local(self, zone):
        """The minute in a zone."""
        return self.minute + shift(zone)

    def text(self, zone):
        """The moment in a zone, as `email.utils` writes it: the second and the zone are put in."""
        text = email.utils.format_datetime(self.local(zone))
        return f"{text[: -len('00 -0000')]}{self.second:02} {zone}"

    def parts(self, zone):
        """Each part in a zone, in the order of their names."""
        local = self.local(zone)
        date, time = local.date().isoformat(), f"{local.hour:02}:{local.minute:02}:{self.second:02}"
        julian, weekday = (local.date() - FIRST_DAY).days, local.isoweekday() % 7
        iso8601 = f"{date}T{time}{zone[:3]}:{zone[3:]}"
        return [*date.split("-"), date, julian, *time.split(":"), time, iso8601, self.text(zone), zone, weekday]


def shift(zone):
    """How much later it is by the clocks of a zone than by those of UTC."""
    minutes = 60 * int(zone[1:3]) + int(zone[3:])
    return datetime.timedelta(minutes=-minutes if zone[0] == "-" else minutes)


def zone_of(dice):
    """A zone that is usual, or any."""
    return dice.choice([dice.choice(USUAL), f"{dice.choice('+-')}{dice.randrange(100):02}{dice.randrange(60):02}"])


def moment_of(dice):
    """A moment and the word for its zone. In its zone it lies in the years from 1900 on, and no zone moves it past 9999. Days
    at the ends of months are frequent, and minutes at those of days."""
    year = dice.choice([dice.randrange(1970, 2040), dice.randrange(1900, 2100), dice.randrange(1900, 9999)])
    days = dice.choice([0, 27, 28, -1, dice.randrange(31)])
    day = datetime.datetime(year, dice.randrange(1, 13), 1) + datetime.timedelta(days=days)
    if not 1900 <= day.year < 9999:
        return moment_of(dice)
    local = day + datetime.timedelta(minutes=dice.choice([0, 1_439, dice.randrange(1_440)]))
    letters, number = dice.choice([*LETTERS, *UNKNOWN, ""]), zone_of(dice)
    word, zone = dice.choice([(letters, LETTERS.get(letters, "-0000")), (number, number)])
    return Moment(local - shift(zone), dice.choice([0, 0, 59, 60, dice.randrange(60)]), zone), word


def shaped(dice, moment, zone):
    """The text of a moment in some shape, with this word for its zone."""
    weekday, day, month, year, hour, minute, second = re.findall(r"\w+", moment.text(moment.zone))[:7]
    years = [year] + [year[2:]] * (1950 <= int(year) < 2050) + [f"{int(year) - 1900:03}"] * (int(year) < 2900)
    words = [weekday, ","] if dice.random() < 0.7 else []
    words += [dice.choice([day, str(int(day))]), month, dice.choice(years), hour, ":", minute]
    words += [":", second] if second != "00" or dice.random() < 0.5 else []
    words += [zone[0], zone[1:]] if zone[:1] in ("+", "-") else [zone] if zone else []
    words = [dice.choice([word, word, word.upper(), word.lower()]) for word in words]
    if dice.random() < 0.4:
        # As it is mostly written.
        text = " ".join(words).replace(" ,", ",").replace(" : ", ":")
        return dice.choice(FRONTS) + re.sub(r"([+-]) ", r"\1", text)
    text = dice.choice(FRONTS) + dice.choice(GAPS)
    for word, after in zip(words, [*words[1:], ""]):
        # Two numbers don't touch.
        text += word + dice.choice([gap for gap in GAPS if gap or not (word.isdigit() and after.isdigit())])
    return text


def script_of(test, tags):
    """A script that stores into a mailbox that is called by what such tests find: each part under the first tag, and some
    under each other one."""
    asked = [(tags[0], part) for part in PARTS] + [(tag, part) for tag in tags[1:] for part in ("iso8601", "weekday")]
    tests = [f'if {test % tag} "{part}" "*" {{ set "told" "${{told}}|${{0}}"; }}\n' for tag, part in asked]
    front = 'require ["date", "variables", "fileinto"];\nif header :matches "X-Zone" "*" { set "zone" "${0}"; }\n'
    text = front + "".join(tests) + 'fileinto "${told}";\n'
    return put(b"script personal main", text.encode()) + b"main personal main\n"


def told_of(moment, zones):
    """The mailbox that is called so."""
    first, *others = (dict(zip(PARTS, moment.parts(zone))) for zone in zones)
    shown = [*first.values(), *(it[part] for it in others for part in ("iso8601", "weekday"))]
    return "".join(f"|{part}" for part in shown)


def settings(clock):
    """The lines of a report before those of its messages."""
    return ['main personal "main"', SETTINGS, "with date", f"clock {clock}", 'script personal "main" ok']


def verdict(name, mailbox):
    """The lines of a message."""
    return [f'message "{name}"', f'  store "{mailbox}"', '  read personal "main"']


def of_fields(room, seed):
    """A session of messages with dates."""
    dice = random.Random(seed)
    local = zone_of(dice)
    clock = f"{dice.randrange(LAST_CLOCK)} {local}"
    octets = [script_of('date %s:matches "Date"', [':zone "${zone}" ', ":originalzone ", ""]), f"clock {clock}\n".encode()]
    told = ["ok"] * (MESSAGES + 3) + settings(clock)
    for number in range(MESSAGES):
        (moment, word), zone = moment_of(dice), zone_of(dice)
        mail = f"Date: {shaped(dice, moment, word)}\r\nX-Zone: {zone}\r\n\r\n"
        octets.append(put(b"message %d" % number, mail.encode()))
        told += verdict(number, told_of(moment, [zone, moment.zone, local]))
    replies = lines(*told, f"total {MESSAGES} messages 0 errors")
    return session(room, f"{MESSAGES} random dates, seed {seed}", b"".join([*octets, b"report\n"]), replies, names="date")


def of_clocks(room, seed):
    """A session of one message, in which the clock is set, and a report follows, so many times."""
    dice = random.Random(seed)
    octets = [script_of("currentdate %s:matches", ["", ':zone "${zone}" ']), put(b"message m", b"X-Zone: -0330\n\n")]
    told = ["ok"] * 3
    for _ in range(CLOCKS):
        # No zone moves it past the year 9999.
        seconds = dice.choice([dice.randrange(2_000_000_000), dice.randrange(LAST_CLOCK - 400_000)])
        moment = Moment(EPOCH + datetime.timedelta(minutes=seconds // 60), seconds % 60, zone_of(dice))
        clock = f"{seconds} {moment.zone}"
        octets.append(f"clock {clock}\nreport\n".encode())
        told += ["ok", *settings(clock), *verdict("m", told_of(moment, [moment.zone, "-0330"]))]
        told.append("total 1 messages 0 errors")
    return session(room, f"{CLOCKS} random clocks", b"".join(octets), lines(*told), names="date")


def of_dates(room):
    """All of them."""
    room = room / "dates"
    room.mkdir()
    for seed in range(SESSIONS):
        yield of_fields(room, seed)
    yield of_clocks(room, SESSIONS)
