"""The time at which a site's mails are judged."""

from __future__ import annotations

import os
import re
from typing import List, Optional

from .ends import refuse
from .texts import text_of
from .words import lines_of, quoted

# A clock as a line of a session has it and as an option does, and the last second that it may have, that of the year 9999.
CLOCK_LINE, CLOCK_OPTION = re.compile(rb" *([0-9]+)(?: +([+-][0-9]{4}))? *"), re.compile(rb"([0-9]+)([+-][0-9]{4})?")
LAST_SECOND = 253_402_300_799


def clock_in(folder: bytes, names: List[bytes], given: Optional[bytes]) -> Optional[List[bytes]]:
    """The seconds and the zone of a site's clock, by an option or by its file; a site that doesn't ask for dates has none."""
    asked = b"date" in names
    if given is not None:
        if not asked:
            refuse(f"--clock wants date in {quoted(os.path.join(folder, b'with'))}")
        form = "SECONDS[ZONE], as 1783245600+0200"
        return clock_of(CLOCK_OPTION.fullmatch(given), f"--clock {quoted(given)}", form)
    path = os.path.join(folder, b"clock")
    if not asked or not os.path.lexists(path):
        return None
    lines = [line for line in lines_of(text_of(path)) if line.strip(b" ")]
    found = CLOCK_LINE.fullmatch(lines[0]) if len(lines) == 1 else None
    return clock_of(found, quoted(path), "one line SECONDS [ZONE], as 1783245600 +0200")


def clock_of(found: "Optional[re.Match[bytes]]", place: str, form: str) -> List[bytes]:
    """The seconds and the zone, as a line of a session has them. Without a zone it is that of UTC."""
    if found is None:
        refuse(f"{place} isn't {form}")
    seconds, zone = found[1].lstrip(b"0") or b"0", found[2] or b"+0000"
    if len(seconds) > len(str(LAST_SECOND)) or int(seconds) > LAST_SECOND:
        refuse(f"{place} is past {LAST_SECOND}, the last second of the year 9999")
    if zone[3:] > b"59":
        refuse(f"{place} has a zone with minutes past 59")
    return [seconds, zone]
