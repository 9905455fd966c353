#!/usr/bin/env python3
"""Makes one executable file of the tool for sites. Equal sources give equal octets.

    tools/site/pack.py FILE
"""

from __future__ import annotations

import io
import pathlib
import sys
import zipfile
from typing import List

HERE = pathlib.Path(__file__).resolve().parent
sys.dont_write_bytecode = True
sys.path.insert(0, str(HERE.parent))

from command import given

BEGIN = b"#!/usr/bin/env python3\n"
# The first time that an archive of this form can name.
TIME = (1980, 1, 1, 0, 0, 0)


def parts() -> List[pathlib.Path]:
    """The files that are part of the tool, in order."""
    own = HERE / "sievebench_site"
    return [HERE / "__main__.py", *sorted(it for it in own.iterdir() if it.suffix in (".py", ".css", ".js"))]


def packed() -> bytes:
    """The parts as an archive, whose places count from its own first octet: so its first line may be another."""
    octets = io.BytesIO()
    with zipfile.ZipFile(octets, "w") as archive:
        for part in parts():
            member = zipfile.ZipInfo(part.relative_to(HERE).as_posix(), TIME)
            member.external_attr = 0o644 << 16
            archive.writestr(member, part.read_bytes(), zipfile.ZIP_DEFLATED)
    return octets.getvalue()


if __name__ == "__main__":
    target = pathlib.Path(*given(__doc__).words)
    target.write_bytes(BEGIN + packed())
    target.chmod(0o755)
