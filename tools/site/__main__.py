"""Runs the tool: from the repository by `tools/sievebench-site`, and as one file that `pack.py` makes."""

import signal

# Ctrl-C is quiet from the start.
if signal.getsignal(signal.SIGINT) is signal.default_int_handler:
    signal.signal(signal.SIGINT, signal.SIG_DFL)

from sievebench_site.main import begin  # noqa: E402

begin()
