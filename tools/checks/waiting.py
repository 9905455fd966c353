"""Sessions whose replies must come before more is written or the input is closed."""
import os
import select
import subprocess
import time

from .runs import SECONDS, lines, put

# Between two writes, so that each is most likely a read of its own. Where two make one read, the replies are the same.
PAUSE = 0.1


class Waiting:
    """A session whose replies must come while its input stays open, and after whose end nothing more may."""

    def __init__(self, title, writes, replies, status=0):
        self.title, self.command, self.writes, self.wanted = f"an input that stays open: {title}", "sievebench session", writes, (replies, b"", status)

    def differences(self, path):
        pipe, env, got, end = subprocess.PIPE, {**os.environ, "PATH": path}, b"", time.monotonic() + SECONDS
        with subprocess.Popen(["sievebench", "session"], stdin=pipe, stdout=pipe, env=env, bufsize=0) as served:
            try:
                for octets in self.writes:
                    served.stdin.write(octets)
                    time.sleep(PAUSE)
                while len(got) < len(self.wanted[0]) and select.select([served.stdout], [], [], max(0, end - time.monotonic()))[0]:
                    if not (part := served.stdout.read(65_536)):
                        break
                    got += part
                found = got, served.communicate(timeout=SECONDS)[0], served.returncode
            except (OSError, subprocess.TimeoutExpired) as fault:
                return [str(fault)]
            finally:
                served.kill()
        return [] if found == self.wanted else [f"replies, what came after the end, and status: wanted {self.wanted!r:.1000}, got {found!r:.1000}"]


def of_sessions():
    """All of them."""
    script = put(b"script personal main", b"discard;\n")
    yield Waiting("two commands", [b"mailbox INBOX\nno-main\n"], lines("ok", "ok"))
    yield Waiting("a script with its octets", [script], lines("ok"))
    yield Waiting("a script whose octets come after its line, in two parts", [script[:-9], script[-9:-4], script[-4:]], lines("ok"))
    yield Waiting("a command in two parts, and another", [b"no-", b"main\n", b"no-main\n"], lines("ok", "ok"))
    large = b"expect m 65537\n" + b"x" * 65_537
    yield Waiting("octets that are refused", [large], lines("no too-large"))
    yield Waiting("octets that are refused, in two parts, and a command", [large[:-1], large[-1:], b"no-main\n"], lines("no too-large", "ok"))
    yield Waiting("a line that is too long already", [b"no-main\n" + b" " * 16_386], lines("ok", "no syntax"), 2)
