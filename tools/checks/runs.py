"""A run of the program, and the sessions and reports that the checks have in common."""
import os
import pathlib
import shlex
import signal
import subprocess
import sys

SECONDS = 60
SETTINGS = 'envelope "" "" mailbox "INBOX"'


class Run:
    """A command, where it runs, and what must come of it: the octets of its outputs, or where these are lists, parts of them (none of
    an output of which there must be nothing)."""

    def __init__(self, title, folder, command, output=b"", error=b"", status=0):
        self.title, self.folder, self.command, self.output, self.error, self.status = title, folder, command, output, error, status

    def differences(self, path):
        """What comes of it that must not."""
        env = {**os.environ, "PATH": path}
        try:
            done = subprocess.run(["sh", "-c", self.command], cwd=self.folder, env=env, stdin=subprocess.DEVNULL, capture_output=True, timeout=SECONDS)
        except subprocess.TimeoutExpired:
            return [f"no end in {SECONDS} seconds"]
        told = [("standard output", self.output, done.stdout), ("standard error", self.error, done.stderr), ("status", self.status, done.returncode)]
        return [f"{what}: {wanted_and_got(wanted, got)}" for what, wanted, got in told if not is_as(wanted, got)]


class Reading:
    """What is read and compared, without a run. `looked` says at how many things it looked, once it has: of none it knows nothing, and that
    is a failure."""

    looked = 0

    def differences(self, path):
        """What is otherwise than it must be."""
        return self.found(path) or ([] if self.looked else ["it has looked at nothing"])


class Nothing:
    """What stands in the place of runs that aren't there."""

    def __init__(self, title):
        self.title, self.command = title, "nothing"

    def differences(self, path):
        """That there is none."""
        return ["nothing is run or read here"]


class LeftOut:
    """What isn't compared on this machine, as standard error says."""

    def __init__(self, title, why):
        self.title, self.command, self.why = title, "left out", why

    def differences(self, path):
        """Nothing."""
        print(f"{self.title}: left out, {self.why}", file=sys.stderr)
        return []


def some(title, runs):
    """These runs, and where there are none, one that fails."""
    is_empty = True
    for run in runs:
        is_empty = False
        yield run
    if is_empty:
        yield Nothing(title)


def path_to(program, folder):
    """The path in which a program is called `sievebench`: a link in a new folder within this one comes before all else."""
    (folder / "bin").mkdir()
    (folder / "bin/sievebench").symlink_to(program)
    return f"{folder / 'bin'}{os.pathsep}{os.environ['PATH']}"


def tell(run, found):
    """Prints what is wrong with a run. Whether anything is."""
    for line in found:
        print(f"{run.title}: {run.command:.300}\n  {line}")
    return bool(found)


def differences(run, path):
    """What comes of a run that must not. One that has no end in its time, or ends by an exception, has failed too."""
    try:
        return run.differences(path)
    except subprocess.TimeoutExpired as late:
        return [f"no end in {late.timeout:.0f} seconds"]
    except Exception as error:
        return [f"{type(error).__name__}: {error}"]


def heeds():
    """Lets a child heed Ctrl-C, which is ignored where the checks run in the background."""
    signal.signal(signal.SIGINT, signal.SIG_DFL)


def name_of(part):
    """The module and the name of a part, which is a generator."""
    return f"{pathlib.Path(part.gi_code.co_filename).stem}.{part.__name__}"


def is_as(wanted, got):
    """Whether what was got is what was wanted, or has each part of it."""
    if isinstance(wanted, list):
        return all(part in got for part in wanted) and (bool(wanted) or not got)
    return wanted == got


def wanted_and_got(wanted, got):
    """Both in words, and octets from the line in which they part."""
    if not isinstance(wanted, bytes):
        return f"wanted {wanted!r:.2000}, got {got!r:.2000}"
    start = wanted.rfind(b"\n", 0, len(os.path.commonprefix([wanted, got]))) + 1
    return f"after {start} octets wanted {wanted[start:]!r:.2000}, got {got[start:]!r:.2000}"


def lines(*texts):
    """The octets of lines."""
    return "".join(f"{text}\n" for text in texts).encode()


def report(scripts, name, mail, verdict, errors=0, settings=SETTINGS):
    """The report of one mail: the lines of the scripts, the name of the main one and the mail's id in quotes, and the lines of the verdict."""
    told = [f'main personal "{name}"', settings, *(f"script {line}" for line in scripts), f'message "{mail}"']
    return lines(*told, *(f"  {line}" for line in verdict), f'  read personal "{name}"', f"total 1 messages {errors} errors")


def put(words, octets):
    """A line of a session with the octets that it counts."""
    return b"%s %d\n%s" % (words, len(octets), octets)


def profile_lines(names):
    """The lines of a report that say the profile, where it isn't empty, and what time it is and how many mailboxes are listed, where it asks for
    these: none."""
    told = [f"with {names}"] if names else []
    told += ["clock none"] if "date" in names.split() else []
    return told + (["mailboxes 0"] if "mailbox" in names.split() else [])


def session(room, title, octets, replies, status=0, names=""):
    """A session of its own file, under the profile of these names."""
    path = room / f"{len(list(room.iterdir()))}.session"
    path.write_bytes(octets)
    words = f"session --with {shlex.quote(names.replace(' ', ','))}" if names else "session"
    return Run(title, room, f"sievebench {words} < {path.name}", replies, status=status)


def reported(room, title, script, mails, verdicts, fault="ok", envelope='"" ""', names=""):
    """A session that reports what a script does with mails in an envelope: the lines of each mail's verdict, or the script's fault."""
    puts = [put(b"script personal main", script)] + [put(b"message m%d" % number, mail) for number, mail in enumerate(mails, 1)]
    octets = b"".join(puts) + b"main personal main\n" + lines(f"envelope {envelope}", "report")
    if fault != "ok":
        verdicts = [['implicit "INBOX"', 'error personal "main" line 0 invalid-script']] * len(mails)
    told = ["ok"] * (len(mails) + 3) + ['main personal "main"', f'envelope {envelope} mailbox "INBOX"', *profile_lines(names), f'script personal "main" {fault}']
    for number, verdict in enumerate(verdicts, 1):
        told += [f'message "m{number}"', *(f"  {line}" for line in verdict), '  read personal "main"']
    errors = sum(any(line.startswith("error ") for line in verdict) for verdict in verdicts)
    return session(room, title, octets, lines(*told, f"total {len(mails)} messages {errors} errors"), names=names)


def dumped(room, title, script, code, names=""):
    """A session that prints the code of a script: its lines."""
    return session(room, title, put(b"script personal main", script) + b"dump personal main\n", lines("ok", *code, "ok"), names=names)
