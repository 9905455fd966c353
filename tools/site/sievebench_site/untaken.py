"""The settings of a server that a site doesn't take, and why."""

from __future__ import annotations

import re
from typing import Optional

from .doveconf import DELIVERING, Setting

# What is taken, or changes no verdict.
QUIET = re.compile(
    r"sieve|sieve_(dir|global|global_dir|default|extensions|global_extensions|user_log|trace_\w+|quota_\w+|default_name)"
)
# The first that fits says why a setting of plugins isn't taken.
REASONS = [
    (re.compile(r"sieve_(spamtest|virustest)_\w+"), "not taken: spamtest and virustest aren't known here"),
    (re.compile(r"sieve_(before|after)\d+"), "not taken: there is none of the number before, where the server stops"),
    (
        re.compile(r"sieve_(max_\w+|include_max_\w+|variables_max_\w+|vacation_max_\w+)"),
        "not taken: docs/LANGUAGE.md has the limits that hold here",
    ),
    (re.compile(r"sieve_\w+"), "not taken"),
]
SEPARATOR = "not taken: the separator of :user and :detail is + here"
IMAP = "not taken: it runs scripts at another time than delivery"
MAILDIR = re.compile(rb"maildir:([^:]+)(?::.*)?", re.S)
INBOX = re.compile(rb"mbox:(?:[^:]+:)*INBOX=([^:]+)(?::.*)?", re.S)


def why_untaken(setting: Setting) -> Optional[str]:
    """Why a setting isn't taken, where that may matter."""
    if setting.name == "recipient_delimiter":
        return SEPARATOR if setting.value != b"+" else None
    around = setting.around()
    if around[-1:] != ["plugin"]:
        return None
    if setting.name.startswith("imapsieve_"):
        return IMAP
    if not setting.name.startswith("sieve"):
        return None
    if len(around) > 1 and around[0] not in DELIVERING:
        return f"not taken: it holds for {around[0]} only"
    if QUIET.fullmatch(setting.name):
        return None
    return next((why for pattern, why in REASONS if pattern.fullmatch(setting.name)), "not taken")


def of_mails(location: bytes) -> str:
    """What is said of the place of mails."""
    found = MAILDIR.fullmatch(location) or INBOX.fullmatch(location)
    if not found:
        return "not taken: import takes Maildirs and mbox files"
    place = found[1].decode("latin-1")
    return f"not taken: mails of a user are in {place}: import --user NAME takes them"
