"""The charsets that `charsets` brings, octet by octet: each is decoded as Python's codecs have it, which are a second copy of the tables that
Unicode publishes, and stays as written where these have nothing, or where the program is asked for other names.

A session for each charset has one message, with a field for each octet: `v`, an encoded word of that octet alone, and `w`. Its script flags
those whose value isn't what is wanted, so none may be flagged.
"""
from .runs import Run, SETTINGS, lines, put

CHARSETS = {
    "windows-1250": "cp1250",
    "windows-1251": "cp1251",
    "windows-1252": "cp1252",
    "iso-8859-2": "iso8859-2",
    "iso-8859-15": "iso8859-15",
    "koi8-r": "koi8-r",
}
OCTETS = range(256)


def word(charset, octet):
    """The word of an octet; the name of the charset has capital letters in every other one."""
    return f"=?{charset.upper() if octet % 2 else charset}?Q?={octet:02X}?=".encode()


def wanted(charset, octet, is_asked):
    """The value of the field of an octet."""
    try:
        inner = bytes([octet]).decode(CHARSETS[charset]).encode() if is_asked else word(charset, octet)
    except UnicodeDecodeError:
        inner = word(charset, octet)
    return b"v" + inner + b"w"


def differs(charset, octet, is_asked):
    """A test that the value of an octet's field isn't what is wanted. A string has no LF without a CR before it."""
    field, value = b'"x%02x"' % octet, wanted(charset, octet, is_asked)
    if b"\n" in value:
        return b'anyof(not header :matches %s "v?w", header :is %s "v\rw")' % (field, field)
    return b'not header :is %s "%s"' % (field, value.replace(b"\\", b"\\\\").replace(b'"', b'\\"'))


def of_charset(room, charset, is_asked):
    """The session of a charset."""
    tests = [b'if %s { addflag "x%02x"; }\n' % (differs(charset, octet, is_asked), octet) for octet in OCTETS]
    fields = [b"X%02X: v%sw\n" % (octet, word(charset, octet)) for octet in OCTETS]
    octets = put(b"script personal main", b'require "imap4flags";\n' + b"".join(tests)) + put(b"message m", b"".join(fields)) + b"main personal main\nreport\n"
    path, names = room / f"{charset}-{'asked' if is_asked else 'unasked'}.session", ["charsets"] if is_asked else ["subaddress", "unused"]
    path.write_bytes(octets)
    told = ['main personal "main"', SETTINGS, f"with {' '.join(names)}", 'script personal "main" ok', 'message "m"', '  implicit "INBOX"', '  read personal "main"']
    replies = lines(*["ok"] * 3, *told, "total 1 messages 0 errors")
    return Run(f"{charset}, {'asked for' if is_asked else 'not asked for'}", room, f"sievebench session --with {','.join(names)} < {path.name}", replies)


def of_charsets(room):
    """Each charset, with and without being asked for."""
    for charset in CHARSETS:
        for is_asked in True, False:
            yield of_charset(room, charset, is_asked)
