"""Mails as mailers, shops, lists and servers write them, with what they have in common: types, boundaries, encodings and odd lines."""
import base64
import quopri

TOP = """\
Return-Path: <ann@a.example>
Received: from a.example by b.example
\tfor <bob@b.example>; Sun, 5 Jul 2026 12:00:00 +0200
"""
OLD = """\
Received: by c.example; Fri, 3 Jul 2026 09:00:00 +0000
From: Carl <carl@c.example>
To: ann@a.example
Subject: old
"""
PLAIN = "Hello Bob,\n\nsee you on Sunday.\n\n-- \nAnn\n"
LETTER = "Grüße aus Köln, und 5 € für dich: ein langer Satz, der nicht mehr in eine Zeile geht.\n\nAnn\n"
PAGE = """\
<html><head><meta charset="utf-8"></head><body>
<p class="a">Grüße aus <b>Köln</b> &amp; 5 €</p>
</body></html>
"""
PICTURE = base64.encodebytes(bytes(range(256))).decode()
INVITATION = "BEGIN:VCALENDAR\nMETHOD:REQUEST\nBEGIN:VEVENT\nSUMMARY:Kürbisfest\nEND:VEVENT\nEND:VCALENDAR\n"
PATCH = """\
---
 a.c | 2 +-

diff --git a/a.c b/a.c
--- a/a.c
+++ b/a.c
@@ -1 +1 @@
-int a;
+int b; /* ü */
-- \n2.45.0

"""
FAILED = """\
Reporting-MTA: dns; b.example
Arrival-Date: Sun,  5 Jul 2026 12:00:00 +0200

Final-Recipient: rfc822; bob@b.example
Action: failed
Status: 5.1.1
Diagnostic-Code: smtp; 550 5.1.1 <bob@b.example>: Recipient address rejected:
    User unknown
"""
RECEIPT = """\
Reporting-UA: b.example; Mail
Final-Recipient: rfc822;bob@b.example
Disposition: manual-action/MDN-sent-manually; displayed
"""
ABUSE = "Feedback-Type: abuse\nUser-Agent: a/1.0\nVersion: 1\n"
MULTI, FLOWED = "This is a multi-part message in MIME format.\n", "text/plain; charset=UTF-8; format=flowed"
PGP = "-----BEGIN PGP %s-----\n\nwsD5BAABCAAj\n=abcd\n-----END PGP %s-----\n"


def one(kind, content, *fields):
    """An entity of a type, with its content and further fields."""
    return "".join(f"{field}\n" for field in (f"Content-Type: {kind}", *fields)) + "\n" + content


def many(kind, boundary, *parts, before="", after="\n"):
    """A multipart of a type."""
    body = "".join(f"--{boundary}\n{part}\n" for part in parts)
    return one(f'{kind};\n\tboundary="{boundary}"', f"{before}{body}--{boundary}--{after}")


def escaped(kind, text, codec="utf-8"):
    """A text in quoted-printable."""
    content = quopri.encodestring(text.encode(codec)).decode()
    return one(kind, content, "Content-Transfer-Encoding: quoted-printable")


def based(kind, text=None, *fields):
    """A text in base64, or a picture where none is given."""
    content = base64.encodebytes(text.encode()).decode() if text else PICTURE
    return one(kind, content, *fields, "Content-Transfer-Encoding: base64")


def of_desks():
    """Mails of programs for desks and telephones."""
    plain = escaped('text/plain; charset="iso-8859-15"', LETTER, "iso-8859-15")
    page = escaped('text/html; charset="windows-1252"', PAGE, "cp1252")
    word = many("multipart/alternative", "_000_AM6PR04MB5877_", plain, page)
    yield "Thread-Topic: a\n" + word
    picture = based('image/png; name="image001.png"', None, "Content-ID: <image001.png@01DC>")
    related = many('multipart/related;\n\ttype="multipart/alternative"', "_004_AM6PR04MB5877_", word, picture)
    yield many("multipart/mixed", "_005_AM6PR04MB5877_", related, based('application/pdf; name="a b.pdf"'))
    yield many("multipart/alternative", "----=_NextPart_000_0012_01DC2A6E.4F3B2C10", plain, page, before=MULTI + "\n")
    flowed = escaped("text/plain;\n\tcharset=utf-8;\n\tformat=flowed;\n\tdelsp=yes", LETTER)
    jpeg = based('image/jpeg;\n\tname=IMG_1.jpeg;\n\tx-unix-mode="0644"', None, "Content-Disposition: inline;\n\ta=b")
    page = escaped("text/html;\n\tcharset=utf-8", PAGE)
    inner = many("multipart/related", "Apple-Mail=_2F1B-4C5D", page, jpeg, before="\n\n")
    apple = many("multipart/alternative", "Apple-Mail=_7A8E-11", flowed, inner, before="\n\n")
    yield "Mime-Version: 1.0 (Mac OS X Mail 16.0 \\(3774\\))\n" + apple
    sent = one("text/plain;\n\tcharset=us-ascii", "\n\nSent from my iPhone\n", "Content-Transfer-Encoding: 7bit")
    phone = many("multipart/mixed", "Apple-Mail-7C9A", sent, jpeg, sent, before="\n")
    yield phone.replace('"Apple-Mail-7C9A"', "Apple-Mail-7C9A")
    eight = one(FLOWED, LETTER, "Content-Transfer-Encoding: 8bit")
    yield many("multipart/mixed", "------------0B1c2D3e", eight, jpeg, before=MULTI, after="\n\n")
    old = one('message/rfc822; charset=UTF-8;\n name="the old one.eml"', OLD + one("text/plain", PLAIN))
    yield many("multipart/mixed", "------------0B1c2D3e", eight, old)
    yield many("multipart/alternative", "=_alternative 004D2A5E80257F_=", one("text/plain", PLAIN), page)
    yield many("multipart/appledouble", "=_double", based("application/applefile"), based('image/gif; name="a.gif"'))


def of_sites():
    """Mails of web mailers and of shops."""
    page, text = escaped('text/html; charset="UTF-8"', PAGE), based('text/plain; charset="UTF-8"', LETTER)
    gmail = many("multipart/alternative", "000000000000a1b2c305f0d1e2f3", text, page)
    yield "X-Gm-Message-State: AOJu0Y\n" + gmail
    file = based('application/zip; name="a.zip"', None, 'Content-Disposition: attachment; filename="a.zip"')
    yield many("multipart/mixed", "000000000000b2c3d405f0d1e2f3", gmail, file)
    asked = one('text/calendar; charset="UTF-8"; method=REQUEST', INVITATION, "Content-Transfer-Encoding: 8bit")
    both = many("multipart/alternative", "0000000000001", based(f"{FLOWED}; delsp=yes", LETTER), page, asked)
    yield many("multipart/mixed", "0000000000002", both, based('application/ics; name="invite.ics"', INVITATION))
    office = based('text/calendar; charset="utf-8"; method=REQUEST', INVITATION)
    russian = escaped('text/plain; charset="koi8-r"', "Привет\n", "koi8-r")
    yield many("multipart/alternative", "_000_DB7PR01_", russian, page, office)
    latin = escaped("text/plain; charset=iso-8859-1", LETTER.replace("€", "EUR"), "latin-1")
    yield many("multipart/mixed", "b1_4f1e", many("multipart/alternative", "b2_4f1e", latin, page), file, before=MULTI)
    shop = many("multipart/alternative", "_----------=_MCPart_1234567", latin, page)
    yield shop
    # It was cut off.
    yield shop.rpartition("\n--")[0].rstrip("\n")
    yield many("multipart/mixed", "----=_Part_123_456.789", one("text/plain; charset=Cp1252", PLAIN), page, after="")
    yield many("multipart/voice-message;\n\tversion=2.0", "voice", text, based('audio/x-wav; name="a.wav"'))
    yield one('text/html; charset="utf-8"', PAGE, "Content-Transfer-Encoding: 8bit", "Precedence: bulk")
    yield text


def of_terminals():
    """Mails of programs for terminals, and of those that sign and encrypt."""
    yield one("text/plain; charset=UTF-8", PATCH, "Content-Transfer-Encoding: 8bit", "X-Mailer: git-send-email 2.45.0")
    text = one("text/plain; charset=us-ascii", PLAIN, "Content-Disposition: inline")
    yield many("multipart/mixed", "k+w/mQv8wyuph6w0", text, one("text/x-diff; charset=us-ascii", PATCH))
    yield one("text/plain; charset=UTF-8", "rm: a: No such file\n", "X-Cron-Env: <SHELL=/bin/sh>")
    yield "From: root\nSubject: backup\n\nbegin 644 a.txt\n#86)C\n`\nend\n"
    inner = many("multipart/mixed", "------------2", text)
    outer = many("multipart/mixed", "------------1", inner, based("application/pgp-keys"))
    signature = one('application/pgp-signature; name="OpenPGP_signature.asc"', PGP % ("SIGNATURE", "SIGNATURE"))
    told = "This is an OpenPGP/MIME signed message (RFC 4880 and 3156)\n"
    kind = 'multipart/signed; micalg=pgp-sha256;\n protocol="application/pgp-signature"'
    yield many(kind, "------------3", outer, signature, before=told)
    secret = one('application/octet-stream; name="encrypted.asc"', PGP % ("MESSAGE", "MESSAGE"))
    kind = 'multipart/encrypted;\n protocol="application/pgp-encrypted"'
    yield many(kind, "=-=e", one("application/pgp-encrypted", "Version: 1\n"), secret)
    kind = 'multipart/signed; protocol="application/pkcs7-signature"; micalg=sha-256'
    told = "This is a cryptographically signed message in MIME format.\n\n"
    yield many(kind, "------------ms0901", text, based('application/pkcs7-signature; name="smime.p7s"'), before=told)
    yield based("application/pkcs7-mime; smime-type=enveloped-data;\n\tname=smime.p7m")


def of_lists():
    """Mails of lists, with footers and in digests."""
    text = one("text/plain; charset=us-ascii", PLAIN)
    footer = one('text/plain; charset="us-ascii"', "____\nlist@a.example\n", "MIME-Version: 1.0")
    yield many("multipart/mixed", "===============1234567890123456789==", text, footer)
    both = many("multipart/alternative", "x1", text, one("text/html", "<p>"))
    digest = many("multipart/digest", "===============2==", f"\n{OLD}\n{PLAIN}", f"\n{OLD}{both}", f"\n{OLD}{text}")
    head = one("text/plain", "Today's Topics:\n\n   1. old (Carl)\n", "Content-Description: List digest")
    yield many("multipart/mixed", "===============1==", head, digest, footer)
    message = f"{'-' * 70}\n\nMessage: 1\n{OLD}\n{PLAIN}\n{'-' * 30}\n\n"
    yield one('text/plain; charset="us-ascii"', f"Today's Topics:\n\n{message}End of List Digest\n{'*' * 20}\n")
    yield one("message/rfc822", OLD + one("message/rfc822", f"{OLD}\n{PLAIN}"))


def of_servers():
    """Mails of servers about mails that failed, were read, or were abuse, and other reports."""
    told = one("text/plain; charset=us-ascii", "I'm sorry to have to inform you\n", "Content-Description: Notification")
    failed = one("message/delivery-status", FAILED, "Content-Description: Delivery report")
    sent = one("message/rfc822", OLD + next(of_sites()), "Content-Description: Undelivered Message")
    front = "This is a MIME-encapsulated message.\n\n"
    kind = "multipart/report; report-type=delivery-status"
    yield many(kind, "A1B2C3D4E5.1783267200/mx.b.example", told, failed, sent, before=front)
    yield many(kind, "1783267200-eximdsn-12", told, failed, one("text/rfc822-headers", OLD))
    yield many(kind, "d3a1", many("multipart/alternative", "d3a2", told, one("text/html", "<p>sorry")), failed)
    yield f"From: MAILER-DAEMON\n\nHi. This is the qmail-send program.\n\n--- Below this line is a copy.\n\n{OLD}\n"
    receipt = one("message/disposition-notification", RECEIPT, "Content-Disposition: inline")
    yield many("multipart/report; report-type=disposition-notification", "------------mdn", told, receipt)
    abuse = one("message/feedback-report", ABUSE)
    yield many("multipart/report; report-type=feedback-report", "part1_13d.2e68ed54_boundary", told, abuse, sent)
    yield many('multipart/report; report-type="tlsrpt"', "=_tls", told, based("application/tlsrpt+gzip"))
    yield based('application/gzip; name="b.example!a.example!1783180800!1783267199.xml.gz"')


def written():
    """All of these mails, with each line end."""
    for text in (*of_desks(), *of_sites(), *of_terminals(), *of_lists(), *of_servers()):
        yield (TOP + text).encode()
        yield (TOP + text).replace("\n", "\r\n").encode()
