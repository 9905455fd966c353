"""Mails and values of fields that `one_call` is given, row by row: the fields of a mail, their values with encoded words decoded, and the
addresses of a value. What is expected was written by hand from RFC 2047, RFC 5322 and RFC 5233.
"""
from .calls import each, quoted
from .runs import lines
from .texts import Given, texts

# Mails, and the name and the value of each field.
FIELDS = {
    "messages have their fields": [
        # Folded values are joined.
        (b"Subject: one\r\n two\r\n\tthree\r\n\r\n", [(b"Subject", b"one two\tthree")]),
        (b"Subject: one\n two\n\tthree\n\n", [(b"Subject", b"one two\tthree")]),
        # Blanks at the seams stay, and outer ones go wherever they stand.
        (b"A: \t\r\n \r\n x \r\n\ty\t\r\n \t\r\n", [(b"A", b"x \ty")]),
        (b"A:\n \n\t\n", [(b"A", b"")]),
    ],
    "lines that are no fields are skipped": [
        (b" x\nA b: c\n d\n:e\nF : g\n h\n\nI: j", [(b"F", b"g h")]),
        (b"", []),
        (b"\nA: b\n", []),
        (b"\r\nA: b\r\n", []),
        (b"A: b\nC: d", [(b"A", b"b"), (b"C", b"d")]),
        (b"no colon\nA: b\n\n", [(b"A", b"b")]),
        (b"\x7f: a\nB: c\n", [(b"B", b"c")]),
        (b"~: a\n!: b\n \n\n", [(b"~", b"a"), (b"!", b"b")]),
        (b"A \t : b\nC\t:d\n", [(b"A", b"b"), (b"C", b"d")]),
        (b"\xc3\xa4: b\nC:\xc3\xa4\n", [(b"C", b"\xc3\xa4")]),
        (b"A:b:c\n::\n", [(b"A", b"b:c")]),
        (b"A\x00: b\nC: \x00 \x00\n\x00: d\n", [(b"C", b"\x00 \x00")]),
    ],
    "a lone return is an octet": [
        (b"A: b\rc\r\n\r\n", [(b"A", b"b\rc")]),
        (b"A: b\r", [(b"A", b"b\r")]),
        (b"A: b\r\r\n c\r", [(b"A", b"b\r c\r")]),
        (b"A: b\n\r", [(b"A", b"b")]),
        (b"A: b\n\rC: d\nE: f\n", [(b"A", b"b"), (b"E", b"f")]),
        (b"A: b\n\r\nC: d\n", [(b"A", b"b")]),
    ],
    "messages of the standard have their fields": [
        # RFC 5322, appendices A.1.1, A.5 and A.6.3.
        (
            b"From: John Doe <jdoe@machine.example>\r\nTo: Mary Smith <mary@example.net>\r\n"
            b"Subject: Saying Hello\r\nDate: Fri, 21 Nov 1997 09:55:06 -0600\r\n"
            b"Message-ID: <1234@local.machine.example>\r\n\r\nThis is a message just to say hello.\r\n"
            b"So, \"Hello\".\r\n",
            [
                (b"From", b"John Doe <jdoe@machine.example>"),
                (b"To", b"Mary Smith <mary@example.net>"),
                (b"Subject", b"Saying Hello"),
                (b"Date", b"Fri, 21 Nov 1997 09:55:06 -0600"),
                (b"Message-ID", b"<1234@local.machine.example>"),
            ],
        ),
        (
            b"To:A Group(Some people)\r\n     :Chris Jones <c@(Chris's host.)public.example>,\r\n"
            b"         joe@example.org,\r\n  John <jdoe@one.test> (my dear friend); (the end of the group)\r\n"
            b"Date: Thu,\r\n      13\r\n        Feb\r\n          1969\r\n      23:32\r\n"
            b"               -0330 (Newfoundland Time)\r\nMessage-ID:              <testabcd.1234@silly.test>\r\n"
            b"\r\nTesting.\r\n",
            [
                (b"To", b"A Group(Some people)     :Chris Jones <c@(Chris's host.)public.example>,         joe@example.org,  John <jdoe@one.test> (my dear friend); (the end of the group)"),
                (b"Date", b"Thu,      13        Feb          1969      23:32               -0330 (Newfoundland Time)"),
                (b"Message-ID", b"<testabcd.1234@silly.test>"),
            ],
        ),
        (
            b"From  : John Doe <jdoe@machine(comment).  example>\r\nTo    : Mary Smith\r\n  \r\n"
            b"          <mary@example.net>\r\nSubject     : Saying Hello\r\n\r\nSo, \"Hello\".\r\n",
            [
                (b"From", b"John Doe <jdoe@machine(comment).  example>"),
                (b"To", b"Mary Smith            <mary@example.net>"),
                (b"Subject", b"Saying Hello"),
            ],
        ),
    ],
}
# Mails, and the value of each field with its encoded words decoded: without `charsets`, and with it.
DECODED = {
    "words are replaced": [
        (b"A: =?iso-8859-1?q?=E9?=\n\n", [b"\xc3\xa9"]),
        (b"A: =?utf-8?B?YQ==?= =?us-ascii?Q?b?=\n\n", [b"ab"]),
        # The result isn't trimmed.
        (b"A: \t=?us-ascii?Q?_a_?= \n\n", [b" a "]),
        (b"A: =?utf-8?Q?a_b?=\n\n", [b"a b"]),
        (b"A: =?UTF-8?b?R3LDvMOfZQ==?=\n\n", [b"Gr\xc3\xbc\xc3\x9fe"]),
        (b"A: =?utf-8?q?=e2=82=AC_=F0=9F=93=A7?=\n\n", [b"\xe2\x82\xac \xf0\x9f\x93\xa7"]),
        # Octets of any value come of words, line ends too.
        (b"A: =?us-ascii?Q?=0D=0A=00=7F?=\n\n", [b"\r\n\x00\x7f"]),
        (b"A: =?iso-8859-1?Q?=00=7F=80=FF?=\n\n", [b"\x00\x7f\xc2\x80\xc3\xbf"]),
        (b"A: =?us-ascii?B??=\n\n", [b""]),
    ],
    "words that break a rule stay": [
        # Spare bits, padding, and letters that base64 hasn't.
        (b"A: =?utf-8?B?YR==?=\nB: =?utf-8?B?YWJ=?=\n\n", [b"=?utf-8?B?YR==?=", b"=?utf-8?B?YWJ=?="]),
        (b"A: =?utf-8?B?YQ?=\nB: =?utf-8?B?YQ=?=\n\n", [b"=?utf-8?B?YQ?=", b"=?utf-8?B?YQ=?="]),
        (b"A: =?utf-8?B?YQ==YQ==?=\nB: =?utf-8?B?Y_-h?=\n\n", [b"=?utf-8?B?YQ==YQ==?=", b"=?utf-8?B?Y_-h?="]),
        # Digits that are none, or are missing.
        (b"A: =?us-ascii?Q?=4?=\nB: =?us-ascii?Q?=4G?=\nC: =?us-ascii?Q?=?=\n\n", [b"=?us-ascii?Q?=4?=", b"=?us-ascii?Q?=4G?=", b"=?us-ascii?Q?=?="]),
        # Octets that aren't of the charset: too long a form, a half of a pair, and past the last character.
        (b"A: =?utf-8?Q?=FF?=\nB: =?us-ascii?Q?=80?=\n\n", [b"=?utf-8?Q?=FF?=", b"=?us-ascii?Q?=80?="]),
        (
            b"A: =?utf-8?Q?=C0=80?=\nB: =?utf-8?Q?=ED=A0=80?=\nC: =?utf-8?Q?=F4=90=80=80?=\n\n",
            [b"=?utf-8?Q?=C0=80?=", b"=?utf-8?Q?=ED=A0=80?=", b"=?utf-8?Q?=F4=90=80=80?="],
        ),
    ],
    "unknown and broken words stay": [
        # Charsets and encodings that aren't known, and signs that are missing.
        (b"A: =?koi8-r?Q?a?=\nB: =?utf8?Q?a?=\nC: =??Q?a?=\n\n", [b"=?koi8-r?Q?a?=", b"=?utf8?Q?a?=", b"=??Q?a?="]),
        (b"A: =?us-ascii?C?a?=\nB: =?us-ascii??a?=\nC: =?us-ascii?Q?a?b?=\n\n", [b"=?us-ascii?C?a?=", b"=?us-ascii??a?=", b"=?us-ascii?Q?a?b?="]),
        (b"A: =?us-ascii?Q?a b?=\nB: =?us-ascii?Q?a?\nC: ?us-ascii?Q?a?=\n\n", [b"=?us-ascii?Q?a b?=", b"=?us-ascii?Q?a?", b"?us-ascii?Q?a?="]),
        (b"A: =?us-ascii?Q?\xc3\xa4?=\nB: =?us-ascii?Q?\x7f?=\n\n", [b"=?us-ascii?Q?\xc3\xa4?=", b"=?us-ascii?Q?\x7f?="]),
    ],
    "words are found wherever they stand": [
        (b"A: =?koi8-r?Q?a?=?utf-8?Q?b?=\n\n", [b"=?koi8-r?Q?a?b"]),
        (b"A: =?=?us-ascii?Q?a?=\nB: a=?us-ascii?Q?b?=c\n\n", [b"=?a", b"abc"]),
        (b"A: =?us-ascii?Q?a?==?us-ascii?Q?b?=\n\n", [b"ab"]),
        # What a word stands for isn't looked at again.
        (b"A: =?us-ascii?Q?=3D=3Fus-ascii=3FQ=3Fa=3F=3D?=\n\n", [b"=?us-ascii?Q?a?="]),
        # Blanks go between two words that are replaced, and stay everywhere else.
        (b"A: a =?us-ascii?Q?b?= c \t=?us-ascii?Q?d?=\n\n", [b"a b c \td"]),
        (b"A: =?us-ascii?Q?a?= \t =?us-ascii?Q?b?=\t=?us-ascii?Q?c?=\n\n", [b"abc"]),
        (b"A: =?us-ascii?Q?a?= =?koi8-r?Q?b?= =?us-ascii?Q?c?=\n\n", [b"a =?koi8-r?Q?b?= c"]),
        (b"A: =?us-ascii?Q?a?= \r =?us-ascii?Q?b?=\n\n", [b"a \r b"]),
        (b"A: =?us-ascii?Q?a?=\r\n =?us-ascii?Q?b?=\r\n\t\r\n =?us-ascii?Q?c?=\r\n\r\n", [b"abc"]),
        # A word that two lines would make up has the blank of the second in it, and so is none.
        (b"A: =?us-ascii?\n Q?a?=\n\n", [b"=?us-ascii? Q?a?="]),
    ],
    "words of the standard are replaced": [
        # RFC 2047, section 2.
        (
            b"A: =?iso-8859-1?q?this=20is=20some=20text?=\nB: =?iso-8859-1?q?this is some text?=\n\n",
            [b"this is some text", b"=?iso-8859-1?q?this is some text?="],
        ),
        # RFC 2047, section 8. Of these charsets iso-8859-2 and iso-8859-8 aren't known here.
        (
            b"From: =?US-ASCII?Q?Keith_Moore?= <moore@cs.utk.edu>\n"
            b"To: =?ISO-8859-1?Q?Keld_J=F8rn_Simonsen?= <keld@dkuug.dk>\n"
            b"CC: =?ISO-8859-1?Q?Andr=E9?= Pirard <PIRARD@vm1.ulg.ac.be>\n"
            b"Subject: =?ISO-8859-1?B?SWYgeW91IGNhbiByZWFkIHRoaXMgeW8=?=\n"
            b" =?ISO-8859-2?B?dSB1bmRlcnN0YW5kIHRoZSBleGFtcGxlLg==?=\n\n",
            [
                b"Keith Moore <moore@cs.utk.edu>",
                b"Keld J\xc3\xb8rn Simonsen <keld@dkuug.dk>",
                b"Andr\xc3\xa9 Pirard <PIRARD@vm1.ulg.ac.be>",
                b"If you can read this yo =?ISO-8859-2?B?dSB1bmRlcnN0YW5kIHRoZSBleGFtcGxlLg==?=",
            ],
        ),
        (
            b"From: =?ISO-8859-1?Q?Olle_J=E4rnefors?= <ojarnef@admin.kth.se>\n"
            b"From: =?ISO-8859-1?Q?Patrik_F=E4ltstr=F6m?= <paf@nada.kth.se>\n"
            b"From: Nathaniel Borenstein <nsb@thumper.bellcore.com>\n"
            b"     (=?iso-8859-8?b?7eXs+SDv4SDs6Oj08A==?=)\n\n",
            [
                b"Olle J\xc3\xa4rnefors <ojarnef@admin.kth.se>",
                b"Patrik F\xc3\xa4ltstr\xc3\xb6m <paf@nada.kth.se>",
                b"Nathaniel Borenstein <nsb@thumper.bellcore.com>     (=?iso-8859-8?b?7eXs+SDv4SDs6Oj08A==?=)",
            ],
        ),
        (
            b"A: (=?ISO-8859-1?Q?a?=)\nB: (=?ISO-8859-1?Q?a?= b)\nC: (=?ISO-8859-1?Q?a?= =?ISO-8859-1?Q?b?=)\n"
            b"D: (=?ISO-8859-1?Q?a?=  =?ISO-8859-1?Q?b?=)\nE: (=?ISO-8859-1?Q?a?=\r\n    =?ISO-8859-1?Q?b?=)\n"
            b"F: (=?ISO-8859-1?Q?a_b?=)\nG: (=?ISO-8859-1?Q?a?= =?ISO-8859-2?Q?_b?=)\n\n",
            [b"(a)", b"(a b)", b"(ab)", b"(ab)", b"(ab)", b"(a b)", b"(a =?ISO-8859-2?Q?_b?=)"],
        ),
    ],
    "charsets of tables are not known without their name": [
        (
            b"A: =?windows-1250?Q?a?=\nB: =?windows-1251?Q?a?=\nC: =?windows-1252?Q?a?=\nD: =?iso-8859-2?Q?a?=\n"
            b"E: =?iso-8859-15?Q?a?=\nF: =?koi8-r?Q?a?=\nG: =?iso-8859-1?Q?=A4?=\n\n",
            [
                b"=?windows-1250?Q?a?=",
                b"=?windows-1251?Q?a?=",
                b"=?windows-1252?Q?a?=",
                b"=?iso-8859-2?Q?a?=",
                b"=?iso-8859-15?Q?a?=",
                b"=?koi8-r?Q?a?=",
                b"\xc2\xa4",
            ],
        ),
    ],
}
CHARSETS = {
    "charsets of tables are known by their name": [
        # The euro sign stands in three places in these, and ISO 8859-2 and KOI8-R have none.
        (
            b"A: =?windows-1250?Q?=80?=\nB: =?Windows-1251?Q?=88?=\nC: =?WINDOWS-1252?Q?=80?=\n"
            b"D: =?iso-8859-15?Q?=A4?=\n\n",
            [b"\xe2\x82\xac", b"\xe2\x82\xac", b"\xe2\x82\xac", b"\xe2\x82\xac"],
        ),
        (
            b"A: =?ISO-8859-2?Q?=A3=F3d=BC?=\nB: =?KOI8-R?B?8NLJ18XU?=\nC: =?windows-1251?B?z/Do4uXy?=\n\n",
            [
                b"\xc5\x81\xc3\xb3d\xc5\xba",
                b"\xd0\x9f\xd1\x80\xd0\xb8\xd0\xb2\xd0\xb5\xd1\x82",
                b"\xd0\x9f\xd1\x80\xd0\xb8\xd0\xb2\xd0\xb5\xd1\x82",
            ],
        ),
        # Octets under 128 are themselves, and words of several charsets stand beside one another.
        (b"A: =?koi8-r?Q?=00a=7F?= =?us-ascii?Q?b?= =?windows-1250?Q?=8A?=\n\n", [b"\x00a\x7fb\xc5\xa0"]),
        # Octets that stand for nothing, alone and after others.
        (
            b"A: =?windows-1250?Q?=81?=\nB: =?windows-1251?Q?a=98?=\nC: =?windows-1252?Q?=9D?=\n\n",
            [b"=?windows-1250?Q?=81?=", b"=?windows-1251?Q?a=98?=", b"=?windows-1252?Q?=9D?="],
        ),
        # Names that aren't those.
        (b"A: =?koi8-u?Q?a?=\nB: =?cp1252?Q?a?=\nC: =?iso-8859-16?Q?a?=\n\n", [b"=?koi8-u?Q?a?=", b"=?cp1252?Q?a?=", b"=?iso-8859-16?Q?a?="]),
    ],
}
# Values with their addresses: all of one, its local part and its domain, where a hyphen stands for none; and a user and a detail.
ADDRESSES = {
    "lists and groups have their addresses": [
        (
            b"\"Doe, Jane\" <@a.example:Jane@B.example>, Team: x@c.example (c, d), y@c.example;",
            [b"Jane@B.example|Jane|B.example", b"x@c.example|x|c.example", b"y@c.example|y|c.example"],
        ),
        (b"", []),
        (b",,;", []),
        (b" \t\r\n", []),
        (b"a: b: \"c:\"d@e, f:; [g:h]:i", [b"c:d@e|c:d|e", b"i|-|-"]),
    ],
    "what is not closed lasts to the end": [
        (b"\"a", [b"a|-|-"]),
        (b"\"a, b@c", [b"a, b@c|-|-"]),
        # A last backslash stands for itself, unless one before it protects it.
        (b"\"a\\", [b"a\\|-|-"]),
        (b"\"a\\\\", [b"a\\|-|-"]),
        (b"<@a", [b"@a|-|-"]),
        (b"(((", []),
        (b"a@b (c, d@e", [b"a@b|a|b"]),
        (b"a@[b, c@d", [b"a@[b,c@d|a|[b,c@d"]),
    ],
    "the last sign divides": [
        (b"a@b@", [b"a@b@|-|-"]),
        (b"@b", [b"@b|-|-"]),
        (b"@", [b"@|-|-"]),
        # The standard has no such address: in it an atom holds no `@`.
        (b"a@b@c", [b"a@b@c|a@b|c"]),
        # One in quotes or in a literal divides nothing. In the standard the quote signs stay with the local part.
        (b"\"a@b\"@c", [b"a@b@c|a@b|c"]),
        (b"\"a@b\"", [b"a@b|-|-"]),
        (b"a@[b@c]", [b"a@[b@c]|a|[b@c]"]),
        (b"\"\"@c", [b"@c|-|-"]),
    ],
    "the first angle is read": [
        # The standard has none of the first three.
        (b"x <a<b@c> y", [b"a<b@c|a<b|c"]),
        (b"<a@b> <c@d>", [b"a@b|a|b"]),
        (b"a>b@c", [b"a>b@c|a>b|c"]),
        (b"x <>, a", [b"a|-|-"]),
        (b"<a,b;c:d@e>", [b"a,b;c:d@e|a,b;c:d|e"]),
        (b"\"<\" (<) [<] <a\">\"@b>", [b"a>@b|a>|b"]),
    ],
    "a source route goes with its colon": [
        (b"< (c:) @a,@b:c:d@e>", [b"c:d@e|c:d|e"]),
        (b"<@a,@b>", [b"@a,@b|@a,|b"]),
        (b"<@[a:b]:c@d>", [b"c@d|c|d"]),
        (b"<\"@\":c@d>", [b"@:c@d|@:c|d"]),
    ],
    "comments and white space go": [
        (b"(a, (b) \\) <) c (\"; )@d", [b"c@d|c|d"]),
        (b"a)b@c", [b"a)b@c|a)b|c"]),
        (b" \t a \r\n b\" \t c\" @ d", [b"ab \t c@d|ab \t c|d"]),
        (b"\"a\\\"b\\\\\"@c", [b"a\"b\\@c|a\"b\\|c"]),
        # In a literal white space goes, and a backslash stays.
        (b"a@[b \\] \t\\\\c, d]", [b"a@[b\\]\\\\c,d]|a|[b\\]\\\\c,d]"]),
        (b"\xc3\xa4\x00@\xff", [b"\xc3\xa4\x00@\xff|\xc3\xa4\x00|\xff"]),
    ],
    "the addresses of the standard": [
        (b" John Doe <jdoe@machine.example>", [b"jdoe@machine.example|jdoe|machine.example"]),
        (b" Michael Jones <mjones@machine.example>", [b"mjones@machine.example|mjones|machine.example"]),
        (b" Mary Smith <mary@example.net>", [b"mary@example.net|mary|example.net"]),
        (b" \"Joe Q. Public\" <john.q.public@example.com>", [b"john.q.public@example.com|john.q.public|example.com"]),
        (
            b" Mary Smith <mary@x.test>, jdoe@example.org, Who? <one@y.test>",
            [b"mary@x.test|mary|x.test", b"jdoe@example.org|jdoe|example.org", b"one@y.test|one|y.test"],
        ),
        (
            b" <boss@nil.test>, \"Giant; \\\"Big\\\" Box\" <sysservices@example.net>",
            [b"boss@nil.test|boss|nil.test", b"sysservices@example.net|sysservices|example.net"],
        ),
        (b" Pete <pete@silly.example>", [b"pete@silly.example|pete|silly.example"]),
        (
            b" A Group:Ed Jones <c@a.test>,joe@where.test,John <jdoe@one.test>;",
            [b"c@a.test|c|a.test", b"joe@where.test|joe|where.test", b"jdoe@one.test|jdoe|one.test"],
        ),
        (b" Undisclosed recipients:;", []),
    ],
    "addresses in odd spellings of the standard": [
        (b" Pete(A nice \\) chap) <pete(his account)@silly.test(his host)>", [b"pete@silly.test|pete|silly.test"]),
        (
            b"A Group(Some people)\r\n     :Chris Jones <c@(Chris's host.)public.example>,\r\n"
            b"         joe@example.org,\r\n  John <jdoe@one.test> (my dear friend); (the end of the group)",
            [b"c@public.example|c|public.example", b"joe@example.org|joe|example.org", b"jdoe@one.test|jdoe|one.test"],
        ),
        (b"(Empty list)(start)Hidden recipients  :(nobody(that I know))  ;", []),
        (b" Joe Q. Public <john.q.public@example.com>", [b"john.q.public@example.com|john.q.public|example.com"]),
        (
            b" Mary Smith <@node.test:mary@example.net>, , jdoe@test  . example",
            [b"mary@example.net|mary|example.net", b"jdoe@test.example|jdoe|test.example"],
        ),
        (b"John Doe <jdoe@machine(comment).  example>", [b"jdoe@machine.example|jdoe|machine.example"]),
        (b"Mary Smith\r\n  \r\n          <mary@example.net>", [b"mary@example.net|mary|example.net"]),
    ],
}
USERS = [
    (b"stephan+@example.org, timo+spam@example.net, nico@example.com, a+b+c@d.example", [b"stephan|", b"timo|spam", b"nico|-", b"a|b+c"]),
    (b"+a@b.example, +@b.example", [b"|a", b"|"]),
    (b"a@b+c.example, a+b, <>", [b"a|-", b"-|-"]),
    (b"\"a+b @ c\"@d.example", [b"a|b @ c"]),
]


def parts(addresses):
    """A line for each part of each address."""
    return lines(*("none" if part == b"-" else quoted(part) for address in addresses for part in address.split(b"|")))


def of_fields(caller):
    """All of them. A field has four lines, and an address five."""
    for title, rows in FIELDS.items():
        yield Given(title, caller, "fields", texts((mail, each(*sum(fields, ()))) for mail, fields in rows), 4, (0, 1))
    for table, place in (DECODED, 2), (CHARSETS, 3):
        for title, rows in table.items():
            yield Given(title, caller, "fields", texts((mail, each(*values)) for mail, values in rows), 4, (place,))
    for title, rows in ADDRESSES.items():
        yield Given(title, caller, "addresses", texts((value, parts(found)) for value, found in rows), 5, (0, 1, 2))
    yield Given("users and details", caller, "addresses", texts((value, parts(found)) for value, found in USERS), 5, (3, 4))
