"""What doveconf prints: settings, places of scripts and of users, and what isn't taken."""

import os
from typing import Dict, List, Optional, Tuple

from sievebench_site.accounts import Location, accounts_of, home_of, location_of, personal_of
from sievebench_site.doveconf import Setting, alone, plugins_of, settings_in
from sievebench_site.extensions import Extensions
from sievebench_site.names import spelled
from sievebench_site.server import name_in_line, numbered
from sievebench_site.templates import template_of
from sievebench_site.untaken import of_mails, why_untaken

from .room import Room

# As doveconf of Dovecot 2.3.19 prints such settings.
PRINTED = r"""# 2.3.19.1 (9b53102964): dovecot.conf
# Pigeonhole version 0.5.19 (4eae2f79)
mail_location = maildir:~/Maildir
namespace inbox {
  inbox = yes
  location = 
  mailbox "Sent Messages" {
    special_use = \Sent
  }
}
plugin {
  sieve = file:~/sieve;active=~/.dovecot.sieve
  sieve_before = ROOM/before.d
  sieve_before2 = ROOM/spam.sieve
  sieve_global = ROOM/global
  sieve_spamtest_status_type = score
  sieve_url = "a \"quoted\" # value"
}
ssl_dh = # hidden, use -P to show it
userdb {
  args = uid=vmail gid=vmail home=ROOM/vmail/%d/%n
  driver = static
}
protocol lmtp {
  mail_plugins = " sieve"
  plugin {
    sieve_after = ROOM/after.d
  }
}
"""


def plugin(name: str, value: str) -> Setting:
    """A setting of plugins."""
    return Setting((("plugin", 1),), name, value.encode(), 2)


class Printed(Room):
    """What doveconf prints."""

    def settings(self, text: str) -> List[Setting]:
        """The settings of a text."""
        self.write({"conf": text})
        return settings_in(os.fsencode(self.room / "conf"))

    def test_settings(self) -> None:
        found = self.settings(PRINTED)
        self.assertEqual(alone(found)["mail_location"], Setting((), "mail_location", b"maildir:~/Maildir", 3))
        self.assertEqual(
            [it.value for it in found if it.name in ("location", "ssl_dh")], [b"", b"# hidden, use -P to show it"]
        )
        sent = next(it for it in found if it.name == "special_use")
        self.assertEqual((sent.around(), sent.value), (["namespace inbox", 'mailbox "Sent Messages"'], b"\\Sent"))
        plugins = plugins_of(found)
        self.assertEqual(plugins["sieve_url"].value, b'a "quoted" # value')
        self.assertEqual(plugins["sieve_after"].line, 27)

    def test_settings_of_a_delivery_come_last(self) -> None:
        text = "protocol lda {\n plugin {\n a = 2\n }\n}\nprotocol imap {\n plugin {\n a = 3\n }\n}\nplugin {\n a = 1\n b = 1\n}\n"
        self.assertEqual(
            {name: it.value for name, it in plugins_of(self.settings(text)).items()}, {"a": b"2", "b": b"1"}
        )

    def test_refusals(self) -> None:
        rows = [
            ("a = b\nplugin\n", 'conf", line 2: this is no setting: the file has what `doveconf -n` prints'),
            ("a = b\n}\n", 'conf", line 2: this is no setting: the file has what `doveconf -n` prints'),
            ("a = b\nplugin {\n x = y\n", 'conf", line 2: the block plugin has no end: the file is cut off'),
            ("# 2.3\n", 'conf" has no setting: it has to have what `doveconf -n` prints'),
            (
                "dovecot_config_version = 2.4.0\n",
                'conf", line 1: only what Dovecot 2.3 prints is taken, and this is of a newer one',
            ),
        ]
        for text, sentence in rows:
            with self.subTest(text=text):
                self.write({"conf": text})
                status, told, error = self.ran("import", "--doveconf", "conf", "site")
                self.assertEqual((status, told), (2, []))
                self.assertIn(sentence, error)
                self.assertFalse((self.room / "site").exists())


class Places(Room):
    """Where scripts and users are."""

    def test_locations(self) -> None:
        rows: List[Tuple[bytes, Optional[Location]]] = [
            (b"/a/b", Location(b"/a/b", None)),
            (b"file:/a/b;active=~/.c;bindir=/d", Location(b"/a/b", b"~/.c")),
            (b"ldap:/etc/ldap.conf;bindir=~/x", None),
            (b"dict:proxy::sieve", None),
        ]
        for value, wanted in rows:
            with self.subTest(value=value):
                self.assertEqual(location_of(value), wanted)

    def test_personal(self) -> None:
        rows: List[Tuple[Dict[str, str], Optional[Location]]] = [
            ({}, Location(b"~/sieve", b"~/.dovecot.sieve")),
            ({"sieve": "file:/x/%u;active=/x/%u.sieve"}, Location(b"/x/%u", b"/x/%u.sieve")),
            ({"sieve": "~/scripts"}, Location(b"~/scripts", b"~/.dovecot.sieve")),
            ({"sieve": "~/my.sieve"}, Location(b"~/sieve", b"~/my.sieve")),
            ({"sieve": "~/my.sieve", "sieve_dir": "~/all"}, Location(b"~/all", b"~/my.sieve")),
            ({"sieve": "dict:x"}, None),
        ]
        for settings, wanted in rows:
            with self.subTest(settings=settings):
                self.assertEqual(personal_of({name: plugin(name, value) for name, value in settings.items()}), wanted)

    def test_templates(self) -> None:
        home = template_of(b"/h/%d/%n")
        assert home
        rows: List[Tuple[bytes, Optional[bytes]]] = [
            (b"/srv/%u", b"/srv/ada@a.example"),
            (b"/srv/%d/%Ln/x", b"/srv/a.example/ada/x"),
            (b"/srv/%{domain}/%{username}", b"/srv/a.example/ada"),
            (b"~/sieve", b"/h/a.example/ada/sieve"),
            (b"%h/sieve", b"/h/a.example/ada/sieve"),
            (b"/srv/%2Mu/%u", None),
            (b"sieve", None),
        ]
        for text, wanted in rows:
            with self.subTest(text=text):
                found = template_of(text, home)
                self.assertEqual(found and found.filled(b"ada@a.example"), wanted)
        self.assertIsNone(template_of(b"~/sieve"))

    def test_users_by_their_folders(self) -> None:
        self.write({"v/a.example/ada/x": "", "v/a.example/eva/x": "", "v/b.example/ada/x": ""})
        template = template_of(bytes(self.room) + b"/v/%d/%n")
        assert template
        self.assertEqual([name for name, _ in template.users()], [b"ada@a.example", b"eva@a.example", b"ada@b.example"])
        again = template_of(bytes(self.room) + b"/v/%n/%n")
        assert again
        self.assertEqual(list(again.users()), [])

    def test_homes(self) -> None:
        block = (("userdb", 1),)
        static = [Setting(block, "driver", b"static", 2), Setting(block, "args", b"uid=5 home=/a/%u gid=5", 3)]
        other = [
            Setting((("userdb", 9),), "driver", b"passwd", 10),
            Setting((("userdb", 9),), "args", b"home=/x/%u", 11),
        ]
        rows: List[Tuple[List[Setting], Optional[bytes]]] = [
            (static, b"/a/ada"),
            ([*other, *static], b"/a/ada"),
            (other, None),
            ([*static, Setting((), "mail_home", b"/b/%u", 1)], b"/b/ada"),
            ([*other, Setting(block, "override_fields", b"uid=5 home=/c/%u", 2)], b"/c/ada"),
        ]
        for settings, wanted in rows:
            with self.subTest(wanted=wanted):
                found = home_of(settings)
                self.assertEqual(found and found.filled(b"ada"), wanted)

    def test_scripts_that_need_no_home(self) -> None:
        self.write({"s/ada/all/x.sieve": "", "s/eva/other": ""})
        room = bytes(self.room)
        found = accounts_of([], Location(room + b"/s/%u/all", room + b"/s/%u/active"))
        self.assertEqual([(it.name, it.active) for it in found or []], [(b"ada", room + b"/s/ada/active")])
        self.assertIsNone(accounts_of([], Location(room + b"/s/all", b"/x/%u")))

    def test_numbers_end_where_one_is_missing(self) -> None:
        plugins = {
            name: plugin(name, "x") for name in ("sieve_before", "sieve_before2", "sieve_before4", "sieve_after2")
        }
        self.assertEqual([it.name for it in numbered(plugins, "sieve_before")], ["sieve_before", "sieve_before2"])
        self.assertEqual(numbered(plugins, "sieve_after"), [])

    def test_names_in_a_line(self) -> None:
        rows = [
            (b"main", b"main"),
            (b"before/10-spam", b"before/10-spam"),
            (b"my own", b'"my own"'),
            (b'a"b', b'"a\\"b"'),
        ]
        for name, wanted in rows:
            self.assertEqual(name_in_line(name), wanted)


class Settings(Room):
    """What comes of other settings."""

    def test_extensions(self) -> None:
        rows: List[Tuple[Dict[str, str], List[bytes], List[str]]] = [
            ({}, [b"pigeonhole"], []),
            ({"sieve_extensions": "+special-use +fileinto"}, [b"pigeonhole", b"special-use"], []),
            (
                {"sieve_extensions": "fileinto reject vacation envelope imap4flags include variables"},
                [b"charsets", b"reject", b"vacation"],
                ["always known here: copy"],
            ),
            (
                {
                    "sieve_extensions": "-body -copy -date -duplicate -encoded-character -mailbox -regex -relational -reject +lines"
                },
                [b"charsets", b"comparator-i;ascii-numeric", b"subaddress", b"vacation"],
                ["always known here: copy"],
            ),
            (
                {
                    "sieve_extensions": "+vnd.dovecot.pipe",
                    "sieve_global_extensions": "+special-use +vnd.dovecot.filter",
                },
                [b"pigeonhole", b"special-use"],
                [
                    "not known here: vnd.dovecot.pipe",
                    "not known here: vnd.dovecot.filter",
                    "known here to all scripts: special-use",
                ],
            ),
        ]
        for settings, names, remarks in rows:
            with self.subTest(settings=settings):
                found = Extensions({name: plugin(name, value) for name, value in settings.items()})
                self.assertEqual((spelled(found.names), [it.text for it in found.remarks]), (names, remarks))

    def test_what_is_not_taken(self) -> None:
        limits = "not taken: docs/LANGUAGE.md has the limits that hold here"
        other = "not taken: it runs scripts at another time than delivery"
        imap, passdb = (("protocol imap", 1), ("plugin", 2)), (("passdb", 1),)
        rows: List[Tuple[Setting, Optional[str]]] = [
            (plugin("sieve_virustest_status_type", "text"), "not taken: spamtest and virustest aren't known here"),
            (plugin("sieve_max_actions", "64"), limits),
            (plugin("sieve_max_redirects", "9"), limits),
            (plugin("sieve_discard", "/x"), "not taken"),
            (plugin("sieve_before3", "/x"), "not taken: there is none of the number before, where the server stops"),
            (plugin("imapsieve_mailbox1_name", "x"), other),
            (plugin("sieve_user_log", "x"), None),
            (plugin("sieve_dir", "x"), None),
            (plugin("quota_rule", "x"), None),
            (Setting(imap, "sieve_before", b"/x", 3), "not taken: it holds for protocol imap only"),
            (Setting(passdb, "sieve_before", b"/x", 3), None),
            (Setting((), "recipient_delimiter", b"+-", 3), "not taken: the separator of :user and :detail is + here"),
            (Setting((), "recipient_delimiter", b"+", 3), None),
        ]
        for setting, wanted in rows:
            with self.subTest(setting=setting.name):
                self.assertEqual(why_untaken(setting), wanted)

    def test_where_mails_are(self) -> None:
        rows = [
            (b"maildir:~/Maildir", "~/Maildir"),
            (b"maildir:/var/mail/%u:LAYOUT=fs", "/var/mail/%u"),
            (b"mbox:~/mail:INBOX=/var/mail/%u", "/var/mail/%u"),
        ]
        for location, place in rows:
            self.assertEqual(
                of_mails(location), f"not taken: mails of a user are in {place}: import --user NAME takes them"
            )
        self.assertEqual(of_mails(b"mdbox:~/mdbox"), "not taken: import takes Maildirs and mbox files")
