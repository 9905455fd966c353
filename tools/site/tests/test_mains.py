"""Lines of main scripts that lead out of the site, or name what is no script of it."""

from .room import MAIL, Files, Room

WRONG = "a line has NAME of personal or FOLDER/NAME of the site, but not of users, of mails or where FOLDER begins with a dot"
SITE: Files = {"site/personal/main.sieve": "keep;", **{f"site/{name}": text for name, text in MAIL.items()}}


class Lines(Room):
    """What a line may name."""

    def test_scripts_outside(self) -> None:
        # Each of these is there.
        names = ["../x", "../site/personal/main", ".git/x", "./x", "mails/x", "users/x", "personal/../x", "a/b/x", "/x"]
        self.write(SITE)
        self.write({"x.sieve": "discard;", **{f"site/{name}.sieve": "discard;" for name in names[2:6]}})
        self.write({"site/x.sieve": "discard;", "site/a/b/x.sieve": "discard;"})
        (self.room / "site/users/x.sieve").unlink()
        (self.room / "site/users").rmdir()
        for name in [*names, f"{self.room}/x"]:
            with self.subTest(name):
                self.write({"site/mains": f"main {name}\n"})
                error = f'"site/mains", line 1: no main script "{name}": {WRONG}'
                for command in ("check", "lint"):
                    self.assertEqual(self.ran(command, "site"), (2, [], f"sievebench-site: {error}\n"))
                error = f'no main script "{name}": {WRONG}'
                self.assertEqual(self.ran("check", "--main", name, "site"), (2, [], f"sievebench-site: {error}\n"))

    def test_a_name_that_no_file_has(self) -> None:
        self.write({**SITE, "site/mains": '"a\\x00b"\n'})
        error = f'sievebench-site: "site/mains", line 1: no main script "a\\x00b": {WRONG}\n'
        self.assertEqual(self.ran("check", "site"), (2, [], error))

    def test_scripts_inside(self) -> None:
        self.write({**SITE, "site/before/x.sieve": "", "site/global/g.sieve": "", "site/personal/.x.sieve": ""})
        self.write({"site/mains": "before/x global/g personal/main .x\n"})
        self.assertEqual(self.ran("check", "--lax", "site")[0], 0)
        self.write({"site/mains": "before/y main\n"})
        error = '"site/mains", line 1: no main script "before/y": there is no "site/before/y.sieve"'
        self.assertEqual(self.ran("check", "site"), (2, [], f"sievebench-site: {error}\n"))


class Users(Room):
    """Users whose names lead elsewhere."""

    def test_mails_of_no_user(self) -> None:
        self.write({"site/mails/1.eml": "", "one": "a: b\n\n", "site/users/ada/personal/main.sieve": ""})
        for name in ("..", ".", "", "../..", "ada/../..", ".x"):
            with self.subTest(name):
                error = f'sievebench-site: no user "{name}": that is the name of a folder in users\n'
                self.assertEqual(self.ran("import", "--user", name, "one", "site"), (2, [], error))
        self.assertEqual(sorted(it.name for it in (self.room / "site/users").iterdir()), ["ada"])
        self.assertEqual(sorted(it.name for it in self.room.rglob("*.eml")), ["1.eml"])
