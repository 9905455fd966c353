"""The page of `sievebench-site report`: what of `examples/site` must be there, as a tree has it; that it says the same as `why`, `untested` and
`diff`; what is refused; and in Chromium, where that is installed, what it looks like, finds and sorts, and that no mail's markup is any."""
import os
import re
import shlex
import subprocess
import sys

from page_tree import text_of, tree_of, with_class, with_id

from . import runs, site_browser
from .runs import LeftOut, Reading, Run, lines, some
from .site import PACK, TOOL, run, site, told, write

TOP = TOOL.parent.parent
OFFICE, SERVERS = TOP / "examples/site", TOP / "examples/ci"
# A step of a file for servers that makes a page.
STEP = r"^ *- (?:run: )?(bin/sievebench-site report .*-o (.*))"
# The picture of the README has fewer octets.
PICTURE = 150_000
COUNTS = "6 mails, 2 mains, 12 verdicts, 12 agree, 0 disagree, 0 without expectation, 0 stale expectations, 0 scripts with a fault"
# The table of mails: each row with what becomes of the mail under ada and under sales.
TABLE = [
    ["Urgent: figures of February", "1", '✓ agrees redirect "pager@phone.example"; implicit "INBOX" "\\\\Flagged"', '✓ agrees redirect "pager@phone.example"; implicit "INBOX" "\\\\Flagged"'],
    ["[talks] the next one", "1", '✓ agrees store "Lists/Talks"', '✓ agrees implicit "INBOX" "\\\\Flagged"'],
    ["order now", "1", '✓ agrees store "Junk"', '✓ agrees store "Junk"'],
    ["Bestellung für März", "1", '✓ agrees implicit "INBOX"', '✓ agrees redirect "books@office.example"; store "Orders" "$Order"'],
    ["undelivered mail", "1", '✓ agrees implicit "INBOX"', '✓ agrees store "Bounces"'],
    ["Ihre Quittung für die Fahrkarte", "1", '✓ agrees store "Büro/Belege"', '✓ agrees implicit "INBOX"'],
]
ORDER = ["Bestellung für März", "Eva <eva@customer.example>", "sales@office.example", "eva@customer.example sales@office.example", "mails/04-order.eml"]
# The verdict on the order under sales: each line, the line of the script that entered it, and the branch in which that is.
ENTERED = [
    ('redirect "books@office.example"', 'redirect :copy "books@office.example";', 'if header :contains "Subject" ["order", "Bestellung"] {'),
    ('store "Orders" "$Order"', 'fileinto :flags "$Order" "Orders";', 'if header :contains "Subject" ["order", "Bestellung"] {'),
]
# How many mails come to some lines of sales.sieve.
LINES = {1: "", 3: "6 come", 6: "5 come, 1 takes it", 7: "1 comes", 12: "4 come, 1 takes it", 17: "3 come"}
# Texts that would be markup, and run and load something.
MARKUP = '<script>document.title="ran"</script><img src="http://127.0.0.1/x" onerror="document.title=1"><b>'
HOSTILE = site(
    {
        "1.eml": f"Subject: {MARKUP}\nFrom: {MARKUP} <a@b.example>\nTo: {MARKUP}\n\n".encode(),
        "1.eml.expect": b'[main]\nstore "</code><b>&amp;"\n',
        "2.eml": b"Subject: a mail that fails\n\n",
    },
    main=b'require "fileinto";\nif header :contains "subject" "script" {\n\tfileinto "</code><b>&amp;";\n}\nelse { redirect ""; }\n# </table><script>document.title="ran"</script>\n',
    broken=b"keep;\nkep;\n",
)
HOSTILE["personal/open.sieve"] = b"if true {\n"
# A mail of a list, which no server answers, and one of a person; a mailbox that isn't there; and a mail that begins with a mark.
AWAY = site(
    {"1.eml": b"List-Id: <b>a.b</b>\n\n", "2.eml": b"From: a@b.example\n\n", "3.eml": b"\xef\xbb\xbfX: y\nFrom: a@b.example\n\n"},
    main=b'require ["vacation", "fileinto", "date"];\nif currentdate "year" "1" {}\nvacation "away"; fileinto "<Gone>";\n',
)
AWAY.update({"envelope": b"a@b.example c@d.example\n", "with": b"vacation\nmailbox\ndate\n", "mailboxes": b"Work\n"})
# The kinds of remarks on each of these mails.
REMARKS = {"1.eml": ["no-answer", "no-mailbox", "no-clock"], "2.eml": ["no-mailbox", "no-clock"], "3.eml": ["byte-order-mark", "no-mailbox", "no-clock"]}
GIT = "git -c user.name=a -c user.email=a@b.example"


def page_at(path):
    """The tree of a page."""
    return tree_of(path.read_text(encoding="utf-8"))


class Picture(Reading):
    """Whether the picture of the README is a small one of the form PNG."""

    title, command = "sievebench-site: the picture of its page", "README.md"

    def found(self, path):
        """What it is otherwise."""
        (name,) = re.findall(r"^!\[.+\]\((.*\.png)\)$", (TOP / "README.md").read_text(encoding="utf-8"), re.M)
        octets = (TOP / name).read_bytes()
        self.looked = len(octets)
        return [] if octets.startswith(b"\x89PNG\r\n") and len(octets) < PICTURE else [f"{name} has {len(octets)} octets, or another form"]


class Looking(Reading):
    """A page that the tool makes of a site in a folder, and what isn't in it as it must be."""

    def __init__(self, title, room, words, looks):
        self.title, self.room, self.command, self.looks = f"sievebench-site: {title}", room, f"report {words} -o page.html", looks

    def found(self, path):
        """What is otherwise."""
        self.path = path
        status, output, error = self.told(self.command)
        if (status, output, error) != (0, "", ""):
            return [f"status {status}, output {output!r}, error {error!r}"]
        self.page = page_at(self.room / "page.html")
        pairs = list(self.looks(self))
        self.looked = len(pairs)
        return [f"wanted {wanted!r:.1000}, got {got!r:.1000}" for wanted, got in pairs if wanted != got]

    def told(self, words):
        """How the tool ends with these words, and what it prints."""
        done = subprocess.run(["sh", "-c", f"python3 {shlex.quote(str(TOOL))} {words}"], cwd=self.room, env={**os.environ, "PATH": self.path}, capture_output=True, timeout=runs.SECONDS, text=True)
        return done.returncode, done.stdout, done.stderr

    def goal(self, link):
        """The row of a script to which a link leads, but for its number and its mails."""
        return text_of(list(with_id(self.page, link.get("href")[1:]))[2].find("code"))


def rows_of(table):
    """The texts of the cells of a table's body."""
    return [[text_of(cell) for cell in row] for row in table.find("tbody")]


def form(looking):
    """What holds for every page: links lead somewhere, ids are those of one element, tables have heads with a scope, no level of headings is left
    out, and nothing is loaded or run but the one style and the one script."""
    page = looking.page
    ids = [it.get("id") for it in page.iter() if it.get("id")]
    yield sorted(set(ids)), sorted(ids)
    goals = {it.get("href") for it in page.iter("a")}
    yield set(), goals - {f"#{it}" for it in ids}
    yield {"col", "row"}, {it.get("scope") for it in page.iter("th")}
    yield [], [it for it in page.iter("table") if it.find("caption") is None or not text_of(it.find("caption"))]
    levels = [int(it.tag[1]) for it in page.iter() if re.fullmatch("h[1-6]", it.tag)]
    yield (1, 1, True), (levels[0], levels.count(1), all(after <= before + 1 for before, after in zip(levels, levels[1:])))
    yield [], [(it.tag, name) for it in page.iter() for name in it.keys() if name in ("src", "style", "srcset", "action") or name.startswith("on")]
    yield (1, 1, []), (len(list(page.iter("style"))), len(list(page.iter("script"))), list(page.iter("link")))
    yield "en", page.get("lang")


def office(looking):
    """What the page of the example has."""
    page = looking.page
    yield from form(looking)
    yield ["Filters of site"], [text_of(it) for it in page.iter("h1")]
    yield ["Overview", "Mails", "Scripts"], [text_of(it) for it in page.iter("h2")]
    yield [f"The check passes: {COUNTS}"], [text_of(it) for it in with_class(page, "counts")]
    table = with_id(page, "table")
    yield ["Mails", "Count", "ada", "sales"], [text_of(it) for it in table.find("thead/tr")]
    yield TABLE, rows_of(table)
    order = next(it for it in with_class(page, "row") if text_of(it.find("h3")) == ORDER[0])
    verdicts, mails = order.iter("table")
    yield [ORDER], rows_of(mails)
    sales = verdicts.find("tbody")[1]
    links = [(text_of(it.find("code")), *map(looking.goal, it.findall("a"))) for it in sales[2].iter("li")]
    yield ENTERED, links
    yield [it for it, _, _ in ENTERED], [text_of(it) for it in sales[3].iter("li")]
    script = next(it for it in with_class(page, "script") if text_of(it.find("h3")) == "personal/sales.sieve")
    rows = {int(text_of(row[0])): row for row in script.find(".//tbody")}
    yield LINES, {number: text_of(row[1].find("details/summary") if len(row[1]) else row[1]) for number, row in rows.items() if number in LINES}
    yield (OFFICE / "personal/sales.sieve").read_text().splitlines(), ["".join(row[2].find("code").itertext()) for row in rows.values()]


def same_as_why(looking):
    """The branches that the page has of each mail, and the scripts that were looked up, are those of `why`."""
    for section in with_class(looking.page, "row"):
        verdicts, mails = section.iter("table")
        ((*_, file),) = rows_of(mails)
        answers = re.split(r"^\S+ under (.*)\n", looking.told(f"why office/site {os.path.basename(file)}")[1], flags=re.M)
        for row, name, answer in zip(verdicts.find("tbody"), answers[1::2], answers[2::2]):
            scripts, _, branches = answer.partition("looked up:\n")[2].partition("  branches that are taken:\n")
            scripts = re.findall(r"^    (?:office/site/)?(\S+?)(?:: .*)?$", scripts, re.M)
            taken = re.findall(r"^    office/site/(\S+:\d+): ", branches, re.M)
            items = list(row[4].find("ul") if row[4].find("ul") is not None else [])
            yield (name, scripts), (text_of(row[0]), [text_of(it.find("a")) if len(it) else text_of(it).partition(": ")[0] for it in items])
            below = [(text_of(it.find("a")), re.match(r"line (\d+)", text_of(link))[1]) for it in items for link in it.findall("ul/li/a")]
            yield sorted(taken), sorted(f"{script}:{line}" for script, line in below)


def remarks(looking):
    """The remarks on what a server may do otherwise are those of `why`, as text."""
    yield [], [it for it in looking.page.iter("b")]
    told = {}
    for section in with_class(looking.page, "row"):
        verdicts, mails = section.iter("table")
        for *_, file in rows_of(mails):
            told[os.path.basename(file)] = [text_of(it) for it in with_class(verdicts, "caution")]
    yield REMARKS, {name: [re.search(r"([a-z-]+): [A-Z]", it)[1] for it in found] for name, found in sorted(told.items())}
    for name, found in told.items():
        said = looking.told(f"why away/site {name}")[1].partition("otherwise:\n")[2].partition("  scripts that")[0]
        yield [re.sub(r"^ +away/site/(mails/\S+?:1: )?", "", line) for line in said.splitlines()], found


def same_as_untested(looking):
    """The changes that the page marks are those that `untested` prints."""
    marked = []
    for script in with_class(looking.page, "script"):
        for row in script.find(".//tbody"):
            marked += [f"office/site/{text_of(script.find('h3'))}:{text_of(row[0])}: {text_of(it)[2:]}" for it in with_class(row[2], "unnoticed")]
    yield [" ".join(line.split()) for line in looking.told("untested -q office/site")[1].splitlines()], marked


def same_as_diff(looking):
    """What the page has of an edit is what `diff` prints."""
    part = with_id(looking.page, "edit")
    *changes, summary = looking.told("diff --git HEAD office/site")[1].splitlines()
    yield summary, text_of(next(with_class(part, "counts")))
    marks = {"del": "  - ", "ins": "  + ", "span": "    "}
    printed = [re.sub(r"  \(.*\)$", "", line) for line in changes if line.startswith("  ")]
    yield printed, [marks[it.tag] + text_of(it).lstrip("−+ ") for item in with_class(part, "difference") for it in (li[0] for li in item)]
    links = [it.get("href") for item in with_class(part, "difference") for it in item.iter("a")]
    yield ["fileinto \"Orders\";"], [looking.goal(it) for it in part.iter("a") if it.get("href") in links]


def hostile(looking):
    """A mail, a mailbox and a script with markup: all of it is text."""
    page = looking.page
    yield from form(looking)
    yield [], [it for name in ("img", "b") for it in page.iter(name)]
    section = next(with_class(page, "row"))
    verdicts, mails = section.iter("table")
    ((subject, sender, to, *_),) = rows_of(mails)
    yield (MARKUP, f"{MARKUP} <a@b.example>", MARKUP), (subject, sender, to)
    yield ["✓ agrees", "○ nothing expected"], [text_of(row[1]) for row in verdicts.find("tbody")]
    yield 'store "</code><b>&amp;"', text_of(next(verdicts.iter("code")))
    scripts = {text_of(it.find("h3")): it for it in with_class(page, "script")}
    rows = {name: {int(text_of(row[0])): row for row in it.find(".//tbody")} for name, it in scripts.items()}
    main = rows["personal/main.sieve"]
    yield '# </table><script>document.title="ran"</script>', text_of(main[6][2])
    yield ["2 come, 1 takes it", "1 takes it"], [text_of(main[it][1].find("details/summary")) for it in (2, 5)]
    yield "kep;✗ unknown-command: There is no such command or test.", text_of(rows["personal/broken.sieve"][2][2])
    yield {1: "if true {", 2: "✗ syntax: What stands here can't follow what stands before it, or the text ends too early."}, {it: text_of(row[2]) for it, row in rows["personal/open.sieve"].items()}
    yield "It can't be run, as is said below.", text_of(scripts["personal/broken.sieve"].find("p"))


# Texts whose contrast with what is behind them is too low, or how many texts are there, where none is.
CONTRAST = """
const light = (text) => {
  const [r, g, b, a] = text.match(/[\\d.]+/g).map(Number).concat(1);
  const [x, y, z] = [r, g, b].map((it) => (it /= 255) <= 0.04045 ? it / 12.92 : ((it + 0.055) / 1.055) ** 2.4);
  return a ? 0.2126 * x + 0.7152 * y + 0.0722 * z : null;
};
const behind = (element) => {
  const found = light(getComputedStyle(element).backgroundColor);
  return found === null ? behind(element.parentElement) : found;
};
let looked = 0;
const low = new Set();
for (const it of document.body.querySelectorAll("*")) {
  if (![...it.childNodes].some((node) => node.nodeType === 3 && node.data.trim()) || it.closest("script")) continue;
  const pair = [light(getComputedStyle(it).color), behind(it)];
  looked += 1;
  if ((Math.max(...pair) + 0.05) / (Math.min(...pair) + 0.05) < 4.5) low.add(`${it.localName}.${it.className}`);
}
return low.size ? [...low] : looked > 100;
"""
SEEN = "return [...document.querySelectorAll('#table tbody tr')].filter((it) => it.checkVisibility()).map((it) => it.cells[0].textContent);"
AT = "const it = document.querySelector(location.hash); const box = it.getBoundingClientRect(); return [it.cells[2].querySelector('code').textContent, box.top >= 0 && box.bottom <= innerHeight];"
SORTED = "return [...document.querySelectorAll('#table thead th')].map((it) => it.ariaSort);"


class Opening(Reading):
    """The pages in a browser."""

    title, command = "sievebench-site: its page in Chromium", "report"

    def __init__(self, room):
        self.room = room

    def found(self, path):
        """What is otherwise."""
        for name in ("office", "hostile"):
            subprocess.run([sys.executable, "-B", TOOL, "report", "site", "-o", f"../{name}.html"], cwd=self.room / name, env={**os.environ, "PATH": path}, check=True, timeout=runs.SECONDS)
        with site_browser.Browser() as browser:
            pairs = [*self.office(browser), *self.hostile(browser)]
        self.looked = len(pairs)
        return [f"wanted {wanted!r:.1000}, got {got!r:.1000}" for wanted, got in pairs if wanted != got]

    def office(self, browser):
        """The page of the example is seen, leads from a mail to a line, finds and sorts."""
        titles = [row[0] for row in TABLE]
        for scheme in ("light", "dark"):
            browser.wear(scheme)
            browser.open(self.room / "office.html")
            yield titles, browser.run(SEEN)
            yield (scheme, True), (scheme, browser.run(CONTRAST))
        browser.press("\ue004")
        yield "#overview", browser.run("return document.activeElement.hash;")
        browser.click("#r4 .verdict li:last-child a")
        yield ['    fileinto :flags "$Order" "Orders";', True], browser.run(AT)
        for words, wanted in (("orders", titles[3:4]), ("Quittung", titles[5:]), ("talks-bounces@ flagged", titles[1:2]), ("sales", titles), ("nowhere", []), ("", titles)):
            browser.type("#find", words)
            yield (words, wanted), (words, browser.run(SEEN))
            yield (words, f"{len(wanted)} found" if words else ""), (words, browser.run("return document.getElementById('found').value;"))
        for wanted, way in ((sorted(titles, key=str.lower), "ascending"), (sorted(titles, key=str.lower, reverse=True), "descending")):
            browser.click("#table thead th:first-child button")
            yield ([wanted[0], wanted[-1]], [way, None, None, None]), (browser.run(SEEN)[:: len(titles) - 1], browser.run(SORTED))
        yield [], browser.said()

    def hostile(self, browser):
        """What mails and scripts say is shown as text; nothing of it is run or loaded."""
        browser.open(self.room / "hostile.html")
        yield "Filters of site", browser.run("return document.title;")
        yield MARKUP, browser.run("return document.querySelector('#r1-head').textContent;")
        yield [0, 0, 1], browser.run("return [performance.getEntriesByType('resource').length, document.images.length, document.scripts.length];")
        yield [], browser.said()


def of_refusals(room):
    """What the tool doesn't take, and that a page stays as it was where a new one isn't made."""
    write(room / "site", site({"1.eml": b""}, main=b"discard;"))
    (room / "old.html").write_bytes(b"old\n")
    (room / "folder").mkdir()
    (room / "linked").symlink_to("site/mails")
    for words, error in (
        ("site", [b"sievebench-site: the following arguments are required: -o; see --help\n"]),
        ("-o old.html", told("one folder is wanted, the site; see --help")),
        ("site -o site/page.html", told('"site/page.html" is inside of "site": the page goes to another folder than the site\'s')),
        ("site -o site", told('"site" is inside of "site": the page goes to another folder than the site\'s')),
        ("site -o linked/page.html", told('"linked/page.html" is inside of "site": the page goes to another folder than the site\'s')),
        ("site -o folder", told('cannot write "folder": Is a directory')),
        ("site -o none/page.html", told('cannot write "none/page.html": No such file or directory')),
        ("none -o old.html", [b"sievebench-site: "]),
        ("site -o old.html --only 2.eml", told('no mail "site/mails/2.eml"')),
        ("site -o old.html --against HEAD", told('"site" is in no repository of git')),
    ):
        yield run(f"no page: {words}", room, f"report {words}; echo $?; cat old.html; ls -A", lines(2, "old", "folder", "linked", "old.html", "site"), error)
    failing = '--program "$(command -v false)"'
    yield run("a page stays where the program fails", room, f"report site -o old.html {failing}; echo $?; cat old.html; ls -A", lines(3, "old", "folder", "linked", "old.html", "site"), [b"ended with status 1"])
    yield run("no page of a revision that isn't there", room, f"report office -o page.html --against x 2> told; {GIT} init -q . && {GIT} add site && {GIT} commit -qm a && python3 {shlex.quote(str(TOOL))} report site -o old.html --against none; echo $?; cat old.html", lines(2, "old"), told('no revision "none" in the repository of "site"'))


def of_files(room):
    """Where the page goes: a file that is replaced with its mode, standard output, and the same page by the packed tool."""
    write(room / "site", site({"1.eml": b"Subject: a\n\n"}, main=b"discard;"))
    (room / "page.html").write_bytes(b"old\n")
    (room / "page.html").chmod(0o640)
    packs = f"python3 {shlex.quote(str(PACK))} packed && ./packed report site -o packed.html"
    yield run("a page is replaced, is the same by the packed tool, and goes to standard output", room, f"report site -o page.html; stat -c %a page.html; {packs}; python3 {shlex.quote(str(TOOL))} report site -o /dev/stdout | cmp - packed.html && cmp page.html packed.html; head -c 15 page.html; ls -A", lines(640) + b"<!DOCTYPE html>" + lines("packed", "packed.html", "page.html", "site"))


def of_servers(room):
    """What makes pages on servers, and that these keep them."""
    write(room / "site", site({"1.eml": b"Subject: a\n\n"}, main=b"discard;"))
    packs = f'mkdir bin && ln -s "$(readlink -f "$(command -v sievebench)")" bin/sievebench && python3 {shlex.quote(str(PACK))} bin/sievebench-site'
    yield Run("examples for servers: a repository", room, f"{packs} && {GIT} init -q && {GIT} add site && {GIT} commit -qm one")
    for name, pages in (("github", ["report.html"]), ("gitlab", ["report.html", "changes.html"]), ("github-shards", ["report.html"]), ("gitlab-shards", ["report.html"])):
        text = (SERVERS / f"{name}.yml").read_text(encoding="utf-8")
        steps = re.findall(STEP, text, re.M)
        assert [page for _, page in steps] == pages and all(re.search(rf"paths?: .*\b{page}", text) for page in pages), f"examples for servers: {name}.yml"
        for step, page in steps:
            yield Run(f"examples for servers: {page} of {name}.yml", room, f"{step.replace('FETCH_HEAD', 'HEAD')} && head -c 15 {page}; rm {page}", b"<!DOCTYPE html>")


def of_sites(room):
    """All of this."""
    yield Picture()
    (room / "servers").mkdir()
    yield from some("pages on servers", of_servers(room / "servers"))
    (room / "refused").mkdir()
    yield from some("what report refuses", of_refusals(room / "refused"))
    (room / "files").mkdir()
    yield from some("where pages go", of_files(room / "files"))
    subprocess.run(["cp", "-r", OFFICE, room / "office-site"], check=True)
    (room / "office").mkdir()
    (room / "office-site").rename(room / "office/site")
    write(room / "hostile/site", HOSTILE)
    yield Looking("the page of the example", room, "office/site", office)
    yield Looking("it says what `why` says", room, "office/site", same_as_why)
    yield Looking("it says what `untested` says", room, "office/site", same_as_untested)
    write(room / "away/site", AWAY)
    yield Looking("it says what `why` says of servers", room, "away/site", remarks)
    yield Looking("markup in mails and scripts is text", room, "hostile/site", hostile)
    if site_browser.is_there():
        yield Opening(room)
    else:
        yield LeftOut("the page in a browser", "since Chromium and chromedriver aren't installed")
    edited = room / "edited"
    subprocess.run(f"mkdir edited && cp -r office edited && cd edited && {GIT} init -q && {GIT} add -A && {GIT} commit -qm one", shell=True, cwd=room, check=True)
    script = edited / "office/site/personal/sales.sieve"
    script.write_text(script.read_text().replace('fileinto :flags "$Order" "Orders"', 'fileinto "Orders"'))
    yield Looking("it says what `diff` says", edited, "office/site --against HEAD", same_as_diff)
