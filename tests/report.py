"""tools/report: the pages that it makes of surveys, beside the JSON that it was given and what was planted."""

import collections
import html
import html.parser
import json
import os
import re
import shutil
import subprocess
import sys
import tempfile

from faults import COLS, ROWS, all_entries
from trying import PATIENCE, PROGRAM, TOP, Case, run_cases, write

LARGEST = 2_000_000
# as many as there are in ncurses' terminfo.src
PLACES = 4_000
# in milliseconds
LONGEST = 2_000
# elements that have no end
EMPTY = {"meta", "input", "rect", "use", "path", "br"}
GRADES = ["broken", "contradicts", "wrong", "unknown"]
# the parts of a page, in their order
GROUPS = [*GRADES, "ungraded", "accepted"]
# grades for tests, whatever the program says
CAUSES = {"Underflow": "broken", "BadCode": "broken", "Stuck": "contradicts", "WrongEffect": "wrong", "Absent": "wrong", "NotTame": "unknown"}
BROWSERS = ("chromium", "chromium-browser", "google-chrome")

# names that a page must not take for its own; each lacks cup
NAMES = [b"</script><script>alert(1)</script>", b'"\'>&amp;<b>', b"lat\xeen\x7f", "größe".encode(), b"<!--", b"]]>"]
# a name that turns the line round, and half of a character, which JSON can spell
ODD = ["rl\u202eo", "half\ud800", "nul\u0000", "line\u2028"]


def fail(text):
    sys.exit(f"report: {text}")


class Element:
    """An element of a page: its tag, its attributes, and what is in it, texts and elements."""

    def __init__(self, tag, attrs):
        self.tag, self.given, self.inside = tag, dict(attrs), []

    def text(self):
        return "".join(it if isinstance(it, str) else it.text() for it in self.inside)

    def all(self, tag, name=None):
        """The elements below it with this tag, in order; with a name, those of this class or identifier."""
        for it in self.inside:
            if isinstance(it, Element):
                if it.tag == tag and name in (None, it.given.get("id"), *it.given.get("class", "").split()):
                    yield it
                yield from it.all(tag, name)

    def parts(self, *tags):
        """The texts of its own elements with these tags."""
        return [it.text() for it in self.inside if isinstance(it, Element) and it.tag in tags]


class Page(html.parser.HTMLParser):
    """A page as it is read: its elements are closed as they were opened, each id is there once, each link leads to one."""

    def __init__(self, data):
        super().__init__()
        self.whole = Element("page", [])
        self.open, self.ids, self.links, self.outside = [self.whole], [], [], []
        self.feed(data.decode())
        self.close()
        if len(self.open) > 1 or len(set(self.ids)) < len(self.ids) or not set(self.links) <= set(self.ids):
            fail(f"not closed {self.open[-1].tag}, or a link without its end, or an id twice")
        self.places = [Place(it, line) for it in self.whole.all("section", "places") for line in it.all("details")]
        self.tiles = {it.given["class"].split()[1]: number(next(it.all("b")).text()) for it in self.whole.all("label", "tile")}
        self.causes = {row[0]: [number(it) for it in row[1:3]] for row in self.rows("causes")}
        self.entries = self.rows("entries")
        self.advice, self.hints = self.sayings("advice"), self.sayings("hints")

    def handle_starttag(self, tag, attrs):
        element = Element(tag, attrs)
        self.ids += [element.given["id"]] if "id" in element.given else []
        for name in ("href", "src", "action", "xlink:href", "for"):
            if name in element.given:
                self.links.append(element.given[name].removeprefix("#"))
                self.outside += [] if element.given[name].startswith("#") or name == "for" else [element.given[name]]
        self.open[-1].inside.append(element)
        if tag not in EMPTY:
            self.open.append(element)

    def handle_startendtag(self, tag, attrs):
        self.handle_starttag(tag, attrs)
        if tag not in EMPTY:
            self.open.pop()

    def handle_endtag(self, tag):
        if self.open.pop().tag != tag:
            fail(f"</{tag}> closes nothing at {self.getpos()}")

    def handle_data(self, data):
        self.open[-1].inside.append(data)

    def rows(self, name):
        """The texts of the rows of a table."""
        return [row.parts("th", "td") for table in self.whole.all("details", name) for body in table.all("tbody") for row in body.all("tr")]

    def sayings(self, name):
        """The lines of advice or of hints: the words, and who they are said to."""
        lines = [line for part in self.whole.all("section", name) for line in part.all("details")]
        return [(*next(it.all("summary")).parts("b", "span"), next(it.all("footer")).text()) for it in lines]


class Place:
    """A place of a page."""

    def __init__(self, section, line):
        self.group, self.classes = section.given["id"], set(line.given.get("class", "").split())
        self.title, self.what, self.where, self.cause, users = next(line.all("summary")).parts("b", "code", "em", "span")
        self.count, self.users = number(users), [it.text() for it in line.all("footer")]
        self.text, self.id = line.text(), line.given["id"]
        self.is_in_words = any(line.all("p", "words"))
        self.suggested = [it.text() for it in line.all("kbd")]


def number(text):
    return int(text.replace(",", ""))


def made(data, *words):
    """The run of the tool on an input."""
    return subprocess.run([sys.executable, "-B", f"{TOP}/tools/report", *words], input=data, capture_output=True)


def surveyed(files, size, paths=None):
    """The output of the survey of files."""
    case = Case(["survey", "--json", "--all", *map(str, size), *(paths or files)])
    return run_cases(PROGRAM, [case], files)[0].out


def is_once(one):
    """The key that an object shares with the others of its fault."""
    if one["line"] is not None:
        return one["source_file"], one["line"], one["column"], one["capability"], one["cause"]
    return tuple(str(one[name]) for name in ("capability", "parameters", "cause", "bytes", "start", "wanted", "seen"))


def faults_of(ones):
    """The objects of each fault."""
    faults = collections.defaultdict(list)
    for one in ones:
        if one["verdict"] == "no":
            faults[is_once(one)].append(one)
    return list(faults.values())


def group_of(them):
    """Where the objects of a fault belong: what matters most is said of it, and it is accepted if all are."""
    if all(it.get("accepted") for it in them):
        return "accepted"
    return next(it for it in GROUPS if any((one.get("grade") or "ungraded") == it for one in them))


def kind_of(them):
    """A place is one of a whole entry if any of its entries is one, and one of a part if all are."""
    if any(not it["part"] and not it["another_kind"] for it in them):
        return "whole"
    return "part" if all(it["part"] for it in them) else "other"


def counts_of(ones):
    """The numbers of the tiles."""
    faults = faults_of(ones)
    groups, kinds = collections.Counter(map(group_of, faults)), collections.Counter(map(kind_of, faults))
    graded = any(it.get("grade") for it in ones)
    due = [it for it in GROUPS if groups[it] or graded and it in GRADES or it == "accepted" and any("accepted" in one for one in ones)]
    suggested = sum(any(it["suggestion"] is not None for it in them) for them in faults)
    return {
        **{it: groups[it] for it in due if faults},
        **({it: count for it, count in kinds.items()} if set(kinds) - {"whole"} else {}),
        **({"suggested": suggested} if suggested else {}),
    }


def told_of(them):
    """The line of a fault: its part of the page, its capability, cause and users, and the classes by which it is filtered."""
    words = " ".join([them[0]["capability"], *map(str, them[0]["parameters"])])
    classes = {kind_of(them)} - {"whole"} | {"suggested"} & ({"suggested"} if any(it["suggestion"] is not None for it in them) else set())
    return group_of(them), words, them[0]["cause"], len(them), classes


def in_order(name, page):
    """The places stand by group, in it those of most entries come first, and below each are as many names as it says."""
    keys = [(GROUPS.index(it.group), -it.count) for it in page.places]
    if keys != sorted(keys):
        fail(f"{name}: the places don't stand by grade and users")
    for it in page.places:
        if sum(len(users.split(", ")) for users in it.users) < it.count:
            fail(f"{name}: {it.title} names {it.users}, and counts {it.count}")


def judge(name, data):
    """The numbers of a page are those of the JSON, and each state is drawn."""
    ran = made(data)
    if ran.returncode or ran.stderr:
        fail(f"{name}: status {ran.returncode} {ran.stderr}")
    page, ones = Page(ran.stdout), [json.loads(line) for line in data.splitlines()]
    noes = [it for it in ones if it["verdict"] == "no"]
    of_entry = {(it["file"], it["entry"]): it["verdict"] for it in ones if it["verdict"] not in ("advice", "hint")}
    verdicts = collections.Counter(of_entry.values())
    if collections.Counter(row[1].split(",")[0] for row in page.entries) != verdicts:
        fail(f"{name}: the page lists {len(page.entries)} entries, and the JSON has {verdicts}")
    said = {it.given["class"]: number(it.text()) for line in page.whole.all("p", "sum") for it in line.all("b")}
    if said != verdicts or page.tiles != counts_of(ones):
        fail(f"{name}: the page counts {said} {page.tiles}, and the JSON has {verdicts} {counts_of(ones)}")
    faults = faults_of(ones)
    shown = [(it.group, it.title, it.cause, it.count, sorted(it.classes)) for it in page.places]
    wanted = [(*it[:4], sorted(it[4])) for it in map(told_of, faults)]
    if sorted(shown) != sorted(wanted):
        fail(f"{name}: the page has {set(map(str, shown)) ^ set(map(str, wanted))}")
    in_order(name, page)
    causes = {
        cause: [count, len({(it["file"], it["entry"]) for it in noes if it["cause"] == cause})]
        for cause, count in collections.Counter(it[0]["cause"] for it in faults).items()
    }
    if page.causes != causes:
        fail(f"{name}: the page has the causes {page.causes}, and the JSON {causes}")
    judge_words(name, page, ones)
    is_wordy = any(it.is_in_words for it in page.places) or b'class="words"' in ran.stdout
    if is_wordy or page.outside or ran.stdout.count(b"<script") != 1 or len(ran.stdout) > LARGEST:
        fail(f"{name}: states in words {is_wordy}, links to {page.outside}, {len(ran.stdout)} bytes")
    return page, ran.stdout


def judge_words(name, page, ones):
    """Advice and hints stand apart, each wording once, with how often it is said."""
    for verdict, lines in (("advice", page.advice), ("hint", page.hints)):
        said = collections.Counter(
            ((it["capability"],) if verdict == "advice" else ()) + (" ".join(it["explanation"]),) for it in ones if it["verdict"] == verdict
        )
        shown = {tuple(line[:-2]): number(line[-2]) for line in lines}
        plain = {key: count for key, count in said.items() if all(text.isprintable() for text in key)}
        if len(shown) != len(said) or len(lines) != len(said) or not plain.items() <= shown.items():
            fail(f"{name}: the page's {verdict} is {shown}, and the JSON's {said}")


def planted():
    """Each planted fault stands once, at its place, with the entries that have it."""
    source, wanted = all_entries()
    data = surveyed({"planted": source.text()}, (ROWS, COLS))
    page, _ = judge("planted", data)
    users = collections.defaultdict(list)
    for name, faults in wanted.items():
        for (field, _, cause), owner in faults:
            cap = re.match(r"\w+", field)[0]
            if cause != "Absent":
                users[cap, source.places[owner, cap], owner].append(name)
    for (cap, line, owner), names in users.items():
        found = [it for it in page.places if it.title.split(" ")[0] == cap and re.fullmatch(rf"{line}:\d+ {owner}", it.where)]
        if len(found) != 1 or found[0].users != [", ".join(names)]:
            fail(f"{cap} of line {line} is to stand once, with {names}: {[it.text for it in found]}")
    return data, len(users)


def regraded(data, grades, **more):
    """A report in which the faults of each cause have a grade, and nothing else has one; of a cause that isn't named, none.
    Further members are given by functions."""
    ones = [json.loads(line) for line in data.splitlines()]
    for one in ones:
        one.pop("grade", None)
        if grades:
            one["grade"] = grades.get(one["cause"]) if one["verdict"] == "no" else None
        one.update({key: value(one) for key, value in more.items()})
    return b"".join(json.dumps(one).encode() + b"\n" for one in ones)


def graded(data):
    """Reports with all grades, with some, with none, with different ones at a place, with accepted faults, and with entries of each
    kind. The page with all grades is returned."""
    judge("no grades", regraded(data, {}))
    judge("one grade", regraded(data, {"WrongEffect": "contradicts"}))
    ones = [json.loads(line) for line in data.splitlines()]
    users = collections.Counter(is_once(it) for it in ones if it["verdict"] == "no")
    last = [it for it in ones if it["verdict"] == "no" and it["string"] and users[is_once(it)] > 1][-1]
    is_last = lambda it: it["verdict"] == "no" and (it["entry"], is_once(it)) == (last["entry"], is_once(last))
    mixed = lambda it: "broken" if is_last(it) else CAUSES.get(it["cause"], "unknown") if it["verdict"] == "no" else None
    own = lambda it: "of the first grade" if is_last(it) else it["string"]
    page, _ = judge("grades that differ", regraded(data, {}, grade=mixed, string=own))
    if not any((it.group, it.what, len(it.users)) == ("broken", "of the first grade", 2) for it in page.places):
        fail("a place with two grades isn't shown by the words of the first, with its entries by both")
    accepted = lambda it: it["capability"] == last["capability"] and not is_last(it) if it["verdict"] == "no" else None
    page, _ = judge("accepted faults", regraded(data, CAUSES, accepted=accepted))
    if not page.tiles["accepted"] or {it.title.split()[0] for it in page.places if it.group == "accepted"} != {last["capability"]}:
        fail(f"accepted is {page.tiles}")
    accepted = lambda it: it["capability"] == last["capability"] and is_last(it)
    if judge("accepted by one entry", regraded(data, CAUSES, accepted=accepted))[0].tiles["accepted"] != 0:
        fail("a place is accepted of which one entry's fault is")
    if judge("nothing is accepted", regraded(data, CAUSES, accepted=lambda it: False))[0].tiles["accepted"] != 0:
        fail("the tile of accepted faults is to be there where the data has the member")
    kinds = {"part": lambda it: hash_of(it) % 3 == 0, "another_kind": lambda it: hash_of(it) % 2 == 0 if it["verdict"] == "no" else None}
    return judge("kinds", regraded(data, CAUSES, **kinds))


def hash_of(one):
    """A number that is the same for all objects of an entry."""
    return sum(one["entry"].encode())


def hostile():
    """Names are text wherever they stand."""
    source = b"".join(name + b"|no cup,\n\tclear=\\E[H\\E[2J, sgr0=\\E[m,\n" for name in NAMES)
    data = surveyed({"names": source}, (ROWS, COLS))
    lines = data.splitlines()
    odd = [json.dumps({**json.loads(lines[0]), "entry": it}).encode() for it in ODD]
    page, held = judge("names", b"\n".join([*lines, *odd]))
    if held.count(b"<script") != 1 or b"<script>alert" in held or b"&amp;<b>" in held:
        fail("a name has become an element")
    for one, row in zip(lines, page.entries):
        if json.loads(one)["entry"] != row[0]:
            fail(f"the name of {one} is {row}")
    shown = ["rl\\u{202e}o", "half\\u{d800}", "nul\\u{0}", "line\\u{2028}"]
    if [row[0] for row in page.entries[len(lines) :]] != shown:
        fail(f"the odd names are shown as {page.entries[len(lines):]}")
    # whatever is a text of the report
    first, evil = json.loads(lines[0]), "</q></footer></summary><script>alert(1)</script>\"'<!--"
    texts = ["capability", "cause", "entry", "file", "source_file", "source_entry", "string", "suggestion", "start", "wanted", "seen"]
    wholly = {**first, **dict.fromkeys(texts, evil), "explanation": [evil, evil], "parameters": [evil], "line": 1, "column": 1}
    advice = {**wholly, "verdict": "advice", "cause": None}
    rest = [{**advice, "verdict": "hint"}, {**wholly, "verdict": "refused", "entry": None}]
    ran = made(b"\n".join(json.dumps(it).encode() for it in [wholly, advice, *rest]))
    page = Page(ran.stdout)
    if ran.returncode or ran.stdout.count(b"<script") != 1 or b"alert(1)</script>" in ran.stdout or page.places[0].what != evil:
        fail(f"a text of the report has become an element: {ran.stderr}")
    if evil not in page.advice[0] or not any(evil in row for row in page.entries):
        fail("a text of the report is changed")


def refused(right):
    """Input that isn't such JSON, or can't be read or written, gives a line and a status, and no file."""
    one = json.loads(right.splitlines()[0])
    inputs = [b"", b"{}\n", b"yes\n", b"\xff\n", b"[" * 100000, json.dumps([one]).encode(), right + b"total 3\n"]
    wrongs = [("verdict", "maybe"), ("size", {}), ("size", {"rows": 2, "cols": 5}), ("line", -1), ("line", True), ("explanation", None), ("bytes", "5")]
    wrongs += [("grade", "bad"), ("accepted", 1), ("part", "x"), ("source_file", 5), ("column", 0)]
    inputs += [right.splitlines()[-1] + b"\n" + json.dumps({**one, key: value}).encode() for key, value in wrongs]
    with tempfile.TemporaryDirectory() as room:
        for given in inputs:
            ran = made(given, "--out", f"{room}/page")
            if ran.returncode != 1 or ran.stdout or ran.stderr.count(b"\n") != 1 or not ran.stderr.startswith(b"report: ") or os.listdir(room):
                fail(f"{given[:60]} gave {ran.returncode} {ran.stderr} {os.listdir(room)}")
        write(f"{room}/old", b"old")
        os.chmod(f"{room}/old", 0o640)
        os.symlink("old", f"{room}/link")
        cases = [(["--oot"], 2), ([room], 3), ([f"{room}/none"], 3), (["--out", f"{room}/none/page"], 3), (["--out", "/dev/full"], 3)]
        for words, status in cases:
            ran = made(right, *words)
            if ran.returncode != status or ran.stdout or b"Traceback" in ran.stderr:
                fail(f"{words} gave {ran.returncode} {ran.stderr}")
        ran = made(right, "--out", f"{room}/link")
        kept = os.stat(f"{room}/old")
        if ran.returncode or kept.st_mode & 0o777 != 0o640 or kept.st_size < 1000 or sorted(os.listdir(room)) != ["link", "old"]:
            fail(f"a page over a link: {ran.returncode} {ran.stderr} {os.listdir(room)}")
        with open("/dev/full", "wb") as full:
            words = [sys.executable, "-B", f"{TOP}/tools/report"]
            ran = subprocess.run(words, input=right, stdout=full, stderr=subprocess.PIPE)
        if ran.returncode != 3 or ran.stderr.count(b"\n") != 1:
            fail(f"a full output gave {ran.returncode} {ran.stderr}")
    return len(inputs) + len(cases) + 2


# what a reader does: check tiles, search for a capability, choose a cause and an entry, sort, and follow a link to what is
# filtered away; and how long the page takes to load and for each of these, in milliseconds
STEPS = """<script>
const told = [], took = [performance.now()];
const note = () => { document.body.getBoundingClientRect(); told.push(all(".places details").filter((it) => !it.closest("[hidden]")).map((it) => it.id)); };
const step = (act) => { const from = performance.now(); act(); note(); took.push(performance.now() - from); };
const check = (name) => step(() => { if (one(name)) one(name).click(); });
const put = (name, value, what) => step(() => { one(name).value = value; one(name).dispatchEvent(new Event(what)); });
note(); check("grade-broken"); check("grade-unknown"); check("kind-whole"); check("grade-broken"); check("grade-unknown"); check("fix-suggested");
check("fix-suggested"); check("kind-whole"); put("search", "CIVIS", "input"); put("search", "", "input"); put("cause", "Stuck", "change");
put("cause", "", "change"); step(() => document.querySelector(".bar .wrong").click()); step(() => document.querySelector(".bar .wrong").click());
one("entries").open = true; linkEntries();
step(() => all("#entries a").find((it) => it.textContent === NAME).click());
put("sort", "faults", "change"); const most = document.querySelector("#entries tbody tr td:nth-child(3)").textContent;
put("verdict", "yes", "change"); const yes = all("#entries tbody tr:not([hidden])").length;
const last = document.querySelectorAll(".places details[hidden]")[0]; location.hash = last.id;
addEventListener("hashchange", ({ newURL }) => newURL.endsWith(last.id) && setTimeout(() => {
  note(); fill(last);
  document.body.innerHTML = `<pre id="told"></pre>`;
  one("told").textContent = JSON.stringify({ told, took, most, yes, open: last.open, link: !last.querySelector("a"), text: last.textContent });
}));
</script>"""


def chromium():
    return next(filter(None, map(shutil.which, BROWSERS)), None)


def ran_in(browser, held, entry, *words):
    """The answers of a page after the steps in a browser, some of which are about this entry."""
    steps = STEPS.replace("NAME", json.dumps(entry)).encode()
    with tempfile.TemporaryDirectory() as room:
        write(f"{room}/page.html", held.replace(b"</body>", steps + b"</body>"))
        words = ["--headless", "--no-sandbox", "--disable-gpu", f"--user-data-dir={room}/user", *words, "--dump-dom", f"file://{room}/page.html"]
        ran = subprocess.run([browser, *words], capture_output=True, timeout=PATIENCE)
    told = re.search(rb'<pre id="told">(.*?)</pre>', ran.stdout)
    if not told or told[1] == b"":
        fail(f"the page's script failed in {browser}: {ran.stderr.decode(errors='replace')[-400:]}")
    return json.loads(html.unescape(told[1].decode()))


def browsed(page, held):
    """The page's script shows in a browser what it is asked for."""
    browser = chromium()
    if not browser:
        return "Chromium is not installed, and the page's script is left out"
    places = page.places
    entry = next(it.users[0].split(", ")[-1] for it in places if it.count > 1)
    shown = ran_in(browser, held, entry, "--virtual-time-budget=5000")
    whole, fix = (lambda it: not it.classes & {"other", "part"}), (lambda it: "suggested" in it.classes)
    of = lambda *groups: (lambda it: it.group in groups)
    every = lambda it: True
    asks = [
        every, of("broken"), of("broken", "unknown"), lambda it: of("broken", "unknown")(it) and whole(it),
        lambda it: of("unknown")(it) and whole(it), whole, lambda it: whole(it) and fix(it), whole, every,
        lambda it: "civis" in it.text.lower(), every, lambda it: it.cause == "Stuck", every, of("wrong"), every,
        *[lambda it: any(entry in users.split(", ") for users in it.users)] * 3, every,
    ]  # fmt: skip
    for at, (ask, ids) in enumerate(zip(asks, shown["told"], strict=True)):
        if ids != [it.id for it in places if ask(it)]:
            fail(f"in {browser} step {at} shows {len(ids)} places, and is to show {sum(map(ask, places))}")
    most = str(max(int(row[2] or 0) for row in page.entries))
    yes = sum(row[1] == "yes" for row in page.entries)
    if (shown["most"], shown["yes"], shown["open"], shown["link"]) != (most, yes, True, True):
        fail(f"in {browser} the entries or the link show {shown['most']} {shown['yes']} {shown['open']} {shown['link']}, not {most} {yes}")
    return f"{os.path.basename(browser)} filters, finds and sorts as it is to; {printed(browser, page, held)}"


def printed(browser, page, held):
    """The printed form has the places of the first two grades, unfolded, and nothing else."""
    if not shutil.which("pdftotext"):
        return "pdftotext is not installed, and the printed form is left out"
    with tempfile.TemporaryDirectory() as room:
        write(f"{room}/page.html", held)
        words = ["--headless", "--no-sandbox", "--disable-gpu", f"--user-data-dir={room}/user", f"--print-to-pdf={room}/pdf", f"file://{room}/page.html"]
        subprocess.run([browser, *words], capture_output=True, timeout=PATIENCE)
        text = subprocess.run(["pdftotext", "-layout", f"{room}/pdf", "-"], capture_output=True, text=True, check=True).stdout
    for it in page.places:
        name = it.where.split()[0]
        is_there = re.search(rf"(?<![\d:]){name}(?!\d)", text) is not None
        if ":" in name and is_there != any(name == other.where.split()[0] for other in page.places if other.group in GRADES[:2]):
            fail(f"{it.title} at {name} is {it.group}, and is {'' if is_there else 'not '}printed")
    users = {name for it in page.places if it.group in GRADES[:2] for users in it.users for name in users.split(", ")}
    if not users or not all(name in text for name in users):
        fail(f"the printed form lacks {[name for name in users if name not in text]}")
    return "the first two grades are printed"


def quick(page, held):
    """Whether loading the page and each filter take less than two seconds: in one of three tries, since machines are busy."""
    browser = chromium()
    if not browser:
        return ", and Chromium isn't installed"
    entry = next(it.users[0].split(", ")[-1] for it in page.places)
    tries = [max(ran_in(browser, held, entry)["took"]) for _ in range(3)]
    if min(tries) > LONGEST:
        fail(f"in {browser} loading or a filter took {min(tries):.0f} ms")
    return f", where loading and each filter take at most {min(tries):.0f} ms in {os.path.basename(browser)}"


def system():
    """The page of the system's database, and its size."""
    folders = subprocess.run(["infocmp", "-D"], capture_output=True, text=True).stdout.split() if shutil.which("infocmp") else []
    found = {}
    for folder in folders:
        for at, _, names in os.walk(folder):
            for name in names:
                found.setdefault(name, os.path.join(at, name))
    paths = [found[name] for name in sorted(found) if not os.path.islink(found[name]) and os.path.isfile(found[name])]
    if not paths:
        return "there is no database of ncurses, and its page is left out"
    data = surveyed({}, (24, 80), paths)
    page, held = judge("the system's database", data)
    return f"{len(page.entries)} entries of the system have {len(page.places)} faults on a page of {len(held):,} bytes"


def large(data):
    """A report with as many entries and places as ncurses' database has: one that is repeated at other lines, by other names."""
    ones, more = [json.loads(line) for line in data.splitlines()], []
    # those without a line are the same fault in all copies
    copies = -(-PLACES // sum(them[0]["line"] is not None for them in faults_of(ones)))
    for at in range(copies):
        for one in ones:
            other = {**one, "entry": f"{one['entry']}-{at}"}
            if one["line"] is not None:
                other |= {"line": one["line"] + at * 10_000, "source_entry": f"{one['source_entry']}-{at}"}
            more.append(json.dumps(other).encode())
    page, held = judge("a large report", regraded(b"\n".join(more), CAUSES))
    words = f"{len(page.entries):,} entries with faults at {len(page.places):,} places have a page of {len(held):,} bytes"
    return words + quick(page, held)


def main():
    data, count = planted()
    page, held = graded(data)
    hostile()
    inputs = refused(surveyed({"small": all_entries()[0].text()[:3000]}, (ROWS, COLS)))
    print(f"report: each of {count} planted faults stands once, at its place; {inputs} wrong inputs and outputs are refused")
    print(f"report: {browsed(page, held)}")
    print(f"report: {large(data)}")
    print(f"report: {system()}")


if __name__ == "__main__":
    main()
