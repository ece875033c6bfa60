"""check --sarif, survey --sarif and survey --baseline, compared with the objects of --json for the same files."""

import json
import sys
import tempfile

from faults import COLS, ROWS, all_entries
from trying import PROGRAM, Case, run_cases

SIZE = [str(ROWS), str(COLS)]
# the level of a fault by its grade
LEVELS = {"broken": "error", "contradicts": "error", "wrong": "warning", "unknown": "note"}
# the members of a region
REGION = {"startLine", "startColumn", "endLine", "endColumn"}

RIGHT = "right|nothing is wrong,\n\tcup=\\E[%i%p1%d;%p2%dH, clear=\\E[H\\E[2J, sgr0=\\E[m,\n"
WRONG = "wrong|clear doesn't clear,\n\tcup=\\E[%i%p1%d;%p2%dH, clear=\\E[2K, sgr0=\\E[m,\n"
LOST = "lost|uses what isn't there,\n\tuse=nobody,\n"
WHOLE = RIGHT + WRONG + LOST
SPARSE = "sparse|cup is missing,\n\tclear=\\E[H\\E[2J, sgr0=\\E[m,\n"


def fail(text):
    sys.exit(f"sarif: {text}")


def objects(told):
    return [json.loads(line) for line in told.out.decode("ascii").splitlines()]


def level(one):
    if one["verdict"] == "refused":
        return "error"
    if one["verdict"] in ("advice", "hint") or one["another_kind"]:
        return "note"
    return LEVELS[one["grade"]]


def statement(one):
    subject = " ".join([one["capability"] or "", *map(str, one["parameters"])])
    if one["verdict"] == "no":
        return f"no {subject}: {one['cause']}"
    if one["verdict"] == "hint":
        return f"hint {one['rule']}"
    return f"refused: {one['cause']}" if one["verdict"] == "refused" else f"advice {subject}"


def reference(path):
    plain = "ABCDEFGHIJKLMNOPQRSTUVWXYZabcdefghijklmnopqrstuvwxyz0123456789-._~/"
    return "".join(chr(b) if chr(b) in plain else f"%{b:02X}" for b in path.encode())


def judge_result(result, one):
    """The result is that of the object."""
    if result["ruleId"] != one["rule"] or result["level"] != level(one):
        fail(f"another rule or level: {result}")
    lines = result["message"]["text"].split("\n")
    name = one["entry"] if one["entry"] is not None else one["file"]
    wanted = [f"{name}: {statement(one)}", *one["explanation"]]
    if one["suggestion"] is not None:
        wanted.append(f"{one['capability']}={one['suggestion']} would be right on T")
    if lines != wanted:
        fail(f"the message is {lines}, not {wanted}")
    (place,) = result["locations"]
    if place["logicalLocations"] != [{"name": name}]:
        fail(f"another entry: {place}")
    physical = place["physicalLocation"]
    if physical["artifactLocation"] != {"uri": reference(one["file"])}:
        fail(f"another file: {physical}")
    region = physical.get("region")
    if (region is None) != (one["line"] is None) or region and (region["startLine"] != one["line"] or not set(region) <= REGION):
        fail(f"another place: {physical}, not {one['line']}")
    whole = {"startLine": "line", "startColumn": "column", "endLine": "end_line", "endColumn": "end_column"}
    if one["column"] is not None and region != {key: one[name] for key, name in whole.items()}:
        fail(f"not the whole field: {physical}, not that of {one}")
    mends = None not in (one["suggestion"], one["column"]) and not one["suggested_with"] and one["grade"] != "unknown"
    if ("fixes" in result) != mends:
        fail(f"a fix without a suggestion, or a suggestion without a fix: {result}")
    if "fixes" in result:
        ((change,),) = (fix["artifactChanges"] for fix in result["fixes"])
        field = f"{one['capability']}={one['suggestion']}"
        wanted = {"deletedRegion": region, "insertedContent": {"text": field}}
        if change != {"artifactLocation": physical["artifactLocation"], "replacements": [wanted]}:
            fail(f"not the string that is suggested: {change}, not {field}")
    if list(result["partialFingerprints"]) != ["ticurses/v1"]:
        fail(f"no print: {result}")


def judge_file(told, ones):
    """The output is a file of SARIF with a result for each object but a yes."""
    try:
        whole = json.loads(told.out.decode("ascii"))
    except ValueError as error:
        fail(f"no JSON: {error}")
    if whole["version"] != "2.1.0" or not whole["$schema"].endswith("sarif-2.1.0.json"):
        fail("another version")
    (run,) = whole["runs"]
    driver = run["tool"]["driver"]
    rules = [rule["id"] for rule in driver["rules"]]
    if driver["name"] != "ticurses" or rules != sorted(set(rules)) or not all(rule["shortDescription"]["text"] for rule in driver["rules"]):
        fail(f"another driver: {driver}")
    found = [one for one in ones if one["verdict"] != "yes"]
    if len(run["results"]) != len(found):
        fail(f"{len(run['results'])} results for {len(found)} objects")
    for result, one in zip(run["results"], found):
        if result["ruleId"] not in rules:
            fail(f"no rule {result['ruleId']}")
        judge_result(result, one)
    prints = [result["partialFingerprints"]["ticurses/v1"] for result in run["results"] if result["level"] != "note"]
    if len(prints) != len(set(prints)):
        fail("two faults with one print")
    return len(found)


def judge_same(forms):
    """Statuses and standard error are those of --json --all."""
    plain, sarif = forms
    if plain.status != sarif.status or plain.err != sarif.err:
        fail(f"status {sarif.status}, {sarif.err}; not {plain.status}, {plain.err}")


def store(folder, texts):
    for name, text in texts.items():
        with open(f"{folder}/{name}", "wb") as file:
            file.write(text.encode() if isinstance(text, str) else text)


def judge_forms(folder):
    """The files of SARIF are those of the objects; the number of results, and the objects of WHOLE."""
    odd = "gr\u00f6\u00dfe a:b.ti"
    store(folder, {"all.ti": all_entries()[0].text(), odd: WHOLE, "right.ti": RIGHT, "bad.ti": "\tam,\n"})
    listed = [["all.ti"], [odd], ["right.ti"], ["right.ti", "bad.ti", "all.ti"], ["missing.ti", "right.ti"]]
    asked = [("survey", [*SIZE, *(f"{folder}/{path}" for path in paths)]) for paths in listed]
    asked += [("check", [f"{folder}/{odd}:{name}", *SIZE]) for name in ("right", "wrong", "lost", "nobody")]
    forms = (["--json", "--all"], ["--sarif"])
    told = run_cases(PROGRAM, [Case([command, *form, *words]) for command, words in asked for form in forms])
    count = 0
    for plain, sarif in zip(told[::2], told[1::2]):
        if plain.status != sarif.status or plain.err != sarif.err:
            fail(f"status {sarif.status}, {sarif.err}; not {plain.status}, {plain.err}")
        count += judge_file(sarif, objects(plain))
    return count, told[2].out.replace(json.dumps(odd)[1:-1].encode(), b"PATH")


# what is surveyed beside an earlier report on WHOLE: the text, and the entries and verdicts that are new
LATER = {
    "same": (WHOLE, set()),
    "moved": ("# a comment\n" + LOST + RIGHT + WRONG, set()),
    "more": (RIGHT + SPARSE + WRONG + LOST, {("sparse", "no")}),
    "fresh": (RIGHT.replace("right", "fresh") + WRONG, {("fresh", "yes")}),
}


def judge_baselines(folder, earlier):
    """An object that an earlier report has is left out, on whatever line it is, and only the rest counts for --fail."""
    cases = []
    for name, (text, _news) in LATER.items():
        # the earlier report, as one on the file that is surveyed now
        store(folder, {f"{name}.ti": text, f"{name}.json": earlier.replace(b"PATH", f"{name}.ti".encode())})
        words = ["--baseline", f"{folder}/{name}.json", *SIZE, f"{folder}/{name}.ti"]
        cases += [Case(["survey", "--json", "--all", "--fail", *words]), Case(["survey", "--sarif", *words])]
    base = ["--baseline", f"{folder}/more.json"]
    path = f"{folder}/more.ti"
    refused = [
        (["survey", *base, *SIZE, path], 2),
        (["survey", "--json", "--baseline", f"{folder}/none", *SIZE, path], 3),
        (["check", *base, f"{path}:wrong", *SIZE], 2),
        (["check", "--sarif", "--out", f"{folder}/x", f"{path}:wrong", *SIZE], 2),
    ]
    told = run_cases(PROGRAM, [*cases, *(Case(words) for words, _status in refused)])
    for (name, (_text, news)), plain, sarif in zip(LATER.items(), told[: len(cases) : 2], told[1 : len(cases) : 2]):
        found = objects(plain)
        if {(one["entry"], one["verdict"]) for one in found if one["verdict"] != "advice"} != news:
            fail(f"{name}: not what is new: {plain.out}")
        wrong = any(verdict == "no" for _entry, verdict in news)
        if plain.status != wrong or (b"refused: Faulty\n" in plain.err) != wrong or sarif.status:
            fail(f"{name}: status {plain.status}, {plain.err}")
        judge_file(sarif, found)
    for (words, status), got in zip(refused, told[len(cases) :]):
        if got.status != status or got.out:
            fail(f"{words}: status {got.status}, {got.out}")


def surveyed(words, data):
    return run_cases(PROGRAM, [Case(["survey", "--json", "--all", *words])], data)[0]


def judge_gone():
    """Findings of a baseline that a run hasn't are counted. A file has the same path with `./`, and an entry of another
    size is another one. A text that is no output of --json is no baseline."""
    whole, mended = WHOLE.encode(), (RIGHT + LOST).encode()
    earlier = surveyed([*SIZE, "a.ti"], {"a.ti": whole})
    gone = sum(one["verdict"] == "no" for one in objects(earlier))
    data = {"old.json": earlier.out, "a.ti": mended}
    for path in ("a.ti", "./a.ti"):
        told = surveyed(["--baseline", "old.json", *SIZE, path], data)
        if told.out or f"'old.json': {gone} finding is gone\n".encode() not in told.err or gone != 1:
            fail(f"{path}, a fault of which is mended: {told.out}, {told.err}")
    told = surveyed(["--baseline", "old.json", *SIZE, "a.ti"], {**data, "a.ti": whole})
    if told.out or b"gone" in told.err:
        fail(f"what it was before: {told.out}, {told.err}")
    told = surveyed(["--baseline", "old.json", str(ROWS + 1), str(COLS), "a.ti"], data)
    if {one["entry"] for one in objects(told)} != {"right", "lost"} or b"'old.json': 2 findings are gone\n" not in told.err:
        fail(f"at another size: {told.out}, {told.err}")
    for odd, line in ((b"{}\n", 1), (earlier.out + b"no object\n", len(objects(earlier)) + 1)):
        told = surveyed(["--baseline", "old.json", *SIZE, "a.ti"], {**data, "old.json": odd})
        words = f"file: old.json\n'old.json' is no output of --json: line {line} has no report\n"
        if told.status != 3 or told.out or told.err != words.encode():
            fail(f"no baseline: status {told.status}, {told.out}, {told.err}")


def main():
    judge_gone()
    with tempfile.TemporaryDirectory() as folder:
        count, earlier = judge_forms(folder)
        judge_baselines(folder, earlier)
    print(f"sarif: {count} results are those of the objects, and a baseline leaves out what it has")


main()
