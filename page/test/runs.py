"""Tests of the page's queries, for page.py: runs until a condition, waits, effects of a rollback, words of a link, races."""
import json, os

TOP = os.path.dirname(os.path.dirname(os.path.dirname(os.path.abspath(__file__))))
with open(f"{TOP}/examples/first_come.f18") as it:
    FIRST_COME = json.dumps(it.read())
with open(f"{TOP}/examples/explore/expectations_of_a_program") as it:
    EXPECTED = json.dumps(it.read().split("end\n")[0] + "end\n")
with open(f"{TOP}/examples/debug/programs/fault") as it:
    FAULT = json.dumps(it.read().split("end\n")[0] + "end\n")

# Functions of the tests: the answer after the last `>` of the log, a key press, and the answer of the core to a line. The tests begin with the
# order `rounds`.
USED = """
find("order").value = "rounds"; find("order").onchange();
const logged = () => find("log").textContent.split("> ").pop().split("\\n").slice(1, -1);
const press = (key, at = document.body) => at.dispatchEvent(new KeyboardEvent("keydown", { key, bubbles: true }));
const query = line => { const before = page.session.load + page.session.commands, it = page.core.answer(before + line + "\\n", 1000000); return it.slice(page.core.answer(before, 1000000).length).split("\\n").slice(0, -1); };
"""


def until_stop(browser, check):
    result = browser.run(USED + """
page.open(%s);
press("u"); const there = document.activeElement.id;
find("until").value = "stop"; press("Enter", find("until"));
const reached = logged(), free = document.activeElement === document.body, events = page.session.events.map(it => it.text), rows = page.core.answer(page.session.script, 1000000).split("\\n").slice(1, -1);
const saved = query("save"), script = page.session.script, commands = page.session.commands;
find("who").click(); const who = logged(), who_asked = query("who");
press("h"); const again = logged();
page.choose(["000", 7]); page.select("001"); page.select("000"); const note = find("chipnote").textContent, ready = !find("effects").disabled;
find("effects").click(); const effects = logged(), effects_asked = query("effects 000 7");
press("f"); const effects_again = logged();
page.forget(); page.choose(["001", 5]); find("words").click(); const words = logged();
page.forget(); page.select("000"); page.select("001"); press("y"); const words_again = logged();
page.forget(); page.choose(["000", 7]); press("t"); const taken = logged(), left = page.session.events.length, kept = query("count")[0];
const text = page.session.text; page.open(text); const reopened = page.session.events.length;
return { there, reached, free, last: events[events.length - 1], alike: JSON.stringify(events) === JSON.stringify(rows), saved: script.endsWith("end\\n" + saved.join("\\n") + "\\n"),
    commands, who, who_asked, again, note, ready, effects, effects_asked, effects_again, words, words_again, taken, left, kept, events: events.length, reopened };
""" % FAULT)
    wanted = {
        "there": "until", "free": True, "reached": ["reached 175 001 10 stop 2"], "last": "001 10 stop 2", "events": 175, "alike": True, "saved": True,
        "commands": "run 100000 until stop\n", "ready": True, "note": "as it would be: 12 events of 2 nodes gone, from 000 7, 001 5",
        "words": ["words 000 001 1", "1 000 9 001 5 000150"], "taken": ["removed 12 kept 163"], "left": 163, "reopened": 163,
    }
    check({it: result[it] for it in wanted} == wanted, f"run until stop: {result}")
    check(result["kept"].startswith("kept 163 made 175 ") and result["words"] == result["words_again"], f"run until stop, then: {result}")
    check(result["effects"] == result["effects_asked"] == result["effects_again"] and result["effects"][0] == "effects 12 2", f"effects: {result['effects']}")
    check(result["who"] == result["who_asked"] == result["again"] and "000 reads r 001 stopped" in result["who"], f"who: {result['who']}")


def expectations(browser, check):
    result = browser.run(USED + """
page.open(%s);
const marked = () => ["held", "broken", "pending"].map(state => [...find("source").querySelectorAll(".line." + state)].map(it => `line ${it.querySelector(".number").textContent}: ${it.title}`));
const states = ["back until broken", "run until broken", "run", "back"].map(line => { page.command(line); return [marked(), query("expectations")]; });
page.open("node 000\\n: main 1 ;\\n"); const none = [marked(), query("expectations")];
return { states, none };
""" % EXPECTED)
    for marked, asked in result["states"]:
        wanted = [[it for it in asked if f": {state}" in it] for state in ("held", "broken", "pending")]
        check(marked == wanted and len(asked) == 10, f"expectations: {marked} instead of {wanted}")
    check(result["states"][1][0][1] == ["line 8: pass 000 001 = 1 2 3: broken, word 2 is 000005"], f"broken: {result['states'][1]}")
    check(result["none"] == [[[], [], []], ["none"]], f"no expectations: {result['none']}")


def orders(browser, check):
    result = browser.run(USED + """
page.open(%s);
find("most").value = "60"; press("m"); const first = logged();
press("v"); find("run").click(); const second = logged();
press("v"); const seed = !find("seed").hidden; find("seed").value = "7"; press("Enter", find("seed")); const third = logged();
press("v"); const back = find("order").value, none = find("seed").hidden;
page.command("run 5 until foo"); const refused = logged(), commands = page.session.commands, count = page.seen.count.split(" ")[1] == page.session.events.length;
page.open("ga144 1\\nend\\n"); page.command("run"); const quiet = logged();
return { first, second, third, seed, back, none, refused, quiet, commands, count };
""" % FAULT)
    wanted = {
        "first": ["made 60"], "second": ["made 60"], "third": ["made 60"], "seed": True, "back": "rounds", "none": True, "refused": ["no 31 syntax: run [greedy|random SEED] [N] [until COND]"], "quiet": ["quiet 144"],
        "commands": "run 60\nrun greedy 60\nrun random 7 60\n", "count": True,
    }
    check({it: result[it] for it in wanted} == wanted, f"orders: {result}")


def whence(browser, check):
    """The button is visible if the core has the command, and shows its answer unchanged."""
    result = browser.run(USED + """
page.open(%s); const [reached] = page.command("run greedy until stop"); page.choose(["001", 10]);
const answer = query("whence 001 10"), before = logged(); press("q");
return { reached, answer, before, now: logged(), hidden: find("whence").hidden };
""" % FAULT)
    check(result["reached"] == "reached 18 001 10 stop 2", f"a greedy run: {result['reached']}")
    unknown = result["answer"][0].startswith("no 31 ")
    check(result["hidden"] == unknown and result["now"] == (result["before"] if unknown else result["answer"]), f"whence: {result}")


def rebuilt(browser, check):
    """A change that the page knows leaves the same history as the way for any other: the events of `save` after it."""
    for line in ("rewind 000 7", "rewind 000 99", "back until wait 000", "back until p 000 0003ff", "back 001 until wait 001", "run greedy 9", "run 0", "rewind 000 1"):
        both = browser.run("""
page.open(%s); page.command("run until stop");
const { session } = page, before = session.now();
const now = ({ answer }) => JSON.stringify([answer, session.commands, session.events.map(it => [it.text, it.place, it.one, it.other]), session.answer_text("dump")]);
const known = now(session.change(%s)); session.restore(before);
return [known, now(session.rebuild(%s))];
""" % (FAULT, json.dumps(line), json.dumps(line)))
        check(both[0] == both[1], f"{line}, known and rebuilt: {both}")


def ends(browser, check):
    """The ends of a program; the session of a kind by a click, and back by `redo`."""
    path = f"{TOP}/examples/check/status-5/a_key_for_who_asked_second"
    with open(path) as typed, open(f"{path}.stdout") as wanted:
        text, lines = typed.read(), wanted.read().split("\n")[:-1]
    result = browser.run(USED + """
page.open(%s); page.command("run 3");
find("check").click(); const told = logged(), links = [...find("log").querySelectorAll("a")].filter(it => it.textContent.startsWith("--session"));
links[0].click(); const made = page.session.events.length, asked = page.core.check(page.session.load, 100000, page.session.limit, 1).split("\\n").slice(0, -1), saved = query("save"), who = query("who");
press("g"); const again = page.session.events.length;
return { told, links: links.length, made, alike: JSON.stringify(asked) === JSON.stringify(saved), stuck: who.some(it => it.startsWith("stuck ")), again };
""" % json.dumps(text))
    check(result["told"] == lines and result["links"] == sum("--session" in it for it in lines), f"check: {result}")
    check(result["made"] > 3 and result["alike"] and result["stuck"] and result["again"] == 3, f"the session of a kind of end: {result}")


def races(browser, check):
    """101 takes a word from 100 or from 102, whichever comes first. The page shows the alternative, and then makes it. A step without an
    alternative has no mark."""
    result = browser.run(USED + """
page.open(%s); page.command("run 300"); const before = find("racing").hidden, none = page.races.length;
press("z"); const lines = query("races").slice(1), rows = [...find("racing").children].map(it => it.textContent), marks = page.picture.turns.map(it => it[2].text);
const [x, y] = page.picture.turns[0], box = find("time").getBoundingClientRect(), at = { clientX: box.left + x, clientY: box.top + y, bubbles: true };
const click = () => { for (const kind of ["pointerdown", "pointerup"]) find("time").dispatchEvent(new PointerEvent(kind, at)); };
click(); const chip = JSON.stringify(page.then), goes = page.goes, note = find("chipnote").textContent, button = find("take").textContent, events = page.session.events.length;
find("racing").firstChild.click(); const log = find("log").textContent.split("\\n").slice(-5, -1), made = JSON.stringify(page.seen.nodes) === chip, left = page.session.events.length;
const other = page.races.map(it => it.text); page.choose(["101", 5]); const chosen = page.chosen; page.turn(page.races[0]); page.choose(["101", 5]); const again = page.race === null && page.session.events.length === left;
press("z"); const after = [find("racing").hidden, page.picture.turns.length];
return { before, none, lines, rows, marks, goes, note, button, events, log, made, left, other, chosen, again, after };
""" % FIRST_COME)
    line, other = "101 5 takes 000005 from 100, or 000007 from 102: rewind 101 5, step 102", "101 5 takes 000007 from 102, or 000005 from 100: rewind 101 5, step 100"
    wanted = {
        "before": True, "none": 0, "lines": [line], "rows": [line], "marks": [line], "button": "or 000007 from 102", "made": True, "other": [other], "chosen": ["101", 5], "again": True, "after": [True, 0],
        "log": ["> rewind 101 5", f"removed {result['goes']} kept {result['events'] - result['goes']}", "> step 102", "pass 102 8 101 5 000007"],
    }
    check({it: result[it] for it in wanted} == wanted, f"races: {result}")
    check(result["left"] == result["events"] - result["goes"] + 1 and result["note"].endswith(", then pass 102 8 101 5 000007"), f"a race: {result}")
