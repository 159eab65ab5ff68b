"""Tests of the page with mouse events, for page.py: the way to a fault, the source pane, links, redo, the help, and that nothing moves."""
import json, os

from looks import EIGHTEEN

TOP = os.path.dirname(os.path.dirname(os.path.dirname(os.path.abspath(__file__))))
with open(f"{TOP}/examples/fault.f18") as it:
    FAULT = it.read()
MOST_MS, MOST_RUNS = 400, 12
MOST_MS_EACH, MOST_RUNS_EACH = 3000, 100

LAST_STEP = "[...document.querySelectorAll('#trace .step')].at(-1)"
NOW = "return [page.chosen, (document.querySelector('#source .picked') || { textContent: '' }).textContent, find('take').textContent]"


def step(k):
    return f"document.querySelector('#trace .step[data-k=\"{k}\"]')"


def link(text):
    return f"[...document.querySelectorAll('#log a')].filter(it => it.textContent === {json.dumps(text)}).at(-1)"


def button(name):
    return f"document.getElementById('{name}')"


def word(line, text, nth=0):
    """The nth word with this text on a line."""
    return f"[...document.querySelectorAll('#source .word')].filter(it => (it.dataset.key || '').startsWith('{line}:') && it.textContent === {json.dumps(text)})[{nth}]"


# After opening the file, the cause is three clicks away: 2* doubled the address. After pasting a program, four.
def to_the_cause(browser, ready, check):
    cause = [["000", 7], "2*", "take back 000 7: 12 events"]
    ready()
    clicks = [LAST_STEP, button("whence"), link("000 7")]
    for at in clicks:
        browser.click(at)
    check(browser.run(NOW) == cause and len(clicks) <= 4, f"the cause of fault.f18: {browser.run(NOW)} after {len(clicks)} clicks")
    note = browser.run("return find('chipnote').textContent")
    check(note == "as it would be: 12 events of 2 nodes gone, from 000 7, 001 5", f"what a rollback of the cause would remove: {note}")
    pasted = "\\ A program of one's own.\n" + FAULT.replace("001", "003").replace("000", "002").replace("200", "202")
    browser.run(f"const text = new DataTransfer(); text.setData('text', {json.dumps(pasted)}); document.body.dispatchEvent(new ClipboardEvent('paste', {{ clipboardData: text, bubbles: true }}))")
    clicks = [button("reach"), LAST_STEP, button("whence"), link("002 7")]
    for at in clicks:
        browser.click(at)
    check(browser.run(NOW) == [["002", 7], "2*", "take back 002 7: 12 events"] and len(clicks) <= 6, f"the cause of a pasted program: {browser.run(NOW)}")


# In the loop `dup dup drop` a word has a step in each round. Cell 0 has `dup dup drop .`, cell 1 `main ;`, so a round has seven steps.
def words(browser, ready, check):
    text = "node 000\n: main dup dup drop\nmain ; \\ dup\n"
    browser.run(f"page.open({json.dumps(text)}); page.command('run greedy 70')")
    seen = []
    for at in (word(2, "dup"), word(2, "dup"), word(2, "dup", 1), word(2, "drop"), word(3, "main"), word(2, ":")):
        browser.click(at)
        seen.append(browser.run("return [page.chosen[1], find('wordnote').textContent, page.session.event_at(page.chosen).label]"))
    return check, seen


def marks(browser, ready, check):
    """Each step marks its word, also if the same word occurs twice. A step that comes from no word marks none."""
    browser.run("page.open('node 000\\n: main dup dup drop\\n'); page.command('run greedy 6')")
    seen = []
    for k in range(1, 6):
        browser.click(step(k))
        seen.append(browser.run("const it = [...document.querySelectorAll('#source .picked')]; return it.map(it => it.dataset.key)"))
    check(seen == [["2:8"], ["2:8"], ["2:12"], ["2:16"], ["2:16"]], f"the words of steps: {seen}")


def image(browser, ready, check):
    """The source pane of an image has the listing of the same program by `list`; its slots are words."""
    image = browser.run(f"const it = page.core.assemble({json.dumps(FAULT)}).image; page.open(it); page.command('run 300 until stop'); return page.core.list({json.dumps(FAULT)})")
    wanted = [row.split(" \\ ")[0] for row in image.splitlines() if not row.endswith(":")]
    rows = browser.run("return [...document.querySelectorAll('#source .line')].map(it => it.textContent)")
    check(rows == wanted, f"the listing of an image: {rows} instead of {wanted}")
    browser.click("[...document.querySelectorAll('#source .word')].filter(it => it.dataset.key === '000 3 0')[0]")
    check(browser.run(NOW)[:2] == [["000", 7], "2*"], f"a slot of an image: {browser.run(NOW)}")


# Follows each link of the log, and compares what is chosen, selected or marked then with the link's text.
EACH_LINK = """
const wrong = [], links = [...document.querySelectorAll("#log a")];
for (const it of links) {
  const { step, node, line } = JSON.parse(it.dataset.go), text = it.textContent, before = page.session.text;
  page.forget(); page.draw();
  it.click();
  const row = document.querySelector("#source .marked, #source .picked"), marked = row && +row.closest(".line").querySelector(".number").textContent;
  const right = step ? text === step.join(" ") && page.chosen.join(" ") === text && page.selected === step[0] : node ? text === node && page.selected === node : marked === line && text.split(/[ :]/).includes(String(line));
  if (!right || page.session.text !== before) wrong.push([text, page.chosen, page.selected, marked]);
}
return [links.length, wrong];
"""


def links(browser, ready, check):
    ready()
    browser.run("page.command('why 000 7 001 10'); page.command('who'); page.command('effects 000 7'); page.command('words 000 001'); page.command('at 001 5 1'); page.command('because 001 10 5'); page.command('writes 001 00'); page.command('whence 001 10')")
    parts = browser.run("return [...document.querySelectorAll('#log a')].map(it => it.dataset.go)")
    wanted = {'{"step":["000",9]}', '{"step":["001",5]}', '{"node":"000"}', '{"node":"001"}', '{"line":6,"column":0}', '{"step":["000",7]}'}
    check(wanted <= set(parts), f"links: {parts}")
    browser.click(link("001"))
    check(browser.run("return [page.selected, page.chosen]") == ["001", None], "a link to a node")
    browser.click(link("000 9"))
    browser.click(link("000 9"))
    check(browser.run(NOW) == [["000", 9], "!b", "take back 000 9: 10 events"], f"a link to a step, twice: {browser.run(NOW)}")
    browser.click(link("000 main 6"))
    check(browser.run("return (document.querySelector('#source .marked') || {}).textContent") == "6: main right b! @b a! 7 !", "a link to a line")
    led = browser.run(EACH_LINK)
    check(led[0] > 30 and not led[1], f"links that lead elsewhere: {led}")
    # Numbers in the first line of an answer are no steps.
    heads = browser.run("""
const answers = { "kept 107 made 115 limit 1000000": { command: "count", kept: 107, made: 115, limit: 1000000 }, "removed 12 kept 103": { command: "rewind", removed: 12, kept: 103 }, "idle 117": { command: "who", idle: 117, deadlocked_idle: 0, rows: [{ node: "117", does: "reads", right: "116" }] },
  "chain 100": { command: "why", leads: true, rows: Array(100).fill({ node: "100", step: 1, what: "fetch" }) }, "made 101": { command: "run", events: 101, end: "made" }, "mem 001 10 000000": { command: "mem", node: "001", address: 16, word: 0 } };
return Object.entries(answers).map(([line, it]) => parts_named(line, names_of(it, 0, [line])).map(it => it.node || it.step || 0).filter(it => it))""")
    check(heads == [[], [], [], [], [], ["001"]], f"numbers that are no steps: {heads}")


def redo(browser, ready, check):
    """Rollback, redo, rollback: each gives the same chip. After another command, redo is disabled."""
    ready()
    dump = lambda: browser.run("return [page.session.answer_text('dump').join('\\n'), page.session.events.length, find('take').textContent, find('redo').disabled]")
    browser.click(step(5))
    seen = [dump()]
    for name in ("take", "redo", "take", "redo"):
        browser.click(button(name))
        seen.append(dump())
    check(seen[0] == seen[2] == seen[4] and seen[1] == seen[3], f"take back and redo: {[it[1:] for it in seen]}")
    check([it[1] for it in seen[:2]] == [175, 165] and seen[1][0] != seen[0][0] and not seen[1][3] and seen[2][3], f"a rollback: {[it[1:] for it in seen]}")
    # Two rollbacks are redone one after the other. A second click at the same place makes the rollback.
    browser.click(step(8))
    browser.click(step(8))
    browser.click(button("back"))
    counts = [dump()[1]]
    for _ in range(2):
        browser.click(button("redo"))
        counts.append(dump()[1])
    check(counts == [171, 172, 175] and dump()[0] == seen[0][0], f"two steps of redo: {counts}")
    browser.click(button("take"))
    browser.click(button("step"))
    check(dump()[3], "redo after another step")
    text = browser.run("return page.session.text")
    check(browser.run(f"const it = page.session.answer_text('dump').join(); page.open({json.dumps(text)}); return it === page.session.answer_text('dump').join()"), "a session's text after redo gives another chip")


def queries(browser, ready, check):
    """The query buttons show the answers of the core."""
    ready()
    browser.click(LAST_STEP)
    for name, line in (("whence", "whence 001 10"), ("because", "because 001 10 5"), ("who", "who"), ("effects", "effects 001 10")):
        browser.click(button(name))
        shown, wanted = browser.run(f"return [find('log').lastChild.textContent, '> {line}\\n' + page.session.answer_text('{line}').map(it => it + '\\n').join('')]")
        check(shown == wanted, f"the button {name}: {shown}")
    browser.click("document.querySelectorAll('#memory div')[2]")
    check(browser.run("return find('log').lastChild.textContent") == "> writes 001 02\n", "who wrote a cell")
    browser.click(button("races"))
    check(browser.run("return [...find('racing').children].map(it => it.textContent).join() === page.session.answer_text('races').slice(1).join()"), "the races by button")
    browser.click(button("races"))


def ends(browser, ready, check):
    """The button `check` shows each kind of end; its session is a link, and `redo` leads back."""
    with open(f"{TOP}/examples/first_come.f18") as it:
        browser.run(f"page.open({json.dumps(it.read())}); page.command('run 9')")
    browser.click(button("check"))
    shown, wanted, kinds = browser.run("const it = page.core.check(page.session.load, 100000, page.session.limit, 0); return [find('log').lastChild.textContent, '> check\\n' + it, it.match(/--session \\d+/g) || []]")
    check(shown == wanted and kinds, f"the button check: {shown} instead of {wanted}")
    for kind in kinds:
        browser.click(link(kind))
        made, asked = browser.run(f"return [page.session.answer_text('save'), page.core.check(page.session.load, 100000, page.session.limit, {kind.split()[1]}).trimEnd().split('\\n')]")
        check(made == asked and len(made) > 9, f"the link {kind}: {made} instead of {asked}")
    for _ in kinds:
        browser.click(button("redo"))
    check(browser.run("return page.session.events.length") == 9, "redo after the sessions of ends")


def helped(browser, ready, check):
    ready()
    browser.click(button("help"))
    result = browser.run("""
const answer = page.session.answer_text("help"), names = answer.filter(it => /^[a-z]/.test(it)).map(it => it.split(" ")[0]), rows = [...document.querySelectorAll("#helptext #commands ~ table tr")];
return [document.querySelectorAll("#helptext h3").length, names.join() === rows.map(it => it.querySelector("th").textContent.split(" ")[0]).join(), rows.every(it => it.children.length === 2 && it.children[1].textContent), names.length];""")
    check(result[0] >= 6 and result[1:3] == [True, True] and result[3] > 15, f"the help: {result}")
    browser.click("document.querySelector('#keys button')")


# The boxes of everything that must not move: the parts of the page, the buttons, the chip's cells with their text, and the rows by content.
PLACES = """
const boxes = {}, put = (key, it) => { const { left, top, width, height } = it.getBoundingClientRect(); boxes[key] = [left, top, width, height].join(); };
for (const it of document.querySelectorAll("header, header *, #bar, #bar button, #status, section, section h2, section h3, #chip, #time, #timebox, #node > div, #source, #memory, #trace, #log, #line")) put(`${it.tagName} ${it.id} ${[...it.parentNode.children].indexOf(it)} ${it.closest("section, header, #bar").id}`, it);
for (const n of NAMES) { put("cell " + n, find("n" + n)); const name = find("n" + n).querySelector(".name"); if (name) put("name " + n, name); }
for (const it of document.querySelectorAll("#source .line")) put("line " + it.textContent, it);
for (const it of document.querySelectorAll("#log div")) put("answer " + [...it.parentNode.children].indexOf(it), it);
for (const it of document.querySelectorAll("#trace .step")) { const text = `${page.selected} ${it.dataset.k}`; put("step " + text, it); put("deed " + text, it.querySelector(".deed")); }
for (const [i, it] of [...document.querySelectorAll("#memory div")].entries()) put(`memory ${page.selected} ${i}`, it);
return [boxes, page.chosen, page.selected];
"""


def stays(browser, ready, check, width, height):
    """A click that chooses a step or a node moves no remaining element, not by a pixel."""
    browser.size(width, height)
    ready()
    # The script scrolls to an element before it takes the boxes, so that the click needs no scrolling.
    before, _, _ = browser.run(PLACES)
    moves, chosen = [], []
    clicks = [step(5), step(7), step(10), "find('n000')", step(3), step(11), "find('n200')", "find('n305')", "find('n000')", word(6, "@b"), word(4, "2*")]
    for at in clicks:
        top = browser.run(f"{at}.scrollIntoViewIfNeeded(); return window.scrollY")
        before, _, _ = browser.run(PLACES)
        browser.click(at)
        after, step_now, node = browser.run(PLACES)
        chosen.append((step_now, node))
        moves += [(at, it, before[it], after[it]) for it in before if it in after and before[it] != after[it]]
        if browser.run("return window.scrollY") != top:
            moves.append((at, "the page", top))
    check(not moves, f"elements that move at width {width}: {len(moves)}, {moves[:4]}")
    steps = [["001", 5], ["001", 7], ["001", 10], ["001", 10], ["000", 3], ["000", 11], ["000", 11], ["000", 11], ["000", 11], ["001", 4], ["000", 7]]
    check([it for it, _ in chosen] == steps, f"the chosen steps and nodes at width {width}: {chosen}")
    browser.size(1280, 720)


def many_events(browser, check):
    """With 10^5 events, a click that chooses a step, a node or a word is fast, and the row doesn't move. Each click has a bound, and the fastest of
    three tries a lower one. The bounds are larger if a run of the session takes long, since the machine may be loaded. Returns the milliseconds of
    each click with what was clicked, and the slowest of the fastest."""
    browser.run(f"page.open({json.dumps(EIGHTEEN)}); page.command('run 100000')")
    clicks = ["find('n007')", "find('n000')", step(6930), step(6928), word(3, "dup"), word(3, "dup"), step(6), step(12)]
    durations, run, each = [[] for _ in clicks], [], []
    for _ in range(3):
        browser.run("page.forget(); page.session.places.forget(); page.draw()")
        run.append(browser.run("const then = performance.now(); page.core.answer(page.session.text, 1000000); return performance.now() - then"))
        for at, times in zip(clicks, durations):
            before = browser.run(PLACES)[0]
            times.append(browser.click(at))
            each.append((times[-1], at))
            after = browser.run(PLACES)[0]
            moved = [it for it in before if it in after and before[it] != after[it]] if "#trace" in at else []
            check(not moved, f"elements that move at 10^5 events: {moved[:4]}")
    check(browser.run("return page.chosen") == ["000", 12], f"the chosen step of many: {browser.run('return page.chosen')}")
    each += buttons_of_many(browser, check)
    fastest = [min(it) for it in durations]
    check(max(fastest) < max(MOST_MS, MOST_RUNS * min(run)), f"clicks at 10^5 events: {[round(it) for it in fastest]} ms, where a run takes {min(run):.0f}")
    check(max(each)[0] < max(MOST_MS_EACH, MOST_RUNS_EACH * min(run)), f"the slowest clicks at 10^5 events: {sorted(each)[-4:]} ms, where a run takes {min(run):.0f}")
    return sorted(each), max(fastest)


def buttons_of_many(browser, check):
    """The buttons and links at 10^5 events, and a word that is tapped: without a mouse over it before, after the history changed. The step that
    is chosen is removed, made again, and removed once more."""
    counts, each = [], []
    for name in ("whence", "because", "effects", "who", "take", "redo", "take", "redo", "back", "redo", "step", "round", "fit", "in", "out", "earlier", "later", "theme", "theme"):
        each.append((browser.click(button(name)), name))
        counts.append(browser.run("return page.session.events.length"))
        if name == "whence":
            each.append((browser.click("[...document.querySelectorAll('#log a')].at(-1)"), "a link"))
            browser.run("page.show(['000', 12])")
    made, left = counts[3], counts[4]
    check(left < made and counts[4:12] == [left, made, left, made, made - 1, made, made + 1, counts[11]] and counts[11] > made + 9, f"events after take back, redo and others of many: {counts}")
    tap = "const then = performance.now(); {}.click(); await new Promise(requestAnimationFrame); return performance.now() - then"
    each.append((browser.run(tap.format(word(3, "dup"))), "a word, tapped"))
    check(browser.run("return find('wordnote').textContent").startswith("dup: "), "a word that is tapped")
    return each


def run_all(browser, ready, check):
    for it in (to_the_cause, marks, image, links, redo, queries, ends, helped):
        it(browser, ready, check)
    _, seen = words(browser, ready, check)
    wanted = [[2, "dup: 1 of 10 steps", "dup"], [9, "dup: 2 of 10 steps", "dup"], [3, "dup: 1 of 10 steps", "dup"], [4, "drop: 1 of 10 steps", "drop"], [7, "main: 1 of 10 steps", "jump"], [7, ":: no step", "jump"]]
    check(seen == wanted, f"the steps of words: {seen}")
    for width, height in ((1280, 720), (1700, 1000), (390, 844)):
        stays(browser, ready, check, width, height)
    return many_events(browser, check)
