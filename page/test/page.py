#!/usr/bin/env python3
"""Tests page/out/ga144.html in a headless browser: page.py [SHOTS]. With SHOTS, a folder, it also takes screenshots and measures times.

1. The page's core answers the sessions of examples/debug/ and examples/explore/ and generated ones as expected, with the objects of the
   program if there is one, and assembles and lists generated sources like the reference model in model/, byte for byte. Each command of
   examples/explore/ that is typed has the answer of the core.
2. Random clicks. A rollback must remove the events that the page announces, the chip must be that of the preview, and the causes those of
   `why`. At the end, the session's text must give the same chip again: in the page, and in the program if `rt ci` built one.
3. Runs in each order and until a condition, waits, effects of a rollback, words of a link, and the alternative of a race: each answer is that
   of the core (runs.py).
4. Mouse events: the way to a fault in few clicks, words and steps, links, redo, and rows that don't move (mouse.py).
5. Source lines worked out by hand, keys, the session in the address, refused texts and addresses, ends of lines, and small heaps: after
   `no 4 memory` the session continues.
"""
import base64, json, os, random, re, subprocess, sys, tempfile, time, zlib

sys.dont_write_bytecode = True
TOP = os.path.dirname(os.path.dirname(os.path.dirname(os.path.abspath(__file__))))
sys.path.insert(0, f"{TOP}/model")
from browser import Browser
from explore import CHANGE, CLASSES
from runs import ends, expectations, orders, races, rebuilt, until_stop, whence
from listing import listed
from looks import commands, from_afar, shots, shown, times
import mouse
from source import asm
from sources import Generator, changed

PAGE = f"file://{TOP}/page/out/ga144.html"
PROGRAM = os.environ.get("PROGRAM", f"{TOP}/crates/ga144/out/ga144")
SESSIONS, SOURCES, CLICKS, WHYS = 80, 150, 30, 12
LOOP = "ga144 1\nnode 000\np 000000\nram 00 010000\nend\n"
faults = []


def check(holds, what):
    if not holds:
        faults.append(what)
        print(f"page: {what[:600]}", file=sys.stderr)


def ready(browser, address):
    browser.open("about:blank")
    browser.open(address)
    until = time.time() + 20
    while browser.run("return document.title") != "GA144: ready":
        if time.time() > until:
            sys.exit("page: not ready in time: " + str(browser.run("return document.getElementById('status').textContent")))
        time.sleep(0.02)


def cases(room):
    subprocess.run([sys.executable, "-B", f"{TOP}/model/sessions.py", "--write", room, "0", str(SESSIONS)], check=True, stdout=subprocess.DEVNULL)
    # each with the default limit of its command
    limits = {f"{TOP}/examples/debug/programs": 1000000, f"{TOP}/examples/debug": 1000000, f"{TOP}/examples/explore": 20000000, room: 1000000}
    for folder, limit in limits.items():
        for name in sorted(os.listdir(folder)):
            if name.endswith(".stdout"):
                with open(f"{folder}/{name}", "rb") as wanted, open(f"{folder}/{name[:-7]}", "rb") as asked:
                    yield name[:-7], asked.read().decode("latin1"), wanted.read().decode("latin1"), limit, folder.endswith("/explore")


def bytes_of(text):
    return f"Uint8Array.from({json.dumps(text)}, it => it.charCodeAt(0))"


# Opens a session in the page: its chip must be that of the whole session, and each drawn event must be in the history.
OPENED = """
const text = %s, whole = page.core.answer(text.replace(/^quit(\\n|$)/m, "\\0").split("\\0")[0].replace(/\\n?$/, "\\n") + "dump\\n", 1000000);
if (!page.open(text)) return "refused";
const traced = new Set();
for (const n of NAMES) for (const line of page.session.answer_text("trace " + n).slice(1)) traced.add(line);
const kept = page.core.kept(page.session.load + page.session.commands, 1000000) || [];
if (Array.from(kept, n => "step " + NAMES[n]).join() !== saved(page.session.events).join()) return "other events";
return [whole.endsWith("\\n" + page.session.answer_text("dump").join("\\n") + "\\n"), traced.size === page.session.events.length && page.session.events.every(it => traced.has(it.text))];
"""


# Types the commands of a session: each answer in the log must be that of `explore` to the commands kept before it and this line.
TYPED = """
const { load, commands } = parted(%s), wrong = [];
if (!page.open(load)) return wrong;
for (const line of commands.filter(it => it !== "redo" && it !== "check" && it !== "help")) {
  if (line === "quit") break;
  const before = page.session.load + page.session.commands, after = page.core.answer(before + line + "\\n", 1000000).slice(page.core.answer(before, 1000000).length);
  const answer = page.command(line).map(it => it + "\\n").join(""), rows = answer.split("\\n").length - 1;
  const logged = find("log").lastChild.textContent, wanted = `> ${line}\\n` + (rows > 200 ? answer.split("\\n").slice(0, 200).join("\\n") + `\\n.. and ${rows - 200} more lines\\n` : answer);
  if (answer !== after || logged !== wanted) wrong.push([line, answer, after, logged]);
}
return wrong;
"""


def conformance(browser):
    count = 0
    with tempfile.TemporaryDirectory() as room:
        for name, typed, wanted, limit, explored in cases(room):
            # The page answers as `explore`, to the byte. Refusals of `debug` have no reason.
            output = browser.run(f"return page.core.answer({bytes_of(typed)}, {limit})")
            check(wanted == (output if explored else re.sub(r"^(no \d+ [a-z]+): .*$", r"\1", output, flags=re.M)), f"{name}: other answers")
            if os.path.exists(PROGRAM):
                ran = subprocess.run([PROGRAM, "explore", "--json", "--limit", str(limit)], input=typed.encode("latin1"), capture_output=True).stdout
                check(browser.run(f"return page.core.lines({bytes_of(typed)}, {limit})") == ran.decode(), f"{name}: other objects")
            if explored and wanted.startswith("ready\n"):
                wrong = browser.run(TYPED % json.dumps(typed))
                check(not wrong, f"{name}: typed commands with other answers: {wrong[:1]}")
            if wanted.startswith("ready\n") and "no 4 memory" not in wanted:
                opened = browser.run(OPENED % json.dumps(typed))
                check(opened == [True, True], f"{name}: opened with another chip or history: {opened}")
            count += 1
    check(count >= 120, f"only {count} sessions")
    return count


def sources(browser):
    texts = [read for seed in range(SOURCES) for read in (Generator(seed).source(), changed(seed))]
    for name in sorted(os.listdir(f"{TOP}/examples")):
        if name.endswith(".f18"):
            with open(f"{TOP}/examples/{name}", encoding="latin1") as it:
                texts.append(it.read())
    for at, text in enumerate(texts):
        image, messages, _ = asm(text)
        got = browser.run(f"const it = {bytes_of(text)}, made = page.core.assemble(it); return [made.image, made.told, page.core.list(it)]")
        check(got == [image, messages, listed(text)[0]], f"source {at}: {got} instead of {[image, messages]}")
    return len(texts)


CHOOSE = """
const it = page.session.events[%d], step = it.ends[%d %% it.ends.length], marks = Array.from(page.session.marks(step));
page.forget();
page.choose(step);
const stay = page.session.events.filter(e => marks[e.place] !== 2).map(e => e.text), goes = page.goes, others = %s;
const asked = others.map(at => page.session.events[at].ends[0]), why = page.session.ask(asked.map(([n, k]) => `why ${n} ${k} ${step[0]} ${step[1]}`)).map(it => it.leads);
const causes = others.every((at, i) => marks[at] === 2 ? at === it.place || !why[i] : (marks[at] === 1) === why[i]);
const any = (n, mark) => page.session.events.some(e => marks[e.place] === mark && e.ends.some(([m]) => m === n)), has = (it, kind) => it.classList.contains(kind);
const colours = NAMES.every(n => has(find("n" + n), "goes") === any(n, 2) && has(find("n" + n), "past") === (!any(n, 2) && any(n, 1)))
    && [...document.querySelectorAll("#trace .step")].every(it => has(it, "goes") === (it.textContent[0] === "×") && has(it, "past") === (it.textContent[0] === "◆"));
const said = page.said, nodes = JSON.stringify(page.then), button = document.getElementById('take').textContent, { rows } = page.takes;
const firsts = Object.fromEntries(rows.map(it => [it.node, it.first_step])), effects = page.takes.events === goes && page.takes.nodes === rows.length && page.session.events.every(e => e.ends.every(([n, k]) => (k >= firsts[n]) === (marks[e.place] === 2)));
if (!%s) return { goes, said, button, causes, effects, colours };
document.getElementById('take').click();
const left = page.session.events.map(e => e.text), traced = new Set();
for (const n of NAMES) for (const line of page.session.answer_text('trace ' + n).slice(1)) traced.add(line);
return { goes, said, button, causes, effects, colours, same: JSON.stringify(stay) === JSON.stringify(left), traced: traced.size === new Set(left).size && left.every(e => traced.has(e)),
    chip: JSON.stringify(page.seen.nodes) === nodes && JSON.stringify(page.session.ask(NODES).map(node_of)) === nodes, logged: document.getElementById('log').textContent };
"""


def choose(browser, name, dice, events, take):
    others = [dice.randrange(events) for _ in range(WHYS)]
    outcome = browser.run(CHOOSE % (dice.randrange(events), dice.randrange(2), json.dumps(others), json.dumps(take)))
    check(outcome["said"].startswith(f"removed {outcome['goes']} kept ") and outcome["button"].endswith(f": {outcome['goes']} event{'s' * (outcome['goes'] != 1)}"), f"{name}: {outcome}")
    check(outcome["causes"], f"{name}: other causes than those of why: {outcome}")
    check(outcome["colours"], f"{name}: wrong colours of causes or removed events: {outcome}")
    check(outcome["effects"], f"{name}: effects has other removed events: {outcome}")
    if take:
        check(outcome["same"] and outcome["traced"] and outcome["chip"] and outcome["logged"].endswith(outcome["said"] + "\n"), f"{name}: another result of the rollback: {outcome}")


def clicks(browser, name, dice):
    browser.run(f"const it = document.getElementById('examples'); it.value = {json.dumps(name)}; it.onchange()")
    taken = 0
    for _ in range(CLICKS):
        what = dice.choices(["step", "round", "run", "until", "choose", "take", "back", "behind"], [5, 2, 2, 1, 3, 4, 1, 1])[0]
        events = browser.run("return page.session.events.length")
        if what == "step":
            browser.run(f"document.getElementById('n{dice.randrange(8)}{dice.randrange(18):02d}').click(); document.getElementById('step').click()")
        elif what in ("run", "until"):
            order, until = dice.choice(("rounds", "greedy", "random")), dice.choice(("stop", "wait 000", "p 001 000002", f"step 000 {dice.randrange(1, 60)}"))
            browser.run(f"find('order').value = '{order}'; find('seed').value = '{dice.randrange(9)}'; find('most').value = {dice.randrange(1, 90)}; find('until').value = '{until}'; "
                        + ("find('run').click()" if what == "run" else "page.run(`90 until ${find('until').value}`)"))
        elif what == "behind":
            browser.run(f"page.command('back {dice.choice(('', '000 ', '001 '))}until {dice.choice(('wait 001', 'stop or wait 000', f'step 000 {dice.randrange(1, 60)}'))}')")
        elif what in ("round", "back"):
            browser.run(f"document.getElementById('{what}').click()")
        elif events:
            taken += what == "take"
            choose(browser, name, dice, events, what == "take")
        count = browser.run("return [page.session.events.length, page.seen.count, page.session.ask(NAMES.map(n => 'trace ' + n)).every(it => (page.session.steps[it.node] || 0) === it.rows.length), "
                            "JSON.stringify([page.seen.nodes, page.seen.cells]) === JSON.stringify([page.session.ask(NODES).map(node_of), page.session.ask(cells_of(page.selected)).map(it => it.word)])]")
        check(count[1].startswith(f"kept {count[0]} made ") and count[2], f"{name}: the page draws {count[0]} events, the session has {count[1]}")
        check(count[3], f"{name}: the page draws other nodes or cells than the session has")
    text, commands, script, objects, dump = browser.run("return [page.session.text, page.session.image + page.session.commands, page.session.script, page.session.said, page.session.answer_text('dump').join('\\n') + '\\n']")
    dumped = json.dumps({"command": "dump", "text": dump}, separators=(",", ":")) + "\n"
    check(browser.run(f"return page.core.lines({json.dumps(commands + 'dump' + chr(10))}, 1000000)") == objects + dumped, f"{name}: the session's commands give other objects or another chip")
    said = browser.run(f"return page.core.answer({json.dumps(commands)}, 1000000)")
    check(browser.run(f"return page.core.answer({json.dumps(commands + 'dump' + chr(10))}, 1000000)") == said + dump, f"{name}: the session's commands give another chip")
    check(browser.run(f"page.open({json.dumps(text)}); return page.session.answer_text('dump').join('\\n') + '\\n'") == dump, f"{name}: the session's text gives another chip")
    check(browser.run(f"return page.core.answer({json.dumps(script + 'dump' + chr(10))}, 1000000)").endswith("\n" + dump), f"{name}: the session's script for debug gives another chip")
    if os.path.exists(PROGRAM):
        for mode, asked in (("explore", commands), ("debug", script)):
            ran = subprocess.run([PROGRAM, mode], input=(asked + "dump\n").encode(), capture_output=True).stdout.decode()
            check(ran == said + dump if mode == "explore" else ran.endswith("\n" + dump), f"{name}: the program's {mode} has other answers")
        ran = subprocess.run([PROGRAM, "explore", "--json"], input=(commands + "dump\n").encode(), capture_output=True).stdout.decode()
        check(ran == objects + dumped, f"{name}: the program's explore has other objects")
    return taken


# `@p dup + .` is in cell 0 and its literal in cell 1, so step 6 fetches cell 2, which comes from no source.
def source_lines(browser):
    result = browser.run("""
page.open("node 000\\n: main 3 dup +\\n");
for (let i = 0; i < 6; i++) page.command("step 000");
const rows = [...document.querySelectorAll("#trace .step .source")].map(it => it.textContent);
page.forget(); page.open("node 000\\n: main 3 dup +\\n");
return { rows, here: find("node").querySelector(".source").textContent, text: page.session.text };""")
    check(result == {"rows": ["2 3", "2 3", "2 dup", "2 +", "2 +", ""], "here": "main : main 3 dup +", "text": "node 000\n: main 3 dup +\nend\n"}, f"source lines: {result}")
    result = browser.run("""
const opened = page.open("node 000\\n: main foo\\n"), box = find("text");
return [opened, find("log").textContent, box.value.slice(box.selectionStart, box.selectionEnd), page.session.text];""")
    check(result[:3] == [False, "> source\nga144: line 2: what is foo\n", ": main foo"] and result[3].startswith("node 000\n: main 3"), f"a refused source: {result}")
    # Eight steps a round: a fetch and four opcodes of cell 0, a fetch and two opcodes of cell 1; each with the word's column.
    result = browser.run("""
page.open("node 000\\n: main dup dup dup dup drop main ;\\n"); page.command("run greedy 400"); page.choose(["000", 150]);
return [...document.querySelectorAll("#trace .step")].map(it => [+it.dataset.k, page.session.places.row("000", +it.dataset.k)]).map(([k, it]) => [k, it.place.cell, it.key, it.place.label]);""")
    turn = [[0, "2:8"], [0, "2:8"], [0, "2:12"], [0, "2:16"], [0, "2:20"], [1, "2:24"], [1, "2:24"], [1, "2:29"]]
    check(len(result) > 9 and all(row == [row[0], *turn[(row[0] - 1) % 8], "main"] for row in result), f"source lines of a loop: {result}")
    result = browser.run("page.open('ga144 1\\nnode 000\\np 000000\\nend\\nstep 000\\nquit\\nstep 000\\n'); return page.session.events.map(it => it.text)")
    check(result == ["000 1 fetch"], f"after quit: {result}")
    browser.run("document.activeElement.blur(); find('examples').value = 'first.f18'; find('examples').onchange()")


def keys(browser):
    result = browser.run("""
const press = key => document.body.dispatchEvent(new KeyboardEvent("keydown", { key, bubbles: true })), counts = [], count = () => counts.push(page.session.events.length);
page.open("node 000\\n: main right b! 42 !b\\nnode 001\\n: main right b! @b\\n");
press("s"); count(); press("r"); count(); press("b"); count();
for (let i = 0; i < 30; i++) press("r");
const pass = page.session.events.find(it => it.pass), [writer, reader] = pass.ends;
press("Home"); const first = page.chosen; press("."); const second = page.chosen; press(","); const third = page.chosen; press("End"); press("Escape"); const none = page.chosen;
page.choose(writer); press("p"); const across = page.chosen; count(); press("t"); count(); const kept = page.session.events.some(it => it.pass);
press("ArrowRight"); const beside = page.selected; press("ArrowUp"); const above = page.selected;
press("n"); find("most").value = 143; find("most").dispatchEvent(new KeyboardEvent("keydown", { key: "Enter", bubbles: true })); count();
find("examples").focus(); const there = document.activeElement.id; find("examples").onchange(); const free = document.activeElement === document.body;
const wide = page.picture.wide; press("+"); const near = page.picture.wide; press("0");
return { counts, first, second, third, none, across, reader, beside, above, zoomed: near < wide, kept, there, free };""")
    counts = result.pop("counts")
    check(counts[:3] == [1, 3, 2] and counts[4] < counts[3] and counts[5] == counts[4] + 143, f"keys: {counts}")
    wanted = {"first": ["000", 1], "second": ["000", 2], "third": ["000", 1], "none": None, "across": result["reader"], "beside": "002", "above": "102", "zoomed": True, "kept": False, "there": "examples", "free": True}
    check({it: result[it] for it in wanted} == wanted, f"keys: {result}")


def address(browser):
    for example, packed in (("transfer", False), ("pipeline.f18", True)):
        browser.run(f"find('examples').value = '{example}'; find('examples').onchange(); page.session.obey(Array({250 * packed}).fill('back')); page.after(); find('link').click()")
        until = time.time() + 5
        while "the address holds" not in browser.run("return find('log').textContent") and time.time() < until:
            time.sleep(0.02)
        before = browser.run("return [location.hash, page.session.text, page.session.events.map(it => it.text)]")
        check(before[0].startswith("#z,") == packed and len(before[0]) > 3, f"an address: {before[0]}")
        ready(browser, PAGE + before[0])
        check(browser.run("return [location.hash, page.session.text, page.session.events.map(it => it.text)]") == before, "the address holds another session")


def packed(text):
    packer = zlib.compressobj(9, wbits=-15)
    return "#z," + base64.urlsafe_b64encode(packer.compress(text) + packer.flush()).decode().rstrip("=")


# The errors of long texts, and of addresses without a session, appear soon; after a wrong address the page shows the example.
def refusals(browser):
    for head, lines, why in (("", 500000, "ga144: line 1: no node has begun"), ("ga144 1\n", 4000000, "no 12 line line 2")):
        result, took = browser.run(f"const text = {json.dumps(head)} + 'foo\\n'.repeat({lines}), then = performance.now(), opened = page.open(text); return [[opened, find('status').textContent], performance.now() - then]")
        check(result == [False, why] and took < 5000, f"a refused text of {lines} lines: {result} in {took} ms instead of {why}")
    none, long = "the address holds no session", "ga144: the source has more than 16777216 bytes"
    links = {"#node%20000%0Afoo": "ga144: line 2: what is foo", "#z,!!!!": none, "#%": none, packed(b"\n" * (17 << 20)): long, packed(b"\n" * (40 << 20)): none}
    for link, why in links.items():
        began = time.time()
        ready(browser, PAGE + link)
        result = browser.run("return [find('status').textContent, find('log').textContent.split('> ').pop(), page.session.events.length]")
        check(result[0] == why and result[1].endswith(why + "\n") and result[2] == 175 and time.time() - began < 10, f"the address {link[:30]}: {result} instead of {why}")
    ready(browser, PAGE)


# Only a line feed ends a line, as in the core. Other line terminators of JavaScript are text of a comment.
def ends_of_lines(browser):
    for end in ("\r", "\u2028", "\u2029"):
        result = browser.run(f"page.open({json.dumps(f'node 000 : main {chr(92)} x{end}end{end}y' + chr(10) + 'dup' + chr(10))}); return [page.command('step 000'), page.session.load, find('trace').textContent]")
        check(result[0] == ["000 1 fetch"] and result[1].endswith("y\ndup\nend\n"), f"an end of a line {end!r}: {result}")


def widths(browser):
    for width, height in ((1280, 720), (390, 800)):
        browser.size(width, height)
        wide = browser.run("page.draw(); return Math.max(document.documentElement.scrollWidth, document.body.scrollWidth)")
        check(wide <= width, f"the page is {wide} wide at width {width}")
    browser.size(1280, 720)


def small_heap(browser):
    result = browser.run(f"""
const small = new Page(new Core(page.core.module, 6 << 20));
small.open({json.dumps(LOOP)});
const ran = small.command("run greedy 400000"), first = small.session.events.length;
// Then steps until there is no more memory.
for (const batch of [5000, 500, 50, 1]) for (let at = 0; at < 100; at++) {{
  const before = small.session.events.length;
  small.session.step(Array(batch).fill("step 000"), small.session.questions("000"));
  if (small.session.events.length < before + batch) break;
}}
const made = small.session.events.length, step = small.command('step 000'), count = small.session.answer_text('count')[0], back = small.command('back'), again = small.command('step 000'), node = small.session.answer_text('node 000')[0];
const kept = small.session.events.length;
page.open(JSON.parse(find('sessions').textContent).fault);
return {{ ran, first, made, step, count, back, again, node, kept, log: document.getElementById('log').textContent }};""")
    check(result["ran"][-1] == "no 4 memory" and result["first"] > 1000 and result["step"][0].startswith("no 4 memory") and result["count"].startswith(f"kept {result['made']} "), f"a small heap: {result}")
    check(result["back"] == [f"removed 1 kept {result['made'] - 1}"] and result["node"].startswith("node 000 run "), f"a small heap, then: {result}")
    return result["made"]


# Heaps of all sizes from too small to large enough: each call gives the same answer as with a large heap, or runs out of memory.
def every_heap(browser):
    result = browser.run("""
const source = "node 000\\n: main 3 dup +\\nnode 001\\n: main 4 dup + ;\\n";
const ask = (core, image) => [core.assemble(source), core.list(source), core.shades(image, [0, 1, 0, 0, 1], 2), core.answer(image + "step 000\\nnode 000\\n", 9), core.kept(image + "run 40\\n", 90),
  core.answer(image + "run greedy 900\\n" + "trace 000\\n".repeat(9), 999), core.lines(image + "run greedy 900\\n" + "trace 000\\n".repeat(9), 999)];
const image = page.core.assemble(source).image, enough = ask(page.core, image).map(it => JSON.stringify(it)), core = new Core(page.core.module), counts = enough.map(() => [0, 0]), other = [];
for (let size = 1 << 20; size < 1 << 22; size += 1 << 14) {
  core.heap = size;
  ask(core, image).forEach((it, i) => {
    if (JSON.stringify(it) === enough[i]) counts[i][0]++;
    else if (it === null || it === "" || (it.image === "" && it.told.endsWith("memory\\n")) || it === "no 19 memory line 0\\n" || (i === 3 && it.startsWith("ready\\nno 4 memory: "))
      // An incomplete answer counts as a refusal.
      || (i === 5 && /^(memory \\d+|no 4 memory): /m.test(it)) || (i === 6 && /"end":"memory"|"refused":4|"text":"no 19 memory/.test(it))) counts[i][1]++;
    else other.push([size, i, it]);
  });
}
return [counts, other];""")
    check(not result[1] and all(right > 9 and refused > 3 for right, refused in result[0]), f"heaps of all sizes: {result}")


def exceptions(browser):
    thrown = [it for it in browser.heard if it.get("method") == "Runtime.exceptionThrown"]
    check(not thrown, f"exceptions: {thrown[:2]}")


def main():
    start = time.time()
    with Browser(size=(1280, 720)) as browser:
        ready(browser, PAGE)
        began = time.time() - start
        check(browser.run("return CHANGES") == [name for name, it in CLASSES.items() if it == CHANGE], "other commands change the machine")
        compared, assembled = conformance(browser), sources(browser)
        dice, taken = random.Random(7), 0
        for name in browser.run("return [...document.getElementById('examples').options].map(it => it.value).filter(it => it)"):
            taken += clicks(browser, name, dice)
        for test in (until_stop, expectations, orders, rebuilt, whence, ends, races, shown, from_afar):
            test(browser, check)
        source_lines(browser)
        keys(browser)
        address(browser)
        refusals(browser)
        ends_of_lines(browser)
        widths(browser)
        every_heap(browser)
        made = small_heap(browser)
        if len(sys.argv) > 1:
            times(browser)
            commands(browser)
            shots(browser, sys.argv[1])
        exceptions(browser)
    # in a new browser, as for a visitor
    with Browser(size=(1280, 720)) as browser:
        each, slowest = mouse.run_all(browser, lambda: ready(browser, PAGE), check)
        exceptions(browser)
    check(os.path.getsize(f"{TOP}/page/out/ga144.html") < 900000, "the page has 900 KB or more")
    print(f"page: ready after {began:.2f} s; {compared} sessions and {assembled} sources agree; {taken} rollbacks; out of memory at {made} events; {len(each)} clicks at 10^5 events: half below {each[len(each) // 2][0]:.0f} ms, the slowest {each[-1][0]:.0f} ({each[-1][1]}), at best of three {slowest:.0f}; {len(faults)} faults")
    sys.exit(bool(faults))


main()
