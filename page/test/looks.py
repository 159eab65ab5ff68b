"""Tests of the page's appearance, for page.py: the chip, a run, a picture at low zoom; measurements and screenshots."""
import json, os

LOOP = "ga144 1\nnode 000\np 000000\nram 00 010000\nend\n"


EIGHTEEN = "".join(f"node 0{at:02d}\n/b right\n: main {'@b' if at % 2 else 'dup !b'} main ;\n" for at in range(18))


def shown(browser, check):
    """Complete counts in the cells, names at a phone's width, the node of an event that a run reached, the name of the loaded program, and the
    theme's button."""
    result = browser.run("""
find("examples").value = "fault.f18"; find("examples").onchange();
const example = find("examples").value, selected = page.selected, theme = document.documentElement.dataset.theme, label = find("theme").textContent; find("theme").click();
const then = [document.documentElement.dataset.theme, find("theme").textContent]; find("theme").click();
page.open("node 000\\n: main main ;\\n"); const own = find("examples").selectedOptions[0].textContent;
page.command("run greedy 123456"); const cell = find("n000"), more = cell.querySelector(".more"), text = document.createRange(); text.selectNode(cell.querySelector(".name").firstChild);
const inside = text.getBoundingClientRect().right <= more.getBoundingClientRect().left + .5 && more.getBoundingClientRect().right <= cell.getBoundingClientRect().right;
return { example, selected, theme, label, then, own, count: more.textContent, inside };""")
    other = {"dark": "light", "light": "dark (l)"}
    check(result["selected"] == "001" and result["example"] == "fault.f18" and result["own"] == "own text", f"the loaded program, and the end of a run: {result}")
    check(result["label"] == other[result["theme"]] and result["then"][0] != result["theme"] and result["then"][1] == other[result["then"][0]], f"the theme's button: {result}")
    check(result["count"] == "123456" and result["inside"], f"a cell's count: {result}")
    browser.size(390, 800)
    cut = browser.run(f"""page.open({json.dumps(EIGHTEEN)}); page.command("run 900"); page.draw();
return page.working.filter(n => {{ const it = find("n" + n).querySelector(".name").getBoundingClientRect(), cell = find("n" + n).getBoundingClientRect(); return !(it.width > 8 && it.right <= cell.right + 1); }})""")
    check(cut == [], f"names that are cut on a phone's chip: {cut}")
    browser.size(1280, 720)


def from_afar(browser, check):
    """At low zoom each event is counted in one column: transfers between two neighbours in a link, all other events in a node."""
    result = browser.run(f"""
page.open({json.dumps(EIGHTEEN)}); page.command("run 100000"); page.picture.fit(); page.draw_picture();
const it = page.picture, line = Object.fromEntries(page.drawn.map(n => [n, 0])), unit = (it.canvas.clientWidth - 34) / it.wide, {{ nodes, links }} = it.summed(null, 0, it.order.length, line, unit);
const sum = (list, what) => list.reduce((all, one) => all + one[what], 0), drawn = page.session.events.filter(e => e.ends[0][0] in line);
return [it.far, sum(nodes, "own") + sum(nodes, "waits") + sum(nodes, "stop") + sum(links, "count"), drawn.length, sum(links, "count"), drawn.filter(e => e.pass).length, nodes.length + links.length];""")
    check(result[0] and result[1] == result[2] and result[3] == result[4] > 9 and result[5] < 2000, f"at low zoom: {result}")


def times(browser):
    for title, text in (("one node", LOOP), ("18 nodes", EIGHTEEN)):
        for count in (1000, 10000, 100000):
            measured = browser.run(f"""
const now = () => performance.now(), out = {{}};
let t;
const time = (name, act) => {{ t = now(); const it = act(); out[name] = Math.round(10 * (now() - t)) / 10; return it; }};
page.open({json.dumps(text)});
time("run", () => page.command("run {'greedy ' if title == 'one node' else ''}{count}"));
time("step", () => page.command("step 000"));
const step = page.session.events[{count} / 2].ends[0];
time("marks", () => page.session.marks(step));
time("click", () => page.choose(step));
time("other node", () => page.select("001"));
page.picture.fit();
time("picture", () => page.draw_picture());
page.picture.zoom(.01);
time("picture near", () => page.draw_picture());
return out;""")
            print(f"page: {title}, {count} events: {measured} ms")


def commands(browser):
    """Commands per second: one by one, without and with drawing, and in one call."""
    rates = browser.run(f"""
const rate = (count, act) => {{ page.open({json.dumps(LOOP)}); const t = performance.now(); act(count); return Math.round(count / (performance.now() - t) * 1000); }};
return {{ alone: rate(1000, n => {{ for (let i = 0; i < n; i++) page.session.obey(["step 000"]); }}), drawn: rate(300, n => {{ for (let i = 0; i < n; i++) page.command("step 000"); }}),
    together: rate(100000, n => page.session.obey(Array(n).fill("step 000"))), asked: rate(100000, n => page.session.ask(Array(n).fill("node 000"))) }};""")
    print(f"page: commands per second: {rates}")


def shots(browser, folder):
    os.makedirs(folder, exist_ok=True)
    for name, width, height in (("wide", 1280, 720), ("wider", 1700, 1000), ("phone", 390, 1900)):
        browser.size(width, height)
        for theme in ("dark", "light"):
            browser.run(f"document.documentElement.dataset.theme = '{theme}'; find('examples').value = 'fault.f18'; find('examples').onchange(); page.choose(['000', 7]); page.effects();")
            browser.shot(f"{folder}/{name}-{theme}.png")
    browser.size(1280, 720)
    browser.run("find('examples').value = 'pipeline.f18'; find('examples').onchange(); page.command('run until stop'); page.choose(page.session.events[500].ends[0]);")
    browser.shot(f"{folder}/pipeline.png")
    browser.run("find('examples').value = 'look_again'; find('examples').onchange(); page.choose(page.session.events[3].ends[0]);")
    browser.shot(f"{folder}/look.png")
    browser.run(f"page.open({json.dumps(EIGHTEEN)}); page.command('run 100000'); page.picture.fit(); page.draw_picture()")
    browser.shot(f"{folder}/afar.png")
    browser.run("page.open('node 000\\n: main 1 foo +\\n')")
    browser.shot(f"{folder}/refused.png")
