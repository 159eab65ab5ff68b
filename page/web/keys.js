// Keys, buttons, files and the mouse.

// An example as it is before its own rollbacks: those are left to do.
function steps_of(text) {
  const { load, commands } = parted(text);
  return load + commands.filter(it => it.startsWith("step ")).map(it => it + "\n").join("");
}

// A session in the address: a long one compressed, unless it is too long for an address even so. More bytes than MOST are not unpacked.
const LONGEST = 30000, MOST = 1 << 25;
async function piped(bytes, way) {
  const reader = new Blob([bytes]).stream().pipeThrough(way).getReader(), parts = [];
  for (let size = 0, it = await reader.read(); !it.done; it = await reader.read()) {
    size += it.value.length;
    if (size > MOST) { reader.cancel(); throw new RangeError("too many bytes"); }
    parts.push(it.value);
  }
  return new Uint8Array(await new Blob(parts).arrayBuffer());
}

async function link_of(text) {
  const plain = "#" + encodeURIComponent(text);
  if (plain.length <= 2000) return plain;
  const packed = await piped(bytes_of(text), new CompressionStream("deflate-raw"));
  const link = "#z," + btoa(Array.from(packed, it => String.fromCharCode(it)).join("")).replace(/\+/g, "-").replace(/\//g, "_").replace(/=+$/, "");
  return link.length <= LONGEST ? link : null;
}

async function text_in(link) {
  if (!link.startsWith("#z,")) return decodeURIComponent(link.slice(1));
  const packed = Uint8Array.from(atob(link.slice(3).replace(/-/g, "+").replace(/_/g, "/")), it => it.charCodeAt(0));
  return text_of(await piped(packed, new DecompressionStream("deflate-raw")));
}

// The module of the proved calls, which the page has deflated.
const module_bytes = () => piped(Uint8Array.from(atob(find("module").textContent), it => it.charCodeAt(0)), new DecompressionStream("deflate-raw"));

// The button says what a click makes of it.
function set_theme(name) { document.documentElement.dataset.theme = name; find("theme").innerHTML = name === "light" ? "dark (<u>l</u>)" : "<u>l</u>ight"; }

// What each key does.
function acts_of(page) {
  const theme = () => { set_theme(document.documentElement.dataset.theme === "light" ? "dark" : "light"); page.draw(); };
  const look = act => () => { act(); page.draw_picture(); };
  return {
    s: () => page.command("step " + page.selected), r: () => page.round(), m: () => page.run(find("most").value.trim()), u: () => find("until").focus(), v: () => page.next_order(), b: () => page.command("back"),
    t: () => page.take(), Enter: () => page.take(), g: () => page.redo(), w: () => page.why(), h: () => page.command("who"), "!": () => page.check(), f: () => page.effects(), y: () => page.words(), q: () => page.whence(), k: () => page.because(), Escape: () => { page.forget(); page.draw(); },
    ",": () => page.along(-1), ".": () => page.along(1), PageUp: () => page.along(-20), PageDown: () => page.along(20), Home: () => page.along(-1e9), End: () => page.along(1e9), p: () => page.across(), j: () => page.next_of_word(),
    ArrowLeft: () => page.beside(-1, 0), ArrowRight: () => page.beside(1, 0), ArrowUp: () => page.beside(0, 1), ArrowDown: () => page.beside(0, -1),
    "+": look(() => page.picture.zoom(.6)), "-": look(() => page.picture.zoom(1.6)), "0": look(() => page.picture.fit()), "[": look(() => page.picture.move(-.4)), "]": look(() => page.picture.move(.4)),
    e: () => find("examples").focus(), a: () => find("idle").click(), z: () => find("races").click(), n: () => find("most").focus(), "/": () => find("line").focus(), l: theme, "?": () => show_help(page.session.answer_text("help")),
    o: () => find("file").click(), i: () => page.edit(find("editor").hidden), ...acts_on_text(page),
  };
}

// The session's text: copied, saved, or in the address.
function acts_on_text(page) {
  // Where the browser gives no clipboard, the text is selected to be copied.
  const copy = async text => {
    try { await navigator.clipboard.writeText(text); page.say("copy", [`${text.length} bytes`]); } catch { page.edit(true); find("text").value = text; find("text").select(); }
  };
  const save = () => { const it = document.createElement("a"); it.href = URL.createObjectURL(new Blob([page.session.text])); it.download = "session"; it.click(); };
  const link = async () => { const it = await link_of(page.session.text); if (it) history.replaceState(null, "", it); page.say("link", [it ? "the address holds the session" : "too long for an address: save it"]); };
  return { c: () => copy(page.session.text), d: () => copy(page.session.script), x: save, "#": link };
}

function listen_to_keys(acts) {
  const buttons = { step: "s", round: "r", run: "m", back: "b", who: "h", check: "!", effects: "f", words: "y", whence: "q", because: "k", take: "t", redo: "g", theme: "l", help: "?", in: "+", out: "-", fit: "0", earlier: "[", later: "]", copy: "c", plain: "d", save: "x", load: "o", link: "#", edit: "i" };
  for (const id in buttons) find(id).onclick = () => acts[buttons[id]]();
  document.onkeydown = event => {
    const { target, key } = event, typed = /INPUT|TEXTAREA|SELECT/.test(target.tagName) && target.type !== "checkbox";
    if (key === "Escape" && typed) return target.blur();
    if (event.ctrlKey || event.metaKey || event.altKey || typed || find("keys").open) return;
    if (key === "Enter" && target.dataset.go) return target.click();
    // Other lists are scrolled by the browser.
    if (/^(source|memory|log|racing)$/.test(target.id) && /^(Arrow|Page|Home|End)/.test(key)) return;
    // In the list of steps these keys choose one.
    const act = target.id === "trace" && { ArrowUp: acts[","], ArrowDown: acts["."] }[key] || acts[key];
    if (!act || (key === "Enter" && target.tagName !== "BODY" && !/^(chip|trace)$/.test(target.id))) return;
    event.preventDefault(); act();
  };
}

// The field of commands; the arrows bring earlier ones back.
function listen_to_commands(page) {
  const given = [];
  let at = 0;
  find("line").onkeydown = event => {
    const box = find("line"), by = { ArrowUp: -1, ArrowDown: 1 }[event.key];
    if (by && given.length) { event.preventDefault(); at = Math.max(0, Math.min(given.length, at + by)); box.value = given[at] || ""; }
    if (event.key !== "Enter") return;
    if (box.value) at = given.push(box.value);
    page.command(box.value); box.value = "";
  };
}

function listen_to_fields(page, acts, examples) {
  find("text").onkeydown = event => { if (event.key === "Enter" && event.ctrlKey) page.open(find("text").value); };
  // (Then the keys are the page's again.)
  const entered = (id, act) => { find(id).onkeydown = event => { if (event.key === "Enter") { find(id).blur(); act(); } }; };
  const until = () => page.until(find("until").value.trim() || "stop");
  entered("most", acts.m); entered("seed", acts.m); entered("until", until);
  find("reach").onclick = until;
  find("order").onchange = () => { find("order").blur(); find("seed").hidden = find("order").value !== "random"; };
  find("idle").onchange = () => { page.arrange(); page.draw(); };
  find("races").onchange = () => { page.ask_races(); page.draw_picture(); };
  find("examples").onchange = () => { find("examples").blur(); choose_example(page, examples, find("examples").value); };
  find("open").onclick = () => page.open(find("text").value);
  find("file").onchange = async () => page.open(await find("file").files[0].text());
}

// Source, an image or a session that is dropped or pasted.
function listen_to_texts(page) {
  document.ondragover = event => event.preventDefault();
  document.ondrop = async event => {
    event.preventDefault();
    const { files } = event.dataTransfer, text = files[0] ? await files[0].text() : event.dataTransfer.getData("text");
    if (text) page.open(text);
  };
  document.onpaste = event => { if (!/INPUT|TEXTAREA/.test(event.target.tagName)) page.open(event.clipboardData.getData("text")); };
}

function listen(page, examples) {
  const acts = acts_of(page);
  listen_to_keys(acts);
  listen_to_commands(page);
  listen_to_fields(page, acts, examples);
  listen_to_texts(page);
  listen_to_picture(page);
}

// Source runs until a node stops, or for some events, so that there is something to see.
function choose_example(page, examples, name) {
  const text = examples[name];
  if (text === undefined) return;
  if (!is_source(text)) page.open(steps_of(text));
  else if (page.open(text)) { page.command("run 300 until stop"); page.picture.begin(); page.draw_picture(); }
  find("examples").value = name;
}

function listen_to_picture(page) {
  const canvas = find("time");
  let held = null, due = false;
  // At most once for each picture of the screen.
  const redraw = () => { if (!due) { due = true; requestAnimationFrame(() => { due = false; page.draw_picture(); }); } };
  canvas.onpointerdown = event => { held = { x: event.offsetX, from: page.picture.from, moved: false }; };
  canvas.onpointermove = event => {
    if (!held) {
      const race = page.picture.race_near(event.offsetX, event.offsetY), it = page.picture.near(event.offsetX, event.offsetY);
      canvas.title = race ? race.text : it ? it[4].text : "";
      return;
    }
    if (Math.abs(event.offsetX - held.x) > 4) held.moved = true;
    if (held.moved) { page.picture.from = Math.max(0, held.from - (event.offsetX - held.x) / canvas.clientWidth * page.picture.wide); redraw(); }
  };
  canvas.onpointerup = event => {
    const clicked = held && !held.moved, it = clicked && page.picture.near(event.offsetX, event.offsetY), race = clicked && page.picture.race_near(event.offsetX, event.offsetY);
    held = null;
    if (race) return page.turn(race);
    // The second click on the same step takes it back, whichever of its nodes it meets.
    if (it) page.choose(page.chosen && !page.race && it[4] === page.event ? page.chosen : [it[2], it[3]]);
    else if (clicked && page.picture.far) { page.picture.zoom(.2, event.offsetX / canvas.clientWidth); page.draw_picture(); }
  };
  canvas.onpointerleave = () => { held = null; };
  canvas.addEventListener("wheel", event => {
    event.preventDefault();
    if (event.shiftKey || event.deltaX) page.picture.move((event.deltaX || event.deltaY) / 800); else page.picture.zoom(event.deltaY > 0 ? 1.25 : .8, event.offsetX / canvas.clientWidth);
    redraw();
  }, { passive: false });
  window.addEventListener("resize", () => requestAnimationFrame(() => page.draw()));
}

async function begin() {
  set_theme(matchMedia("(prefers-color-scheme: light)").matches ? "light" : "dark");
  const examples = JSON.parse(find("sessions").textContent);
  let core;
  try { core = new Core(new WebAssembly.Module(await module_bytes())); } catch (fault) {
    find("status").textContent = find("status").title = "this browser has no WebAssembly with memories of 64 bits: take a newer Chromium or Firefox";
    return;
  }
  const page = window.page = new Page(core), groups = { source: document.createElement("optgroup"), sessions: document.createElement("optgroup") };
  for (const name in groups) { groups[name].label = name; find("examples").append(groups[name]); }
  for (const name in examples) { const option = document.createElement("option"); option.textContent = name; groups[is_source(examples[name]) ? "source" : "sessions"].append(option); }
  listen(page, examples);
  choose_example(page, examples, "fault.f18");
  // The example stays where the address holds no session, or one that is refused.
  if (location.hash.length > 1) {
    const given = await text_in(location.hash).catch(() => "");
    if (given) page.open(given); else page.refuse_with("the address", "the address holds no session");
  }
  document.title = "GA144: ready";
}
begin();
