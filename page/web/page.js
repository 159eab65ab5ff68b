// What the page shows, and what it does for a person.
// A longer text than SHOWN is not put into the text area, which would take minutes.
const LONGEST_RUN = 100000, MOST_STATES = 100000, SHOWN = 200000, SHOWN_RACES = 200, MOST_UNDONE = 20;

class Page {
  constructor(core) {
    this.core = core; this.picture = new Picture(find("time")); this.selected = "000";
    this.chip = new ChipPane(this); this.node = new NodePane(this); this.source = new SourcePane(this); this.trace = new TracePane(this); this.log = new Log(this);
    this.forget();
  }

  // Opens source or an image, and the commands after its line `end`.
  open(text) {
    const { load, commands } = parted(text), session = new Session(this.core);
    const refused = session.open(load);
    this.log.clear(); find("examples").value = "";
    if (refused) return this.refuse(text, refused);
    this.session = session; this.undone = [];
    const end = commands.indexOf("quit"), lines = commands.slice(0, end < 0 ? commands.length : end).filter(is_change);
    if (session.told) this.say("source", session.told.split("\n"));
    if (lines.length) session.obey(lines);
    this.working = nodes_named(session.image);
    this.selected = this.working[0] || "000";
    this.edit(false);
    this.source.set(session, this.working);
    this.arrange();
    this.picture.begin();
    this.draw();
    return true;
  }

  // The text area in the place of the program's text.
  edit(is_edited) { find("editor").hidden = !is_edited; find("source").hidden = is_edited; find("edit").setAttribute("aria-pressed", is_edited); if (is_edited) find("text").focus(); }

  // Says why a text is refused, and shows its line.
  refuse(text, why) {
    this.refuse_with(is_source(text) ? "source" : "image", why);
    find("text").value = text.length < SHOWN ? text : "";
    if (text.length < SHOWN) { this.edit(true); this.select_line(line_told(why)); }
    return false;
  }

  // Selects a line of the text area.
  select_line(line) {
    const box = find("text"), lines = box.value.split("\n"), from = lines.slice(0, line - 1).join("\n").length + (line > 1);
    box.focus();
    if (line) { box.setSelectionRange(from, from + (lines[line - 1] || "").length); box.scrollTop = Math.max(0, line - 4) * 17; }
  }

  refuse_with(what, why) { this.say(what, why.split("\n")); this.note(why.split("\n")[0]); }
  note(text) { find("status").textContent = find("status").title = text; }
  say(asked, answer, told = null) { this.log.say(asked, answer, told); }

  forget() { this.chosen = null; this.race = null; this.marks = null; this.said = null; this.then = null; this.touched = [[], [], []]; this.goes = 0; find("wordnote").textContent = ""; }
  is_active(name) { return this.working.includes(name) || this.drawn.includes(name); }

  // Gives one command as a person does. Each that changes the chip can be undone to `before`, and what was undone isn't made again then.
  command(line) {
    if (line === "redo") return this.redo();
    if (line === "check") return this.check();
    if (!is_change(line)) {
      const told = this.session.ask([line]), answer = told ? this.session.answer_text(line) : [NO_MEMORY];
      if (line === "help") show_help(answer, "commands"); else this.say(line, answer, told ? told[0] : null);
      return answer;
    }
    const before = /^(step|run)\b/.test(line) ? null : this.session.now(), { chosen } = this, { commands } = this.session;
    const going = chosen && line === `rewind ${chosen.join(" ")}` ? this.touched[GOES] : NAMES, questions = [`at ${this.selected} last 40`, ...this.session.questions_after(line, this.selected, going)];
    const { answer, line: given, is_cut, more = null } = this.session.change(line, questions);
    const told = text_of_change(answer), answers = [...(told ? [told] : this.session.answer_text(given, commands)), ...(is_cut ? [NO_MEMORY] : [])];
    this.say(line, answers, answer);
    if (answer.removed) this.undone = [...this.undone.slice(1 - MOST_UNDONE), { before, chosen, selected: this.selected, count: answer.removed }];
    else if (this.session.commands !== commands) this.undone = [];
    if (answer.end === "reached") [[this.selected]] = event_of(answer).ends;
    if (more) this.session.learn(more);
    this.after();
    return answers;
  }

  // Draws the history and the chip as they are now, with a step that is chosen.
  after(chosen = null) {
    this.arrange();
    this.source.expected = this.session.expectations();
    if (this.picture.was_whole) this.picture.begin();
    this.picture.show(this.picture.deepest);
    if (!chosen || !this.session.event_at(chosen)) return this.draw();
    this.trace.set(this.selected, this.session.steps[this.selected] || 0, 0);
    this.show(chosen);
  }

  arrange() {
    this.forget();
    this.seen = null;
    this.drawn = NAMES.filter(n => this.session.steps[n] && (find("idle").checked || this.working.includes(n) || this.session.is_busy(n)));
    this.chip.arrange([...this.working, ...this.drawn.filter(n => this.session.is_busy(n))]);
    this.picture.set(this.session.events, this.drawn);
    this.ask_races();
  }

  // The steps that could yield another word, where they are to be marked: asking takes long where much is kept.
  ask_races() {
    const none = { lines: [], races: [] }, found = find("races").checked ? this.session.races() : none;
    if (!found) this.say("races", [NO_MEMORY]);
    const { lines, races } = found || none;
    this.race_lines = lines; this.races = races;
  }

  // A run in the order that is chosen: of a number of events, or up to a condition.
  run(bound) {
    const order = { rounds: "", greedy: "greedy ", random: `random ${find("seed").value.trim()} ` }[find("order").value];
    return this.command(`run ${order}${bound}`);
  }
  until(condition) { return this.run(`${LONGEST_RUN} until ${condition}`); }
  next_order() { const it = find("order"); it.selectedIndex = (it.selectedIndex + 1) % 3; it.onchange(); }

  // One round: each node that the image names or the picture has makes at most one event.
  round() {
    const names = NAMES.filter(n => this.is_active(n));
    const { answers } = this.session.step(names.map(n => "step " + n)), made = answers.filter(it => it.what).length;
    this.say("a round", [`made ${made}`, ...new Set(answers.filter(is_out_of_memory).map(text_of_change))]);
    if (made) this.undone = [];
    this.after();
  }

  // The words of the pass that is chosen, or those that the node selected before sent to this one.
  words() { const [[one], [other]] = this.chosen && this.event.pass ? this.event.ends : [[this.before], [this.selected]]; if (one) this.command(`words ${one} ${other}`); }
  // A query about the chosen step.
  about(command, more = "") { if (this.chosen) this.command(`${command} ${this.chosen.join(" ")}${more}`); }
  effects() { this.about("effects"); }
  whence() { this.about("whence"); }
  because() { this.about("because", " 5"); }
  why() { if (this.chosen && this.earlier) this.command(`why ${this.earlier.join(" ")} ${this.chosen.join(" ")}`); }

  // How the program can end, in whatever order its nodes run, from the load.
  check() {
    const said = this.core.check(this.session.load, MOST_STATES, this.session.limit, 0), lines = said === null ? [NO_MEMORY] : said.trimEnd().split("\n");
    this.say("check", lines);
    return lines;
  }

  // Makes the events that lead to a kind of end in the place of those so far; `redo` makes these again.
  lead_to(kind) {
    const said = this.core.check(this.session.load, MOST_STATES, this.session.limit, kind), lines = said === null ? [NO_MEMORY] : said.trimEnd().split("\n");
    if (!lines.every(it => STEPS_ALONE.test(it))) return this.note(lines[0]);
    const before = this.session.now(), { chosen, selected } = this;
    this.session.restore({ commands: "", said: READY, is_plain: true, events: [] });
    this.session.obey(lines);
    if (before.events.length) this.undone = [...this.undone.slice(1 - MOST_UNDONE), { before, chosen, selected, count: before.events.length }];
    this.forget();
    this.say(`check --session ${kind}`, [`made ${this.session.events.length}`]);
    this.after();
  }

  is_chosen([name, step]) { return !this.race && !!this.chosen && this.chosen[0] === name && this.chosen[1] === step; }

  // Chooses a step; a second call rolls it back.
  choose(step) { if (this.session.event_at(step)) return this.is_chosen(step) ? this.take() : this.show(step); }

  // Chooses a step: what led to it, what would go with it, and the chip as it would be then.
  show(step) {
    const event = this.session.event_at(step);
    if (!event) return;
    const earlier = this.chosen, [name, k] = step;
    this.trace.set(name, this.session.steps[name], k);
    const marks = this.session.marks(step), marked = marks && this.sums_of(marks), seen = marks && this.session.preview(name, step, marked.touched[GOES], this.trace.seen());
    this.forget();
    if (name !== this.selected) this.before = this.selected;
    this.selected = name;
    this.earlier = earlier;
    if (!seen) { this.note(NO_MEMORY); return this.draw(); }
    Object.assign(this, marked, { chosen: step, event, seen, said: seen.said, then: seen.then, takes: seen.effects });
    this.picture.show(this.picture.xs[event.place]);
    this.draw();
  }

  // The node whose program has a word; null where that names no node.
  node_of_word(key) { const { text } = this.source, name = text.node_at(text.row_of(key), +key.split(":")[1] || 0); return NAMES.includes(name) ? name : null; }

  // Walks the steps of a word's node once the page is idle, so that a click on the word needn't wait for that.
  prepare_word(key) {
    const { places } = this.session, name = this.node_of_word(key);
    if (name && !places.whole[name]) when_idle(() => { if (places === this.session.places) places.all_of(name); });
  }

  // Chooses the first step of a word, or the next one after the chosen step.
  choose_word(key) {
    const { text } = this.source, name = this.node_of_word(key), steps = name ? this.session.places.steps_of(name, key, text) : [];
    const now = this.chosen && this.chosen[0] === name ? this.chosen[1] : 0, at = Math.max(0, steps.includes(now) ? steps.findIndex(it => it > now) : 0);
    if (steps.length) this.show([name, steps[at]]);
    find("wordnote").textContent = steps.length ? `${text.word(key)}: ${at + 1} of ${steps.length} step${steps.length > 1 ? "s" : ""}` : `${text.word(key)}: no step`;
  }

  // The next step of the same word.
  next_of_word() { const row = this.chosen && this.session.places.row(...this.chosen); if (row && row.key) this.choose_word(row.key); }

  // Follows the link of a part of an answer.
  follow({ step, node, line, column, kind }) {
    if (kind) return this.lead_to(kind);
    if (line) return find("editor").hidden ? this.mark_place(line, column) : this.select_line(line);
    if (node) return this.select(node);
    if (!this.session.event_at(step)) { this.select(step[0]); return this.note(`${step[0]} has ${this.session.steps[step[0]] || 0} steps now`); }
    if (!this.is_chosen(step)) this.show(step);
  }

  // Shows the other outcome of a step that races: the steps that it removes, and the chip after it. A second call makes it.
  turn(race) {
    if (this.race === race) return this.take();
    const marks = this.session.marks(race.back), outcome = marks && this.session.outcome(race), [name] = race.step;
    this.forget();
    this.selected = name;
    if (!outcome) { this.note(NO_MEMORY); return this.draw(); }
    Object.assign(this, this.sums_of(marks), { race, chosen: race.back, event: this.session.event_at(race.back), said: outcome.said, then: outcome.then, takes: outcome.effects, makes: outcome.made });
    this.draw();
  }

  // The relation of each event, by which nodes have events of each, and how many would go.
  sums_of(marks) {
    const { first, second } = this.session.numbers, touched = [0, 1, 2].map(() => new Uint8Array(NODES.length + 1));
    let goes = 0;
    for (let at = 0; at < marks.length; at++) { const it = touched[marks[at]]; it[first[at]] = it[second[at]] = 1; if (marks[at] === GOES) goes++; }
    return { marks, goes, touched: touched.map(it => NAMES.filter((_, n) => it[n])) };
  }

  // Takes the chosen step back, or makes the other outcome of a race; either can be undone by `redo`.
  take() {
    if (!this.race) return this.chosen && this.command(`rewind ${this.chosen.join(" ")}`)[0];
    const before = this.session.now(), { race, goes, selected, undone } = this, said = race.commands.map(line => this.command(line)[0]).pop();
    if (this.session.said !== before.said) { this.undone = [...undone, { before, chosen: race.step, selected, count: goes }]; this.draw(); }
    return said;
  }

  // Makes again the events that were removed last: the session is the earlier one.
  redo() {
    const last = this.undone.pop();
    if (!last) return [];
    this.session.restore(last.before);
    this.selected = last.selected;
    this.say("redo", [`made ${last.count} again`]);
    this.after(last.chosen);
    return [];
  }

  select(name) { if (name !== this.selected) this.before = this.selected; this.selected = name; this.draw(); }

  // A step before or after the chosen one, of the selected node; the other end of a pass.
  along(by) {
    const steps = this.session.steps[this.selected] || 0, now = this.chosen && this.chosen[0] === this.selected ? this.chosen[1] : steps + 1;
    const next = Math.max(1, Math.min(steps, now + by));
    if (steps && next !== now) this.choose([this.selected, next]);
  }
  across() { const other = this.chosen && this.event.ends.find(([n]) => n !== this.chosen[0]); if (other) this.choose(other); }
  beside(right, up) {
    const at = NUMBER[this.selected], x = at % 18 + right, y = Math.floor(at / 18) + up;
    if (x >= 0 && x < 18 && y >= 0 && y < 8) this.select(NAMES[18 * y + x]);
  }

  // The rows of steps that are seen and not known yet.
  ask_rows(steps) {
    const lines = this.session.places.questions(steps), answers = lines.length ? this.session.ask(lines) : null;
    if (answers) this.session.places.learn(answers);
  }

  // What is drawn. Sizes and places are read before anything is written: reading one after that lays the page out once more.
  draw() {
    const name = this.selected, chosen = this.chosen && this.chosen[0] === name ? this.chosen[1] : 0;
    this.trace.set(name, this.session.steps[name] || 0, chosen);
    if (!this.seen || this.seen.name !== name) this.seen = this.session.look(name, this.trace.seen()) || this.seen;
    if (!this.seen) { this.note(NO_MEMORY); return; }
    this.ask_rows(this.trace.seen());
    this.mark_word(name, chosen);
    const steps = this.trace.list.seen(), lines = this.source.list.seen();
    this.draw_picture();
    this.node.draw();
    this.chip.draw(this.then || this.seen.nodes);
    this.trace.draw(steps);
    this.source.draw(lines);
    this.draw_buttons();
    this.note(this.seen.count);
    if (find("editor").hidden) set_text(find("text"), this.session.text.length < SHOWN ? this.session.text : "");
    this.source.reveal_word();
  }

  // Marks the word of the chosen step, or of the newest one of the selected node.
  mark_word(name, chosen) {
    const told = this.session.places.row(name, chosen || this.session.steps[name] || 0);
    this.source.mark(told && told.key || null, chosen ? "picked" : "last", chosen && told && !told.key && told.place ? told.place.line : 0);
  }

  // Marks a place of the source, or a line.
  mark_place(line, column) {
    this.source.mark(column ? `${line}:${column}` : null, "picked", column ? 0 : line);
    this.source.draw();
    this.source.reveal_word();
  }

  draw_buttons() {
    const take = find("take"), redo = find("redo"), last = this.undone.at(-1);
    take.disabled = !this.chosen; take.className = this.chosen ? "ready" : "";
    take.textContent = this.race ? this.race.other : this.chosen ? `take back ${this.chosen.join(" ")}: ${this.goes} event${this.goes === 1 ? "" : "s"}` : "take back";
    redo.disabled = !last; redo.textContent = last ? `redo ${last.count} event${last.count === 1 ? "" : "s"}` : "redo";
    for (const id of ["effects", "whence", "because"]) find(id).disabled = !this.chosen;
    const text = this.then ? `as it would be: ${told_effects(this.takes)}${this.race ? `, then ${this.makes}` : ""}` : "";
    find("chipnote").textContent = text || "A click on a step shows what led to it, and what depends on it."; find("chipnote").title = text; find("chipnote").className = text ? "goes" : "dim";
  }

  draw_picture() {
    this.draw_races();
    this.picture.draw(this.marks, this.chosen && this.event, this.selected, this.races.map(race => ({ race, place: this.session.event_at(race.step).place, picked: race === this.race })));
  }

  // The lines of `races`, of which a click shows the other outcome.
  draw_races() {
    const box = find("racing");
    box.hidden = !find("races").checked;
    box.textContent = "";
    const races = new Map(this.races.map(it => [it.text, it]));
    for (const line of this.race_lines.slice(0, SHOWN_RACES)) {
      const race = races.get(line), row = element("div", race ? race === this.race ? "race picked" : "race" : "", line);
      row.title = line;
      if (race) row.onclick = () => this.turn(race);
      box.append(row);
    }
  }
}
