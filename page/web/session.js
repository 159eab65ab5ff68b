// The session as the page asks it. Nothing here decides what the chip does or what depends on what: each is an answer.
// How an event relates to the chosen step: it leads there, or would go with it.
const PAST = 1, GOES = 2;
// Whether a line changes the chip, by the class of its command.
const is_change = line => CHANGES.includes(line.split(" ")[0]);
// Lines that make or undo one event each: several are one question, and what each did is read off its answer.
const STEPS_ALONE = /^step\b|^back$/;

// What is asked besides, so that there is memory for what is asked next.
const RESERVE = NODES.slice(0, 36);

// A run of the same order with a number of events.
const bounded = (line, count) => `${/^run(?: greedy| random \d+)?/.exec(line)[0]} ${count}`;
// Lines that make events again, as `save` writes them.
const saved = events => events.map(it => "step " + it.ends[0][0]);
const lines_of = lines => lines.map(it => it + "\n").join("");
const cells_of = name => Array.from({ length: 64 }, (_, i) => `mem ${name} ${i.toString(16).padStart(2, "0")}`);

// The session so far as text, and what it made. Commands that changed nothing are not kept.
class Session {
  constructor(core, limit = 1000000) { this.core = core; this.limit = limit; }

  // Opens source or an image, up to its line `end`. Returns why it is refused, or null; `told` has the assembler's warnings.
  open(load) {
    let image = load, told = "", listing = null;
    const source = is_source(load);
    if (source) {
      ({ image, told } = this.core.assemble(load));
      if (!image) return told.trim() || "no source";
      listing = listing_of(this.core.list(load));
      if (!END.test(load)) load += "end\n";
    }
    const begun = this.core.answer(image, this.limit);
    if (begun !== "ready\n") return begun === null ? NO_MEMORY : begun.trim() || "no image";
    Object.assign(this, { load, image, told: told.trim(), listing, is_source: source, commands: "", is_plain: true, said: READY, events: [], steps: {}, traces: {}, numbered: null, loaded: {}, nodes: new Map(), cells: new Map(), counts: null });
    this.places = new Places(this);
    return null;
  }

  // As it was given, with the commands; and as `ga144 debug` reads it, which makes the kept events step by step where it doesn't know each
  // command.
  get text() { return this.load + this.commands; }
  get script() { return this.image + (this.is_plain ? this.commands : lines_of(saved(this.events))); }

  // The objects of lines, on a second run of the session. Null if memory ran out, or the session became too long; of `quit` alone none.
  ask(lines) {
    const all = this.core.lines(this.load + this.commands + lines_of(lines), this.limit), found = all !== null && all.startsWith(this.said) ? objects_of(all.slice(this.said.length)) : [];
    return found.length === lines.length || (all && lines[0] === "quit") ? found : null;
  }

  // The answer to a line or lines as text; after these commands, of which each has one line.
  answer_text(line, commands = this.commands) {
    const all = this.core.answer(this.load + commands + line + "\n", this.limit);
    return all === null ? [NO_MEMORY] : all.split("\n").slice(commands.split("\n").length, -1);
  }

  // Gives commands that make or remove events.
  obey(lines) {
    let steps = [];
    for (const line of [...lines, null]) {
      if (line && STEPS_ALONE.test(line)) { steps.push(line); continue; }
      if (steps.length) { this.step(steps); steps = []; }
      if (line) this.change(line);
    }
  }

  // Gives one of them. Returns its answer, the line that was given at last, with fewer events where memory ended, whether it did, and the
  // answers to the queries after a step or a rollback.
  change(line, questions = []) {
    const ways = { run: () => this.run(line), back: () => ({ answer: this.back_until(line), line }), rewind: () => this.rewind(line, questions) };
    if (!STEPS_ALONE.test(line)) return (ways[line.split(" ")[0]] || (() => this.rebuild(line)))();
    const { answers: [answer], more } = this.step([line], questions);
    return { answer, line, more };
  }

  // Steps and undos together. `more` has the answers to the queries after them; without memory for these, and for some
  // more after a step, nothing is kept: so later queries and undos have memory.
  step(lines, questions = []) {
    const reserve = lines.some(it => it.startsWith("step")) ? RESERVE : [], all = this.ask([...lines, ...questions, ...reserve]), kept = [], said = [];
    if (!all) return { answers: lines.map(() => OUT_OF_MEMORY), more: null };
    lines.forEach((line, i) => {
      const event = event_of(all[i]);
      if (event) this.keep(event); else if (all[i].removed) this.drop(); else return;
      kept.push(line); said.push(all[i]);
    });
    this.record(kept, said);
    return { answers: all.slice(0, lines.length), more: all.slice(lines.length, lines.length + questions.length) };
  }

  // A run. Its events are those that steps of the nodes make that the core names. Where there is no memory to ask, half as many
  // are made.
  run(line) {
    const [answer] = this.ask([line]) || [OUT_OF_MEMORY], { events: made } = answer, ended = answer.end === "memory";
    if (!made) return { answer, line };
    const kept = ended ? bounded(line, made) : line, nodes = this.core.kept(this.load + this.commands + lines_of([kept]), this.limit);
    const steps = nodes ? Array.from(nodes.subarray(this.events.length), n => "step " + NAMES[n]) : [];
    const events = this.answer_text([...steps, ...NODES, ...NODES].join("\n")).slice(0, made).map(event_told);
    if (steps.length !== made || events.length !== made || events.includes(null)) return made > 1 ? { ...this.run(bounded(line, made >> 1)), is_cut: true } : { answer: OUT_OF_MEMORY, line };
    for (const it of events) this.keep(it);
    this.record([kept], [ended ? { command: "run", events: made, end: "made" } : answer]);
    this.is_plain = false;
    return { answer, line, is_cut: ended };
  }

  // How the expectations of each line of the source stand: broken if one is, else pending if one is, else held; and their texts.
  expectations() {
    const [{ rows = [] }] = this.is_source && /^[ \t]*expect[ \t]/m.test(this.load) && this.ask(["expectations"]) || [{}];
    const texts = rows.length ? this.answer_text("expectations") : [], found = {};
    rows.forEach(({ line, outcome }, i) => {
      const text = (texts[i] || "").slice(`line ${line}: `.length), { texts: others = [], states = [] } = found[line] || {};
      found[line] = { texts: [...others, text], states: [...states, outcome] };
    });
    return Object.fromEntries(Object.entries(found).map(([line, { texts, states }]) => [line, { text: texts.join("\n"), state: ["broken", "pending", "held"].find(it => states.includes(it)) }]));
  }

  // A rollback. `effects` names what it removes. `more` has the answers to the queries after it, if there is memory for them.
  rewind(line, questions = []) {
    const all = this.ask([line.replace("rewind", "effects"), line, ...questions]);
    if (!all && questions.length) return this.rewind(line);
    const [effects, told] = all || [{}, OUT_OF_MEMORY], firsts = firsts_of(effects), first = NAMES.map(n => firsts[n]);
    const answer = this.leave(line, told, ({ one, ends }) => !(ends[0][1] >= first[one]));
    return { answer, line, more: questions.length && answer.removed ? all.slice(2) : null };
  }

  // `back until`, of all nodes or of one. `save` names what is left: of each node the first of the events that it makes.
  back_until(line) {
    const [told, rest] = this.ask([line, "save"]) || [OUT_OF_MEMORY, {}], counts = made_of(rest);
    const answer = this.leave(line, told, ({ ends: [[name]] }) => counts[name]-- > 0);
    if (answer.removed) this.is_plain = false;
    return answer;
  }

  // Any other change: the history is what `save` names after it, each event anew.
  rebuild(line) {
    const [answer, { text }] = this.ask([line, "save"]) || [OUT_OF_MEMORY, {}];
    if (answer.refused || text === lines_of(saved(this.events))) return { answer, line };
    const steps = text.split("\n").slice(0, -1), events = steps.length ? this.answer_text(steps.join("\n"), "").map(event_told) : [];
    if (events.length !== steps.length || events.includes(null)) return { answer: OUT_OF_MEMORY, line };
    this.keep_all([]);
    for (const it of events) this.keep(it);
    this.record([line], [answer]);
    this.is_plain = false;
    return { answer, line };
  }

  // Keeps these events alone, where as many go as the answer says.
  leave(line, told, is_left) {
    if (!told.removed) return told;
    const left = this.events.filter(is_left);
    if (this.events.length - left.length !== told.removed) return OUT_OF_MEMORY;
    this.keep_all(left);
    this.record([line], [told]);
    return told;
  }

  // Commands with their objects, which are written as the core writes them.
  record(lines, said) { if (lines.length) this.forget(); this.commands += lines_of(lines); this.said += lines_of(said.map(it => JSON.stringify(it))); }
  // The history has changed.
  forget() { this.places.forget(); this.counts = null; }
  // An event is kept with its place and the numbers of its nodes: of the one that makes it, and of the other of a pass, else NODES.length.
  keep(event) {
    const [[one], [other] = []] = event.ends;
    event.place = this.events.length; event.one = NUMBER[one]; event.other = other ? NUMBER[other] : NODES.length;
    this.events.push(event);
    this.numbered = null;
    for (const [n, k] of event.ends) { this.steps[n] = k; (this.traces[n] = this.traces[n] || []).push(event); }
  }
  // Keeps these of the events that were kept, and no others.
  keep_all(events) {
    const traces = NAMES.map(() => []), steps = {};
    events.forEach((event, at) => { event.place = at; traces[event.one].push(event); if (event.pass) traces[event.other].push(event); });
    NAMES.forEach((n, i) => { steps[n] = traces[i].length; });
    Object.assign(this, { events, steps, traces: Object.fromEntries(NAMES.map((n, i) => [n, traces[i]])), numbered: null });
  }
  drop() { this.numbered = null; for (const [n, k] of this.events.pop().ends) { this.steps[n] = k - 1; this.traces[n].pop(); } }

  // The session as it is now, and back to that: its text is what it was, so its history and its chip are too.
  now() { const { commands, said, is_plain, events } = this; return { commands, said, is_plain, events: events.slice() }; }
  restore({ events, ...texts }) { Object.assign(this, texts); this.forget(); this.keep_all(events); }

  // The numbers of the nodes of each kept event: the first one, which makes it, and the second one of a pass, else NODES.length. They
  // are kept until the history changes.
  get numbers() {
    if (!this.numbered) {
      const { length } = this.events, first = new Uint8Array(length), second = new Uint8Array(length);
      this.events.forEach(({ one, other }, at) => { first[at] = one; second[at] = other; });
      this.numbered = { first, second };
    }
    return this.numbered;
  }

  event_at([name, step]) { return (this.traces[name] || [])[step - 1]; }
  // Whether a node did more than come to wait.
  is_busy(name) { const [first, second] = this.traces[name] || []; return !!first && (!!second || first.label !== "wait"); }

  // The relation of each event of the history to that of a step: 2 depends on it, 1 is a cause of it, 0 neither. Null if memory ran out.
  marks(step) {
    return this.core.shades(this.image, this.numbers.first, this.event_at(step).place);
  }

  // What is drawn are all nodes, one node's cells and the counts. A node is as it was after its newest event, so what was answered for it
  // then is known: these queries are long, and asked of nodes alone that changed.
  newest(name) { return this.traces[name] && this.traces[name].at(-1) || null; }
  is_known(known, name) { const it = known.get(name); return !!it && it.newest === this.newest(name); }

  questions(name) { return [...NAMES.filter(n => !this.is_known(this.nodes, n)).map(n => "node " + n), ...(this.is_known(this.cells, name) ? [] : cells_of(name)), ...(this.counts ? [] : ["count"])]; }

  // The same after a step, an undo, or a rollback of events of these nodes, with all nodes that it may change.
  questions_after(line, name, going = NAMES) {
    const [command, node] = line.split(" "), at = NUMBER[node], newest = this.events.at(-1), changed = command === "step" ? [at, at - 1, at + 1, at - 18, at + 18].map(it => NAMES[it]) : command === "back" && newest ? newest.ends.map(([n]) => n) : going;
    return [...changed.filter(it => it).map(n => "node " + n), ...cells_of(name), "count"];
  }

  // Learns from answers of the session as it is now.
  learn(answers) {
    const cells = {};
    this.places.learn(answers.filter(it => it.command === "at"));
    for (const it of answers) {
      if (it.command === "node") this.nodes.set(it.node, { newest: this.newest(it.node), told: node_of(it) });
      else if (it.command === "mem") (cells[it.node] = cells[it.node] || []).push(it.word);
      else if (it.command === "count") this.counts = text_of_count(it);
    }
    for (const name in cells) this.cells.set(name, { newest: this.newest(name), words: cells[name] });
  }

  // All nodes, with some of them as these objects have them.
  nodes_with(answers) {
    const told = Object.fromEntries(answers.map(it => [it.node, node_of(it)]));
    return NAMES.map(n => told[n] || this.nodes.get(n).told);
  }

  // What is drawn, and with it the rows of the steps that are shown, where they aren't known. Null if memory ran out.
  look(name, shown = null, more = []) {
    const lines = [...(shown ? this.places.questions(shown) : []), ...this.questions(name)], answers = lines.length + more.length ? this.ask([...lines, ...more]) : [];
    if (!answers) return null;
    this.learn(answers.slice(0, lines.length));
    return { name, nodes: this.nodes_with([]), cells: this.cells.get(name).words, loaded: this.cells_at_load([name])[name], count: this.counts, answers: answers.slice(lines.length) };
  }

  // The same, and what the rollback of a step would take, with the chip after that. Events of these nodes would go.
  preview(name, step, going, shown) {
    const seen = this.look(name, shown, [`effects ${step.join(" ")}`, `rewind ${step.join(" ")}`, ...going.map(n => "node " + n)]);
    if (!seen) return null;
    const [effects, removed, ...nodes] = seen.answers;
    return { ...seen, effects, said: text_of_change(removed), then: this.nodes_with(nodes) };
  }

  // The words of these nodes' RAM as they were loaded.
  cells_at_load(names) {
    const wanted = names.filter(it => !this.loaded[it]);
    if (wanted.length) {
      const words = objects_of(this.core.lines(this.image + wanted.map(it => lines_of(cells_of(it))).join(""), this.limit) || "").slice(1).map(it => it.word);
      wanted.forEach((it, i) => { this.loaded[it] = words.slice(64 * i, 64 * i + 64); });
    }
    return Object.fromEntries(names.map(it => [it, this.loaded[it]]));
  }

  // The races, and the lines that show them, each race in the line of its place; null if memory ran out.
  races() {
    const [answer] = this.ask(["races"]) || [OUT_OF_MEMORY];
    if (is_refused(answer)) return null;
    const [, ...lines] = this.answer_text("races");
    return lines.length < answer.rows.length ? null : { lines, races: answer.rows.map((it, at) => race_of(it, lines[at])) };
  }

  // The other outcome of such a step: what its rollback takes, what is made then, and the chip after that.
  outcome({ back, commands }) {
    const all = this.ask([`effects ${back.join(" ")}`, ...commands, ...NODES]);
    return all && { effects: all[0], said: text_of_change(all[1]), made: text_of_change(all[2]), then: all.slice(3).map(node_of) };
  }
}
