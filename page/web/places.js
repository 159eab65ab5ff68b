// Which word of the program each step came from. `at` names it for steps that are shown; for all steps of a node a query gives the cells
// from which it fetched, and once the word of each slot of a cell. A word's key is that of the program's text (source.js).

// The image and the kept events, step by step, with a question before each of these: lines of one length, as bytes, since a text of so
// many lines would be garbage at each click.
function stepped({ image, numbers: { first } }, question, places) {
  const front = bytes_of(image), lines = STEPS.map(bytes_of), wide = lines[0].length, asked = bytes_of(question), text = new Uint8Array(front.length + wide * (places.length + (places.at(-1) || 0)));
  let at = front.length, made = 0;
  text.set(front);
  for (const place of places) {
    for (; made < place; made++) { const line = lines[first[made]]; for (let i = 0; i < wide; i++) text[at++] = line[i]; }
    text.set(asked, at); at += wide;
  }
  return text;
}

class Places {
  constructor(session) { this.session = session; this.forget(); }
  // The history has changed.
  forget() { this.rows = {}; this.whole = {}; }

  steps(name) { return this.session.steps[name] || 0; }

  // The commands that answer the steps from one to another of a node, as far as they aren't known: each answers up to 199.
  questions([name, from, upto]) {
    const rows = this.rows[name], last = Math.min(upto, this.steps(name)), asked = [];
    for (let k = Math.max(1, from); k <= last; k++) {
      if (rows && rows.has(k)) continue;
      const middle = Math.min(this.steps(name), k + 99);
      asked.push(`at ${name} ${middle} 99`);
      k = middle + 99;
    }
    return asked;
  }

  learn(answers) {
    for (const answer of answers) {
      const { node, rows: found = [] } = answer, rows = found.map(it => row_of(node, it));
      if (!rows.length) continue;
      const known = this.rows[node] = this.rows[node] || new Map();
      if (!this.session.is_source) this.add_slots(node, rows);
      for (const it of rows) known.set(it.step, it);
    }
  }

  // In an image a step's word is a slot of a cell.
  add_slots(name, rows) {
    const { cells, slots } = this.fetched(name, rows[0].step, rows.at(-1).step);
    for (const it of rows) if (cells[it.step] >= 0) it.key = `${name} ${cells[it.step]} ${Math.max(0, slots[it.step])}`;
  }

  // A step as `at` answers it, where that is known: what it did, T after it, its place in the text, and the key of its word.
  row(name, step) { return this.rows[name] && this.rows[name].get(step) || null; }

  // Of a node's steps from one to another: the cell that each one's instruction word was fetched from, which is that at P right
  // before the fetch or the wait for one, and its slot, -1 for the fetch itself. No cell is -1. A query gives them at each place
  // where they aren't known: at a fetch, a wait, a stop and after `unext`.
  fetched(name, from, upto) {
    const { session } = this, trace = session.traces[name] || [], start = Math.max(1, from - 40), end = Math.min(upto, trace.length), asked = [];
    for (let k = start; k <= end; k++) {
      const { label } = trace[k - 1];
      if (k === start || label === "fetch" || label === "wait" || label.startsWith("stop") || trace[k - 2].label === "unext") asked.push(k);
    }
    const text = stepped(session, `node ${name}\n`, asked.map(k => trace[k - 1].place));
    return this.walked(trace, start, end, asked, nexts_of(session.core.answer(text, session.limit) || ""));
  }

  walked(trace, start, end, asked, nexts) {
    const cells = new Int16Array(end + 1).fill(-1), slots = new Int8Array(end + 1);
    let cell = -1, slot = 4, i = 0;
    for (let k = start; k <= end; k++) {
      const next = asked[i] === k ? nexts[i++] : null, is_wait = trace[k - 1].label === "wait";
      if (next) slot = next.slot;
      const is_fetch = slot === 4;
      if (is_fetch) cell = next && cell_at(next.p) !== null ? cell_at(next.p) : -1;
      cells[k] = cell; slots[k] = is_fetch ? -1 : slot;
      if (!is_wait) slot = is_fetch ? 0 : slot + 1;
    }
    return { cells, slots };
  }

  // The key of each slot of each cell that the node's steps were made in, by eight times the cell and the slot.
  keys(name, { cells, slots }) {
    const { session } = this, firsts = [], keys = [], texts = [];
    for (let k = 1; k < cells.length; k++) { const id = cells[k] * 8 + slots[k]; if (cells[k] >= 0 && slots[k] >= 0 && !firsts[id]) firsts[id] = k; }
    const found = firsts.map((k, id) => [id, k]).filter(it => it).sort(([, one], [, other]) => one - other);
    if (!session.is_source) { for (const [id] of found) keys[id] = `${name} ${id >> 3} ${id & 7}`; return keys; }
    let made = 0;
    for (const [, k] of found) {
      for (const { place } = session.event_at([name, k]); made <= place; made++) texts.push("step " + session.events[made].ends[0][0]);
      texts.push(`at ${name} last 0`);
    }
    const answers = objects_of(session.core.lines(session.load + lines_of(texts), session.limit) || "").filter(it => it.command === "at");
    answers.forEach(({ rows: [row] = [] }, i) => { if (row) keys[found[i][0]] = row_of(name, row).key; });
    return keys;
  }

  // The cell, the slot and the word of each step of a node. All its steps are walked once, until the history changes.
  all_of(name) {
    if (!this.whole[name]) {
      const found = this.fetched(name, 1, this.steps(name));
      this.whole[name] = { ...found, keys: this.keys(name, found) };
    }
    return this.whole[name];
  }

  // The steps of a node that came from a word, without fetches and filled slots.
  steps_of(name, key, text) {
    const { cells, slots, keys } = this.all_of(name), trace = this.session.traces[name] || [], steps = [];
    for (let k = 1; k < cells.length; k++) if (slots[k] >= 0 && cells[k] >= 0 && keys[cells[k] * 8 + slots[k]] === key && !text.is_filler(key, trace[k - 1].label)) steps.push(k);
    return steps;
  }
}
