// The panes of text: the program, a node's steps, and the log of answers.

// The program's text. The word of the chosen step is marked, and a click on a word chooses its steps.
class SourcePane {
  constructor(page) {
    this.page = page; this.list = new List(find("source"), row => this.row(row)); this.text = null; this.expected = {};
    find("source").onclick = event => { const key = event.target.dataset.key; if (key) page.choose_word(key); };
    find("source").onpointerover = event => { const key = event.target.dataset.key; if (key) page.prepare_word(key); };
  }
  // The program of a session: source as it is, of an image the cells of the nodes that it names.
  set(session, names) {
    this.text = session.is_source ? new SourceText(session.load) : new ListingText(names, session.cells_at_load(names));
    this.marked = null; this.line = 0;
    find("sourcename").textContent = session.is_source ? "Source" : "Listing";
    find("source").scrollTop = 0; find("source").scrollLeft = 0;
    this.list.set(this.text.count);
  }
  // Marks the word of a step, or a whole line; and scrolls to it.
  mark(key, kind, line = 0) {
    this.marked = key && this.text.shown(key); this.kind = kind; this.line = line;
    const row = key ? this.text.row_of(key) : line - 1;
    if (row >= 0 && row < this.text.count) this.list.reveal(row);
  }
  draw(rows) { this.list.draw(rows); }
  // Scrolls to the right if the marked word isn't seen.
  reveal_word() {
    const box = this.list.box, it = box.querySelector(".picked, .last");
    if (!it) return;
    const left = it.offsetLeft, right = left + it.offsetWidth + 8;
    if (left < box.scrollLeft || right > box.scrollLeft + box.clientWidth) box.scrollLeft = right <= box.clientWidth ? 0 : left - box.clientWidth / 2;
  }
  row(at) {
    const text = this.text.text(at), own = this.text.node_at(at, Infinity) === this.page.selected, expected = this.expected[at + 1];
    const row = element("div", `line${own ? " own" : ""}${this.line === at + 1 ? " marked" : ""}${expected ? ` ${expected.state}` : ""}`);
    let upto = 0;
    if (expected) row.title = expected.text;
    row.append(element("span", "number", this.text.number(at)));
    for (const { text: word, from, key, remark } of this.text.words(at)) {
      if (from > upto) row.append(text.slice(upto, from));
      const it = element("span", remark ? "remark" : "word", word);
      if (key) it.dataset.key = key;
      if (key && key === this.marked) it.classList.add(this.kind);
      row.append(it);
      upto = from + word.length;
    }
    row.append(text.slice(upto));
    return row;
  }
}

// The steps of the selected node, each with what it did, T after it, and its word of the program.
class TracePane {
  constructor(page) {
    this.page = page; this.list = new List(find("trace"), at => this.row(at), () => page.ask_rows(this.seen())); this.shown = "";
    find("trace").onclick = event => { const row = event.target.closest("[data-k]"); if (row) page.choose([page.selected, +row.dataset.k]); };
  }
  // Shows the steps of a node; another node's, or more of them, from the end, unless a step is chosen.
  set(name, steps, chosen) {
    const shown = `${name} ${steps}`, is_other = shown !== this.shown;
    Object.assign(this, { name, shown });
    if (is_other) find("trace").style.setProperty("--digits", `${String(steps).length}ch`);
    this.list.set(steps);
    if (chosen) this.list.reveal(chosen - 1); else if (is_other) this.list.end();
  }
  // The steps that are seen.
  seen() { const [from, upto] = this.list.seen(); return [this.name, from + 1, upto]; }
  draw(rows) { this.list.draw(rows); }
  row(at) {
    const { page } = this, { session } = page, k = at + 1, event = session.event_at([this.name, k]), told = session.places.row(this.name, k);
    const mark = page.marks ? page.marks[event.place] : 0, picked = page.chosen && page.chosen[0] === this.name && page.chosen[1] === k;
    const row = element("div", `step ${["", "past", "goes"][mark]}${picked ? " picked" : ""}`), { key, place } = told || {};
    const word = key ? page.source.text.word(key) : "";
    row.dataset.k = k;
    row.append(element("span", "mark", " ◆×"[mark]), element("span", "k", k), element("span", "deed", told ? told.deed : event.label), element("span", "t", told ? told.t : ""));
    row.append(element("span", "source", place ? `${place.line} ${word}` : word));
    row.title = `${event.text}${told ? `, then T ${told.t}` : ""}${place ? `\n${hex(place.cell, 3)} ${place.label} ${place.line}: ${page.source.text.rest(key)}` : ""}`;
    return row;
  }
}

// Commands and their answers. What they name can be clicked.
class Log {
  constructor(page) {
    this.box = find("log");
    this.box.onclick = event => { if (event.target.dataset.go) page.follow(JSON.parse(event.target.dataset.go)); };
  }
  clear() { this.box.textContent = ""; }
  // The lines of an answer, and its object, or null.
  say(asked, answer, told) {
    const entry = element("div"), parts = (line, at) => told ? parts_named(line, names_of(told, at, answer)) : asked === "check" ? check_parts(line) : message_parts(line);
    entry.append(element("b", "", `> ${asked}`), "\n");
    answer.slice(0, 200).forEach((line, at) => entry.append(...parts(line, at).map(it => this.part(it)), "\n"));
    if (answer.length > 200) entry.append(element("span", "dim", `.. and ${answer.length - 200} more lines`), "\n");
    this.box.append(entry);
    while (this.box.childNodes.length > 400) this.box.firstChild.remove();
    this.box.scrollTop = this.box.scrollHeight;
  }
  part({ text, dim, ...to }) {
    if (dim) return element("span", "dim", text);
    if (!Object.keys(to).length) return text;
    const it = element("a", "", text);
    it.tabIndex = 0; it.dataset.go = JSON.stringify(to); it.setAttribute("role", "link");
    return it;
  }
}
