// Reads the core's answers: objects of docs/JSON.md where values are read, text where it is shown. What the page knows of their form is here,
// and nowhere else.
const NAMES = [];
for (let y = 0; y < 8; y++) for (let x = 0; x < 18; x++) NAMES.push(`${y}${String(x).padStart(2, "0")}`);
const NUMBER = Object.fromEntries(NAMES.map((name, i) => [name, i]));
const NODES = NAMES.map(n => "node " + n);
const STEPS = NAMES.map(n => `step ${n}\n`);

const NO_MEMORY = "no 4 memory", OUT_OF_MEMORY = { refused: 4, why: "memory" };
// The object that a session begins with.
const READY = '{"answer":"ready"}\n';
const hex_word = number => hex(number, 6);

// The objects of lines.
function objects_of(lines) { return JSON.parse(`[${lines.trim().replaceAll("\n", ",")}]`); }

// P and the next slot of each answer of `node` in a text, without the rest. These too are read of text, since there are as many.
function nexts_of(text) {
  const found = [];
  for (let at = text.indexOf("\nnode "); at >= 0; at = text.indexOf("\nnode ", at + 1)) {
    const p = text.indexOf(" p ", at), slot = text.indexOf(" slot ", p);
    found.push({ p: parseInt(text.slice(p + 3, p + 9), 16), slot: +text[slot + 6] });
  }
  return found;
}

// What an own event, or the event of a row, does: the name of its opcode, or its kind.
const label_of = it => it.what === "run" ? it.opcode : it.what === "stop" ? `stop ${it.stop}` : it.what;
// The nodes of an event, with the step of each.
const ends_of = it => it.what === "pass" ? [[it.from, it.from_step], [it.to, it.to_step]] : [[it.node, it.step]];

// An event; its text is that of the core.
class ChipEvent {
  constructor(it) { this.ends = ends_of(it); this.pass = it.what === "pass"; this.label = this.pass ? hex_word(it.word) : label_of(it); }
  get text() {
    const code = OPCODES.indexOf(this.label), ends = this.ends.map(it => it.join(" ")).join(" ");
    return this.pass ? `pass ${ends} ${this.label}` : `${ends} ${code < 0 ? this.label : `run ${hex(code, 2)}`}`;
  }
}
const event_of = it => it && it.what ? new ChipEvent(it) : null;

// The event of a line of text; null if it is none. It is read so where there are up to 10^5: objects of as many lines take ten times as long.
function event_told(line) {
  const [node, step, what, more, ...rest] = line.split(" ");
  if (node === "pass") return new ChipEvent({ what: "pass", from: step, from_step: +what, to: more, to_step: +rest[0], word: parseInt(rest[1], 16) });
  return ["fetch", "run", "wait", "stop"].includes(what) ? new ChipEvent({ node, step: +step, what, opcode: OPCODES[parseInt(more, 16)], stop: more }) : null;
}

// The text of an answer that changed the chip or was refused; null of a run that reached a condition, and of any other, which the core has to
// name.
function text_of_change(it) {
  if (it.refused) return `no ${it.refused} ${it.why}${it.hint ? `: ${it.hint}` : ""}`;
  if (it.end) return it.end === "reached" ? null : `${it.end} ${it.events}${it.hint ? `: ${it.hint}` : ""}`;
  if (it.what) return event_of(it).text;
  return it.removed ? `removed ${it.removed} kept ${it.kept}` : it.removed === null ? "none" : null;
}
const text_of_count = it => `kept ${it.kept} made ${it.made} limit ${it.limit}`;

// A node: its registers in hexadecimal, and the sides on which it waits.
function node_of({ does, stop, slot, carry, rows, ...it }) {
  const stack = which => rows.filter(({ part }) => which.includes(part)).map(({ value }) => hex_word(value));
  return { does, stop, slot, carry, sides: ["right", "down", "left", "up"].filter(side => it["at_" + side]), p: hex_word(it.p), a: hex_word(it.a), b: hex_word(it.b), i: hex_word(it.i), io: hex_word(it.io), d: stack("tsd"), r: stack("r") };
}

// A race, with the line that shows it: the step, what else it could have been, and the commands that make it so.
function race_of(it, text) {
  const commands = [`rewind ${it.rewind_node} ${it.rewind_step}`, `step ${it.then_node}`], upto = text.indexOf(`: ${commands[0]}`);
  return { text, step: [it.node, it.step], other: text.slice(text.indexOf("or "), upto), back: [it.rewind_node, it.rewind_step], commands };
}

// A text of source: the address of the cell, its label, and its line, with the column where the text begins within that; `front` is what is
// before the line's text.
function place_of(source) {
  if (!source) return null;
  const words = source.split(" "), is_number = text => !!text && text.endsWith(":") && +text.split(":")[0] > 0, at = is_number(words[2]) ? 2 : 1, [line, column] = words[at].split(":");
  return { cell: parseInt(words[0], 16), label: at === 2 ? words[1] : "", line: +line, column: +column || 0, front: words.slice(0, at + 1).join(" ").slice(0, -1) };
}

// A step with T after it, and its cell and word of the source; `deed` is what it did, as `at` writes it.
function row_of(name, it) {
  const is_writer = it.from === name, deed = it.what !== "pass" ? label_of(it) : is_writer ? `sends ${hex_word(it.word)} to ${it.to} ${it.to_step}` : `takes ${hex_word(it.word)} from ${it.from} ${it.from_step}`;
  return { step: it.step, deed, t: hex_word(it.t), place: it.line ? { ...place_of(it.source), line: it.line } : null, key: it.line ? `${it.line}:${it.column}` : null };
}

const is_refused = it => !!it.refused;
const is_out_of_memory = it => it.refused === OUT_OF_MEMORY.refused;
// Of the answer of `effects` each node's first step that would go; of that of `save` how many steps each node makes.
const firsts_of = ({ rows = [] }) => Object.fromEntries(rows.map(it => [it.node, it.first_step]));
function made_of({ text = "" }) { const counts = {}; for (const line of text.split("\n")) { const name = line.slice(5); counts[name] = (counts[name] || 0) + 1; } return counts; }
// The nodes that an image names.
const nodes_named = image => { const lines = new Set(image.split("\n")); return NAMES.filter(it => lines.has("node " + it)); };

// The answer of `effects` as a sentence.
function told_effects(it) {
  if (!it.rows) return text_of_change(it);
  const counted = (count, what) => `${count} ${what}${count === 1 ? "" : "s"}`, firsts = it.rows.slice(0, 6).map(row => `${row.node} ${row.first_step}`).join(", ");
  return `${counted(it.events, "event")} of ${counted(it.nodes, "node")} gone, from ${firsts}${it.rows.length > 6 ? " .." : ""}`;
}

// The line of a fault, as `ga144: line 14: ..` names it of source, and `no 12 line line 14` of an image; messages have no objects.
function line_told(told) {
  const words = told.split(" "), at = words[0] === "ga144:" ? 1 : words[0] === "no" ? 3 : words.length;
  return words[at] === "line" ? parseInt(words[at + 1]) : 0;
}

// ---- links: what an object names, looked for in the text of its answer

const step_named = (name, step) => name && step ? [{ text: `${name} ${step}`, step: [name, step] }] : [];
const node_named = name => name ? [{ text: name, node: name }] : [];

// The steps, and the nodes, that a row names or has from its object, and the place of its source.
function names_in(row, it = row) {
  const steps = [[row.node || it.node, row.step || row.first_step], [row.from || it.from, row.from_step], [row.to || it.to, row.to_step], [row.neighbour, row.neighbour_step], [row.rewind_node, row.rewind_step]];
  const nodes = [row.node, row.from, row.to, row.other_from, row.then_node, row.right, row.down, row.left, row.up];
  return [...steps.flatMap(([name, step]) => step_named(name, step)), ...nodes.flatMap(node_named), ...source_named(row.source)];
}

// The value of a row of `because`, whose fields have a name of their own there.
const value_tested = row => Object.fromEntries(Object.entries(row).filter(([name]) => name.startsWith("source_")).map(([name, value]) => [name.slice(7), value]));

// Commands with rows whose first line, of the object itself, names nodes or steps. That of the others has only counts.
const HEADED = ["node", "trace", "words", "whence"];
// What a line may name of the answers that aren't a line for each row, after one of the object itself. A line of `who` names nodes of any
// row; its last number counts nodes.
const NAMED = {
  save: (it, at, lines) => node_named(lines[at].slice(5)),
  who: it => [{ text: `idle ${it.idle}` }, { text: `and ${it.deadlocked_idle} idle` }, ...Array.from(new Set(it.rows.flatMap(row => [row.node, row.right, row.down, row.left, row.up]))).flatMap(node_named)],
  expectations: (it, at) => { const row = it.rows[at]; return row ? [{ text: `line ${row.line}`, line: row.line, column: 0 }, ...names_in(row)] : []; },
  because: (it, at) => { const row = it.rows[at >> 1]; return !row ? [] : at % 2 ? names_in(value_tested(row)) : names_in(row, it); },
};

// What a line of an answer may name.
function names_of(it, at, lines) {
  if (!it || it.refused) return [];
  if (NAMED[it.command]) return NAMED[it.command](it, at, lines);
  const { rows = [] } = it, heads = rows.length > lines.length ? lines.length : Math.min(1, lines.length - rows.length - (it.more_from ? 1 : 0)), row = rows[at - heads];
  return row ? names_in(row, it) : at < heads && (!it.rows || HEADED.includes(it.command)) ? names_in(it) : [];
}

// The text of the source at the end of a line: its place is a link, the rest is dim.
function source_named(source) {
  const place = place_of(source), mark = " \\ ";
  return place ? [{ text: mark + source, parts: [{ text: mark, dim: true }, { text: place.front, line: place.line, column: place.column }, { text: source.slice(place.front.length), dim: true }] }] : [];
}

// A line in parts: the names that are found in it, the first and longest first, and the text between. What leads somewhere has `step`, `node`,
// `kind`, or `line` and `column`.
function parts_named(line, names) {
  const parts = [], apart = it => it === undefined || " ,:".includes(it);
  const longest = names.filter(it => it.text).sort((one, other) => other.text.length - one.text.length);
  let from = 0;
  for (let at = 0; at < line.length; at++) {
    if (!apart(line[at - 1]) && line[at] !== " ") continue;
    const found = longest.find(it => line.startsWith(it.text, at) && (it.parts || apart(line[at - 1])) && apart(line[at + it.text.length]));
    if (!found) continue;
    const { parts: inside, ...link } = found, upto = at + found.text.length;
    if (inside || Object.keys(link).length > 1) { parts.push({ text: line.slice(from, at) }, ...(inside || [link])); from = upto; }
    at = upto - 1;
  }
  return [...parts, { text: line.slice(from) }].filter(it => it.text);
}

// A line of `check`: its session, and its nodes or steps. Objects of it would take a second search, so these are found in the text alone.
function check_parts(line) {
  const mark = "--session ", at = line.lastIndexOf(mark), own = at < 0 ? line : line.slice(0, at), has_steps = ["  decided", "line "].some(it => line.startsWith(it));
  const found = own.includes(" state") ? [] : own.matchAll(has_steps ? /(?<!\w)([0-7](?:0\d|1[0-7]))(?: ([1-9]\d{0,9}))?(?!\w)/g : /(?<!\w)([0-7](?:0\d|1[0-7]))(?!\w)/g);
  const names = Array.from(found, ([, name, step]) => step ? step_named(name, +step) : node_named(name)).flat();
  return [...parts_named(own, names), ...(at < 0 ? [] : [{ text: line.slice(at), kind: +line.slice(at + mark.length) }])];
}

// A message's line, of which the line of the text is a link.
function message_parts(line) {
  return !line_told(line) ? [{ text: line }] : parts_named(line, [{ text: `line ${line_told(line)}`, line: line_told(line), column: 0 }]);
}

// Of each node each cell that the answer of `list` has, which has no objects: its label, how many cells it is after that, and the source's line.
function listing_of(text) {
  const nodes = {};
  let cells = null, label = "", behind = 0, line = "";
  for (const row of text.split("\n")) {
    const node = /^node (\d{3})$/.exec(row), cell = /^([0-9a-f]{3}) [0-9a-f]{6}(?: (.*))?$/s.exec(row);
    if (node) { cells = nodes[node[1]] = nodes[node[1]] || new Map(); label = ""; behind = 0; }
    else if (cell && cells) {
      const at = (cell[2] || "").indexOf("\\ ");
      if (at >= 0) line = cell[2].slice(at + 2);
      cells.set(parseInt(cell[1], 16), { label: behind ? `${label || "?"}+${behind}` : label, first: !behind && label, line });
      behind++;
    } else if (row.endsWith(":") && cells) { label = row.slice(0, -1); behind = 0; }
  }
  return nodes;
}

// The answer of `help`, which is text in its object too: each command's form and effect, and the remarks between.
function help_of(rows) {
  const commands = [], remarks = [];
  let last = null;
  for (const row of rows) {
    const more = /^ {6,}(\S.*)$/.exec(row), two = /^([a-z].*?) {2,}(\S.*)$/.exec(row);
    if (more) { if (last) last[last.length - 1] += (last[last.length - 1] && " ") + more[1]; }
    else if (two) commands.push(last = [two[1], two[2]]);
    else if (/^[a-z]/.test(row)) commands.push(last = [row, ""]);
    else remarks.push(last = [row]);
  }
  return { commands, remarks: remarks.map(([it]) => it) };
}
