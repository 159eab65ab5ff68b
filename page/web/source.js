// The program's text: where it ends, its words, and a listing of an image. What its words become, the core says.

// A line `end`. To the core lines end with a line feed alone; `$` matches before a carriage return and other ends of lines too.
const END = /(?<![^\n])end(?![^\n])/;

// The part before the first line `end`, with that line, and the commands after it.
function parted(text) {
  const found = END.exec(text);
  if (!found) return { load: text.endsWith("\n") || !text ? text : text + "\n", commands: [] };
  const at = found.index + 3;
  return { load: text.slice(0, at) + "\n", commands: text.slice(at).match(/[^\n]+/g) || [] };
}

// Source is what doesn't begin as an image does, as for `ga144 explore`.
function is_source(text) { return !text.startsWith("ga144"); }

const is_plain = text => !/[^\x00-\x7f]/.test(text);

// The words of a line: from where to where, the column in bytes from 1 on, and whether it is part of a remark.
function words_of(line) {
  const words = [], plain = is_plain(line);
  let remark = "";
  for (const { 0: text, index } of line.matchAll(/[^ \t]+/g)) {
    if (!remark && (text === "\\" || text === "(")) remark = text;
    words.push({ text, from: index, column: (plain ? index : bytes_of(line.slice(0, index)).length) + 1, remark: !!remark });
    if (remark === "(" && text !== "(" && text.endsWith(")")) remark = "";
  }
  return words;
}

// Of each line the node whose program it continues.
function nodes_by_line(lines) {
  let node = "", is_next = false;
  return lines.map(line => {
    const before = node;
    if (is_next || line.includes("node")) for (const { text, remark } of words_of(line)) {
      if (remark) continue;
      if (is_next) node = text;
      is_next = !is_next && text === "node";
    }
    return before;
  });
}

// A source's lines, as rows that the pane shows. A word's key is `LINE:COLUMN`.
class SourceText {
  constructor(load) { this.lines = load.replace(/\n$/, "").split("\n"); if (this.lines.at(-1) === "end") this.lines.pop(); }
  get count() { return this.lines.length; }
  words(row) { return words_of(this.lines[row]).map(it => ({ ...it, key: it.remark ? null : `${row + 1}:${it.column}` })); }
  text(row) { return this.lines[row]; }
  number(row) { return row + 1; }
  // The node whose program has a word.
  node_at(row, column) {
    if (!this.nodes) this.nodes = nodes_by_line(this.lines);
    const inside = words_of(this.lines[row]).filter(it => !it.remark && it.column < column).map(it => it.text), at = inside.lastIndexOf("node");
    return at >= 0 && inside[at + 1] || this.nodes[row];
  }
  row_of(key) { return parseInt(key) - 1; }
  word(key) { const row = this.row_of(key); return (this.words(row).find(it => it.key === key) || { text: "" }).text; }
  // A word's line from it on.
  rest(key) { const row = this.row_of(key), it = this.words(row).find(it => it.key === key); return it ? this.lines[row].slice(it.from) : ""; }
  shown(key) { return key; }
  // A filled slot came from no word of its own.
  is_filler(key, label) { return label === "." && !/^(\.|nop|\.\.)$/.test(this.word(key)); }
}

// As `list` writes an instruction word: without the slots at its end that do nothing.
function without_filling(names) { return names.slice(0, names.findLastIndex(it => it !== ".") + 1); }

// Jumps and calls with the whole address in three digits: the bits that the slot lacks are those of P after the word and its literals.
function with_addresses(names, after) {
  return names.map((text, slot) => {
    const [name, bits] = text.split(" ");
    return bits === undefined ? text : `${name} ${hex(after & ~[0x3ff, 0xff, 7][slot] & 0x1ff | parseInt(bits, 16), 3)}`;
  });
}

// The listing of an image as `list` writes it of source. A slot's key is `NODE CELL SLOT`.
class ListingText {
  constructor(names, cells) {
    this.rows = []; this.starts = {};
    for (const name of names) {
      const words = cells[name], used = words.findLastIndex(it => it) + 1;
      let literals = 0;
      this.starts[name] = this.rows.push({ name });
      words.slice(0, used).forEach((word, cell) => {
        const { names, literals: more } = decode(word), is_literal = literals > 0;
        literals = is_literal ? literals - 1 : more;
        this.rows.push({ name, cell, word, names: is_literal ? [`0x${hex(word, 5)}`] : with_addresses(without_filling(names), cell + 1 + more), is_literal });
      });
    }
  }
  get count() { return this.rows.length; }
  text(row) {
    const it = this.rows[row];
    return it.names ? `${hex(it.cell, 3)} ${hex(it.word, 6)} ${it.names.join(" ")}`.trimEnd() : `node ${it.name}`;
  }
  words(row) {
    const { name, cell, names, is_literal } = this.rows[row];
    let from = 11;
    return !names || is_literal ? [] : names.map((text, slot) => { const it = { text, from, key: `${name} ${cell} ${slot}` }; from += text.length + 1; return it; });
  }
  number() { return ""; }
  node_at(row) { return this.rows[row].name; }
  row_of(key) { const [name, cell] = key.split(" "); return this.starts[name] === undefined || cell > 63 ? -1 : this.starts[name] + +cell; }
  // The names of a slot's cell, and the slot that is shown for it: of one that is left out the slot before.
  names(key) { const it = this.rows[this.row_of(key)]; return it && it.name === key.slice(0, 3) && it.names || []; }
  shown(key) { const [name, cell, slot] = key.split(" "); return `${name} ${cell} ${Math.max(0, Math.min(slot, this.names(key).length - 1))}`; }
  word(key) { return this.names(key)[this.shown(key).split(" ")[2]] || ""; }
  is_filler(key) { return this.shown(key) !== key; }
}

// The cell that an address names; none where it names no memory.
function cell_at(p) { return p & 0x100 ? null : p & 0x80 ? 0x80 | p & 0x3f : p & 0x3f; }
