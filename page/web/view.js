// How nodes and events look. The names of opcodes, OPCODES, are those of the core; the build writes them into the page.
const find = id => document.getElementById(id);
const safe = text => text.replace(/&/g, "&amp;").replace(/</g, "&lt;");
const hex = (number, digits) => number.toString(16).padStart(digits, "0");
// Calls a function as soon as the page has nothing else to do.
const when_idle = window.requestIdleCallback ? it => requestIdleCallback(it) : it => setTimeout(it, 50);
function element(tag, kind, text) { const it = document.createElement(tag); if (kind) it.className = kind; if (text !== undefined) it.textContent = text; return it; }

// What an element has already isn't made anew.
const html_of = new Map();
function set_html(it, text) { if (html_of.get(it) !== text) { html_of.set(it, text); it.innerHTML = text; } }
function set_text(box, text) { if (box.value !== text) box.value = text; }

// Which way a side of a node leads: its row and column say.
function compass(name, side) {
  const y = +name[0], x = +name.slice(1);
  if (side === "r") return x % 2 ? "W" : "E";
  if (side === "l") return x % 2 ? "E" : "W";
  return (side === "d") === (y % 2 === 1) ? "S" : "N";
}

// The opcodes of an instruction word, and the number of literals after it.
function decode(word) {
  const x = word ^ 0x15555, names = [];
  let literals = 0;
  for (const [slot, code] of [x >> 13 & 31, x >> 8 & 31, x >> 3 & 31, (x & 7) << 2].entries()) {
    const jumps = slot < 3 && [2, 3, 5, 6, 7].includes(code);
    names.push(jumps ? `${OPCODES[code]} ${(word & [0x3ff, 0xff, 7][slot]).toString(16)}` : OPCODES[code]);
    if (code === 8) literals++;
    if (jumps || code < 2) break;
  }
  return { names, literals };
}

function shape(g, kind, x, y, size, hollow) {
  g.lineWidth = 2; g.beginPath();
  if (kind === GOES) { g.moveTo(x - size, y - size); g.lineTo(x + size, y + size); g.moveTo(x + size, y - size); g.lineTo(x - size, y + size); g.stroke(); return; }
  if (kind === PAST) { g.moveTo(x, y - size - 1); g.lineTo(x + size + 1, y); g.lineTo(x, y + size + 1); g.lineTo(x - size - 1, y); g.closePath(); } else g.arc(x, y, size * .75, 0, 7);
  g.lineWidth = 1; if (hollow) g.stroke(); else g.fill();
}

// A text with an outline in the colour of its background, so that lines don't cross it.
function lettered(g, text, x, y, colour, back) {
  g.lineJoin = "round"; g.lineWidth = 4; g.strokeStyle = back; g.strokeText(text, x, y);
  g.fillStyle = colour; g.fillText(text, x, y);
}

// A list of rows of one height, of which only those are in the page that are seen. It keeps its place whatever its rows become.
const ROW = 17;
class List {
  // Before it draws rows that a person scrolled to, it calls `ready`.
  constructor(box, row_of, ready = () => {}) { this.box = box; this.row_of = row_of; this.ready = ready; this.count = -1; this.all = element("div", "all"); this.part = element("div", "part"); this.all.append(this.part); }
  // The rows that are seen, from one on and before another.
  seen() {
    const top = this.box.scrollTop, from = Math.max(0, Math.floor(top / ROW) - 2);
    return [from, Math.min(this.count, Math.ceil((top + (this.box.clientHeight || 400)) / ROW) + 2)];
  }
  set(count) {
    if (this.all.parentNode !== this.box) { this.box.replaceChildren(this.all); this.box.onscroll = () => { this.ready(); this.draw(); }; }
    if (this.count !== count) this.all.style.height = count * ROW + "px";
    this.count = count;
  }
  // Scrolls if the row isn't wholly seen.
  reveal(row) {
    const top = row * ROW, { scrollTop, clientHeight } = this.box;
    if (top < scrollTop || top + ROW > scrollTop + clientHeight) this.box.scrollTop = Math.max(0, top - clientHeight / 2 + ROW);
  }
  end() { this.box.scrollTop = this.count * ROW; }
  draw([from, upto] = this.seen()) {
    const rows = [];
    for (let at = from; at < upto; at++) rows.push(this.row_of(at));
    this.part.style.transform = `translateY(${from * ROW}px)`;
    this.part.replaceChildren(...rows);
  }
}
