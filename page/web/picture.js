// The space-time picture: nodes are lines, time runs to the right. What would go is a cross, a cause a diamond, others are dots.

// Events in the order of their depth: 1 more than the deepest of the events before it on its nodes. Only for drawing.
function placed(events) {
  const depth = new Uint32Array(NODES.length), xs = new Uint32Array(events.length);
  let deepest = 0;
  events.forEach(({ one, other, pass }, at) => {
    const x = 1 + (pass ? Math.max(depth[one], depth[other]) : depth[one]);
    depth[one] = xs[at] = x;
    if (pass) depth[other] = x;
    if (x > deepest) deepest = x;
  });
  // In one walk, since all depths are small numbers.
  const starts = new Uint32Array(deepest + 2), order = new Uint32Array(events.length);
  for (const x of xs) starts[x + 1]++;
  for (let x = 1; x < starts.length; x++) starts[x] += starts[x - 1];
  for (let at = 0; at < xs.length; at++) order[starts[xs[at]]++] = at;
  return { xs, order, deepest: Math.max(1, deepest) };
}

// A column from afar is as many points wide or some more, so that the last is whole; and a number in four letters at most.
const COLUMN = 44;
function brief(count) { return count < 10000 ? `${count}` : count < 1e6 ? `${Math.round(count / 1000)}k` : `${Math.round(count / 1e6)}M`; }

// An empty canvas of a size. A new size is a new bitmap.
function sized(canvas, width, height) {
  const g = canvas.getContext("2d");
  if (canvas.width === width && canvas.height === height) g.reset(); else { canvas.width = width; canvas.height = height; }
  return g;
}

class Picture {
  constructor(canvas) { this.canvas = canvas; this.from = 0; this.wide = 60; this.set([], []); }
  // The events, and the nodes that have a line; and whether all events were to be seen before.
  set(events, names) { this.was_whole = this.from === 0 && this.wide >= this.deepest; this.events = events; this.names = names; Object.assign(this, placed(events)); }
  show(x) { if (x < this.from + 2 || x > this.from + this.wide - 2) this.from = Math.max(0, x - this.wide * .8); }
  zoom(by, around = .5) {
    const wide = Math.max(8, Math.min(this.wide * by, this.whole(30)));
    this.from = Math.max(0, this.from + (this.wide - wide) * around); this.wide = wide;
  }
  // The beginning, with its events distinguishable; and all of it.
  begin() { this.from = 0; this.wide = Math.max(this.events.length ? 16 : 30, Math.min(this.deepest + 4, this.canvas.clientWidth / 9)); }
  fit() { this.from = 0; this.wide = this.whole(16); }
  // All events, and room for the frame round the last.
  whole(least) { return Math.max(least, this.deepest * (1 + 12 / Math.max(100, this.canvas.clientWidth - 34)) + 4); }
  move(part) { this.from = Math.max(0, Math.min(this.from + part * this.wide, this.deepest - this.wide / 2)); }

  // The first place in the order whose depth is at least x.
  first_at(x) {
    let low = 0, high = this.order.length;
    while (low < high) { const mid = (low + high) >> 1; if (this.xs[this.order[mid]] < x) low = mid + 1; else high = mid; }
    return low;
  }

  draw(marks, chosen, selected, races = []) {
    const { canvas } = this, ratio = window.devicePixelRatio || 1, width = canvas.clientWidth, many = this.names.length;
    const height = Math.max(canvas.parentElement.clientHeight || 120, 16 + many * (many > 30 ? 9 : 16));
    canvas.style.height = height + "px";
    const g = sized(canvas, Math.floor(width * ratio), Math.floor(height * ratio)), style = getComputedStyle(document.documentElement), colour = name => style.getPropertyValue("--" + name).trim();
    g.scale(ratio, ratio); g.textBaseline = "middle"; g.font = "10px DejaVu Sans Mono, monospace";
    const left = 34, row = Math.min(40, (height - 12) / Math.max(1, many)), unit = (width - left) / this.wide;
    const colours = [colour("dim"), colour("past"), colour("goes")], back = this.back = colour("card"), text = colour("text"), pick = colour("pick");
    const line = Object.fromEntries(this.names.map((n, i) => [n, 10 + row * (i + .4)]));
    for (const n of this.names) {
      g.strokeStyle = colour("line"); g.lineWidth = 1; g.beginPath(); g.moveTo(left, line[n]); g.lineTo(width, line[n]); g.stroke();
      if (row > 8) { g.fillStyle = n === selected ? pick : colours[0]; g.fillText(n, 6, line[n]); }
    }
    this.spots = []; this.turns = []; this.column = (width - left) / Math.max(1, Math.floor((width - left) / COLUMN));
    const from = this.first_at(this.from), upto = this.first_at(this.from + this.wide + 1), labels = [], dots = [];
    const over = () => { this.draw_races(g, races, line, left, width, unit, colour("race"), pick); if (chosen) this.draw_pick(g, chosen, line, left, unit, pick); };
    this.far = unit < 2;
    if (this.far) { this.draw_far(g, marks, from, upto, line, left, unit, colours); return over(); }
    for (let i = from; i < upto; i++) {
      const at = this.order[i], event = this.events[at], kind = marks ? marks[at] : 0, px = left + (this.xs[at] - this.from) * unit;
      if (!(event.ends[0][0] in line)) continue;
      g.strokeStyle = g.fillStyle = colours[kind];
      if (event.pass) {
        const [one, other] = event.ends.map(([n]) => line[n]), way = Math.sign(other - one);
        g.setLineDash(kind === GOES ? [4, 3] : []); g.lineWidth = kind === PAST ? 2.5 : 1; g.beginPath(); g.moveTo(px, one); g.lineTo(px, other); g.stroke(); g.setLineDash([]);
        if (unit > 5) { g.beginPath(); g.moveTo(px, other - 4 * way); g.lineTo(px - 3, other - 10 * way); g.lineTo(px + 3, other - 10 * way); g.fill(); }
        if (unit > 26) labels.push([event.label.replace(/^0+(?=.)/, ""), px + 4, (one + other) / 2, text, "left"]);
      }
      for (const [n, k] of event.ends) {
        dots.push([kind, px, line[n], event.label === "wait"]);
        this.spots.push([px, line[n], n, k, event]);
      }
      if (!event.pass && row > 18 && unit > 26) labels.push([event.label, px, line[event.ends[0][0]] - 11, colours[0], "center"]);
    }
    // Over the lines the labels, and over these the events.
    g.font = "9px DejaVu Sans Mono, monospace";
    for (const [label, x, y, tint, align] of labels) { g.textAlign = align; lettered(g, label, x, y, tint, back); }
    g.textAlign = "left";
    this.draw_dots(g, dots, unit, colours);
    over();
  }

  // A mark above each step that could have come out otherwise, one beside the other for each way; marks that would hide one another are left out.
  draw_races(g, races, line, left, width, unit, tint, pick) {
    const taken = new Map();
    for (const { race, place, picked } of races) {
      const [name] = race.step, y = line[name] - 8, at = left + (this.xs[place] - this.from) * unit, last = taken.get(name), x = last && last.place === place ? last.x - 11 : at - 9;
      if (!(name in line) || at < left || at > width || (last && last.place !== place && !picked && at < last.at + 9)) continue;
      taken.set(name, { place, at, x });
      g.fillStyle = tint; g.strokeStyle = pick; g.lineWidth = 2;
      g.beginPath(); g.moveTo(x - 5, y - 5); g.lineTo(x + 5, y - 5); g.lineTo(x, y + 4); g.closePath(); g.fill();
      if (picked) g.stroke();
      this.turns.push([x, y, race]);
    }
  }

  draw_dots(g, dots, unit, colours) {
    const size = Math.min(4, Math.max(.6, unit / 3));
    for (const [kind, x, y, hollow] of dots) {
      g.strokeStyle = g.fillStyle = colours[kind];
      if (size < 2) g.fillRect(x, y - 2, Math.max(1, unit), 4); else shape(g, kind, x, y, size, hollow);
    }
  }

  // From afar the picture is cut into columns, and each sums up what is in it: for a node the number of its own steps, whether it came to
  // wait, and a stop; of two nodes how many words went from one to the other. What has most weight gives the colour.
  draw_far(g, marks, from, upto, line, left, unit, colours) {
    const { nodes, links } = this.summed(marks, from, upto, line, unit), { column: wide } = this, across = column => left + column * wide, busy = this.names.length && Math.abs(line[this.names[0]] - line[this.names[1] || this.names[0]]) || 22;
    g.textAlign = "center"; g.font = "9px DejaVu Sans Mono, monospace";
    for (const { column, one, other, count, kind, shift } of links) {
      const x = across(column) + wide * (.25 + .18 * (shift % 4)), way = Math.sign(line[other] - line[one]);
      g.strokeStyle = g.fillStyle = colours[kind]; g.lineWidth = kind ? 2 : 1; g.beginPath();
      g.moveTo(x, line[one] + 5 * way); g.lineTo(x, line[other] - 5 * way); g.stroke();
      g.beginPath(); g.moveTo(x, line[other] - 4 * way); g.lineTo(x - 3, line[other] - 9 * way); g.lineTo(x + 3, line[other] - 9 * way); g.fill();
      if (busy > 18) { g.textAlign = "left"; g.fillText(brief(count), x + 3, (line[one] + line[other]) / 2); g.textAlign = "center"; }
    }
    for (const { column, name, own, waits, stop, kind } of nodes) {
      const x = across(column), y = line[name];
      g.strokeStyle = g.fillStyle = colours[kind]; g.lineWidth = 1;
      if (own) g.fillRect(x + 1, y - 1, wide - 2, 2);
      if (own && busy > 11) lettered(g, brief(own), x + wide / 2 - 4, y, colours[kind], this.back);
      if (waits) { g.fillStyle = this.back; g.fillRect(x + wide - 10, y - 3, 8, 6); g.strokeStyle = colours[kind]; shape(g, 0, x + wide - 6, y, 4, true); g.fillStyle = colours[kind]; }
      if (stop) g.fillRect(x + wide - 7, y - 4, 8, 8);
    }
    g.textAlign = "left";
  }

  // The sums that draw_far shows, of the events of a part of the order: column by column, since the order is by depth.
  summed(marks, from, upto, line, unit) {
    const nodes = [], links = [], drawn = NAMES.map(n => n in line);
    let column = -1, told = null;
    for (let i = from; i < upto; i++) {
      const place = this.order[i], event = this.events[place], { one, other, pass, label } = event, kind = marks ? marks[place] : 0, now = Math.floor(Math.max(0, this.xs[place] - this.from) * unit / this.column);
      if (!drawn[one]) continue;
      if (now !== column) { column = now; told = new Map(); }
      const key = one * 256 + other;
      let it = told.get(key);
      if (!it) {
        if (pass) links.push(it = { column, one: NAMES[one], other: NAMES[other], count: 0, kind: 0, shift: one + 2 * (one > other) });
        else nodes.push(it = { column, name: NAMES[one], own: 0, waits: 0, stop: 0, kind: 0 });
        told.set(key, it);
      }
      if (kind > it.kind) it.kind = kind;
      if (pass) it.count++; else if (label === "wait") it.waits++; else if (label.startsWith("stop")) it.stop++; else it.own++;
    }
    return { nodes, links };
  }

  draw_pick(g, chosen, line, left, unit, pick) {
    const px = left + (this.xs[chosen.place] - this.from) * unit;
    g.lineWidth = 2; g.strokeStyle = pick;
    for (const [n] of chosen.ends) if (n in line) g.strokeRect(px - 7, line[n] - 7, 14, 14);
  }

  // The race whose mark is there.
  race_near(x, y) { const it = this.turns.find(([left, top]) => Math.abs(left - x) <= 6 && Math.abs(top - y) <= 6); return it && it[2]; }

  near(x, y) {
    let best = null, least = 300;
    for (const it of this.spots) { const far = (it[0] - x) ** 2 + (it[1] - y) ** 2; if (far < least) { least = far; best = it; } }
    return best;
  }
}
