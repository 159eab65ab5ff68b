// The chip, and the node that is selected.

// What a node does, in a word.
function doing(node) {
  if (node.stop) return "■ " + node.stop;
  if (node.sides.length) return { reads: "?", writes: "!", fetches: "@" }[node.does] + node.sides.map(it => it[0]).join("");
  return "▶ " + (node.slot === 4 ? "fetch" : (decode(parseInt(node.i, 16)).names[node.slot] || "fetch"));
}

const STOPS = { 1: "writes to several ports", 2: "an address that names nothing", 3: "by the image" };
function told_doing(node) {
  const ports = node.sides.join(" or ");
  if (node.stop) return `stopped, ${node.stop}: ${STOPS[node.stop] || ""}`;
  if (ports) return { reads: `waits to read ${ports}`, writes: `waits to write ${ports}`, fetches: `waits for code ${ports.length > 20 ? "on all sides" : ports}` }[node.does];
  return "runs, next " + doing(node).slice(2);
}

class ChipPane {
  constructor(page) { this.page = page; this.box = find("chip"); }

  // The cells, with the numbers of columns and rows at two sides.
  build() {
    const { page, box } = this;
    box.append(element("span"));
    for (let x = 0; x < 18; x++) box.append(element("span", "axis", String(x).padStart(2, "0")));
    for (let y = 7; y >= 0; y--) {
      box.append(element("span", "axis", y));
      for (let x = 0; x < 18; x++) {
        const name = NAMES[18 * y + x], cell = element("div");
        cell.id = "n" + name;
        cell.onclick = () => page.select(name);
        cell.ondblclick = () => page.command("step " + name);
        box.append(cell);
      }
    }
  }

  // Rows and columns without a node that does something are small.
  arrange(active) {
    const columns = new Set(active.map(n => +n.slice(1))), rows = new Set(active.map(n => +n[0])), all = Array.from({ length: 18 }, (_, x) => columns.has(x) ? "minmax(0,4fr)" : "minmax(0,1fr)");
    this.box.style.gridTemplateColumns = `14px ${all.join(" ")}`;
    this.box.style.gridTemplateRows = `13px ${Array.from({ length: 8 }, (_, i) => rows.has(7 - i) ? "32px" : "13px").join(" ")}`;
  }

  draw(nodes) {
    const { page } = this, [, past, goes] = page.touched;
    if (!this.box.childNodes.length) this.build();
    NAMES.forEach((name, i) => {
      const node = nodes[i], cell = find("n" + name), steps = page.session.steps[name] || 0, active = page.is_active(name);
      const kind = ["cell", active && "active", node.stop && "stop", name === page.selected && "selected", goes.includes(name) ? "goes" : past.includes(name) && "past"].filter(it => it).join(" ");
      const title = `node ${name}: ${told_doing(node)}, ${steps} step${steps === 1 ? "" : "s"}\nP ${node.p} A ${node.a} B ${node.b} T ${node.d[0]} S ${node.d[1]} R ${node.r[0]}`;
      // What is as it was needs no drawing.
      if (cell.className === kind && cell.title === title) return;
      cell.className = kind; cell.title = title;
      cell.innerHTML = active ? `<span class="name">${name}</span><span class="more">${steps || ""}</span><span class="what">${safe(doing(node)).replace(" ", '<span class="next"> ')}</span>` : "";
      if (active) for (const side of node.sides) cell.append(element("i", `side ${compass(name, side[0])}${node.does === "writes" ? " write" : ""}`));
    });
  }
}

class NodePane {
  constructor(page) {
    this.page = page; this.shown = "";
    find("memory").onclick = event => { const row = event.target.closest("[data-at]"); if (row) page.command(`writes ${page.selected} ${row.dataset.at}`); };
  }

  // The source at an address of the selected node: its label, and its line.
  source_at(p) {
    const { session, selected } = this.page, cells = session.listing && session.listing[selected], at = p === undefined ? null : cell_at(p);
    return cells && at !== null && cells.get(at) || null;
  }

  draw() {
    const { page } = this, name = page.selected, { nodes, cells, loaded } = page.seen, node = nodes[NUMBER[name]], pointer = parseInt(node.p, 16), steps = page.session.steps[name] || 0;
    const slots = node.slot === 4 ? "fetch is due" : decode(parseInt(node.i, 16)).names.map((it, i) => i === node.slot ? `<span class="due">${safe(it)}</span>` : safe(it)).join(" ");
    const then = page.then && page.then[NUMBER[name]], here = this.source_at(pointer), value = (title, text) => `<span><span class="dim">${title}</span>${text}</span>`;
    const words = list => `<span>${list.slice(0, 4).join(" ")}</span><span></span><span>${list.slice(4).join(" ")}</span>`;
    this.draw_memory(name, cells, loaded, pointer);
    set_html(find("node"), `<h2>Node ${name} <span class="state">${safe(told_doing(node))}</span><span class="count">${steps} step${steps === 1 ? "" : "s"}</span></h2>
      <div class="registers">${value("P", node.p)}${value("A", node.a)}${value("B", node.b)}${value("io", node.io)}${value("T", `<b>${node.d[0]}</b>`)}${value("S", node.d[1])}${value("R", node.r[0])}${value("I", node.i)}</div>
      <div class="stacks"><span class="dim">slots</span><span>${slots}<span class="dim">${node.carry === 0 ? "" : " carry"}</span></span><span class="dim">source</span><span class="source">${here ? `<b>${safe(here.label)}</b> ${safe(here.line)}` : "none"}</span>
      <span class="dim">data</span>${words(node.d.slice(2))}<span class="dim">return</span>${words(node.r.slice(1))}<span class="dim">then</span><span class="then">${then ? `${safe(doing(then))} P ${then.p} T ${then.d[0]} S ${then.d[1]} R ${then.r[0]}` : ""}</span></div>`);
  }

  draw_memory(name, cells, loaded, pointer) {
    let literals = 0;
    const box = find("memory"), here = pointer & 0x180 ? -1 : pointer & 63, rows = cells.map((word, at) => {
      const { names, literals: more } = decode(word), is_literal = literals > 0, told = this.source_at(at);
      literals = is_literal ? literals - 1 : word ? more : 0;
      const kind = [at === here && "here", word !== loaded[at] && "changed"].filter(it => it).join(" ");
      return `<div class="${kind}" data-at="${hex(at, 2)}" title="${safe(told ? told.line : "").replace(/"/g, "&quot;")}&#10;a click: the steps that wrote it"><span class="at">${hex(at, 2)}</span><span>${hex(word, 6)}</span><span>${is_literal ? "literal " + word : word ? safe(names.join(" ")) : ""}</span><span class="source">${told && told.first ? safe(told.first) : ""}</span></div>`;
    });
    if (!box.firstChild) set_html(box, rows.join(""));
    if (this.shown !== name && here >= 0) box.scrollTop = Math.max(0, (here - 2) * ROW);
    this.shown = name;
    set_html(box, rows.join(""));
  }
}
