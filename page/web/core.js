// The proved calls, each a question to a module at its start: text in, an answer out, nothing kept in between. Null is answered
// where there is no memory for the question itself.
const bytes_of = text => typeof text === "string" ? new TextEncoder().encode(text) : text;
// Source may have any bytes.
function text_of(bytes) { try { return new TextDecoder("utf-8", { fatal: true, ignoreBOM: true }).decode(bytes); } catch { return Array.from(bytes, it => String.fromCharCode(it)).join(""); } }

// A larger memory isn't kept for the next question.
const LARGEST_KEPT = 1 << 28;

// How a session ended whose answers were not all written: there was no memory for them, or the input is too long.
const CUT = 2;

class Core {
  constructor(module, heap = 0) { this.module = module; this.heap = heap; this.idle = null; }

  // A module at its start: a new one, or that of the question before. Its memory stays as large as it was, since a new one for each
  // question would be garbage of many megabytes; what was in it at its start is written again, and the rest the heap hands out unread.
  started() {
    const it = this.idle || { core: new WebAssembly.Instance(this.module, {}).exports }, memory = new Uint8Array(it.core.memory.buffer);
    if (this.idle) memory.set(it.start); else it.start = memory.slice();
    this.idle = null;
    if (this.heap) it.core.heap_limit(BigInt(this.heap));
    return it;
  }

  // The answer's bytes are in the module's memory: they are gone with the next question.
  question(input, ask, more = () => null) {
    const it = this.started(), { core } = it, at = core.room(BigInt(input.length));
    if (!at) return null;
    new Uint8Array(core.memory.buffer).set(input, Number(at));
    const count = Number(BigInt.asIntN(64, ask(core, BigInt(input.length)))), { buffer } = core.memory;
    if (buffer.byteLength <= LARGEST_KEPT) this.idle = it;
    return count < 0 ? null : { bytes: new Uint8Array(buffer, Number(core.answer()), count), more: more(core) };
  }

  // What a session of `ga144 explore` answers, as text to be shown; and as lines of objects, as `explore --json`. Null too where memory was
  // wanting for the answers.
  answer(text, limit) { return this.session(text, (core, count) => core.run(count, limit), "no 33 input\n"); }
  lines(text, limit) { return this.session(text, (core, count) => core.run_json(count, limit), '"refused":33,"why":"input"}\n'); }

  session(text, ask, too_long) {
    const said = this.question(bytes_of(text), ask, core => core.ended());
    if (!said) return null;
    const told = text_of(said.bytes);
    return said.more !== CUT || told.endsWith(too_long) ? told : null;
  }

  // The nodes that made the events kept at a session's end, in their order. Null if there are none, or if memory ran out.
  kept(text, limit) {
    const said = this.question(bytes_of(text), (core, count) => core.kept(count, limit));
    return said && said.bytes.length ? said.bytes.slice() : null;
  }

  // The image of a source, empty where it is refused; and its fault, or its warnings.
  assemble(source) {
    const told = core => { const from = Number(core.told()), all = new Uint8Array(core.memory.buffer, from, 4096); return text_of(all.subarray(0, all.indexOf(0))); };
    const said = this.question(bytes_of(source), (core, count) => core.assemble(count), told);
    return said ? { image: text_of(said.bytes), told: said.more } : { image: "", told: "no 4 memory\n" };
  }

  list(source) {
    const said = this.question(bytes_of(source), (core, count) => core.list(count));
    return said ? text_of(said.bytes) : "";
  }

  // How the program of a session can end, in whatever order its nodes run; or the steps that lead to a kind of end. Null if memory ran out.
  check(load, most, limit, kind) {
    const said = this.question(bytes_of(load), (core, count) => core.check(count, most, limit, kind));
    return said && text_of(said.bytes);
  }

  // For each event that these nodes make in turn, its relation to the one at a place: 2 depends on it, 1 is a cause of it, 0 neither.
  shades(image, nodes, place) {
    const front = bytes_of(image), input = new Uint8Array(front.length + nodes.length);
    input.set(front); input.set(nodes, front.length);
    const said = this.question(input, core => core.shades(BigInt(front.length), BigInt(nodes.length), place));
    return said && said.bytes.length === nodes.length ? said.bytes.slice() : null;
  }
}
