// The page of help: how to find a fault, the mouse, the keys, and the commands as the core's own `help` answers them.
const HELP = [
  ["A fault, found", null, `<p>The example <b>fault.f18</b> is open: node 001 has stopped (■).</p><ol>
    <li>Click its last step, <code>10 stop 2</code>. What led there is blue (◆).</li>
    <li>Press <b>whence</b>: the steps whose values went into it, the nearest first: 2&gt;1 is line 2, whose value line 1 used.</li>
    <li>Click <code>000 7</code> there. Its word <code>2*</code> is marked in the source: it doubles the address that node 000 sends. What depends on the step is orange (×); node 200 has no part in it.</li>
    <li><b>take back</b> removes that step and all that depends on it, and nothing else. <b>redo</b> makes it again.</li></ol>
    <p>A program of your own, source or an image, can be pasted or dropped anywhere. <b>run until</b> then runs it up to a stop.</p>`],
  ["Mouse", [
    ["a step", "what led to it, what depends on it, and the chip as it would be without it; once more: take it back"],
    ["a word of the source", "its first step, then the next one"],
    ["a node", "its registers, memory and steps; twice: one step of it"],
    ["a step, a node or a line in an answer", "goes there"],
    ["a session in the answer of check", "makes the events that lead to that end; redo makes those before again"],
    ["a cell of the memory", "the steps that wrote it"],
    ["a mark ▼ or a line of races", "the chip as it would be had the step come out otherwise; once more: make it so"],
    ["the picture", "drag: earlier and later; wheel: nearer and farther"]]],
  ["Keys: make and remove events", [
    ["s", "one step of the selected node"], ["r", "a round: one step of each node that has work"], ["m", "run; n: how many events, v: in which order"], ["u", "run until a condition, then Enter"],
    ["b", "undo the newest event"], ["t, Enter", "take the chosen step back, with all that depends on it"], ["g", "redo: make again what was taken back"]]],
  ["Keys: choose", [
    [", .", "the step before, the step after (Page Up and Page Down: by twenty; Home, End)"], ["p", "the other end of a pass"], ["j", "the next step of the same word"], ["arrows", "the node beside; in the list of steps, the step above or below"], ["Escape", "nothing is chosen"]]],
  ["Keys: ask", [
    ["q", "whence: the steps whose values went into the chosen one"], ["k", "because: the newest steps that decided where the node went on before it"], ["w", "why: from the step chosen before to this one"], ["f", "effects: what a rollback of it would remove"],
    ["h", "who waits for whom"], ["!", "check: how the program can end, in whatever order its nodes run"], ["y", "words: those that went over the link"], ["z", "races: steps that another order would change"], ["/", "a command"]]],
  ["Keys: the rest", [
    ["e", "examples"], ["o", "open a file"], ["i", "edit the text; Ctrl and Enter opens it"], ["c", "copy the session; d: as ga144 debug reads it"], ["x", "save"], ["#", "put the session into the address"],
    ["+ - 0", "nearer, farther, all"], ["[ ]", "earlier, later"], ["a", "all nodes in the picture"], ["l", "light or dark"], ["?", "this page"]]],
];

function help_table(rows) {
  const table = element("table");
  for (const [left, right] of rows) { const row = element("tr"); row.append(element("th", "", left), element("td", "", right)); table.append(row); }
  return table;
}

// Opens the help, at the commands if these are requested.
function show_help(answer, at = "") {
  const box = find("helptext"), { commands, remarks } = help_of(answer);
  box.textContent = "";
  const head = (title, id) => { const it = element("h3", "", title); it.id = id || ""; box.append(it); return it; };
  for (const [title, rows, text] of HELP) {
    head(title);
    if (rows) box.append(help_table(rows)); else box.append(Object.assign(element("div"), { innerHTML: text }));
  }
  const first = head("Commands of the field", "commands");
  box.append(element("p", "dim", "help COMMAND writes more of one, with an example."), help_table(commands), ...remarks.map(it => element("p", "dim", it)));
  find("keys").showModal();
  if (at) first.scrollIntoView(); else box.scrollTop = 0;
}
