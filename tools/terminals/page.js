"use strict";
// The page of the terminals. All texts come into it as texts, never as HTML.

const ENTRIES_SHOWN = 500;
const NEAR_THE_END = 30;
const MOST_TURNS_AT_ONCE = 100;
const LONGEST_TAC = 8;
const OF_THE_MONITOR = ["KDCSIGN", "KDCDISP", "KDCOUT", "KDCLAST", "KDCOFF"];

const byId = (id) => document.getElementById(id);

function element(name, text, className = "") {
  const made = document.createElement(name);
  made.textContent = text;
  made.className = className;
  return made;
}

function copyOf(id) {
  return byId(id).content.firstElementChild.cloneNode(true);
}

// Asks the server for something; what is wrong with it is told in the place for errors.
async function ask(path, values, error) {
  let answer;
  try {
    const asked = { method: "POST", headers: { "Content-Type": "application/json" }, body: JSON.stringify(values) };
    const response = await fetch(path, asked);
    answer = await response.json();
  } catch (fault) {
    answer = { error: "the server does not answer" };
  }
  error.textContent = answer.error || "";
  error.hidden = !answer.error;
  return !answer.error;
}

// A list of what was typed and sent, which stays at its end unless somebody has scrolled up.
class Entries {
  constructor(list, namesPlaces = false) {
    this.list = list;
    this.namesPlaces = namesPlaces;
  }

  clear() {
    this.list.replaceChildren();
  }

  add(entries) {
    const list = this.list;
    const isAtEnd = list.scrollHeight - list.scrollTop - list.clientHeight < NEAR_THE_END;
    list.append(...entries.slice(-ENTRIES_SHOWN).map((entry) => this.itemOf(entry)));
    while (list.childElementCount > ENTRIES_SHOWN) list.firstElementChild.remove();
    if (isAtEnd) list.scrollTop = list.scrollHeight;
  }

  itemOf(entry) {
    const item = element("li", "", entry.word);
    if (this.namesPlaces) item.append(element("span", entry.place, "place"));
    item.append(element("span", entry.word, "word"), element("span", entry.text, "text"));
    return item;
  }
}

// Whether no service takes the text: one that awaits an input gets all of it, and a TAC what is behind it.
function isTooLong(text, longest) {
  const [word] = text.split(" ", 1);
  const isOfService = !OF_THE_MONITOR.includes(word) && text.length > longest;
  return isOfService && (word.length > LONGEST_TAC || text.length - word.length - 1 > longest);
}

// What may be brought back of an input: the password of a sign-on is not.
function withoutPassword(text) {
  return text.startsWith("KDCSIGN ") ? text.replace(/,.*/, ",") : text;
}

class Terminal {
  constructor(name, longest) {
    this.name = name;
    this.longest = longest;
    this.typed = [];
    this.recalled = 0;
    this.section = copyOf("a-terminal");
    this.section.dataset.name = name;
    const find = (selector) => this.section.querySelector(selector);
    [this.title, this.notice, this.input] = ["h2", ".notice", "input"].map(find);
    [this.length, this.error] = [".length", ".error"].map(find);
    this.history = new Entries(find(".history"));
    this.input.id = `input-${name}`;
    this.title.id = `title-${name}`;
    find("label").htmlFor = this.input.id;
    find("label").textContent = `Input at ${name}`;
    this.section.setAttribute("aria-labelledby", this.title.id);
    find(".history").setAttribute("aria-label", `What was typed and sent at ${name}`);
    find("form").addEventListener("submit", (event) => this.send(event));
    find(".drop").addEventListener("click", () => ask("/drop", { terminal: name }, this.error));
    this.input.addEventListener("input", () => this.measure());
    this.input.addEventListener("keydown", (event) => this.recall(event));
    this.setUser("");
  }

  setUser(user) {
    this.title.textContent = user ? `${this.name}: ${user}` : `${this.name}: nobody is signed on`;
  }

  setWindows(count) {
    const others = count - 1;
    this.notice.textContent =
      others > 0 ? `This terminal is open in ${others} other window${others > 1 ? "s" : ""} too.` : "";
  }

  // Tells what is too long before it is sent.
  measure() {
    const text = this.input.value;
    const tooLong = isTooLong(text, this.longest);
    this.length.textContent = tooLong ? `Too long: ${text.length} characters. A message has at most ${this.longest}.` : "";
    return tooLong;
  }

  async send(event) {
    event.preventDefault();
    if (this.measure()) return;
    const text = this.input.value;
    if (await ask("/input", { terminal: this.name, text }, this.error)) {
      this.typed.push(withoutPassword(text));
      this.recalled = this.typed.length;
      if (this.input.value === text) this.input.value = "";
    }
  }

  // The arrows up and down bring back what was typed before.
  recall(event) {
    const step = { ArrowUp: -1, ArrowDown: 1 }[event.key];
    const next = this.recalled + step;
    if (!step || next < 0 || next > this.typed.length) return;
    event.preventDefault();
    this.recalled = next;
    this.input.value = this.typed[next] || "";
    this.measure();
  }
}

class Printer {
  constructor(name) {
    this.section = copyOf("a-printer");
    this.section.dataset.name = name;
    const find = (selector) => this.section.querySelector(selector);
    this.history = new Entries(find(".history"));
    find("h2").textContent = `Printer ${name}`;
    find(".history").setAttribute("aria-label", `What ${name} has printed`);
    const print = (again) => ask("/print", { printer: name, again }, find(".error"));
    find(".next").addEventListener("click", () => print(false));
    find(".again").addEventListener("click", () => print(true));
  }
}

// The rows of a table of the desk, or that there are none.
function fillTable(id, found) {
  const table = byId(id);
  table.closest("section").hidden = found === null;
  if (found === null) return;
  const columns = table.tHead ? table.tHead.rows[0].cells.length : 1;
  const rows = found.rows.map((cells) => rowOf(cells, columns));
  if (found.more) rows.push(rowOf([`and ${found.more} more`], columns));
  if (!rows.length) rows.push(rowOf(["none"], columns));
  table.tBodies[0].replaceChildren(...rows);
}

function rowOf(cells, columns) {
  const row = element("tr", "", cells.includes("waits for") ? "waits" : "");
  row.append(...cells.map((text) => element("td", text)));
  if (cells.length < columns) row.lastElementChild.colSpan = columns - cells.length + 1;
  return row;
}

// The page as a whole: it hears what changes, and shows it.
class Page {
  constructor() {
    this.terminals = new Map();
    this.histories = new Map();
    this.journal = new Entries(byId("journal"), true);
    this.at = new URLSearchParams(location.search).getAll("at");
    this.error = byId("desk-error");
    byId("seats").addEventListener("change", () => this.moveSeats());
    byId("mode").addEventListener("change", (event) => this.askMode(event.target.value));
    byId("kill").addEventListener("click", () => ask("/kill", {}, this.error));
    byId("start").addEventListener("click", () => ask("/start", {}, this.error));
    byId("run").addEventListener("click", () => ask("/run", { turns: MOST_TURNS_AT_ONCE }, this.error));
    byId("tick").addEventListener("submit", (event) => {
      event.preventDefault();
      ask("/tick", { ticks: byId("ticks").valueAsNumber }, this.error);
    });
    this.listen();
  }

  listen() {
    if (this.events) this.events.close();
    this.events = new EventSource(`/events?${new URLSearchParams(this.at.map((name) => ["at", name]))}`);
    this.events.onmessage = (event) => this.hear(JSON.parse(event.data));
    this.events.onopen = () => this.monitor && this.setMonitor(this.monitor);
    this.events.onerror = () => this.showMonitor({ is: "is not heard of: the server does not answer", why: "" });
  }

  hear(change) {
    const shows = {
      anew: (anew) => anew && this.clear(),
      at: (names) => this.sitDown(names),
      application: (application) => this.setUp(application),
      entries: (entries) => this.addEntries(entries),
      monitor: (monitor) => this.setMonitor(monitor),
      mode: (mode) => this.setMode(mode),
      turn: (lines) => this.showTurn(lines),
      clock: (clock) => (byId("clock").textContent = clock),
      signed: (users) => this.setUsers(users),
      windows: (counts) => this.setWindows(counts),
    };
    for (const [name, show] of Object.entries(shows)) if (name in change) show(change[name]);
    for (const id of ["tasks", "locks", "jobs", "show", "counts"]) if (id in change) fillTable(id, change[id]);
  }

  clear() {
    this.journal.clear();
    this.histories.forEach((history) => history.clear());
  }

  sitDown(names) {
    this.at = names;
    history.replaceState(null, "", `?${new URLSearchParams(names.map((name) => ["at", name]))}`);
    this.showSeats();
  }

  // Terminals and printers are made once, when it is known which there are.
  setUp(application) {
    byId("base").textContent = application.base;
    document.title = `${this.at.join(", ")} - ${application.base}`;
    if (this.terminals.size) return;
    for (const name of application.terminals) this.addTerminal(new Terminal(name, application.longest_message));
    for (const name of application.printers) this.addPrinter(name, new Printer(name));
    for (let task = 1; task <= application.tasks; task += 1) this.addTask(task);
    this.showSeats();
  }

  addTerminal(terminal) {
    this.terminals.set(terminal.name, terminal);
    this.histories.set(terminal.name, terminal.history);
    byId("terminals").append(terminal.section);
    const [label, box] = [element("label", ""), element("input", "")];
    Object.assign(box, { type: "checkbox", value: terminal.name });
    label.append(box, element("span", ` ${terminal.name}`));
    byId("seats").firstElementChild.append(label);
  }

  addPrinter(name, printer) {
    this.histories.set(name, printer.history);
    byId("printers").append(printer.section);
  }

  addTask(task) {
    const button = element("button", `Turn of task ${task}`);
    button.type = "button";
    button.addEventListener("click", () => ask("/turn", { task }, this.error));
    byId("tasks-to-turn").append(button, " ");
  }

  seats() {
    return [...byId("seats").querySelectorAll("input")];
  }

  showSeats() {
    for (const seat of this.seats()) seat.checked = this.at.includes(seat.value);
    for (const [name, terminal] of this.terminals) terminal.section.hidden = !this.at.includes(name);
    const [first] = this.at;
    if (document.activeElement === document.body && this.terminals.has(first)) this.terminals.get(first).input.focus();
  }

  moveSeats() {
    this.at = this.seats().filter((seat) => seat.checked).map((seat) => seat.value);
    this.listen();
  }

  // An entry is shown in the journal and at its place; a note at all terminals.
  addEntries(entries) {
    if (!entries.length) return;
    this.journal.add(entries);
    for (const [place, history] of this.histories) {
      const ofAll = this.terminals.has(place) ? "NOTE" : undefined;
      const found = entries.filter((entry) => entry.place === place || entry.word === ofAll);
      if (found.length) history.add(found);
    }
  }

  setMonitor(monitor) {
    this.monitor = monitor;
    this.showMonitor(monitor);
  }

  showMonitor(monitor) {
    byId("monitor").textContent = monitor.is;
    byId("why").textContent = monitor.why;
    byId("why").hidden = !monitor.why;
    byId("kill").disabled = monitor.is !== "is at work";
    byId("start").disabled = monitor.is === "is at work";
  }

  async askMode(mode) {
    if (!(await ask("/mode", { mode }, this.error))) this.setMode(this.mode);
  }

  setMode(mode) {
    this.mode = mode;
    byId("mode").elements.mode.value = mode;
    byId("turns").hidden = mode !== "turns";
  }

  showTurn(lines) {
    byId("turn").textContent = lines.join("\n");
    byId("turn").scrollTop = byId("turn").scrollHeight;
  }

  setUsers(users) {
    for (const [name, terminal] of this.terminals) terminal.setUser(users[name] || "");
    fillTable("signed", { rows: Object.entries(users), more: 0 });
  }

  setWindows(counts) {
    for (const [name, terminal] of this.terminals) terminal.setWindows(counts[name]);
    for (const seat of this.seats()) {
      const isElsewhere = !seat.checked && counts[seat.value] > 0;
      seat.nextElementSibling.textContent = ` ${seat.value}${isElsewhere ? " (in another window)" : ""}`;
    }
  }
}

new Page();
