"use strict";
// The page of tools/view. `data` has one run, or the two of a pair; each has a panel of its own, and all follow one step.
const data = JSON.parse(document.getElementById("data").textContent);
const last = Math.max(...data.runs.map(run => run.entries.length));
const by = id => document.getElementById(id);
const jumps = [];
let step = 0;

// An element with a class and with children, which are elements or texts.
function made(name, look, ...children) {
  const element = document.createElement(name);
  if (look) element.className = look;
  element.append(...children);
  return element;
}

function count(number, what) {
  return number + " " + what + (number === 1 ? "" : "s");
}

function chip(label) {
  const look = data.labels[label] || {text: label === "-" ? "bottom" : label, colour: "#fff"};
  const element = made("span", "chip", look.text);
  element.style.background = look.colour;
  element.classList.toggle("dark", look.colour === "#0072B2");
  return element;
}

// The state of a column after a step, or null where it isn't there yet.
function stateAt(column, at) {
  let found = null;
  for (const [place, state] of column.states) {
    if (place > at) break;
    found = state;
  }
  return found;
}

function changedAt(column, at) {
  return at > 0 && column.states.some(([place]) => place === at);
}

class Panel {
  constructor(run, index) {
    this.run = run;
    this.columns = new Map(run.columns.map(column => [column.id, column]));
    this.root = made("div", "run");
    this.root.dataset.run = index + 1;
    const left = made("div"), right = made("div");
    this.list = made("ol", "entries");
    this.card = made("div", "card");
    this.log = made("ol", "log");
    this.state = made("div", "state");
    left.append(this.section(data.twin ? "Run " + (index + 1) : "Entries", this.list));
    right.append(this.section("This entry", this.card), this.state, this.section("Audit log", this.log));
    this.root.append(left, right);
    this.fillEntries();
    this.fillLog();
  }

  section(title, content) {
    return made("section", "", made("h2", "", title), content);
  }

  fillEntries() {
    this.rows = this.run.entries.map(entry => {
      const row = made("li", entry.refusal ? "refused" : "");
      if (data.twin) row.append(this.sign(entry));
      row.append(made("span", "line", entry.text));
      row.dataset.place = entry.place;
      row.title = entry.told.join("\n");
      row.style.borderLeftColor = entry.label === null ? "transparent" : (data.labels[entry.label] || {colour: "#fff"}).colour;
      row.addEventListener("click", () => show(entry.place));
      return row;
    });
    this.list.append(...this.rows);
    const refused = this.run.refused;
    if (refused) {
      const right = refused.right ? "What can stand there: " + refused.right : "No such line can come there.";
      const lines = ["Line " + refused.line + " of the given report is refused by check:", refused.claimed || "(there is no such line)", right,
                     count(refused.left, "line") + " after it " + (refused.left === 1 ? "is" : "are") + " not shown."];
      this.list.append(made("li", "forged", ...lines.map(line => made("div", "line", line))));
    }
  }

  // Whether twin shows an entry as low and the same in both runs, or the lines differ.
  sign(entry) {
    const other = data.runs.find(run => run !== this.run).entries[entry.place - 1];
    const differs = !other || other.text !== entry.text;
    const sign = data.twin.shown.includes(entry.place) ? "=" : differs ? "≠" : "";
    const element = made("span", "sign" + (differs ? " other" : ""), sign);
    element.title = {"=": "low, and the same in both runs", "≠": "the lines differ"}[sign] || "";
    return element;
  }

  fillLog() {
    this.logLines = this.run.log.map(line => {
      const row = made("li", "", line.text);
      row.dataset.log = line.place;
      row.addEventListener("click", () => jump(line.place));
      return row;
    });
    this.log.append(...this.logLines);
    if (!this.logLines.length) this.log.append(made("li", "empty", "The log has no line."));
  }

  show(at) {
    for (const row of this.rows) {
      const place = Number(row.dataset.place);
      row.classList.toggle("now", place === at);
      row.classList.toggle("later", place > at);
    }
    for (const row of this.logLines) {
      const place = Number(row.dataset.log);
      row.classList.toggle("now", place === at);
      row.classList.toggle("later", place > at);
    }
    const row = this.rows[at - 1];
    if (row) this.list.scrollTop = row.offsetTop - this.list.offsetTop - this.list.clientHeight / 2;
    else this.list.scrollTop = 0;
    this.showCard(this.run.entries[at - 1]);
    this.showState(at);
  }

  showCard(entry) {
    this.card.replaceChildren();
    if (!entry) {
      this.card.append(made("p", "", step === 0 ? "Before the first entry." : "This run has ended."));
      return;
    }
    this.card.append(made("p", "line", entry.text));
    this.card.append(made("p", "mark", "line " + entry.line + " of the script, lane " + entry.lane + ", phase " + entry.phase + ": " + entry.source));
    for (const told of entry.told) this.card.append(made("p", entry.refusal ? "alarm" : "", told));
    this.showFlows(entry);
    if (entry.log !== null) {
      this.card.append(made("p", "alarm", "The audit log has a line of it: " + entry.log));
      this.card.append(this.button("to its line in the log", () => this.toLog(entry.place)));
    }
  }

  // Where the bytes of a read came from, and which reads have those of a write.
  showFlows(entry) {
    for (const flow of this.run.flows) {
      const [, first, bytes] = flow.text.split(" ").map(Number);
      if (flow.place === entry.place) {
        const part = "bytes " + first + " to " + (first + bytes - 1);
        if (flow.kind === "gap") this.card.append(made("p", "", part + ": a gap"));
        if (flow.kind === "file") this.card.append(made("p", "", part + ": from what object " + flow.source + " held at the beginning"));
        if (flow.kind === "write") this.card.append(this.button(part + ": written by entry " + flow.source, () => jump(flow.source)));
        if (flow.via !== null) this.card.append(this.button("let down by entry " + flow.via, () => jump(flow.via)));
        if (flow.via !== null) this.card.append(this.button("log line of entry " + flow.via, () => this.toLog(flow.via)));
      } else if (flow.kind === "write" && flow.source === entry.place) {
        this.card.append(this.button(count(bytes, "byte") + " read by entry " + flow.place, () => jump(flow.place)));
      } else if (flow.via === entry.place) {
        this.card.append(this.button(count(bytes, "byte") + " read after this release by entry " + flow.place, () => jump(flow.place)));
      }
    }
  }

  button(text, action) {
    const button = made("button", "jump", text);
    button.type = "button";
    button.addEventListener("click", action);
    return button;
  }

  toLog(place) {
    jump(place);
    const row = this.logLines.find(line => Number(line.dataset.log) === place);
    if (row) row.scrollIntoView({block: "center"});
  }

  showState(at) {
    const kinds = [["Processes", ["process"], ["", "process", "label", "ceiling", "descriptors"]],
                   ["Files and directories", ["file", "dir"], ["", "path", "label", "bytes", "holds"]],
                   ["Pipes", ["pipe"], ["", "pipe", "label", "bytes", "can be read"]]];
    this.state.replaceChildren();
    for (const [title, which, heads] of kinds) {
      const rows = this.run.columns.filter(column => which.includes(column.kind)).map(column => this.row(column, at)).filter(row => row);
      if (!rows.length) continue;
      const table = made("table", "", made("tr", "", ...heads.slice(1).map(head => made("th", "", head))), ...rows);
      this.state.append(this.section(title, table));
    }
  }

  row(column, at) {
    const state = stateAt(column, at);
    if (state === null) return null;
    const row = made("tr");
    row.dataset.column = column.ident;
    row.classList.toggle("touched", changedAt(column, at));
    row.classList.toggle("gone", !state.there);
    const name = made("td", "", made("b", "", column.name), " ", made("span", "mark", column.ident + (state.mark ? ", " + state.mark : "")));
    if (column.kind === "process") {
      row.append(name, made("td", "", chip(state.label)), made("td", "", state.ceiling === "*" ? "" : chip(state.ceiling)), this.descriptors(state));
    } else {
      row.append(name, made("td", "", chip(state.label)), made("td", "", state.size === undefined ? "" : String(state.size)), made("td", "holds", state.holds));
    }
    return row;
  }

  descriptors(state) {
    const cell = made("td", "holds");
    for (const [number, id, how] of state.holds) {
      const column = this.columns.get(id);
      cell.append(made("div", "", number + ": " + column.name + (column.kind === "pipe" ? " " + column.ident : "") + ", " + how));
    }
    return cell;
  }

  // Whether an entry is one of the process, about the object, and at the label that the filter names.
  matches(entry, wanted) {
    const names = entry.columns.map(id => this.columns.get(id)).filter(column => column).map(column => column.ident + " " + column.name);
    const labels = [entry.label, ...entry.changes.flatMap(change => [change[1], change[2]])];
    return (!wanted.process || names.includes(wanted.process)) && (!wanted.object || names.includes(wanted.object)) &&
      (!wanted.label || labels.includes(wanted.label)) && (!wanted.text || (entry.text + " " + entry.told.join(" ")).includes(wanted.text));
  }

  filter(wanted) {
    let left = 0;
    this.run.entries.forEach((entry, at) => {
      const right = this.matches(entry, wanted);
      this.rows[at].hidden = !right;
      this.rows[at].style.display = right ? "" : "none";
      left += right ? 1 : 0;
    });
    return left;
  }
}

const panels = data.runs.map((run, index) => new Panel(run, index));

function show(at) {
  step = Math.max(0, Math.min(last, at));
  by("step").value = step;
  by("where").textContent = step === 0 ? "at the beginning" : "after entry " + step + " of " + last;
  by("first").disabled = by("back").disabled = step === 0;
  by("on").disabled = step === last;
  for (const panel of panels) panel.show(step);
  history.replaceState(null, "", "#" + step);
}

// A jump can be taken back.
function jump(at) {
  if (at !== step) jumps.push(step);
  by("return").disabled = jumps.length === 0;
  show(at);
}

// One step on or back, over entries that the filter leaves out.
function walk(by_) {
  for (let at = step + by_; at > 0 && at <= last; at += by_) {
    if (panels.some(panel => panel.rows[at - 1] && !panel.rows[at - 1].hidden)) return show(at);
  }
  if (by_ < 0) show(0);
}

function filter() {
  const wanted = {process: by("process").value, object: by("object").value, label: by("label").value, text: by("text").value};
  const left = panels.map(panel => panel.filter(wanted));
  by("count").textContent = Object.values(wanted).some(word => word) ? left.map(number => count(number, "match").replace("matchs", "matches")).join(", ") : "";
}

function options(select, words, told) {
  for (const word of words) {
    const option = made("option", "", told ? told(word) : word);
    option.value = word;
    select.append(option);
  }
}

function begin() {
  const names = kind => [...new Set(data.runs.flatMap(run => run.columns.filter(column => (column.kind === "process") === kind)
    .map(column => column.ident + " " + column.name)))];
  options(by("process"), names(true));
  options(by("object"), names(false));
  options(by("label"), Object.keys(data.labels), word => data.labels[word].text);
  document.querySelector("h1").textContent = document.title;
  by("comment").textContent = data.runs[0].comment;
  if (data.twin) {
    const said = data.twin.parts === null ? "the runs agree" : data.twin.parts === 0 ? "the runs don't begin alike" : "the runs part at entry " + data.twin.parts;
    by("verdict").hidden = false;
    by("verdict").textContent = "Compared at " + (data.twin.label === "-" ? "bottom" : data.twin.label) + ": " + said + "; " +
      count(data.twin.shown.length, "entry").replace("entrys", "entries") + " of low processes, each the same in both.";
    document.body.classList.add("pair");
  }
  const main = document.querySelector("main");
  main.style.setProperty("--runs", data.runs.length);
  main.append(...panels.map(panel => panel.root));
  by("step").max = last;
  by("step").addEventListener("input", () => show(Number(by("step").value)));
  by("first").addEventListener("click", () => show(0));
  by("back").addEventListener("click", () => walk(-1));
  by("on").addEventListener("click", () => walk(1));
  by("return").addEventListener("click", () => {
    const at = jumps.pop();
    by("return").disabled = jumps.length === 0;
    show(at);
  });
  by("filter").addEventListener("input", filter);
  by("filter").addEventListener("reset", () => setTimeout(filter));
  by("filter").addEventListener("submit", event => event.preventDefault());
  addEventListener("keydown", event => {
    if (["INPUT", "SELECT"].includes(event.target.tagName)) return;
    if (event.key === "ArrowLeft") walk(-1);
    if (event.key === "ArrowRight") walk(1);
  });
  show(Number(location.hash.slice(1)) || 0);
}

begin();
