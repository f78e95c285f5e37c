// What the page shows of the chosen step and moment. Whatever comes from the script or from names is text, never markup.

const DATA = JSON.parse(document.getElementById("data").textContent);
const HISTORIES = DATA.timelines.map((told) => new History(told, DATA.words));
const MOST = { items: 200, bars: 40, takes: 40, changes: 40, places: 24 };
const NOTHING = "nothing";
const state = { history: HISTORIES[0], step: HISTORIES[0].steps, moment: HISTORIES[0].times.length };
const at = (id) => document.getElementById(id);

function made(name, text, kind) {
  const element = document.createElement(name);
  if (text !== undefined) element.textContent = text;
  if (kind) element.className = kind;
  return element;
}

function drawn(name, given, text) {
  const element = document.createElementNS("http://www.w3.org/2000/svg", name);
  for (const [key, value] of Object.entries(given)) element.setAttribute(key, String(value));
  if (text !== undefined) element.textContent = text;
  return element;
}

// A time as a date, with its seconds where it has them; null where it is none of the calendar.
function dateOf(time) {
  const found = /^(\d{4})(\d\d)(\d\d)(\d\d)(\d\d)(\d\d)?$/.exec(time);
  if (!DATA.calendar || found === null) return null;
  const [, year, month, day, hour, minute, second] = found;
  const date = `${year}-${month}-${day}T${hour}:${minute}:${second ?? "00"}`;
  const moment = new Date(date + "Z");
  if (Number.isNaN(moment.getTime()) || !moment.toISOString().startsWith(date)) return null;
  return { text: date.slice(0, second === undefined ? 16 : 19).replace("T", " "), seconds: moment.getTime() / 1000 };
}

function timeText(index) {
  const time = state.history.times[index];
  return dateOf(time)?.text ?? time;
}

// Where a time stands on a line: dates by the calendar.
function position(index) {
  const time = state.history.times[index];
  return dateOf(time)?.seconds ?? Number(time);
}

function named(number) {
  return Object.hasOwn(DATA.names, number) ? DATA.names[number] : number;
}

function answerText(question, value) {
  if (value === null) return NOTHING;
  return question === "size" || question.startsWith("get ") ? value : named(value);
}

function questionText(question) {
  return question.startsWith("get ") ? "get " + named(question.slice(4)) : question;
}

function itemText(row) {
  const [key, value] = state.history.values[row].split(":");
  return value === undefined ? named(key) : `${named(key)}: ${value}`;
}

function rowText(row) {
  const [word, key, ...rest] = state.history.operation(row);
  const said = key === undefined ? [word] : [word, named(key), ...rest];
  return `row ${state.history.number[row]}, ${said.join(" ")}`;
}

function whenText(row) {
  return `${rowText(row)}, at ${timeText(state.history.time[row])}`;
}

function fill(id, elements) {
  at(id).replaceChildren(...elements);
}

function more(count, most) {
  return count > most ? [made("li", `and ${count - most} more`, "more")] : [];
}

function stepText() {
  const { history, step } = state;
  if (step === 0) return "before all steps";
  const refused = history.refused[step];
  const { come, gone } = history.edited(step);
  const rows = [...gone.map((row) => "without " + rowText(row)), ...come.map((row) => "with " + rowText(row))].slice(0, 4).join("; ");
  const text = history.texts ? history.texts[step - 1] : rows;
  return `line ${history.line[step - 1]}: ${text}` + (refused ? ` \u2014 ${refused}` : "");
}

function showControls() {
  const { history, step, moment } = state;
  at("step").max = history.steps;
  at("step").value = step;
  at("moment").max = history.times.length;
  at("moment").value = moment;
  at("step-text").textContent = `${step} of ${history.steps}: ${stepText()}`;
  at("moment-text").textContent = moment === 0 ? "before all rows" : `after all rows of ${timeText(moment - 1)}`;
}

function showContent() {
  const rows = state.history.content(state.step, state.moment).all();
  const items = rows.slice(0, MOST.items).map((row) => {
    const item = made("li", itemText(row));
    item.append(made("small", ` ${rowText(row).split(",")[0]}`));
    return item;
  });
  at("holds-count").textContent = rows.length === 1 ? "1 item" : `${rows.length} items`;
  fill("holds", rows.length === 0 ? [made("li", NOTHING, "more")] : [...items, ...more(rows.length, MOST.items)]);
}

// As many of the rows as fit, around those of the moment.
function around(rows, most) {
  const here = rows.findIndex((row) => state.history.time[row] >= state.moment);
  const middle = here < 0 ? rows.length : here;
  const first = Math.max(0, Math.min(middle - (most >> 1), rows.length - most));
  return rows.slice(first, first + most);
}

function showBars(lives) {
  const { history, step, moment } = state;
  const puts = history.standing(step).filter((row) => history.puts(row));
  const rows = around(puts, MOST.bars);
  const [left, width, lane, top] = [220, 560, 18, 8];
  const ends = rows.flatMap((row) => [row, lives.taken.get(row)]).filter((row) => row !== undefined).map((row) => position(history.time[row]));
  const here = moment === 0 ? [] : [position(moment - 1)];
  const first = Math.min(...ends, ...here);
  const last = Math.max(...ends, ...here);
  const x = (place) => left + (width * (place - first)) / (last - first || 1);
  const picture = drawn("svg", { viewBox: `0 0 ${left + width + 40} ${top + lane * rows.length + 28}`, role: "img" });
  picture.append(drawn("title", {}, "lifetimes"));
  rows.forEach((row, index) => {
    const taken = lives.taken.get(row);
    const begin = x(position(history.time[row]));
    const end = taken === undefined ? left + width + 24 : x(position(history.time[taken]));
    const y = top + lane * index;
    const held = history.time[row] < moment && (taken === undefined || history.time[taken] >= moment);
    const kind = held ? "held" : taken === undefined ? "stays" : "bar";
    const bar = drawn("rect", { x: begin, y, width: Math.max(end - begin, 2), height: lane - 5, rx: 2, class: kind });
    bar.append(drawn("title", {}, `${whenText(row)}; ${taken === undefined ? "stays" : "until " + whenText(taken)}`));
    const label = `#${history.number[row]} ${itemText(row)}`;
    picture.append(drawn("text", { x: left - 8, y: y + 11, "text-anchor": "end" }, label.length > 30 ? label.slice(0, 29) + "\u2026" : label), bar);
  });
  const foot = top + lane * rows.length;
  if (here.length) picture.append(drawn("line", { x1: x(here[0]), x2: x(here[0]), y1: 0, y2: foot + 4, class: "moment" }));
  const told = rows.length ? [timeOfPlace(rows, lives, Math.min), timeOfPlace(rows, lives, Math.max)] : [];
  if (told.length) {
    picture.append(drawn("text", { x: x(position(told[0])), y: foot + 20, class: "tick" }, timeText(told[0])));
    picture.append(drawn("text", { x: x(position(told[1])), y: foot + 20, class: "tick", "text-anchor": "end" }, timeText(told[1])));
  }
  fill("bars", [picture]);
  at("bars-count").textContent = puts.length > rows.length ? `${rows.length} of ${puts.length}` : "";
}

function timeOfPlace(rows, lives, which) {
  const { time } = state.history;
  return which(...rows.flatMap((row) => [row, lives.taken.get(row)]).filter((row) => row !== undefined).map((row) => time[row]));
}

function showTakes(lives) {
  const { history, moment } = state;
  const takers = [...lives.took.keys()];
  const rows = around(takers, MOST.takes).map((taker) => {
    const line = made("tr", undefined, history.time[taker] === moment - 1 ? "now" : "");
    line.append(made("td", timeText(history.time[taker])), made("td", rowText(taker)), made("td", whenText(lives.took.get(taker))));
    return line;
  });
  fill("takes", rows);
  at("takes-count").textContent = takers.length > rows.length ? `${rows.length} of ${takers.length}` : takers.length ? "" : NOTHING;
}

function showChanges() {
  const { history, step, moment } = state;
  const told = step === 0 || history.refused[step] ? [] : history.changes(step);
  const rows = told.slice(0, MOST.changes).map((one) => {
    const here = one.start <= moment && (one.end === null || moment < one.end);
    const line = made("tr", undefined, here ? "now" : "");
    const until = one.end === null ? "on and on" : timeText(one.end - 1);
    const answers = [one.was, one.now].map((value) => answerText(one.question, value));
    line.append(...[timeText(one.start - 1), until, questionText(one.question), ...answers].map((text) => made("td", text)));
    return line;
  });
  fill("changes", rows);
  const refused = step > 0 && history.refused[step] ? "refused: it has changed nothing" : "no answer";
  at("changes-count").textContent = told.length === 0 ? refused : told.length > rows.length ? `${rows.length} of ${told.length}` : "";
}

// The stairs of one list of rows, as in docs/EVIDENCE.md: dead entries held before each place, with the bridge that the evidence states.
function stairsOf(title, rows, marks) {
  const { history } = state;
  const { sums, alive } = stairs(history, rows);
  const first = Math.max(0, Math.min(marks.place - (MOST.places >> 1), rows.length - MOST.places));
  const shown = rows.slice(first, first + MOST.places);
  const [left, width, level] = [40, 92, 22];
  const most = Math.max(...sums.slice(first, first + shown.length + 1));
  const ground = 40 + level * most;
  const [wide, high] = [left + width * (shown.length + 1), ground + 64];
  const picture = drawn("svg", { viewBox: `0 0 ${wide} ${high}`, width: wide, height: high, role: "img", class: "stairs" });
  const x = (index) => left + width * index;
  picture.append(drawn("title", {}, title), drawn("text", { x: left - 10, y: 16, class: "title" }, title));
  picture.append(drawn("line", { x1: left - 14, x2: x(shown.length) + 14, y1: ground, y2: ground, class: "ground" }));
  let path = `M ${x(0)} ${ground - level * sums[first]}`;
  shown.forEach((_, index) => (path += ` H ${x(index) + width / 2} V ${ground - level * sums[first + index + 1]}`));
  picture.append(drawn("path", { d: `${path} H ${x(shown.length)}`, class: "path" }));
  for (let index = 0; index <= shown.length; index += 1) {
    const total = sums[first + index];
    const dot = { cx: x(index), cy: ground - level * total };
    picture.append(drawn("circle", { ...dot, r: total ? 3 : 5, class: total ? "place" : "bridge" }));
    if (first + index === marks.bridge) picture.append(drawn("circle", { ...dot, r: 9, class: "ring" }));
    picture.append(drawn("text", { x: x(index) - 4, y: ground + 18, class: "tick" }, first + index));
  }
  shown.forEach((row, index) => {
    const kind = row === marks.row ? "edited" : row === marks.entry ? "entry" : history.puts(row) && !alive.has(row) ? "dead" : "";
    const label = history.puts(row) ? `+ ${itemText(row)}` : history.word[row];
    const text = label.length > 12 ? label.slice(0, 11) + "\u2026" : label;
    picture.append(drawn("text", { x: x(index) + width / 2, y: ground + 36, "text-anchor": "middle", class: kind }, text));
    picture.append(drawn("text", { x: x(index) + width / 2, y: ground + 52, "text-anchor": "middle", class: "tick" }, "#" + history.number[row]));
  });
  return picture;
}

function showStairs() {
  const { history, step } = state;
  const edits = step === 0 ? [] : history.edits(step);
  at("stairs-part").hidden = history.kind !== "pq";
  const told = edits.flatMap((edit) => {
    const { number } = history;
    const bridge = edit.bridge === null ? "no bridge decides" : `the bridge is place ${edit.bridge}`;
    const change = `the present has ${edit.gained ? "gained" : "lost"} ${itemText(edit.entry)} of row ${number[edit.entry]}`;
    const text = `${edit.added ? "Put in" : "Cut"} at place ${edit.place}: row ${number[edit.row]}; ${bridge}; ${change}.`;
    const marks = { place: edit.place, row: edit.row, entry: edit.entry, bridge: edit.bridge };
    return [made("p", text), stairsOf("before", edit.before, marks), stairsOf("after", edit.after, { ...marks, bridge: null })];
  });
  fill("stairs", told.length ? told : [made("p", history.kind === "pq" ? "This step has no evidence of one edit." : "", "more")]);
}

function show() {
  const lives = state.history.lifetimes(state.step);
  showControls();
  showContent();
  showBars(lives);
  showTakes(lives);
  showChanges();
  showStairs();
}

function go(step, moment) {
  const { history } = state;
  state.step = Math.max(0, Math.min(history.steps, step));
  state.moment = Math.max(0, Math.min(history.times.length, moment));
  show();
}

const KEYS = {
  ArrowLeft: () => go(state.step, state.moment - 1),
  ArrowRight: () => go(state.step, state.moment + 1),
  ArrowUp: () => go(state.step - 1, state.moment),
  ArrowDown: () => go(state.step + 1, state.moment),
  PageUp: () => go(state.step - 10, state.moment),
  PageDown: () => go(state.step + 10, state.moment),
  Home: () => go(state.step, 0),
  End: () => go(state.step, state.history.times.length),
};

function begin() {
  document.title = DATA.title;
  at("title").textContent = DATA.title;
  HISTORIES.forEach((history, index) => {
    const option = made("option", `${history.name}, a ${history.kind}`);
    option.value = index;
    at("timeline").append(option);
  });
  at("timeline-part").hidden = HISTORIES.length < 2;
  at("timeline").addEventListener("change", () => {
    state.history = HISTORIES[Number(at("timeline").value)];
    go(state.history.steps, state.history.times.length);
  });
  at("step").addEventListener("input", () => go(Number(at("step").value), state.moment));
  at("moment").addEventListener("input", () => go(state.step, Number(at("moment").value)));
  document.addEventListener("keydown", (event) => {
    if (event.target.tagName === "SELECT" || event.ctrlKey || event.metaKey || event.altKey || !KEYS[event.key]) return;
    event.preventDefault();
    KEYS[event.key]();
  });
  show();
}

begin();
