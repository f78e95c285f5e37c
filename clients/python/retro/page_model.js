"use strict";
// The histories of a page: which rows stand after each step, and what performing them comes to. Rows are named by their place among all
// rows that ever stood, moments by how many of the times have come: 0 is before all rows.

const PUTS = new Set(["enq", "push", "pushl", "pushr", "put", "ins"]);
const LEFTWARD = new Set(["push", "pushl"]);

function numbers(text) {
  return text === "" ? [] : text.split(" ").map(Number);
}

function summed(text) {
  let total = 0;
  return numbers(text).map((difference) => (total += difference));
}

function summedExactly(text) {
  let total = 0n;
  return text === "" ? [] : text.split(" ").map((difference) => (total += BigInt(difference)).toString());
}

class History {
  constructor(told, words) {
    this.name = told.name;
    this.kind = told.kind;
    this.times = summedExactly(told.times);
    this.time = summed(told.time);
    this.number = summed(told.number);
    this.word = Array.from(told.word, (index) => words[told.kind][index]);
    this.values = told.values === "" ? [] : told.values.split(" ");
    this.key = this.values.map((value) => value.split(":")[0]);
    this.born = summed(told.born).map((difference, row) => difference + this.number[row]);
    this.lives = new Map(told.lives.map(([row, ...steps]) => [row, steps]));
    this.line = summed(told.line);
    this.refused = told.refused;
    this.texts = told.texts;
    this.evidence = told.evidence === "" ? [] : told.evidence.split(" ");
    this.frames = told.frames;
    this.steps = this.line.length;
    this.rank = told.kind === "pq" || told.kind === "dict" ? this.ranks() : [];
    this.kept = new Map();
  }

  // The order of keys, and of entries of one key by their numbers.
  ranks() {
    const exact = this.key.map((key) => (key === "." ? 0n : BigInt(key)));
    const order = exact.map((_, row) => row);
    order.sort((a, b) => (exact[a] < exact[b] ? -1 : exact[a] > exact[b] ? 1 : this.number[a] - this.number[b]));
    const rank = new Array(order.length);
    order.forEach((row, at) => (rank[row] = at));
    return rank;
  }

  puts(row) {
    return PUTS.has(this.word[row]);
  }

  operation(row) {
    return this.values[row] === "." ? [this.word[row]] : [this.word[row], ...this.values[row].split(":")];
  }

  stands(row, step) {
    const lives = this.lives.get(row);
    if (lives === undefined) return this.born[row] <= step;
    for (let at = 0; at < lives.length; at += 2) {
      if (lives[at] <= step && (lives[at + 1] < 0 || step < lives[at + 1])) return true;
    }
    return false;
  }

  // The rows that stand after a step, in their order.
  standing(step) {
    if (!this.kept.has(step)) {
      if (this.kept.size > 8) this.kept.clear();
      this.kept.set(step, this.number.map((_, row) => row).filter((row) => this.stands(row, step)));
    }
    return this.kept.get(step);
  }

  // The first row of all that stands after one of two steps alone.
  parting(step, other) {
    const row = this.number.findIndex((_, at) => this.stands(at, step) !== this.stands(at, other));
    return row < 0 ? this.number.length : row;
  }

  // What is there at a moment after a step, from the nearest key frame on.
  content(step, moment) {
    const rows = this.standing(step);
    const frame = this.frame(this.parting(step, this.steps), moment);
    const there = new Content(this, frame.content);
    for (const row of rows) {
      if (this.time[row] >= moment) break;
      if (row > frame.row) there.perform(row);
    }
    return there;
  }

  // The last key frame whose rows are all before `parting` and no later than the moment.
  frame(parting, moment) {
    let found = { row: -1, content: [] };
    for (const text of this.frames) {
      const [row, form, ...told] = numbers(text);
      if (row >= parting || this.time[row] >= moment) break;
      found = { row, content: form === 0 ? stretched(found.content, told) : exchanged(found.content, told) };
    }
    if (this.rank.length) found.content.sort((a, b) => this.rank[a] - this.rank[b]);
    return found;
  }

  // Of each row that stands after a step: the row that takes out what it puts in, and the row whose item it takes.
  lifetimes(step) {
    const taken = new Map();
    const took = new Map();
    const there = new Content(this, []);
    for (const row of this.standing(step)) {
      const old = there.perform(row);
      if (old !== undefined) {
        taken.set(old, row);
        took.set(row, old);
      }
    }
    return { taken, took };
  }

  // The rows that have come and gone by a step.
  edited(step) {
    const rows = this.number.map((_, row) => row);
    return {
      come: rows.filter((row) => this.stands(row, step) && !this.stands(row, step - 1)),
      gone: rows.filter((row) => !this.stands(row, step) && this.stands(row, step - 1)),
    };
  }

  // What is asked to say what a step has changed.
  questions(step) {
    if (this.kind !== "dict") {
      return { queue: ["front", "size"], stack: ["top", "size"], deque: ["left", "right", "size"], pq: ["min", "size"] }[this.kind];
    }
    const { come, gone } = this.edited(step);
    const keys = [...new Set([...come, ...gone].map((row) => this.key[row]))];
    return [...keys.slice(0, 8).map((key) => "get " + key), "size"];
  }

  // The answers to questions at every moment after a step.
  answers(step, questions) {
    const there = new Content(this, []);
    const told = [questions.map((question) => there.answer(question))];
    for (const row of this.standing(step)) {
      while (told.length <= this.time[row]) told.push(told[told.length - 1]);
      there.perform(row);
      told[this.time[row] + 1] = questions.map((question) => there.answer(question));
    }
    while (told.length <= this.times.length) told.push(told[told.length - 1]);
    return told;
  }

  // The stretches of time over which an answer is another one by a step: from one moment up to another, which is no part of it.
  changes(step) {
    const questions = this.questions(step);
    const was = this.answers(step - 1, questions);
    const now = this.answers(step, questions);
    return questions.flatMap((question, at) => {
      const told = [];
      for (let moment = 1; moment <= this.times.length; moment += 1) {
        const last = told[told.length - 1];
        const [before, after] = [was[moment][at], now[moment][at]];
        if (last && last.end === null && (last.was !== before || last.now !== after)) last.end = moment;
        if (before !== after && !(last && last.end === null)) told.push({ question, start: moment, end: null, was: before, now: after });
      }
      return told;
    });
  }

  // The edits of a step of a priority queue, each with the rows before it, as its evidence tells them: the row of one that adds has come by
  // the step, that of one that cuts is gone.
  edits(step) {
    const told = this.evidence[step - 1];
    if (told === undefined || told === ".") return [];
    const { come, gone } = this.edited(step);
    let rows = this.standing(step - 1);
    return told.split("+").map((text) => {
      const [, edit, behind, change, entry] = /^([ac])(n|-?\d+)([gl])(\d+)$/.exec(text);
      const row = edit === "a" ? come[0] : gone[0];
      const before = rows;
      const at = before.filter((other) => other < row).length;
      rows = edit === "a" ? [...before.slice(0, at), row, ...before.slice(at)] : before.filter((_, index) => index !== at);
      const stated = behind === "n" ? null : at - Number(behind);
      const changed = this.number.indexOf(Number(entry));
      return { before, after: rows, added: edit === "a", place: at, row, bridge: stated, gained: change === "g", entry: changed };
    });
  }
}

function stretched(before, [began, count, begins, ...differences]) {
  const come = summedNumbers(differences);
  return [...come.slice(0, begins), ...before.slice(began, began + count), ...come.slice(begins)];
}

function exchanged(before, [count, ...differences]) {
  const rows = summedNumbers(differences);
  const gone = new Set(rows.slice(0, count));
  return [...before.filter((row) => !gone.has(row)), ...rows.slice(count)];
}

function summedNumbers(differences) {
  let total = 0;
  return differences.map((difference) => (total += difference));
}

// What is there while rows are performed one after another: the rows that put it in.
class Content {
  constructor(history, rows) {
    this.history = history;
    this.line = new Map(rows.map((row, at) => [at, row]));
    this.left = 0;
    this.right = rows.length;
    this.keys = new Map(history.kind === "dict" ? rows.map((row) => [history.key[row], row]) : []);
    this.heap = history.kind === "pq" ? [...rows] : [];
  }

  // Performs a row, and gives the row whose item it takes out, if it takes one.
  perform(row) {
    const history = this.history;
    const word = history.word[row];
    if (history.kind === "dict") {
      const old = this.keys.get(history.key[row]);
      if (word === "put") this.keys.set(history.key[row], row);
      else this.keys.delete(history.key[row]);
      return old;
    }
    if (history.kind === "pq") return word === "ins" ? void this.insert(row) : this.least();
    if (history.puts(row)) return void this.line.set(LEFTWARD.has(word) ? (this.left -= 1) : this.right++, row);
    const at = word === "popr" ? (this.right -= 1) : this.left++;
    const old = this.line.get(at);
    this.line.delete(at);
    return old;
  }

  insert(row) {
    const { heap } = this;
    const { rank } = this.history;
    let at = heap.push(row) - 1;
    while (at > 0 && rank[heap[(at - 1) >> 1]] > rank[row]) {
      heap[at] = heap[(at - 1) >> 1];
      at = (at - 1) >> 1;
    }
    heap[at] = row;
  }

  least() {
    const { heap } = this;
    const { rank } = this.history;
    const old = heap[0];
    const last = heap.pop();
    if (heap.length === 0) return old;
    let at = 0;
    for (;;) {
      let below = 2 * at + 1;
      if (below + 1 < heap.length && rank[heap[below + 1]] < rank[heap[below]]) below += 1;
      if (below >= heap.length || rank[heap[below]] >= rank[last]) break;
      heap[at] = heap[below];
      at = below;
    }
    heap[at] = last;
    return old;
  }

  get size() {
    return { dict: this.keys.size, pq: this.heap.length }[this.history.kind] ?? this.right - this.left;
  }

  // The rows whose items are there, in the order of `ask all`.
  all() {
    const { kind, rank } = this.history;
    if (kind === "dict") return [...this.keys.values()].sort((a, b) => rank[a] - rank[b]);
    if (kind === "pq") return [...this.heap].sort((a, b) => rank[a] - rank[b]);
    return Array.from({ length: this.right - this.left }, (_, at) => this.line.get(this.left + at));
  }

  // The answer to one of `questions`, as text; null where there is none.
  answer(question) {
    const value = (row) => (row === undefined ? null : this.history.values[row]);
    if (question === "size") return String(this.size);
    if (question === "min") return value(this.heap[0]);
    if (question === "right") return value(this.line.get(this.right - 1));
    if (question.startsWith("get ")) {
      const row = this.keys.get(question.slice(4));
      return row === undefined ? null : this.history.values[row].split(":")[1];
    }
    return value(this.line.get(this.left));
  }
}

// The sums of the weights before each place: how many entries are held there that do not survive.
function stairs(history, rows) {
  const there = new Content(history, []);
  rows.forEach((row) => there.perform(row));
  const alive = new Set(there.all());
  const sums = [0];
  rows.forEach((row) => sums.push(sums[sums.length - 1] + (history.puts(row) ? Number(!alive.has(row)) : -1)));
  return { sums, alive };
}
