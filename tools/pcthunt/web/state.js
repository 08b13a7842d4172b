// The states of a run: that before the first step, and what each step changes.

const STRIDE = 256;  // so many steps lie between two states that are kept whole

const entriesOf = (record) => Object.entries(record ?? {});

/** A state: by member and name a value. Names are any words, so that these are maps and no objects. */
class State {
  constructor(members) {
    this.members = members;
  }

  static of(record) {
    return new State(new Map(entriesOf(record).map(([member, byName]) => [member, new Map(entriesOf(byName))])));
  }

  copy() {
    return new State(new Map([...this.members].map(([member, byName]) => [member, new Map(byName)])));
  }

  put(changes) {
    for (const [member, byName] of entriesOf(changes)) {
      if (!this.members.has(member)) this.members.set(member, new Map());
      const values = this.members.get(member);
      for (const [name, value] of entriesOf(byName)) values.set(name, value);
    }
  }

  by(member) {
    return this.members.get(member) ?? new Map();
  }

  thread(name) {
    return this.by("threads").get(name) ?? {is: "unknown"};
  }

  enabled() {
    return [...this.by("threads")].filter(([, told]) => told.is === "enabled").map(([name]) => name);
  }
}

const LONGEST_LINE = 4096;  // characters of a line that is shown

const cutLine = (line) => (line.length > LONGEST_LINE ? `${line.slice(0, LONGEST_LINE - 2)}..` : line);

/** The lines of the sources, and what a step's line says: of a script without its comment. */
class Texts {
  constructor(sources) {
    this.texts = new Map(sources.map(({file, text}) => [file, text]));
    this.lines = new Map();
  }

  files() {
    return [...this.texts.keys()];
  }

  linesOf(file) {
    if (!this.lines.has(file)) this.lines.set(file, (this.texts.get(file) ?? "").replace(/\n$/, "").split("\n"));
    return this.lines.get(file);
  }

  at({file, line, near}) {
    const text = this.linesOf(file)[line - 1] ?? "";
    const isScript = /^\s*(script|#)/.test(this.texts.get(file) ?? "");
    return (near ? "after " : "") + cutLine((isScript ? text.split("#")[0] : text).trim());
  }
}

/** A run with its states. Steps count from 1; the state after no step is that before the first. */
class Run {
  constructor(run) {
    this.run = run;
    this.steps = run.steps;
    this.kept = [State.of(run.start)];
    const state = this.kept[0].copy();
    for (let number = 1; number <= this.steps.length; number += 1) {
      state.put(this.steps[number - 1].changes);
      if (number % STRIDE === 0) this.kept.push(state.copy());
    }
  }

  get length() {
    return this.steps.length;
  }

  get kind() {
    return this.run.verdict.split(" ")[0];
  }

  get endsByStep() {
    return ["failed", "misuse", "fault"].includes(this.kind);
  }

  step(number) {
    return this.steps[number - 1];
  }

  /** The state after so many steps. */
  after(number) {
    const kept = Math.floor(number / STRIDE);
    const state = this.kept[kept].copy();
    for (let at = kept * STRIDE + 1; at <= number; at += 1) state.put(this.steps[at - 1].changes);
    return state;
  }

  /** The stretches of steps that one thread takes in a row. */
  blocks() {
    const found = [];
    this.steps.forEach((step, index) => {
      const last = found[found.length - 1];
      if (last && last.thread === step.thread)
        last.last = index + 1;
      else
        found.push({thread: step.thread, first: index + 1, last: index + 1});
    });
    return found;
  }
}
