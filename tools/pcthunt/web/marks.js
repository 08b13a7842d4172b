// What is to be said of single steps: the failing one, change points, races, cycles of locks, moments of directives.

const MOST_RACES = 500;  // so many races are marked

// By kind of mark its sign in a lane, and in words.
const SIGNS = {
  failing: {short: "!", long: "fails"},
  cut: {short: "!", long: "cut"},
  lowered: {short: "\u25bc", long: "put last"},
  race: {short: "R", long: "race"},
  cycle: {short: "L", long: "lock cycle"},
  core: {short: "H", long: "held to the end"},
  moment: {short: "M", long: "moment"},
};

/** By step a list of marks {kind, text}. */
class Marks {
  constructor(heading, run, names) {
    this.heading = heading;
    this.run = run;
    this.names = names;
    this.byStep = new Map();
    this.markEnd();
    this.markLowered();
    this.markRaces();
    this.markLocks();
    this.markCore();
    this.markMoments();
  }

  of(number) {
    return this.byStep.get(number) ?? [];
  }

  put(number, kind, text) {
    if (!(number >= 1 && number <= this.run.length)) return;
    if (!this.byStep.has(number)) this.byStep.set(number, []);
    this.byStep.get(number).push({kind, text});
  }

  /** The kinds of marks that are there. */
  kinds() {
    const there = new Set([...this.byStep.values()].flat().map((mark) => mark.kind));
    return Object.keys(SIGNS).filter((kind) => there.has(kind));
  }

  told(number) {
    const step = this.run.step(number);
    return step ? `step ${number} of ${this.names.of(step.thread)}` : `step ${number}`;
  }

  markEnd() {
    if (this.run.endsByStep) this.put(this.run.length, "failing", "The run fails at this step.");
    if (this.run.kind === "cut")
      this.put(this.run.length, "cut", "The run is cut after this step: its limit is reached.");
  }

  markLowered() {
    this.run.steps.forEach((step, index) => {
      if (step.lowered !== undefined) {
        const thread = this.names.of(step.thread);
        this.put(
            index + 1, "lowered",
            `Change point: ${thread} gets a lower priority right after this step, and waits until none of the others ` +
                "can go.");
      }
    });
  }

  markRaces() {
    for (const {var : name, first, second} of (this.heading.races ?? []).slice(0, MOST_RACES)) {
      const what = this.names.of(name);
      this.put(first, "race", `Data race on ${what} with ${this.told(second)}: nothing orders the two.`);
      this.put(second, "race", `Data race on ${what} with ${this.told(first)}: nothing orders the two.`);
    }
  }

  markLocks() {
    for (const nest of this.heading.locks?.cycle ?? []) {
      this.put(nest.step, "cycle", `Lock cycle: ${nestWords(nest, this.names)}.`);
    }
  }

  markCore() {
    for (const wait of this.heading.run.core ?? []) {
      if (wait.since !== null && wait.since !== undefined) {
        this.put(
            wait.since, "core",
            `What ${this.names.of(wait.for)} takes here, ${this.names.of(wait.thread)} waits for at the end.`);
      }
    }
  }

  markMoments() {
    const seen = new Set();
    const told = [["The failure needs this moment", this.heading.find],
                  ["A moment of the certified directive", this.heading.directive]];
    for (const [says, directive] of told) {
      for (const moment of directive?.moments ?? []) {
        if (moment.step === null || seen.has(moment.step)) continue;
        seen.add(moment.step);
        this.put(moment.step, "moment", `${says}: ${momentWords(moment, this.names)}.`);
      }
    }
  }
}

const nestWords = (nest, names) =>
    `${names.of(nest.thread)} takes ${names.of(nest.taken)} while it holds ${names.of(nest.held)}`;

const momentWords = (moment, names) =>
    `${names.of(moment.thread)} is put last right after its own step ${moment.number}`;
