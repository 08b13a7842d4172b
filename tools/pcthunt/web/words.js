// What steps, threads and objects are called in sentences.

/** What a thread or an object is called for people. */
class Names {
  constructor(names) {
    this.names = new Map(entriesOf(names));
  }

  of(name) {
    return this.names.get(name) ?? name;
  }

  all(list) {
    return listed(list.map((name) => this.of(name)));
  }
}

function listed(words) {
  if (words.length < 2) return words.join("");
  return `${words.slice(0, -1).join(", ")} and ${words[words.length - 1]}`;
}

const counted = (count, word) => `${count.toLocaleString("en")} ${word}${count === 1 ? "" : "s"}`;

// By the first word of an ask: the phrase of its operands, its answer and whom it wakes.
const VERBS = {
  read: ([name], answer) => `reads ${name}, ${answer}`,
  write: ([name, value]) => `writes ${value} to ${name}`,
  add: ([name, value], answer) => `adds ${value} to ${name}, which was ${answer}`,
  cas: ([name, old, value], answer) =>
      answer === "0" ? `finds that ${name} isn't ${old}, and leaves it` : `changes ${name} from ${old} to ${value}`,
  lock: ([name]) => `locks ${name}`,
  trylock: ([name], answer) =>
      (answer === "0" ? `tries to lock ${name}, in vain` : `tries to lock ${name}, and has it`),
  unlock: ([name]) => `unlocks ${name}`,
  release: ([name, mutex]) => `unlocks ${mutex} and begins to wait on ${name}`,
  regain: ([name, mutex]) => `goes on from its wait on ${name}, and has locked ${mutex} again`,
  signal: ([name], _, woken) => `signals ${name}, ${woken || "for which nobody waits"}`,
  broadcast: ([name], _, woken) => `broadcasts ${name}, ${woken || "for which nobody waits"}`,
  down: ([name]) => `takes one from ${name}`,
  trydown: ([name], answer) =>
      answer === "0" ? `tries to take one from ${name}, in vain` : `tries to take one from ${name}, and has it`,
  up: ([name]) => `adds one to ${name}`,
  arrive: ([name]) => `arrives at ${name}`,
  leave: ([name], answer) => (answer === "0" ? `leaves ${name}` : `leaves ${name} as its serial thread`),
  join: ([name]) => `sees that ${name} has ended`,
  start: ([name]) => `starts ${name}`,
  begin: () => "begins",
  yield: () => "yields",
  check: ([holds]) => (holds === "0" ? "finds that its assertion fails" : "finds its assertion true"),
  fault: ([kind]) => ({
                       overflow: "can't go on: a result is out of range",
                       zerodivisor: "can't go on: a divisor is 0",
                       spin: "can't go on: it makes 10,000 moves without a step",
                     })[kind] ??
      `can't go on: ${kind}`,
  rdlock: ([name]) => `locks ${name} to read`,
  wrlock: ([name]) => `locks ${name} to write`,
  tryrdlock: ([name], answer) => `tries to lock ${name} to read, ${answer === "0" ? "in vain" : "and has it"}`,
  trywrlock: ([name], answer) => `tries to lock ${name} to write, ${answer === "0" ? "in vain" : "and has it"}`,
  rwunlock: ([name]) => `unlocks ${name}`,
};

// The asks whose answer tells something.
const ANSWERED =
    new Set(["read", "add", "cas", "trylock", "signal", "broadcast", "trydown", "leave", "tryrdlock", "trywrlock"]);

/** What a step does, in words, without its thread. */
function phraseOf(step, before, names) {
  const [word, ...operands] = step.ask.split(" ");
  const verb = Object.hasOwn(VERBS, word) ? VERBS[word] : () => `does ${step.ask}, ${step.answer}`;
  return verb(
      operands.map((operand) => names.of(operand)), step.answer, wokenBy(word, operands, step, before, names));
}

/** Whom a signal or a broadcast wakes, in words. */
function wokenBy(word, operands, step, before, names) {
  const cond = before?.by("conds").get(operands[0]);
  const count = Number(step.answer);
  if ((word !== "signal" && word !== "broadcast") || !count) return "";
  return cond ? `which wakes ${names.all(cond.waiting.slice(0, count))}` : `which wakes ${count}`;
}

/** A step in its lane: what was asked, and the answer where it tells something. */
function labelOf(step) {
  return ANSWERED.has(step.ask.split(" ")[0]) ? `${step.ask} = ${step.answer}` : step.ask;
}

/** How a thread that a change point lowers now stands, in words. */
function loweredWords(thread, after, names) {
  const own = after.thread(thread).rank;
  const below =
      [...after.by("threads")].filter(([, told]) => told.rank < own && told.is !== "ended").map(([name]) => name);
  return below.length ? `is put below all but ${names.all(below)}` : "is put last";
}

/** How a thread stands after its last step in a row, in words, or nothing where it could go on. */
function standsWords(thread, after) {
  const told = after.thread(thread);
  if (told.is === "ended") return "ends";
  return told.is === "blocked" ? `must wait for ${told.for}` : "";
}
