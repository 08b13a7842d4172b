// What stands beside the steps: the head of a failure, the run that passes, races, locks, moments, and what was
// searched.

const MOST_LINES = 30;

/** A button that goes to a step. */
const toStep = (number, choose) => make(
    "button", {type: "button", class: "to", "data-step": number, onclick: () => choose(number, true)},
    `step ${number}`);

/** The sentence of a heading, and what is told of it. */
function showFailure(page, heading) {
  const {names, rounds} = page;
  const run = heading.run;
  at("sentence").textContent = heading.sentence ?? run.verdict;
  const shares = (heading.shares ?? []).map(({round, count}) => shareWords(rounds[round], count)).filter(Boolean);
  const order = run.order.map((name) => names.of(name)).join(", ");
  show(
      "told", heading.told?.length ? make("ul", {}, ...heading.told.map((line) => make("li", {}, line))) : "",
      shares.length ? make("p", {class: "hint"}, `It happens in ${listed(shares)}.`) : "",
      heading.directive?.bound ? make("p", {class: "hint"}, boundWords(heading.directive)) : "",
      make(
          "p", {class: "hint"},
          `A run of ${counted(run.steps.length, "step")}. At each, of the threads that can go the one of the highest`,
          ` priority goes; they are, the highest first: ${order}. ${pointWords(run.points)} Verdict: `,
          make("code", {}, run.verdict), "."));
  const [first, ...others] = (heading.again ?? []).map(commandLine);
  show(
      "again", first ?? "",
      others.length ? make("details", {}, make("summary", {}, counted(others.length, "more command")), ...others) :
                      "");
}

function pointWords(points) {
  if (!points.length) return "There is no change point.";
  const steps = listed([...points].sort((a, b) => a - b).map(String));
  return points.length === 1 ? `The thread of step ${steps} is put last right after it: a change point.` :
                               `The threads of the steps ${steps} are put last right after them: change points.`;
}

const boundWords = ({bound, threads, steps, depth}) =>
    `At least 1 of ${BigInt(bound).toLocaleString("en")} choices at ${counted(threads, "thread")}, ` +
    `${counted(steps, "step")} and depth ${depth} fails so: this is certified.`;

function shareWords(round, count) {
  if (!round) return "";
  const [whole, what] = round.sweep ? ["all ", "orders and change points"] : ["", "orders that seeds drew"];
  return `${count.toLocaleString("en")} of ${whole}${round.seeds.toLocaleString("en")} ${what} at depth ${round.depth}`;
}

/** A command with a button that copies it. */
function commandLine({says, command}) {
  const button = make("button", {type: "button", class: "copy", "aria-label": `Copy the command: ${says}`}, "Copy");
  button.addEventListener("click", async () => {
    const isDone = await copyText(command);
    button.textContent = isDone ? "Copied" : "Not copied";
    at("live").textContent = isDone ? "The command is copied." : "The command couldn't be copied.";
    setTimeout(() => {
      button.textContent = "Copy";
    }, 2000);
  });
  return make("p", {class: "command"}, make("span", {}, `${says}: `), make("code", {tabindex: "0"}, command), button);
}

/** The two runs from their first difference on. */
function showPassing(page, heading) {
  const passing = heading.passing;
  at("beside").hidden = !passing;
  if (!passing) return;
  const [failing, other] = [page.run, new Run(passing.run)];
  const first = Math.max(1, passing.differs - 1);
  const most = Math.max(failing.length, other.length);
  const side = (run, number) => {
    const step = run.step(number);
    if (!step) return [number === run.length + 1 ? make("b", {}, run.run.verdict) : "", ""];
    const says = `${page.names.of(step.thread)} ${phraseOf(step, run.after(number - 1), page.names)}`;
    return [says, `${step.line}`];
  };
  const body = make("tbody");
  const more = make("button", {type: "button"});
  let next = first;
  const grow = () => {
    const until = Math.min(most + 1, next + MOST_LINES - 1);
    for (; next <= until; next += 1) {
      const [left, right] = [side(failing, next), side(other, next)];
      body.append(make(
          "tr", {class: next < passing.differs ? "same" : "differs"},
          make("th", {scope: "row"}, next <= failing.length ? toStep(next, page.choose) : `${next}`),
          ...[...left, ...right].map((cell) => make("td", {}, cell))));
    }
    more.hidden = next > most + 1;
    more.textContent = "More steps";
  };
  more.addEventListener("click", grow);
  grow();
  const heads = ["Step", "The run that fails", "Line", "The run that passes", "Line"].map(
      (head) => make("th", {scope: "col"}, head));
  const table = make(
      "table", {},
      make("caption", {}, `The same up to step ${passing.differs - 1}, and other from step ${passing.differs} on`),
      make("thead", {}, make("tr", {}, ...heads)), body);
  show(
      "pair", make("p", {}, `The same order of the threads, ${passing.says}: this run passes.`),
      make("div", {class: "wide", tabindex: "0", role: "region", "aria-label": "The two runs"}, table), more);
}

/** Races, the order of locks and the moments of directives, with buttons to their steps. */
function showFindings(page, heading) {
  const parts = [...racesOf(page, heading), ...locksOf(page, heading), ...momentsOf(page, heading)];
  at("findings").hidden = parts.length === 0;
  show("found", ...parts);
}

function racesOf({run, names, choose}, {races}) {
  if (!races?.length) return [];
  const side = (number) => {
    const step = run.step(number);
    return [
      toStep(number, choose), ` (${names.of(step.thread)}, line ${step.line}: `,
      make("code", {}, run.texts.at(step) || step.ask), ")"
    ];
  };
  const draw = ({var : name, first, second}) => [`${names.of(name)}: `, ...side(first), " and ", ...side(second)];
  return [
    make("h3", {}, "Data races"),
    make("p", {class: "hint"}, "Two steps reach the same variable, one of them writes it, and nothing orders them."),
    listOf(races, MOST_LINES, draw)
  ];
}

function locksOf({names, choose}, {locks}) {
  if (locks?.cycle?.length) {
    const draw = (nest) => [toStep(nest.step, choose), `: ${nestWords(nest, names)}`];
    return [
      make("h3", {}, "A cycle of locks"),
      make("p", {class: "hint"}, "Taken in these orders, the locks may leave all who take them waiting."),
      listOf(locks.cycle, MOST_LINES, draw)
    ];
  }
  return (locks?.order?.length ?? 0) > 1 ?
      [
        make("h3", {}, "Order of locks"),
        make("p", {}, `The run takes them in this order: ${locks.order.map((name) => names.of(name)).join(", ")}.`)
      ] :
      [];
}

function momentsOf({names, choose}, {directive, find}) {
  const parts = [["What the failure needs", find], ["The certified directive", directive]].filter(([, told]) => told);
  return parts.flatMap(([head, told]) => {
    const draw = (moment) =>
        [`${momentWords(moment, names)}: `,
         moment.step ? toStep(moment.step, choose) : "a step that this run hasn't"];
    return [
      make("h3", {}, head), make("p", {}, `${names.of(told.low)} has the lowest priority.`),
      told.moments.length ? listOf(told.moments, MOST_LINES, draw) : ""
    ];
  });
}

/** What was searched, and the command of the search. */
function showSearched({command, rounds}) {
  at("searched").hidden = !rounds.length && !command;
  const rows = rounds.map((round, index) => ({
                            cells: [
                              String(index), String(round.depth), round.steps.toLocaleString("en"),
                              round.sweep ? "all choices" : `from ${round.from}`, round.seeds.toLocaleString("en"),
                              round.failures.toLocaleString("en")
                            ],
                          }));
  const heads = ["Round", "Depth", "Steps", "Seeds", "How many", "Failures"];
  show(
      "rounds",
      rows.length ? make(
                        "div", {class: "wide", tabindex: "0", role: "region", "aria-label": "Rounds"},
                        tableOf("Rounds", heads, rows)) :
                    "",
      command ? commandLine({says: "the search", command}) : "");
}
