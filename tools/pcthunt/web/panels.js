// The script with the line of the selected step, and the state at that step.

const MOST_WHOLE = 2000;  // a source of at most so many lines is there as a whole
const NEAR_LINES = 60;    // of a longer one so many lines before and after a place
const MORE_LINES = 400;   // and so many more where they are asked for
const MOST_ROWS = 6000;   // where so many lines of a source are there, those that aren't near go

/** A source, of which the lines near the steps that were shown are there, and buttons for the others. */
class SourceFile {
  constructor(file, lines) {
    this.lines = lines;
    this.list = make("ol", {class: "source", "aria-label": file});
    this.clear();
  }

  clear() {
    this.rows = new Map();
    const whole = this.gap(1, this.lines.length);
    this.gaps = [whole];
    this.list.replaceChildren(whole.item);
    this.fill(whole, 1, this.lines.length <= MOST_WHOLE ? this.lines.length : NEAR_LINES);
  }

  gap(first, last) {
    const gap = {first, last};
    const open = () => this.fill(gap, gap.first, Math.min(gap.last, gap.first + MORE_LINES - 1));
    gap.item = make(
        "li", {class: "gap"},
        make("button", {type: "button", onclick: open}, `${counted(last - first + 1, "more line")}`));
    return gap;
  }

  /** Puts the lines from the first to the last one in the place of a gap that has them, and of others two gaps. */
  fill(gap, first, last) {
    const rests = [[gap.first, first - 1], [last + 1, gap.last]].map(
        ([low, high]) => (low <= high ? this.gap(low, high) : null));
    const items = document.createDocumentFragment();
    for (let line = first; line <= last; line += 1) items.appendChild(this.row(line));
    if (rests[0]) items.prepend(rests[0].item);
    if (rests[1]) items.append(rests[1].item);
    gap.item.replaceWith(items);
    this.gaps = [...this.gaps.filter((it) => it !== gap), ...rests.filter(Boolean)];
  }

  row(line) {
    const row = make(
        "li", {"data-line": line}, make("span", {class: "number", "aria-hidden": "true"}, String(line)),
        make("code", {}, cutLine(this.lines[line - 1])), make("span", {class: "here"}));
    this.rows.set(line, row);
    return row;
  }

  /** The row of a line, with those near it; none where the source has no such line. */
  at(line) {
    const gap = this.gaps.find((it) => it.first <= line && line <= it.last);
    if (gap) this.fill(gap, Math.max(gap.first, line - NEAR_LINES), Math.min(gap.last, line + NEAR_LINES));
    return this.rows.get(line);
  }
}

class Source {
  constructor(box) {
    this.box = box;
    this.files = new Map();
    this.marked = [];
  }

  open(texts, title) {
    this.marked = [];
    this.files = new Map(texts.files().map((file) => [file, new SourceFile(file, texts.linesOf(file))]));
    const isNamed = (file) => this.files.size > 1 || file !== title;
    this.box.replaceChildren(...[...this.files].flatMap(
        ([file, source]) => (isNamed(file) ? [make("h4", {}, file), source.list] : [source.list])));
  }

  rowOf({file, line}) {
    return this.files.get(file)?.at(line);
  }

  /** Lights the step's line, and says at which lines the threads go on after it. */
  select(step, after, threads, names) {
    for (const row of this.marked) {
      row.removeAttribute("aria-current");
      row.lastChild.replaceChildren();
    }
    this.marked = [];
    for (const source of this.files.values()) {
      if (source.rows.size > Math.max(MOST_ROWS, MOST_WHOLE)) source.clear();
    }
    for (const name of threads) {
      const told = after.thread(name);
      const row = this.rowOf(told);
      if (!row) continue;
      const does = told.is === "blocked" ? "waits here" : told.is === "held" ? "isn't started" : "is here next";
      row.lastChild.append(
          make("span", {class: `badge ${told.is}`}, names.of(name), make("span", {class: "unseen"}, ` ${does} `)));
      this.marked.push(row);
    }
    const row = step && this.rowOf(step);
    if (!row) return;
    row.setAttribute("aria-current", "step");
    this.marked.push(row);
    this.scrollTo(row);
  }

  scrollTo(row) {
    const [top, bottom] = [this.box.scrollTop, this.box.scrollTop + this.box.clientHeight];
    const place = row.offsetTop;
    if (place < top || place + row.offsetHeight > bottom) this.box.scrollTop = place - this.box.clientHeight / 3;
  }
}

/** The state around the selected step: why its thread went, and what is after it. */
class Details {
  constructor(head, box) {
    this.head = head;
    this.box = box;
  }

  select(number, run, marks, names) {
    Object.assign(this, {run, names, number});
    this.before = run.after(Math.max(0, number - 1));
    this.state = this.before.copy();
    const step = run.step(number);
    if (step) this.state.put(step.changes);
    this.head.textContent = number ? `After step ${number}` : "Before the first step";
    this.box.replaceChildren(
        ...(step ? this.told(step, marks.of(number)) : this.start()),
        ...[this.values(), this.holders(), this.threads()].filter(Boolean));
    this.box.scrollTop = 0;
  }

  start() {
    return [make("p", {class: "says"}, "Nothing has been done."), this.enabled("Can go", this.state)];
  }

  enabled(says, state) {
    return make(
        "p", {"data-part": "enabled"}, make("b", {}, `${says}: `), this.names.all(state.enabled()) || "nobody");
  }

  told(step, marks) {
    const says = `${this.names.of(step.thread)} ${phraseOf(step, this.before, this.names)}`;
    const moved = [["Wakes", step.woken], ["Now can go", step.released]].filter(([, who]) => who?.length);
    return [
      make("p", {class: "says"}, `${says}.`),
      step.why ?
          make("p", {"data-part": "why"}, make("b", {}, `Why ${this.names.of(step.thread)}: `), `${step.why}.`) :
          "",
      this.enabled("Could go before it", this.before),
      ...moved.map(
          ([word, who]) => make("p", {"data-part": "moved"}, make("b", {}, `${word}: `), this.names.all(who))),
      ...marks.map((mark) => make("p", {class: `told ${mark.kind}`, "data-part": "mark"}, mark.text)),
    ];
  }

  /** A row, which says whether its value changed at the step. */
  line(member, name, value, was, ...more) {
    const isChanged = this.number > 0 && value !== was;
    const cell = isChanged ?
        make("span", {}, make("strong", {}, value), make("span", {class: "was"}, ` changed, was ${was}`)) :
        value;
    return {
      cells: [this.names.of(name), cell, ...more],
      attributes: {[`data-${member}`]: name, class: isChanged ? "changed" : null}
    };
  }

  values() {
    const rows = [...this.state.by("vars")].map(
        ([name, value]) => this.line("var", name, value, this.before.by("vars").get(name)));
    return rows.length ? tableOf("Values", ["Variable", "Value"], rows) : null;
  }

  /** Who holds what, and who waits where. */
  holders() {
    const said = {
      mutexes: (holder) => (holder === null ? "free" : `held by ${this.names.of(holder)}`),
      rwlocks: (lock) => this.usersOf(lock),
      sems: (count) => String(count),
      conds: ({waiting, woken}) => this.waitersOf(waiting, woken),
      barriers: (arrived) => (arrived.length ? `${this.names.all(arrived)} wait` : "nobody is there"),
    };
    const kinds = {mutexes: "mutex", rwlocks: "rwlock", sems: "sem", conds: "cond", barriers: "barrier"};
    const rows = Object.entries(said).flatMap(
        ([member, says]) => [...this.state.by(member)].map(
            ([name, value]) => this.line(kinds[member], name, says(value), says(this.before.by(member).get(name)))));
    return rows.length ? tableOf("Who holds what", ["Object", "State"], rows) : null;
  }

  usersOf({writer, readers}) {
    if (writer !== null) return `${this.names.of(writer)} writes`;
    const names = entriesOf(readers).map(
        ([name, count]) => (count > 1 ? `${this.names.of(name)} ${count} times` : this.names.of(name)));
    return names.length ? `read by ${listed(names)}` : "free";
  }

  waitersOf(waiting, woken) {
    const said = [];
    if (waiting.length) said.push(`${this.names.all(waiting)} ${waiting.length > 1 ? "wait" : "waits"} for a signal`);
    if (woken.length) said.push(`${this.names.all(woken)} ${woken.length > 1 ? "are" : "is"} signalled`);
    return said.join("; ") || "nobody waits";
  }

  threads() {
    const rows = [...this.state.by("threads")].map(([name, told]) => {
      const was = this.before.thread(name);
      const next = told.ask ? `line ${told.line}: ${told.ask}` : "";
      return this.line(
          "thread", name, this.stands(name, told), this.stands(name, was), next, String(told.rank ?? ""));
    });
    return rows.length ? tableOf("Threads", ["Thread", "State", "Next", "Priority"], rows) : null;
  }

  stands(name, told) {
    const last = this.run.step(this.run.length);
    const fails = this.run.endsByStep && this.number === this.run.length && last.thread === name;
    const words =
        {enabled: "can go", held: "isn't started", ended: "has ended", unknown: fails ? "has failed" : "isn't known"};
    return told.is === "blocked" ? `waits for ${told.for}` : words[told.is] ?? told.is;
  }
}
