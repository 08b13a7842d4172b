// The lanes: a row for each step, of which only those that are seen are there.

const SPARE_ROWS = 8;
const MEASURED_STEPS = 500;
const [NUMBER_WIDTH, LEAST_WIDTH, MOST_WIDTH] = [3.4, 6.6, 12];  // of the numbers and of a lane, in rem

class Lanes {
  constructor(box, choose) {
    this.box = box;
    this.choose = choose;
    this.list =
        make("div", {id: "steps", class: "rows", role: "listbox", tabindex: "0", "aria-label": "Steps of the run"});
    this.head = make("div", {class: "row head", "aria-hidden": "true"});
    this.end = make("div", {class: "row end", "aria-hidden": "true"});
    box.replaceChildren(this.head, this.list, this.end);
    box.addEventListener("scroll", () => this.later());
    window.addEventListener("resize", () => {
      this.fit();
      this.later();
    });
    this.list.addEventListener("click", (event) => {
      const row = event.target.closest("[data-step]");
      if (row) choose(Number(row.dataset.step));
    });
    this.isDue = false;
  }

  open(run, marks, names) {
    Object.assign(this, {run, marks, names, selected: 0});
    this.threads = run.threads;
    this.lane = new Map(this.threads.map((name, index) => [name, index]));
    this.height = this.head.getBoundingClientRect().height || 34;
    this.box.style.setProperty("--lanes", this.threads.length);
    this.fit();
    this.head.replaceChildren(
        make("span", {}, "step"), ...this.threads.map((name) => make("span", {}, names.of(name))));
    this.height = this.head.getBoundingClientRect().height;
    this.list.style.height = `${this.height * (run.length + 1)}px`;
    const state = run.after(run.length);
    this.end.replaceChildren(make("span", {}, "end"), ...this.placed((name) => this.standing(name, state, null)));
    this.box.scrollTop = 0;
    this.draw();
  }

  /**
   * Sets how wide a lane is at least: so that the labels of the first steps are read whole, where all lanes are seen
   * then or where they aren't anyway.
   */
  fit() {
    if (!this.run) return;
    const needs = (step, index) => labelOf(step).length * 0.5 + this.marks.of(index + 1).length * 1.25 + 1;
    const needed = Math.min(MOST_WIDTH, Math.max(LEAST_WIDTH, ...this.run.steps.slice(0, MEASURED_STEPS).map(needs)));
    const rem = parseFloat(getComputedStyle(document.documentElement).fontSize);
    const room = (this.box.clientWidth / rem - NUMBER_WIDTH) / this.threads.length;
    const width = room < LEAST_WIDTH ? needed : Math.max(LEAST_WIDTH, Math.min(needed, room));
    this.box.style.setProperty("--least", `${width}rem`);
  }

  later() {
    if (this.isDue) return;
    this.isDue = true;
    requestAnimationFrame(() => {
      this.isDue = false;
      this.draw();
    });
  }

  select(number) {
    this.selected = number;
    const top = number * this.height;
    const room = this.box.clientHeight - 2 * this.height;
    if (top < this.box.scrollTop)
      this.box.scrollTop = Math.max(0, top - this.height);
    else if (top > this.box.scrollTop + room - this.height)
      this.box.scrollTop = top - room + 2 * this.height;
    this.draw();
  }

  draw() {
    if (!this.run) return;
    const first = Math.max(0, Math.floor(this.box.scrollTop / this.height) - SPARE_ROWS);
    const many = Math.ceil(this.box.clientHeight / this.height) + 2 * SPARE_ROWS;
    const last = Math.min(this.run.length, first + many);
    const state = this.run.after(Math.max(0, first - 1));
    const rows = [];
    let before = null;
    for (let number = first; number <= last; number += 1) {
      rows.push(this.row(number, state, before));
      before = new Map(state.by("threads"));
      if (number > 0) state.put(this.run.step(number).changes);
    }
    if (this.selected < first || this.selected > last) {
      rows.push(this.row(this.selected, this.run.after(Math.max(0, this.selected - 1)), null));
    }
    this.list.replaceChildren(...rows);
    this.list.setAttribute("aria-activedescendant", `step-${this.selected}`);
  }

  /** The row of a step, with the state before it; row 0 is that before the first step. */
  row(number, state, before) {
    const step = this.run.step(number);
    const marks = this.marks.of(number);
    const row = make("div", {
      id: `step-${number}`,
      class: ["row", ...marks.map((mark) => `is-${mark.kind}`)].join(" "),
      role: "option",
      "data-step": number,
      "aria-selected": number === this.selected,
      "aria-posinset": number + 1,
      "aria-setsize": this.run.length + 1,
      "aria-label": this.saysRow(number, state, marks),
    });
    row.style.top = `${number * this.height}px`;
    row.append(make("span", {class: "number"}, number ? String(number) : "start"));
    row.append(...this.placed(
        (name) => (step?.thread === name ? this.cell(step, marks) : this.standing(name, state, before))));
    if (step) row.append(...this.arrows(step));
    return row;
  }

  /** A cell for each thread, in its column: arrows lie in the same columns. */
  placed(draw) {
    return this.threads.map((name, index) => {
      const cell = draw(name);
      cell.style.gridColumn = String(index + 2);
      return cell;
    });
  }

  saysRow(number, state, marks) {
    if (!number) return "Before the first step";
    const step = this.run.step(number);
    const says =
        `Step ${number}, line ${step.line}: ${this.names.of(step.thread)} ${phraseOf(step, state, this.names)}`;
    return [says, ...marks.map((mark) => SIGNS[mark.kind].long)].join("; ");
  }

  cell(step, marks) {
    const kinds = [...new Set(marks.map((mark) => mark.kind))];
    const signs = kinds.map((kind) => make("b", {class: `sign ${kind}`}, SIGNS[kind].short));
    return make(
        "span", {class: "lane takes"}, make("span", {class: "box"}, make("code", {}, labelOf(step)), ...signs));
  }

  /** How another thread stands: it can go on, is blocked, isn't started, or has ended. */
  standing(name, state, before) {
    const told = state.thread(name);
    if (told.is !== "blocked" && told.is !== "held") return make("span", {class: `lane ${told.is}`});
    const was = before?.get(name);
    const isTold = was && was.is === told.is && was.for === told.for;
    return make(
        "span", {class: `lane ${told.is}`},
        isTold ? "" : make("i", {}, told.is === "held" ? "not started" : `waits: ${told.for.split(/,| \(/)[0]}`));
  }

  /** From the step's lane to those of the threads that it wakes or releases. */
  arrows(step) {
    const from = this.lane.get(step.thread);
    const drawn = (kind) => (name) => {
      const to = this.lane.get(name);
      const [low, high] = [Math.min(from, to), Math.max(from, to)];
      const arrow = make("span", {class: `arrow ${kind} ${to > from ? "right" : "left"}`, "data-to": name});
      arrow.style.gridColumn = `${low + 2} / ${high + 3}`;
      arrow.style.marginInline = `${50 / (high - low + 1)}%`;
      return arrow;
    };
    return [...(step.woken ?? []).map(drawn("wakes")), ...(step.released ?? []).map(drawn("releases"))];
  }
}
