// The story: a sentence for each stretch of steps that one thread takes in a row.

const MOST_BLOCKS = 120;  // so many are there at once
const MOST_PHRASES = 4;   // so many steps does a sentence tell
const MOST_STEPS = 12;    // so many steps has an open stretch before it leaves some out

class Story {
  constructor(box, choose) {
    this.box = box;
    this.choose = choose;
    this.list = make("ol", {class: "blocks"});
    this.earlier = make("button", {type: "button", onclick: () => this.turn(-1)}, "Earlier steps");
    this.later = make("button", {type: "button", onclick: () => this.turn(1)}, "Later steps");
    this.end = make("p", {class: "verdict"});
    box.replaceChildren(this.earlier, this.list, this.later, this.end);
  }

  open(run, marks, names, heading) {
    Object.assign(this, {run, marks, names, heading, selected: 0, low: 0});
    this.blocks = run.blocks();
    this.opened = new Set();
    this.blocks.forEach((block, index) => {
      if (this.isNotable(block)) this.opened.add(index);
    });
    this.tellEnd();
    this.draw();
  }

  /** Whether a change point, the failing step, or a step of a race, a cycle or a moment lies in the block. */
  isNotable(block) {
    for (let number = block.first; number <= block.last; number += 1) {
      if (this.marks.of(number).length) return true;
    }
    return false;
  }

  /** The last sentence; and who waits for what at the end, where the heading doesn't tell it. */
  tellEnd() {
    const core = this.heading.told?.length ? [] : this.heading.run.core ?? [];
    const waits = core.map((wait) => {
      const since = wait.since ? `, since step ${wait.since}` : "";
      return make("li", {}, `${this.names.of(wait.thread)}, in line ${wait.line}, waits for ${wait.waits}${since}`);
    });
    this.end.replaceChildren(make("b", {}, "The end: "), `${this.heading.sentence ?? this.heading.run.verdict}.`);
    this.box.querySelector(".waits")?.remove();
    if (waits.length) this.end.after(make("ul", {class: "waits"}, ...waits));
  }

  turn(by) {
    const most = Math.max(0, this.blocks.length - MOST_BLOCKS);
    this.low = Math.min(most, Math.max(0, this.low + by * MOST_BLOCKS));
    this.draw();
    (by < 0 || this.later.hidden ? this.earlier : this.later).focus();
  }

  blockOf(number) {
    let [low, high] = [0, this.blocks.length - 1];
    while (low < high) {
      const middle = (low + high) >> 1;
      if (this.blocks[middle].last < number)
        low = middle + 1;
      else
        high = middle;
    }
    return low;
  }

  select(number) {
    this.selected = number;
    const block = this.blockOf(Math.max(1, number));
    if (this.blocks.length && (block < this.low || block >= this.low + MOST_BLOCKS)) {
      this.low = Math.max(0, Math.min(this.blocks.length - MOST_BLOCKS, block - MOST_BLOCKS / 2));
      this.draw();
    }
    this.light();
  }

  light() {
    for (const lit of this.list.querySelectorAll("[aria-current]")) lit.removeAttribute("aria-current");
    if (!this.selected) return;
    const block = this.list.querySelector(`[data-block="${this.blockOf(this.selected)}"]`);
    block?.setAttribute("aria-current", "true");
    block?.querySelector(`button[data-step="${this.selected}"]`)?.setAttribute("aria-current", "step");
  }

  draw() {
    const shown = this.blocks.slice(this.low, this.low + MOST_BLOCKS);
    this.list.replaceChildren(...shown.map((block, index) => this.block(block, this.low + index)));
    this.earlier.hidden = this.low === 0;
    this.later.hidden = this.low + MOST_BLOCKS >= this.blocks.length;
    this.light();
  }

  block(block, index) {
    const range = block.first === block.last ? `${block.first}` : `${block.first}\u2013${block.last}`;
    const kinds = new Set();
    for (let number = block.first; number <= block.last; number += 1) {
      for (const mark of this.marks.of(number)) kinds.add(mark.kind);
    }
    const tags = [...kinds].map((kind) => make("b", {class: `sign ${kind}`}, SIGNS[kind].long));
    const details = make(
        "details", {open: this.opened.has(index)},
        make(
            "summary", {}, make("span", {class: "range"}, range), make("span", {class: "says"}, this.sentence(block)),
            ...tags));
    if (details.open) details.append(this.stepsOf(block));
    details.addEventListener("toggle", () => {
      if (details.open)
        this.opened.add(index);
      else
        this.opened.delete(index);
      if (details.open && details.children.length === 1) details.append(this.stepsOf(block));
      this.light();
    });
    return make("li", {"data-block": index}, details);
  }

  /** The block in one sentence. */
  sentence(block) {
    const phrases = this.phrases(block);
    const after = this.run.after(block.last);
    const isLast = block.last === this.run.length && this.run.endsByStep;
    const step = this.run.step(block.last);
    const stands = isLast ? "" : standsWords(block.thread, after);
    if (step.lowered !== undefined && !stands) phrases.push(loweredWords(block.thread, after, this.names));
    if (stands) phrases.push(stands);
    const most = phrases.length > 2 ? "; " : "";
    const joined = phrases.length > 1 ?
        `${phrases.slice(0, -1).join("; ")}${most || ", "}and ${phrases[phrases.length - 1]}` :
        phrases[0];
    return `${this.names.of(block.thread)} ${joined}.`;
  }

  phrases(block) {
    const many = block.last - block.first + 1;
    const cut = many > MOST_PHRASES + 1 ? MOST_PHRASES - 1 : many;
    const state = this.run.after(block.first - 1);
    const phrases = [];
    for (let number = block.first; number < block.first + cut; number += 1) {
      phrases.push(phraseOf(this.run.step(number), state, this.names));
      state.put(this.run.step(number).changes);
    }
    if (cut < many) {
      phrases.push(`takes ${counted(many - cut - 1, "more step")}`);
      phrases.push(phraseOf(this.run.step(block.last), this.run.after(block.last - 1), this.names));
    }
    return phrases;
  }

  /**
   * The steps of an open block: of many the first, the last and those that are marked, and buttons for the others.
   */
  stepsOf(block) {
    const list = make("ol", {class: "steps"});
    const many = block.last - block.first + 1;
    const isShown = (number) =>
        many <= MOST_STEPS || number === block.first || number === block.last || this.marks.of(number).length;
    let hiddenFrom = 0;
    for (let number = block.first; number <= block.last + 1; number += 1) {
      const isLeft = number <= block.last && !isShown(number);
      if (isLeft)
        hiddenFrom = hiddenFrom || number;
      else if (hiddenFrom) {
        list.append(this.gap(hiddenFrom, number - 1));
        hiddenFrom = 0;
      }
      if (number <= block.last && !isLeft) list.append(this.item(number, number === block.first));
    }
    return list;
  }

  gap(first, last) {
    const item = make("li", {class: "gap"});
    const open = () => {
      const until = Math.min(last, first + 199);
      const items = [];
      for (let number = first; number <= until; number += 1) items.push(this.item(number, false));
      item.replaceWith(...items, ...(until < last ? [this.gap(until + 1, last)] : []));
      items[0].querySelector("button").focus();
    };
    item.append(make("button", {type: "button", onclick: open}, `${counted(last - first + 1, "step")} between`));
    return item;
  }

  item(number, isFirst) {
    const step = this.run.step(number);
    const says = phraseOf(step, this.run.after(number - 1), this.names);
    const text = this.run.texts.at(step) || step.ask;
    return make(
        "li", {},
        make(
            "button", {type: "button", "data-step": number, onclick: () => this.choose(number)},
            make("span", {class: "range"}, `${number}`), `line ${step.line}: `, make("code", {}, text),
            ` \u2014 ${says}`),
        isFirst && step.why ? make("span", {class: "why"}, `Why ${this.names.of(step.thread)}: ${step.why}.`) : "",
        ...this.marks.of(number).map((mark) => make("span", {class: `told ${mark.kind}`}, mark.text)));
  }
}
