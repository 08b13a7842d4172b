// The page: which failure and which step is shown, by keys, buttons and the address.

const SCRIPTED = ["pct-hunt", "lanes"];  // the writers whose sources are scripts
const ADDRESS_DELAY = 150;  // milliseconds: the address follows when the steps rest

class Page {
  constructor(found) {
    this.found = found;
    this.rounds = found.rounds ?? [];
    this.command = found.command;
    this.names = new Names(found.names);
    this.threads = found.deal.threads.map((thread) => thread.name);
    this.choose = (number, isSeen) => this.select(number, isSeen);
    this.lanes = new Lanes(at("lanes"), this.choose);
    this.story = new Story(at("story"), (number) => this.select(number, false));
    this.source = new Source(at("source"));
    this.details = new Details(at("state-head"), at("details"));
    this.texts = new Texts(found.sources);
    this.source.open(this.texts, found.title);
    at("script-head").textContent = SCRIPTED.includes(found.writer) ? "Script" : "Source";
    this.opened = new Map();
    this.group = -1;
    this.number = 0;
  }

  start() {
    showSearched(this);
    if (!this.found.headings.length) {
      this.showNothing();
      return;
    }
    this.drawGroups();
    this.listen();
    this.goToAddress();
  }

  showNothing() {
    at("sentence").textContent = "Nothing failed.";
    for (const id of ["story-section", "stage"]) at(id).hidden = true;
  }

  drawGroups() {
    const {headings} = this.found;
    at("groups").hidden = headings.length < 2;
    at("groups").firstElementChild.replaceChildren(...headings.map(
        (heading, index) => make(
            "li", {}, make("a", {href: `#group=${index + 1}&step=0`}, heading.sentence ?? heading.run.verdict))));
  }

  drawLegend() {
    const signs = [
      ["box", "a step"], ["free", "can go on"], ["waits", "waits"], ["releases", "can go after the step"],
      ["wakes", "is woken, and still waits"]
    ];
    const kinds = this.marks.kinds().map(
        (kind) => make("li", {}, make("b", {class: `sign ${kind}`}, SIGNS[kind].short), ` ${SIGNS[kind].long}`));
    show(
        "legend",
        ...signs.map(
            ([sign, says]) => make("li", {}, make("span", {class: `key ${sign}`, "aria-hidden": "true"}), says)),
        ...kinds);
  }

  /** The failure and the step that the address names; without a step, where to begin. */
  goToAddress() {
    const words = new URLSearchParams(location.hash.slice(1));
    const numberOf = (word, low, most, other) => {
      const text = words.get(word) ?? "";
      return /^\d{1,9}$/.test(text) ? Math.min(most, Math.max(low, Number(text))) : other;
    };
    this.open(numberOf("group", 1, this.found.headings.length, 1) - 1);
    this.select(numberOf("step", 0, this.run.length, 0));
  }

  open(group) {
    if (group === this.group) return;
    this.group = group;
    const heading = this.found.headings[group];
    if (!this.opened.has(group)) {
      const run = new Run(heading.run);
      Object.assign(run, {threads: this.threads, texts: this.texts});
      this.opened.set(group, {run, marks: new Marks(heading, run, this.names)});
    }
    Object.assign(this, this.opened.get(group));
    at("groups").querySelectorAll("a").forEach(
        (link, index) => link.toggleAttribute("aria-current", index === group));
    at("slider").max = this.run.length;
    showFailure(this, heading);
    this.lanes.open(this.run, this.marks, this.names);
    this.story.open(this.run, this.marks, this.names, heading);
    this.drawLegend();
    showPassing(this, heading);
    showFindings(this, heading);
  }

  select(number, isSeen = false) {
    this.number = Math.max(0, Math.min(this.run.length, number));
    const step = this.run.step(this.number);
    this.details.select(this.number, this.run, this.marks, this.names);
    this.source.select(step, this.details.state, this.threads, this.names);
    this.lanes.select(this.number);
    this.story.select(this.number);
    this.tell(step);
    this.keepAddress();
    if (isSeen) at("stage").scrollIntoView({block: "start"});
  }

  /** Says the step beside the slider and to who listens. */
  tell(step) {
    const where = `Step ${this.number} of ${this.run.length}`;
    const says = step ? `${this.names.of(step.thread)} ${phraseOf(step, this.details.before, this.names)}` :
                        "before the first step";
    const slider = at("slider");
    slider.value = this.number;
    slider.setAttribute("aria-valuetext", `${where}: ${says}`);
    show("where", make("b", {}, where), ` ${says}`);
    at("live").textContent = `${where}: ${says}`;
    const [isFirst, isLast] = [this.number === 0, this.number === this.run.length];
    for (const id of ["first", "previous"]) at(id).setAttribute("aria-disabled", isFirst);
    for (const id of ["next", "last"]) at(id).setAttribute("aria-disabled", isLast);
  }

  keepAddress() {
    clearTimeout(this.timer);
    this.timer = setTimeout(
        () => history.replaceState(null, "", `#group=${this.group + 1}&step=${this.number}`), ADDRESS_DELAY);
  }

  listen() {
    const moves =
        {first: () => 0, previous: () => this.number - 1, next: () => this.number + 1, last: () => this.run.length};
    for (const [id, to] of Object.entries(moves)) at(id).addEventListener("click", () => this.select(to()));
    at("slider").addEventListener("input", () => this.select(Number(at("slider").value)));
    window.addEventListener("hashchange", () => this.goToAddress());
    document.addEventListener("keydown", (event) => this.press(event));
  }

  press(event) {
    if (event.ctrlKey || event.metaKey || event.altKey || event.defaultPrevented) return;
    const isInLanes = event.target === this.lanes.list;
    const to = this.placeOf(event, isInLanes);
    if (to === null) return;
    event.preventDefault();
    this.select(to);
  }

  /** The step to which a key goes, or null where it has another meaning there. */
  placeOf({key, target}, isInLanes) {
    const by = {ArrowRight: 1, ArrowLeft: -1};
    if (target.id !== "slider" && Object.hasOwn(by, key)) return this.number + by[key];
    if (at("letters").checked && (key === "j" || key === "k")) return this.number + (key === "j" ? 1 : -1);
    const page = Math.max(1, Math.floor(this.lanes.box.clientHeight / this.lanes.height) - 2);
    const places = {
      ArrowDown: this.number + 1,
      ArrowUp: this.number - 1,
      PageDown: this.number + page,
      PageUp: this.number - page,
      Home: 0,
      End: this.run.length
    };
    return isInLanes && Object.hasOwn(places, key) ? places[key] : null;
  }
}

/** The document of a long run is packed: by gzip, in base64. */
async function startPacked(element) {
  try {
    const bytes = Uint8Array.from(atob(element.textContent), (it) => it.charCodeAt(0));
    const whole = new Blob([bytes]).stream().pipeThrough(new DecompressionStream("gzip"));
    new Page(JSON.parse(await new Response(whole).text())).start();
  } catch (error) {
    at("sentence").textContent = `This page can't be unpacked: ${error}`;
    throw error;
  }
}

if (at("document").type === "application/json")
  new Page(JSON.parse(at("document").textContent)).start();
else
  startPacked(at("document"));
