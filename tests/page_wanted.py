"""What the page of a run must say of each step and of the whole, by page_reckoning: what in it isn't so."""

import re


def joined(names):
    return names[0] if len(names) == 1 else f"{', '.join(names[:-1])} and {names[-1]}" if names else "nobody"


def objects_of(moment):
    """By kind and name the text of each object."""
    def readers(it):
        names = [f"{name} {count} times" if count > 1 else name for name, count in it.items() if count]
        return f"read by {joined(names)}" if names else "free"

    def waiters(waiting, woken):
        said = [(f"{joined(waiting)} wait{'' if len(waiting) > 1 else 's'} for a signal", waiting),
                (f"{joined(woken)} {'are' if len(woken) > 1 else 'is'} signalled", woken)]
        return "; ".join(text for text, names in said if names) or "nobody waits"

    return {
        "var": {name: str(value) for name, value in moment.values.items()},
        "mutex": {name: f"held by {owner}" if owner else "free" for name, owner in moment.owners.items()},
        "sem": {name: str(count) for name, count in moment.counts.items()},
        "cond": {name: waiters(waiting, moment.woken[name]) for name, waiting in moment.waiting.items()},
        "barrier": {name: f"{joined(there)} wait" if there else "nobody is there" for name,
                    there in moment.arrived.items()},
        "rwlock": {name: f"{moment.writers[name]} writes" if moment.writers[name] else readers(it)
                   for name, it in moment.readers.items()},
    }


def is_standing(told, stand):
    """Whether a thread's text tells how it stands."""
    if stand is None:
        return True
    if stand[0] != "blocked":
        return told == {"enabled": "can go", "held": "isn't started", "ended": "has ended"}[stand[0]]
    what, holder = stand[1:]
    return told.startswith("waits for ") and re.search(rf"\b{what}\b", told) is not None and (
        holder is None or re.search(rf", which ({holder} (holds|writes|reads)|it holds itself)", told) is not None)


def wrong_state(told, run, number):
    """What the page says of a step that isn't so."""
    after, before = run.moments[number], run.moments[max(0, number - 1)]
    wanted, was = objects_of(after), objects_of(before)
    wrong = [kind for kind in wanted if told[kind] != wanted[kind]]
    wrong += [name for name, stand in after.stands.items() if not is_standing(told["thread"][name], stand)]
    changed = {name for kind in wanted for name in wanted[kind] if wanted[kind][name] != was[kind][name]}
    if number and changed != set(told["changed"]) - set(run.threads):
        wrong.append("changed")
    known = {name for name, stand in before.stands.items() if stand is not None}
    names = re.findall(r"\w+", told["enabled"].partition(": ")[2])
    if [name for name in names if name in known] != before.enabled() and before.enabled():
        wrong.append("enabled")
    place = f"Step {number} of {len(run.steps)}"
    if (told["where"], told["slider"], told["row"], told["active"]) != (place, str(number), str(number), told["id"]):
        wrong.append("place")
    if not told["value"].startswith(place) or not told["isSeen"] or not told["isLineSeen"]:
        wrong.append("row")
    own = run.steps[number - 1].thread if number else None
    lanes = ["takes" if name == own else stand and stand[0] for name, stand in before.stands.items()]
    if any(wanted not in (None, drawn) for wanted, drawn in zip(lanes, told["lanes"], strict=True)):
        wrong.append("lanes")
    return wrong + (wrong_step(told, run, number) if number else [])


def wrong_step(told, run, number):
    """What the page says of the step itself that isn't so."""
    step, before, after = run.steps[number - 1], run.moments[number - 1], run.moments[number]
    ranks = run.ranks(number)
    higher = sorted((name for name, stand in before.stands.items() if stand and stand[0] in ("blocked", "held")
                     and ranks[name] > ranks[step.thread]), key=lambda name: -ranks[name])
    said = [step.thread in told["why"], *(f"{name} is higher" in told["why"] for name in higher[:3])]
    for name in higher[:3]:
        what = before.stands[name][1:2]
        said.append(all(re.search(rf"{name} is higher and waits for [^;]*\b{it}\b", told["why"]) for it in what))
    can_go = lambda moment, name: moment.stands[name] == ("enabled",)
    released = {name for name in run.threads if name != step.thread and before.stands[name] is not None
                and not can_go(before, name) and can_go(after, name)}
    woken = {name for cond, names in after.woken.items() for name in names if name not in before.woken[cond]} - released
    wrong = [] if all(said) else ["why"]
    arrows = {(name, name in woken) for name in released | woken}
    if {(name, is_woken) for name, is_woken in told["arrows"] if after.stands[name] is not None} != arrows:
        wrong.append("arrows")
    places = list(run.threads)
    if told["ends"] != [[places.index(step.thread), places.index(name)] for name, _ in told["arrows"]]:
        wrong.append("ends of arrows")
    if told["line"] != step.line or f"line {step.line}: {step.thread} " not in told["label"]:
        wrong.append("line")
    if max(before.enabled(), key=ranks.get) != step.thread:
        wrong.append("the reckoning")
    return wrong


def takes_of(run):
    """By the last step that took it, for what threads wait at the end and another has."""
    taken = set()
    for stand in run.moments[-1].stands.values():
        if stand and stand[0] == "blocked" and stand[2]:
            taken |= {max(step.number for step in run.steps if step.thread == stand[2] and stand[1] in step.ask
                          and step.ask[0] not in ("unlock", "rwunlock", "release"))}
    return taken


def wrong_story(story, run, races):
    """What isn't so in the story: it has a sentence for each stretch, and those are open in which something is to be
    seen."""
    stretches = run.stretches()
    ranges = [f"{first}" if first == last else f"{first}\u2013{last}" for first, last in stretches]
    notable = {step for pair in races for step in pair}
    notable |= {point for point in run.points if point <= len(run.steps)}
    notable |= {len(run.steps)} if run.verdict[0] in ("failed", "misuse", "fault", "cut") else set()
    perhaps = notable | takes_of(run)
    has = lambda first, last, steps: any(first <= step <= last for step in steps)
    wrong = [] if [told["range"] for told in story] == ranges else ["the stretches"]
    for told, (first, last) in zip(story, stretches):
        thread = run.steps[first - 1].thread
        if not told["says"].startswith(f"{thread} ") or (told["isOpen"] and told["steps"] == 0):
            wrong.append(f"{first}: {told['says']}")
        if has(first, last, notable) > told["isOpen"] or told["isOpen"] > has(first, last, perhaps):
            wrong.append(f"{first} is {'open' if told['isOpen'] else 'folded'}")
    return wrong
