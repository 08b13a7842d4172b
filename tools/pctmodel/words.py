"""The words of the command line for the model: which of them are taken, and the number of the first that isn't."""

from __future__ import annotations

from typing import Any, NamedTuple

from pctmodel.script import is_name
from pctmodel.trace import number_of

RANGES = {
    "--limit": (1, 100000), "--steps": (1, 100000), "--count": (1, 100000), "--depth": (1, 8),
    "--seed": (0, 2**64 - 1), "--from": (0, 2**64 - 1),
}
# The forms of options that a command may have. A form tells of each of its options whether it is needed.
Form = dict[str, bool]
BY_ORDER: Form = {"--order": True, "--points": False, "--limit": False}
BY_SEED: Form = {"--seed": True, "--depth": True, "--steps": False, "--limit": False}
EXPOSE: Form = {"--order": True, "--steps": True, "--limit": False}
CERTIFY: Form = {"--steps": True, "--limit": False, "--serve": False}
SWEEP: Form = {"--depth": True, "--steps": False, "--limit": False, "--form": False, "--serve": False}
CAMPAIGN: Form = {"--from": True, "--count": True, **SWEEP}
BIG: Form = {"--serve": False}
WORDS_OF = {"--form": ("text", "json"), "--serve": ("caller", "threads")}
# By command: how many words stand before the options, and the forms of these.
COMMANDS: dict[str, tuple[int, list[Form]]] = {
    "run": (1, [BY_ORDER, BY_SEED]),
    "races": (1, [BY_ORDER, BY_SEED]),
    "locks": (1, [BY_ORDER, BY_SEED]),
    "find": (1, [BY_ORDER, BY_SEED]),
    "replay": (2, [{}]),
    "expose": (2, [EXPOSE]),
    "certify": (2, [CERTIFY]),
    "campaign": (1, [CAMPAIGN]),
    "sweep": (1, [SWEEP]),
    "big": (1, [BIG]),
}


class Settings(NamedTuple):
    """The words that were taken."""

    command: str
    before: list[str]
    options: dict[str, Any]
    places: dict[str, int]  # the number of each option's value


class NotTaken(Exception):
    """The number of the first word that isn't taken, from 1."""


def value_of(option: str, word: str) -> Any:
    """What the word gives to the option, or None where it isn't lawful."""
    if option == "--order":
        names = word.split(",")
        return names if len(names) <= 64 and all(map(is_name, names)) else None
    if option == "--points":
        points = [number_of(item, 1, 100000) for item in word.split(",")]
        return points if len(points) <= 7 and None not in points else None
    if option in WORDS_OF:
        return word if word in WORDS_OF[option] else None
    return number_of(word, *RANGES[option])


def read_words(words: list[str]) -> Settings:
    """What the words behind the program's name ask for. Raises NotTaken with the number of the first that isn't
    taken."""
    if not words or words[0] not in COMMANDS:
        raise NotTaken(1)
    count, forms = COMMANDS[words[0]]
    settings = Settings(words[0], words[1 : count + 1], {}, {})
    if len(settings.before) < count:
        raise NotTaken(len(words) + 1)
    if settings.command == "big" and number_of(words[1], 1, 100) is None:
        raise NotTaken(2)
    for at in range(count + 1, len(words), 2):
        option, given = words[at], settings.options
        if option in given or not any(option in form and given.keys() <= form.keys() for form in forms):
            raise NotTaken(at + 1)
        value = value_of(option, words[at + 1]) if at + 1 < len(words) else None
        if value is None:
            raise NotTaken(at + 2)
        given[option], settings.places[option] = value, at + 2
    if not any(all(name in settings.options for name, is_needed in form.items() if is_needed) for form in forms):
        raise NotTaken(len(words) + 1)
    return settings
