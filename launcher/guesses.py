"""What a wrong word was meant to be."""
from __future__ import annotations

# How many nanoseconds a unit of time is.
NANOSECONDS = {"ns": 1, "us": 1000, "µs": 1000, "μs": 1000, "ms": 10 ** 6, "s": 10 ** 9, "sec": 10 ** 9, "min": 60 * 10 ** 9}
IN_FULL = {"nanoseconds": "ns", "microseconds": "us"}
LETTERS = "abcdefghijklmnopqrstuvwxyzµμ"


def nearest(word: str, names: list[str]) -> str | None:
    """The one name that the word is likely to mean: it begins so, or is a few letters away, or one is a part of the other."""
    meant, folded = _folded(word), {name: _folded(name) for name in names}
    begun = [name for name, it in folded.items() if it.startswith(meant)]
    if len(meant) >= 3 and len(begun) == 1:
        return begun[0]
    away = {name: _distance(meant, it) for name, it in folded.items()}
    near = [name for name in names if away[name] <= max(1, len(folded[name]) // 3) and away[name] < len(meant)]
    if near:
        least = min(away[name] for name in near)
        return _only([name for name in near if away[name] == least])
    if len(meant) < 3:
        return None
    return _only([name for name, it in folded.items() if meant in it or it in meant])


def plain_number(word: str, counts: str | None = None) -> int | None:
    """The number that `1_000`, `1,000`, `1e3`, `+5`, `005`, `0x10` means, or `5ms`, where it counts microseconds or nanoseconds."""
    text = word.lower().lstrip("+").replace("_", "").replace(",", "")
    digits = text.rstrip(LETTERS)
    unit = text[len(digits) :]
    try:
        if text.startswith("0x"):
            return int(text, 16)
        if unit and not counts:
            return None
        value = int(digits) if digits.isdigit() else float(digits)
        if unit:
            value = value * NANOSECONDS[unit] / NANOSECONDS[IN_FULL[counts]]
        return int(value) if 0 <= value == int(value) else None
    except (KeyError, OverflowError, ValueError):
        return None


def _only(names: list[str]) -> str | None:
    return names[0] if len(names) == 1 else None


def _folded(word: str) -> str:
    """The word without what is often mixed up: capitals, hyphens, underscores, quotes."""
    return "".join(letter for letter in word.lower() if letter not in "-_'\"")


def _distance(one: str, other: str) -> int:
    """How many letters are changed, left out, added, or swapped with the next one."""
    before: list[int] = []
    last = list(range(len(other) + 1))
    for i, letter in enumerate(one):
        row = [i + 1]
        for j, wanted in enumerate(other):
            least = min(last[j] + (letter != wanted), last[j + 1] + 1, row[j] + 1)
            if i and j and letter == other[j - 1] and one[i - 1] == wanted:
                least = min(least, before[j - 1] + 1)
            row.append(least)
        before, last = last, row
    return last[-1]
