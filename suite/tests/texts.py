"""Random small texts of all six kinds, correct and faulty, in many spellings. The same seed makes the same texts."""

from random import Random

from reading import COUNTED, GRAPHS, MOST, NAMES, Item, Text

# Numbers at the limits, and words for faulty lines.
EDGES = [MOST, -MOST, -MOST - 1, MOST - 1]
WORDS = "0 1 -1 + - -0 007 +2 1.5 x s t a n q v p c P sp".split() + [str(it) for it in (MOST, MOST + 1, -MOST - 2)]
LETTERS = ["a", "n", "p", "s", "q", "v", "aa", "A", "z", "-", "1"]


def number(chance: Random, low: int, high: int) -> int:
    """Returns a small number, sometimes one at the limits of a number."""
    if chance.random() < 0.02:
        return chance.choice(EDGES)
    return chance.randint(low, high)


def made(chance: Random, kind: str, is_wide: bool = False) -> Text:
    """Returns a random text that is usually accepted. Wide texts have greater capacities."""
    text = Text(kind, chance.randint(2, 4))
    if chance.random() < 0.02:
        text.nodes = MOST
    nodes = list(range(1, min(text.nodes, 4) + 1))
    wide = 3 * 10**18 if is_wide else 3
    for _ in range(chance.choice([0, 1, 2, 4, 8])):
        pair = chance.choice(nodes), chance.choice(nodes[:2])
        if kind == "min":
            low = chance.choice([0, 0, 1, chance.randint(0, wide)])
            cap = low + chance.choice([0, 1, chance.randint(0, wide)]) if chance.random() < 0.99 else low - 1
            text.items.append((*pair, low, cap, number(chance, -3, 3) if is_wide else chance.randint(-3, 3)))
        elif kind in ["max", "sp"]:
            text.items.append((*pair, number(chance, 0 if kind == "max" else -3, wide)))
        else:
            text.items.append(made_item(chance, kind, len(text.items)))
    if kind == "min":
        text.flows = {it: number(chance, -2, 2) for it in chance.sample(nodes, chance.randint(0, len(nodes)))}
    if kind == "max":
        ends = chance.sample(nodes, 2) if chance.random() < 0.97 else chance.choices(nodes, k=2)
        text.terminals = dict(zip(chance.choice(["st", "ts"]), ends))
    return text


def made_item(chance: Random, kind: str, before: int) -> Item:
    """Returns an item of a companion after this many other items."""
    node = number(chance, 1, 5)
    if kind == "co":
        # 5 is prime, so no ID is repeated within five items.
        return before * 2 % 5 + 5 * (before // 5) + 1, number(chance, -9, 9), number(chance, -9, 9)
    return (node,) if kind == "ss" else (node, chance.randint(1, 5))


def lines_of(chance: Random, text: Text) -> list[list[str]]:
    """Returns the lines of a text, with node lines and points in any order."""
    counts = [text.nodes, len(text.items)] if text.kind in GRAPHS else [len(text.items)]
    heads: list[list[object]] = [["n", node, flow] for node, flow in text.flows.items()]
    heads += [["n", node, letter] for letter, node in text.terminals.items()]
    chance.shuffle(heads)
    items = ([COUNTED[text.kind], *it] for it in text.items)
    return [[str(it) for it in line] for line in [["p", *NAMES[text.kind], *counts], *heads, *items]]


def spelled(chance: Random, lines: list[list[str]]) -> bytes:
    """Returns the bytes of lines, half of the time with comments, blanks and numbers that are not the shortest."""
    if chance.random() < 0.5:
        return "".join(" ".join(line) + "\n" for line in lines).encode()
    text = ""
    for line in lines:
        if chance.random() < 0.2:
            text += chance.choice(["c\n", "cab a 1 2 3\n", "\n", " \t\r\n", "  c \x00\xe9\n"])
        text += "".join(chance.choice(["", " "]) + respelled(chance, it) + chance.choice(" \t\r") for it in line) + "\n"
    return (text if chance.random() < 0.7 else text[:-1]).encode("latin-1")


def respelled(chance: Random, word: str) -> str:
    """Sometimes returns another text of a number, and otherwise the word itself."""
    if word.isdigit() and chance.random() < 0.2:
        return chance.choice(["+", "0", "+00", "-" if word == "0" else ""]) + word
    return word


def spoilt(chance: Random, lines: list[list[str]]) -> list[list[str]]:
    """Returns lines with one or two faults: changed, moved, repeated or missing lines."""
    lines = [list(it) for it in lines]
    for _ in range(chance.choice([1, 1, 1, 2])):
        if lines:
            spoil(chance, lines)
    return lines


def spoil(chance: Random, lines: list[list[str]]) -> None:
    """Changes a line, usually one field, or moves, repeats or removes a line."""
    line, other = chance.choice(lines), chance.choice(lines)
    at = chance.randrange(len(line))
    match chance.randrange(17):
        case 0 | 1:
            line[at] = chance.choice(WORDS)
        case 2 | 3 | 4:
            line[-1] = chance.choice(WORDS)
        case 5 | 6 | 7:
            line[-1 - at // 2] = other[-1 - min(len(other) - 1, at // 2)]
        case 8:
            line[-2:] = line[:-3:-1]
        case 9 | 10:
            lines[0][-1] = chance.choice(["0", str(len(lines)), str(len(lines) - 2), WORDS[at]])
        case 11:
            line[0] = chance.choice(LETTERS)
        case 12:
            line.insert(at, chance.choice(WORDS))
        case 13 if len(line) > 1:
            line.pop()
        case 14:
            lines.insert(chance.randint(0, len(lines)), list(line))
        case 15:
            lines.remove(line)
            lines.insert(chance.randint(0, len(lines)), line)
        case _:
            lines.remove(line)
