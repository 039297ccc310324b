#!/usr/bin/env python3
"""Makes crates/vectors/data/operations.jsonl: operations on texts, and what comes of them by docs/PROTOCOL.md.

    tools/vectors.py            writes the file
    tools/vectors.py --check    fails where the file is another

Each line is an object. `first` and `second` are operations on `text`, `next` is one on what `first` makes of it, and `spelled` is
another spelling of `first`. The rest is worked out here, gap by gap as the protocol says it, and not by walks over parts:
`first_moved` and `second_moved` are the two moved through each other, with the first one's text in front; `merged` is the text of
both; `composed` is `first` and then `next` as one, and `after` is the text then; `places` says for each place of `text` where
`first` moves it, where what is put in at a place stands behind it. An operation is here a list of gaps: for each character of
its text what is put in in front of it and whether it is kept, and a last gap with what is put in at the end. Where it is worked out
there are gaps without a character too.
"""
import json
import os
import sys

TOP = os.path.dirname(os.path.dirname(os.path.abspath(__file__)))
FILE = os.path.join(TOP, "crates", "vectors", "data", "operations.jsonl")
DRAWN = 240
# Characters of one to four bytes, and such as editors and JSON have trouble with.
CHARACTERS = "ab \n\t\r\0\"\\/é漢𝄞😀\u0301\u2028\ufeff\uffff\x7f"
END = None

# Text, first, second, next.
WORKED = {
    "two texts at one gap": ("xy", [1, "A", 1], [1, "B", -1], [2, "-", 1]),
    "two edits that cross": ("", ["a"], ["b"], [1, "c"]),
    "a text inside a deleted run": ("abcd", [2, "X", 2], [-4], [5, "!"]),
    "a deleted run round a text": ("abcd", [-4], [2, "X", 2], ["new"]),
    "runs that overlap": ("abcdef", [-4, 2], [2, -4], [-2]),
    "one run deleted twice": ("abc", [-3], [-3], ["q"]),
    "a text at a deleted run's start": ("abc", ["X", 3], [-1, 2], [4]),
    "a text at a deleted run's end": ("abc", [1, "X", 2], [-1, 2], [2, "Y", 2]),
    "one run replaced twice": ("abc", ["X", -3], ["YZ", -3], [-1]),
    "texts at both ends": ("ab", ["<", 2, ">"], ["(", 2, ")"], [1, -2, 1]),
    "nothing on nothing": ("", [], [], []),
    "an operation that keeps all": ("abc", [3], [1, "x", 2], [3]),
    "all that was put in is deleted": ("ab", [1, "xyz", 1], [2], [1, -3, 1]),
    "a part of what was put in is deleted": ("ab", [1, "xyz", 1], [-2], [2, -1, 2]),
    "a text inside what was put in": ("ab", [1, "xz", 1], [1, "q", 1], [2, "y", 2]),
    "a carriage return by itself": ("a\r\nb", [2, "\r", 2], [1, -1, 2], [1, -1, 3]),
    "a zero character": ("\0", [1, "\0\0"], [-1], [2, -1]),
    "a letter and an accent": ("e\u0301", [1, "x", 1], [-1, 1], [2, -1]),
    "characters of four bytes": ("😀𝄞", [1, "😀", 1], [1, -1], [1, -1, 1]),
}


class Draws:
    """Numbers that are the same in every version of Python."""

    def __init__(self, seed):
        self.state = seed

    def below(self, limit):
        self.state = (self.state * 6364136223846793005 + 1442695040888963407) % 2**64
        return (self.state >> 33) % limit

    def text(self, longest):
        return "".join(CHARACTERS[self.below(len(CHARACTERS))] for _ in range(self.below(longest + 1)))

    def gaps(self, length):
        """An operation on a text of this length: its runs are kept, deleted, or have a text in front."""
        found = []
        while len(found) < length:
            run, keeps = 1 + self.below(4), self.below(3) > 0
            text = self.text(4) if self.below(3) == 0 else ""
            for index in range(min(run, length - len(found))):
                found.append((text if index == 0 else "", keeps))
        return found + [(self.text(4) if self.below(3) == 0 else "", END)]


def gaps_of(op):
    found, text = [], ""
    for part in op:
        if isinstance(part, str):
            text += part
        else:
            for _ in range(abs(part)):
                found.append((text, part > 0))
                text = ""
    return found + [(text, END)]


def op_of(gaps):
    """The parts, with neighbours of one kind put together, and a text in front of a deletion beside it."""
    op, text, deleted = [], "", 0
    for new, keeps in gaps + [("", True)]:
        text += new
        if keeps is False:
            deleted += 1
        elif keeps:
            op += [text] if text else []
            op += [-deleted] if deleted else []
            text, deleted = "", 0
            if op and isinstance(op[-1], int) and op[-1] > 0:
                op[-1] += 1
            else:
                op.append(1)
    # The character behind the end, which was kept only so that all is written, goes again.
    return op[:-1] + ([op[-1] - 1] if op[-1] > 1 else [])


def moved(own, other, own_is_first):
    """One operation moved through another, gap by gap."""
    found = []
    for (text, keeps), (others_text, other_keeps) in zip(own, other):
        kept_text = [("", True)] * len(others_text)
        found += [(text, None)] + kept_text if own_is_first else kept_text + [(text, None)]
        if other_keeps:
            found.append(("", keeps))
    return op_of(found)


def effect(gaps, text):
    made = ""
    for (new, keeps), character in zip(gaps, list(text) + [""]):
        made += new + (character if keeps else "")
    return made


def composed(first, then):
    """Each character that the second operation meets is one that the first put in or kept."""
    behind = iter(then)
    found = []
    for text, keeps in first:
        for character in text:
            new, stays = next(behind)
            found.append((new + character if stays else new, None))
        if keeps:
            found.append(next(behind))
        elif keeps is False:
            found.append(("", False))
    return op_of(found + [(next(behind)[0], None)])


def places(gaps):
    """Where each place comes to, by what is put in and deleted in front of it."""
    found, at = [], 0
    for text, keeps in gaps:
        found.append(at)
        at += len(text) + (1 if keeps else 0)
    return found


def spelled(op, draws):
    """Another spelling of the operation: parts in pieces, some of nothing, and texts behind the deletions beside them."""
    parts = []
    for part in op:
        while part not in ("", 0):
            size = len(part) if isinstance(part, str) else abs(part)
            count = 1 + draws.below(size)
            piece = part[:count] if isinstance(part, str) else (count if part > 0 else -count)
            part = part[count:] if isinstance(part, str) else (part - piece)
            behind_texts = parts and isinstance(parts[-1], str) and parts[-1]
            if isinstance(piece, int) and piece < 0 and behind_texts and draws.below(2):
                parts.insert(len(parts) - 1, piece)
            else:
                parts.append(piece)
            parts += [["", 0][draws.below(2)]] if draws.below(3) == 0 else []
    return parts


def vector(name, text, first, second, following, draws):
    gaps, other, behind = gaps_of(first), gaps_of(second), gaps_of(following)
    first_moved, second_moved = moved(gaps, other, True), moved(other, gaps, False)
    merged = effect(gaps_of(second_moved), effect(gaps, text))
    assert merged == effect(gaps_of(first_moved), effect(other, text)), name
    after = effect(behind, effect(gaps, text))
    together = composed(gaps, behind)
    assert after == effect(gaps_of(together), text), name
    other_spelling = spelled(first, draws)
    assert op_of(gaps_of(other_spelling)) == first, name
    return {
        "name": name, "text": text, "first": first, "second": second, "first_moved": first_moved, "second_moved": second_moved,
        "merged": merged, "next": following, "composed": together, "after": after, "spelled": other_spelling, "places": places(gaps),
    }


def vectors():
    draws = Draws(1)
    found = [vector(name, *worked, draws) for name, worked in WORKED.items()]
    for number in range(1, DRAWN + 1):
        text = draws.text(12)
        first = draws.gaps(len(text))
        found.append(vector(
            f"drawn {number}", text, op_of(first), op_of(draws.gaps(len(text))), op_of(draws.gaps(len(effect(first, text)))), draws))
    return found


def try_the_protocol():
    """The worked lines of docs/PROTOCOL.md and docs/CLIENTS.md."""
    first, second = gaps_of([1, "A", 1]), gaps_of([1, "B", -1])
    assert moved(first, second, True) == [1, "A", 1]
    assert moved(second, first, False) == [2, "B", -1]
    assert moved(gaps_of(["b"]), gaps_of(["a"]), True) == ["b", 1]
    assert moved(gaps_of(["a"]), gaps_of(["b"]), False) == [1, "a"]


def put_in(op):
    return sum(len(part) for part in op if isinstance(part, str))


def kinds(found):
    """How many vectors have what a mistake would show in."""
    def both(want):
        return sum(any(want(a, b) for a, b in zip(gaps_of(v["first"]), gaps_of(v["second"]))) for v in found)
    return {
        "texts at one gap": both(lambda a, b: a[0] and b[0]),
        "a text at a deletion": both(lambda a, b: a[0] and b[1] is False),
        "a character deleted twice": both(lambda a, b: a[1] is False and b[1] is False),
        "nothing left": sum(v["first"] != v["first_moved"] and effect(gaps_of(v["first_moved"]), v["merged"]) == "" for v in found),
        "empty texts": sum(v["text"] == "" for v in found),
        "a deleted new character": sum(put_in(v["composed"]) < put_in(v["first"]) + put_in(v["next"]) for v in found),
        "other spellings": sum(v["spelled"] != v["first"] for v in found),
        "characters of four bytes": sum(any(c > "\uffff" for c in v["merged"]) for v in found),
        "zero characters": sum("\0" in v["merged"] for v in found),
    }


def main():
    try_the_protocol()
    found = vectors()
    missing = [kind for kind, count in kinds(found).items() if count < 5]
    assert not missing, f"too few have {missing}"
    made = "".join(json.dumps(v, ensure_ascii=False, sort_keys=False) + "\n" for v in found).encode()
    if "--check" in sys.argv[1:]:
        with open(FILE, "rb") as file:
            if file.read() != made:
                sys.exit("vectors: the file is another than tools/vectors.py makes")
        print(f"vectors: {len(found)}, as made")
        return
    with open(FILE, "wb") as file:
        file.write(made)
    print(f"vectors: {len(found)}, among them {kinds(found)}")


if __name__ == "__main__":
    main()
