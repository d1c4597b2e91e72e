"""Works out what crates/bitmap_cases prints, with a plain array of booleans as the judge.

It reads the requests in that crate's file stdin, one on a line, and prints each with its answer, for a
tree of each size and for words that are no tree. To add a case, add its line to stdin, and then

    python3 gate/expected_cases.py > crates/bitmap_cases/stdout
"""
import re
import sys
from pathlib import Path

from repository import Repository, Result

CRATE = "crates/bitmap_cases"

# How many words the requests are made on: full trees, and none.
LENGTHS = [1, 17, 273, 4369, 69905, 0, 18, 272]

# How many frames so many words have, for every full tree.
FRAMES = {(16**depth - 1) // 15: 16**depth for depth in range(1, 16)}


class Tree:
    """Which frames are free; and the words, from when one is written past the library. Each public method
    is named as the request that it answers, and takes its numbers."""

    def __init__(self, size):
        self.size = size
        self.frames = FRAMES.get(size, 0)
        self.reset()

    def cap(self):
        return self.frames

    def count_free(self):
        return sum(self.free)

    def any(self):
        return "yes" if (self.words[0] if self.words else any(self.free)) else "no"

    def test(self, k):
        return "outside" if k >= self.frames else "free" if self.free[k] else "taken"

    def next(self, k):
        if k >= self.frames:
            return "outside"
        found = self.free.find(1, k)
        if found < 0:
            return self._not_found("nothing")
        return self._sound(f"frame {found}")

    def check(self):
        lie = self._lie()
        return "sound" if lie is None else f"lie in word {lie}"

    def reset(self):
        self.free = bytearray(self.frames)
        self.words = None
        return "done"

    def alloc(self):
        return self.alloc_contiguous(1, 0)

    def alloc_contiguous(self, size, align_log2):
        if size == 0:
            return "empty"
        run = bytes([1]) * min(size, self.frames + 1)
        found = self.free.find(run)
        while found >= 0 and found % 2 ** min(align_log2, 100):
            found = self.free.find(run, found + 1)
        if found < 0:
            return self._not_found("no room")
        self._write(found, found + size, 0)
        return f"frame {found}"

    def dealloc(self, k):
        if k >= self.frames:
            return "outside"
        if self.free[k]:
            return "not taken"
        return self._write(k, k + 1, 1)

    def insert(self, start, end, value=1):
        if start == end:
            return "empty"
        if end < start:
            return "reversed"
        if end > self.frames:
            return "outside"
        return self._write(start, end, value)

    def remove(self, start, end):
        return self.insert(start, end, 0)

    def put(self, at, word):
        """Writes a word past the library, as damage would."""
        if at >= self.size:
            return "outside"
        if self.frames:
            self.words = self.words or self._agreeing_words()
            self.words[at] = word
            self.free = bytearray(word >> bit & 1 for word in self.words[-self.frames // 16 :] for bit in range(16))
        return "done"

    def _sound(self, answer):
        """An answer that is known only where the summaries agree."""
        assert self._lie() is None, "no answer is known for such damage"
        return answer

    def _not_found(self, answer):
        """The answer where nothing is free: in a damaged tree the root may tell of something all the same."""
        if self._lie() is None:
            return answer
        assert self.words[0] and not any(self.free), "no answer is known for such damage"
        return "corrupt"

    def _write(self, start, end, value):
        self.free[start:end] = bytes([value]) * (end - start)
        self.words = self._sound(None)
        return "done"

    def _agreeing_words(self):
        """The words, level by level: a bit tells that the frame is free, or that the word below is not 0."""
        below, words = self.free, []
        while len(below) > 1:
            below = [sum((bit != 0) << i for i, bit in enumerate(below[at : at + 16])) for at in range(0, len(below), 16)]
            words = below + words
        return words

    def _lie(self):
        """The lowest word with a bit that does not tell whether the word below is 0, if there is one."""
        words = self.words or []
        told = (word >> bit & 1 for word in words for bit in range(16))
        some = (word != 0 for word in words[1:])
        return next((at // 16 for at, (says, is_so) in enumerate(zip(told, some)) if says != is_so), None)


def words_for(frames):
    return next((words for words, size in FRAMES.items() if size == frames), "no size")


def number(text, tree):
    """A number as stdin has it: digits, or a letter with a number added or taken off."""
    letter, away = re.fullmatch(r"([nhwm]?)([+-]?\d*)", text).groups()
    known = {"": 0, "n": tree.frames, "h": tree.frames // 2, "w": tree.size, "m": 2**64 - 1}
    return (known[letter] + int(away or 0)) % 2**64


def answers(requests, lengths):
    """The lines that the program prints."""
    for length in lengths:
        yield from ("", f"words: {length}")
        tree = Tree(length)
        for line in requests:
            yield line if line.startswith("#") else f"{line}: {answer(tree, *line.split())}"


def answer(tree, name, *numbers):
    """The answer to a request."""
    numbers = [number(text, tree) for text in numbers]
    if name == "words_for":
        return words_for(*numbers)
    if not tree.frames and name != "put":
        return "not full"
    return getattr(tree, name)(*numbers)


def expected(repository):
    return "".join(line + "\n" for line in answers(repository.read(f"{CRATE}/stdin").splitlines(), LENGTHS))


def results(repository):
    """The stored answers of bitmap_cases are those of a plain array."""
    stored = repository.read(f"{CRATE}/stdout")
    yield Result(f"{CRATE}/stdout", "" if stored == expected(repository) else "is not what the judge answers")


if __name__ == "__main__":
    sys.stdout.write(expected(Repository(Path(__file__).resolve().parent.parent)))
