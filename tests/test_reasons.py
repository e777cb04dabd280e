"""What `rblview explain` tells of every fault and every cause: the text that stands in examples/explained, and with its example `rbl` writes what
the text shows."""
import os
import re

from .explained import explained, files_of, words_over
from .shared import Cases, answer, answer_over, read
from .told import EXPLAINED, explained_place, explanation, words_of_all


def other_text(word):
    """What is wrong with the text of a word beside the one that is stored, or nothing."""
    if not os.path.exists(explained_place(word)):
        return f"{explained_place(word)} is missing"
    real = explanation(word)
    return None if real == read(explained_place(word)) else f"tells {real!r}"


def fault_of(word):
    """What is wrong with the text of a word, or nothing."""
    match = explained(word)
    if match is None:
        return "no text of that form"
    files = files_of(match["files"])
    lines = answer_over(words_over(files), files).out.decode().split("\n")
    alone = match["shows"].startswith("refused ")
    if lines == [match["shows"], ""] if alone else match["shows"] in lines:
        return None if re.search(rf"\b{word}\b", match["shows"]) else "its example shows another word"
    return f"shows {match['shows']!r}, but rbl writes {lines[:4]}"


def misnamed(name, word):
    """What is wrong with the text of a name that is this word but for the case of its letters, or nothing."""
    real = explanation(name)
    return None if real == read(explained_place(word)) else f"tells {real!r}"


class Reasons(Cases):
    def test_examples(self):
        self.each([(word, word) for word in words_of_all()], fault_of)

    def test_texts(self):
        """Each text is the one that is stored, so that no sentence of it changes unseen."""
        self.each([(word, word) for word in words_of_all()], other_text)

    def test_letters(self):
        """A name may have small letters for large ones, and large ones for small."""
        self.each([(name, name, word) for word in words_of_all() for name in (word.lower(), word.upper())], misnamed)

    def test_names(self):
        """Without a name the first lines of all texts are told."""
        lines = [read(explained_place(word)).split(b"\n")[0] + b"\n" for word in words_of_all()]
        self.assertEqual(answer(["explain"]).out, b"".join(lines))

    def test_files(self):
        """Each file is that of a fault or a cause."""
        names = {os.path.basename(explained_place(word)) for word in words_of_all()}
        self.each([(file, file) for file in os.listdir(EXPLAINED)], lambda file: None if file in names else "no fault and no cause has this name")
