"""What a solution changes in the program of its lesson."""
import difflib
import re


def code_lines(text):
    """The lines of a text that say something, without comments."""
    lines = (re.sub(r"\s*#.*", "", line).rstrip() for line in text.splitlines())
    return [line for line in lines if line]


def changes(old, new):
    """The lines that go and those that come, each group with a line of the context before and behind it; comments aside."""
    lines = list(difflib.unified_diff(code_lines(old), code_lines(new), n=1, lineterm=""))[2:]
    return "".join(f"{'@@' if line.startswith('@@') else line}\n" for line in lines)
