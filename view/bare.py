"""Scripts as they are handed on: without their comments and indents, which would be a fifth of a page."""
import re


def bare(script):
    """A script without its head, its lines of comment and its indents. No text of several lines may hold such lines."""
    script = re.sub(r"^/\*.*?\*/\n", "", script, flags=re.DOTALL)
    return "\n".join(line.strip() for line in script.split("\n") if line.strip() and not line.strip().startswith("// "))
