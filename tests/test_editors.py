"""The editors' files: each reserved word stands in each of them, in its edition, and no other word does.

The words are those of crates/rb_base/specs/Reserved.antt; the table of docs/LANGUAGE.md has to list the same. Both grammars are applied to
each word and to a line of a program, and Vim is asked for the group of each word where it is installed. And what leads an editor to a fault
finds the file, the place and the name in what `rbl` tells of it.
"""
import functools
import json
import os
import re
import shutil
import subprocess
import unittest

from .shared import PATIENCE, ROOT, Cases, answer, folder_of, program, read, text_of, write

EDITORS = os.path.join(ROOT, "editors")
ORDINARY = ["price", "ensured", "ends", "every1", "allx"]
# A text of each kind that is refused, with its command: the one file that is named last has the fault.
SOURCE = "program a;\nprocess p { var x; x := 1; }\nend.\n"
PLAIN_RULE = {"regexp": r"(.*?):(\d+):(\d+): (\w+): (.*)", "file": 1, "line": 2, "column": 3, "code": 4, "message": 5}
FAULTY = [("check", {"a b.rbl": "program a;\nprocess p { x := 1; }\nend.\n"}), ("check", {"a.rbl": "program a;\n\tprocess p { x = 1; }\nend.\n"}),
          ("run", {"a b.rbl": SOURCE, "a b.schedule": "p 1\nq 1\n"}), ("plain", {"a.rbl": SOURCE, "a.record": "2 p\n1 p\n"}),
          ("domino", {"a.history": "process p\nfail q\n"})]
PROGRAM = ["program tour;", 'process p { print "ensure", x; } # ensure', "end."]


@functools.cache
def words_of_definition():
    """The words of both editions, and those of edition 2 alone."""
    common, own = text_of("crates/rb_base/specs/Reserved.antt").split("abbrev pub own_words")
    own = own.split("abbrev pub is_reserved")[0]
    return sorted(re.findall(r'codes "(\w+)"', common)), sorted(re.findall(r'codes "(\w+)"', own))


def words_of_page():
    """The same, from the table of the language's page."""
    table = text_of("docs/LANGUAGE.md").split("The reserved words, by use:")[1].split("In edition 1")[0]
    rows = [row for row in table.split("\n") if "`" in row]
    words = [(("edition 2" in row), re.findall(r"`(\w+)`", row)) for row in rows]
    return (sorted(w for second, row in words if not second for w in row),
            sorted(w for second, row in words if second for w in row))


def rules_of_textmate(path):
    """The rules of a grammar for VS Code: those of a text of edition 1, and those behind the beginning of edition 2."""
    grammar = json.loads(text_of(path))
    repository = grammar["repository"]

    def listed(patterns):
        found = []
        for pattern in patterns:
            if "include" in pattern:
                part = repository[pattern["include"][1:]]
                found += listed(part["patterns"]) if "patterns" in part and "begin" not in part else [part]
            else:
                found.append(pattern)
        return found

    def rule(pattern):
        captures = pattern.get("captures", pattern.get("beginCaptures", {}))
        return (re.compile(pattern.get("match", pattern.get("begin"))), pattern.get("name"),
                {int(n): capture["name"] for n, capture in captures.items()})

    first = [rule(p) for p in listed(grammar["patterns"])]
    second = [rule(p) for p in listed(repository["second"]["patterns"])]
    return first, second


def rules_of_sublime(path):
    """The same of a syntax for bat, whose file is read line by line."""
    contexts, context, rules = {}, None, None
    for line in text_of(path).split("\n"):
        if re.fullmatch(r"  \w+:", line):
            context = contexts.setdefault(line.strip()[:-1], [])
        elif match := re.fullmatch(r"    - match: '(.*)'", line):
            rules = [re.compile(match[1]), None, {}]
            context.append(rules)
        elif match := re.fullmatch(r"    - include: (\w+)", line):
            context.append(match[1])
        elif match := re.fullmatch(r"      scope: (\S+)", line):
            rules[1] = match[1]
        elif match := re.fullmatch(r"        (\d): (\S+)", line):
            rules[2][int(match[1])] = match[2]

    def listed(of):
        return [r for rule in contexts[of] for r in (listed(rule) if isinstance(rule, str) else [rule])]

    return listed("main"), listed("second")


def scopes(rules, line):
    """The scope of each piece of a line: the rule that matches first, and of two at one place the one that is listed first."""
    at, found = 0, []
    while at < len(line):
        matches = [(m.start(), n, m) for n, r in enumerate(rules) if (m := r[0].search(line, at)) and m.end() > m.start()]
        if not matches:
            break
        _, n, match = min(matches, key=lambda m: m[:2])
        _, scope, captures = rules[n]
        pieces = [(match.group(k), s) for k, s in captures.items()] or [(match.group(), scope)]
        found += pieces
        at = match.end()
    return found


def is_word(scope):
    return scope is not None and not scope.startswith(("variable", "entity"))


def fault_of_word(rules, text, is_reserved):
    """What is wrong with how rules take a word that is reserved, or a name."""
    pieces = scopes(rules, text)
    if [piece for piece, _ in pieces] == [text] and is_word(pieces[0][1]) == is_reserved:
        return None
    return f"it is {pieces}"


def fault_of_line(rules):
    """What is wrong with a text and a comment that have a word in them, in how rules take a line."""
    pieces = scopes(rules, PROGRAM[1])
    if ('"ensure"', "string.quoted.double.rbl") in pieces and pieces[-1] == ("# ensure", "comment.line.number-sign.rbl"):
        return None
    return f"it is {pieces}"


def listed_in_vim():
    """The words that the Vim file lists for both editions, and for the second alone; its own notes are left out."""
    lists = {True: [], False: []}
    for line in text_of("editors/vim/syntax/rbl.vim").split("\n"):
        if (match := re.match(r"( *)syntax keyword (\w+) (.*)", line)) and match[2] != "rblTodo":
            lists[bool(match[1])] += match[3].split()
    return sorted(lists[False]), sorted(lists[True])


def groups_in_vim(text):
    """The group that Vim has for each line of a text, and the file's type."""
    with folder_of({"a.rbl": text}) as folder:
        source, answer, script = (os.path.join(folder, name) for name in ("a.rbl", "answer", "script.vim"))
        with open(script, "w", encoding="utf-8") as file:
            file.write(f"set runtimepath^={EDITORS}/vim\nfiletype on\nsyntax on\nedit {source}\n"
                       "let lines = [&filetype] + map(range(1, line('$')), 'synIDattr(synID(v:val, 1, 1), \"name\")')\n"
                       f"call writefile(lines, '{answer}')\nqall!\n")
        subprocess.run(["vim", "-u", "NONE", "-N", "-es", "-S", script], timeout=PATIENCE, check=False, stdin=subprocess.DEVNULL)
        return read(answer).decode().split("\n")[:-1]


class Editors(Cases):
    PROGRAMS = ()

    def test_page(self):
        """The table of the language's page lists the words of the definition."""
        self.assertEqual(words_of_page(), words_of_definition())

    def test_grammars(self):
        """Each grammar takes the reserved words as such, in their edition, and no names."""
        common, own = words_of_definition()
        grammars = {"vscode": rules_of_textmate("editors/vscode/syntaxes/rbl.tmLanguage.json"), "bat": rules_of_sublime("editors/bat/rbl.sublime-syntax")}
        for editor, (first, second) in grammars.items():
            with self.subTest(f"{editor}: the beginning of edition 2"):
                self.assertEqual(scopes(first, "edition 2;")[0][1], "keyword.declaration.rbl")
            for edition, rules, reserved, names in ((1, first, common, own + ORDINARY), (2, second, common + own, ORDINARY)):
                place = f"{editor}, edition {edition}"
                self.each([(f"{place}: {word}", rules, word, word in reserved) for word in reserved + names], fault_of_word)
                self.each([(f"{place}: a line", rules)], fault_of_line)

    def test_lists_of_vim(self):
        self.assertEqual(listed_in_vim(), words_of_definition())

    @unittest.skipUnless(shutil.which("vim"), "no vim here, so its file is only read")
    def test_vim(self):
        """Vim colours the reserved words, in their edition, and no names."""
        common, own = words_of_definition()
        for front, words, names in (("# edition\nprogram a;", common, own + ORDINARY), ("# note\n  edition 2;", common + own, ORDINARY)):
            kind, *groups = groups_in_vim("\n".join([front] + words + names) + "\n")
            self.assertEqual(kind, "rbl")
            for word, group in zip(words + names, groups[2:], strict=True):
                with self.subTest(f"vim, after {front!r}: {word}"):
                    self.assertTrue(group.startswith("rbl") if word in words else group == "", group)


def told_by(rule, text):
    """What a rule finds in a text, line by line: for each fault its file, line, column, name and message."""
    found = filter(None, (re.match(rule["regexp"], line) for line in text.splitlines()))
    return [(m[rule["file"]], int(m[rule["line"]]), int(m[rule["column"]]), m[rule["code"]], m[rule["message"]]) for m in found]


def unfound(command, files, rule):
    """What is wrong with what is found of a refusal: it has to be its name and place on standard output, and the file."""
    with folder_of(files) as folder:
        told = answer([command, *files], folder)
    found = told_by(rule, told.err.decode())
    if len(found) != 1 or not found[0][4]:
        return f"{found} in {told}"
    file, line, column, name, _ = found[0]
    places = [f"refused {name} at {line}:{column}\n".encode(), f"refused {name} at {line}\n".encode()]
    return None if file == list(files)[-1] and told.out in places else f"{found} for {told.out}"


def gone_to(folder, name):
    """Where Vim stands after `:make` over an open file, and its list of faults: the name, line, column and text of each."""
    answered, script = os.path.join(folder, "answer"), os.path.join(folder, "script.vim")
    opened = os.path.join(folder, name).replace(" ", "\\ ")
    fault = "[fnamemodify(bufname(v:val.bufnr), \":t\"), v:val.lnum, v:val.col, v:val.text]"
    stands = f"[expand('%:t'), line('.'), col('.'), map(filter(getqflist(), 'v:val.valid'), '{fault}')]"
    write(script, f"set runtimepath^={EDITORS}/vim\nfiletype plugin on\nlet g:rbl_program = '{program('rbl')}'\nedit {opened}\ncall cursor(1, 1)\ncompiler rbl\n"
                  f"silent make\ncall writefile([json_encode({stands})], '{answered}')\nqall!\n")
    subprocess.run(["vim", "-u", "NONE", "-N", "-es", "-S", script], cwd=folder, timeout=PATIENCE, check=False, stdin=subprocess.DEVNULL,
                   stdout=subprocess.DEVNULL)
    return json.loads(read(answered))


class Faults(Cases):
    PROGRAMS = ("rbl",)

    def test_vscode(self):
        """The problem matchers of VS Code, over a refusal of each kind; and the lines between which a run of tools/watch stands."""
        parts = json.loads(text_of("editors/vscode/package.json"))["contributes"]
        rules = {f"${rule['name']}": rule for rule in parts["problemPatterns"]}
        for matcher in parts["problemMatchers"]:
            rule = rules[matcher["pattern"]]
            self.each([(f"{matcher['name']}: {command} {' '.join(files)}", command, files, rule) for command, files in FAULTY], unfound)
        begins, ends = (parts["problemMatchers"][1]["background"][name] for name in ("beginsPattern", "endsPattern"))
        with folder_of({"a.rbl": SOURCE}) as folder:
            watch = os.path.join(ROOT, "tools/watch")
            told = answer(["-n", "1", "check", "a.rbl"], folder, said_to=watch, environment=[("RBL", program("rbl"))])
        lines = told.out.decode().splitlines()
        self.assertEqual([bool(re.match(begins, lines[0])), lines[1], bool(re.match(ends, lines[2])), lines[3:]], [True, "accepted", True, []])

    @unittest.skipUnless(shutil.which("vim"), "no vim here")
    def test_vim(self):
        """`:make` goes to the fault of the source, and of the schedule, that is open; and stays where nothing is refused."""
        for command, files in FAULTY[:3]:
            with self.subTest(f"{command} {' '.join(files)}"), folder_of(files) as folder:
                name = list(files)[-1]
                _, line, column, fault, text = told_by(PLAIN_RULE, answer([command, *files], folder).err.decode())[0]
                self.assertEqual(gone_to(folder, name), [name, line, column, [[name, line, column, f"{fault}: {text}"]]])
        with self.subTest("accepted"), folder_of({"a.rbl": SOURCE}) as folder:
            self.assertEqual(gone_to(folder, "a.rbl"), ["a.rbl", 1, 1, []])
