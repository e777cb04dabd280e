"""The texts of which `rbl` and `rblview` tell a reason on standard error: one for every fault, and those of a special kind.

    python3 -m tests.told

writes what is told of each anew, to examples/reasons, a file for each case, and to examples/explained what `rblview explain` tells of each
fault and each cause. The texts of the faults are those of `rblview explain`.
"""
import os

from .explained import explained, faults_and_causes, files_of, words_over
from .shared import MOST, ROOT, answer, answer_over, write

WANTED = os.path.join(ROOT, "examples/reasons")
EXPLAINED = os.path.join(ROOT, "examples/explained")
SMALL = b"program a;\nprocess p { }\nprocess q { }\nend.\n"
NESTED = b"""program a; conversation C (p, q); conversation D (p, q);
process p { converse D ensure 1 within 9 by { } else error; converse C ensure 1 within 9 by { } else error; }
process q { converse C ensure 1 within 9 by { converse D ensure 1 within 9 by { } else error; } else error; } end.
"""
NAMED = b"program n;\nprocess producer { }\nprocess consumer { }\nend.\n"
BLOCK = b"""program b; channel c from p to q size 1;
process p { var x; ensure x = 2 within 9 by { x := 1; } else by { x := 2; } else error; send c x; send c x; x := 1 / 0; }
process q { } end.
"""
TOGETHER = b"""program t; conversation C (p, q);
process p { converse C ensure 1 within 9 by { } else error; }
process q { converse C ensure 1 within 9 by { } else error; } end.
"""
PLAYED = b"1 p\n2 p 2\n3 p\n4 p\n5 p\n"
LONG = b"program a; process p { var x; " + b"x := 1; " * 40 + b"%s" + b"x := 1; " * 40 + b"} end.\n"
EDITION = b"program a;\nprocess edition { }\nend.\n"
WAITING = b"program v; channel c from p to q size 1;\nprocess p { send c 1; }\nprocess q { var x; receive c x; } end.\n"
# What other languages write, each in place of a statement.
HABITS = {
    "unequal": b"if x != 1 { x := 2; }", "exclamation": b"if !x { x := 2; }", "ampersands": b"if x && 1 { x := 2; }",
    "bars": b"if x || 1 { x := 2; }", "single_quotes": b"print 'one';", "typographic_quotes": b"print \xe2\x80\x9cone\xe2\x80\x9d;",
    "blank_that_breaks_no_line": b"x :=\xc2\xa01;", "slashes": b"// one", "slashes_behind": b"x := 1 // one", "slash_and_star": b"/* one */",
    "slash_and_star_behind": b"x := 1 /* one */;", "equal_for_becomes": b"x = 1;", "two_equals": b"if x == 1 { x := 2; }", "plusses": b"x++;",
    "minuses": b"x--;", "plus_and_equal": b"x += 1;", "minus_and_equal": b"x -= 1;", "star_and_equal": b"x *= 2;",
    "slash_and_equal": b"x /= 2;", "no_call": b"f();", "semicolon_behind_a_block": b"if x { x := 2; };",
    "else_if": b"if x { x := 2; } else if x = 3 { x := 1; }", "elif": b"if x { x := 2; } elif x = 3 { x := 1; }", "then": b"if x then { x := 2; }",
    "do": b"while x do { x := 2; }", "begin": b"while x begin x := 2; end", "mod": b"x := x mod 2;", "div": b"x := x div 2;", "true": b"x := true;",
    "let": b"let y := 1;", "int": b"int y;", "for": b"for i := 1 to 3 { x := i; }", "return": b"return;", "break": b"while 1 { break; }",
    "every_in_edition_1": b"if every i from 1 to 3 : i { x := 2; }", "sum_in_edition_1": b"print sum i from 1 to 3 : i;",
}
# Sources with slips of other kinds, by what is told of them.
SLIPS = {
    "semicolon_on_the_line_before": b"process p {\n  var x;\n  x := 1\n  print x;\n}\n",
    "brace_open_before_a_process": b"process p {\n  var x;\n  while x < 3 {\n    x := x + 1;\n  \n}\nprocess q { }\n",
    "brace_open_before_the_end": b"process p {\n  var x;\n  x := 1;\n",
    "tab_in_a_text": b"process p { print \"one\ttwo\"; }\n",
    "control_byte": b"process p { \x07 }\n",
    "word_in_large_letters": b"Process p { }\n",
    "word_misspelled": b"channel c from p to q size 1;\nprocess p { send c 1; }\nprocess q { var x; recieve c x; }\n",
    "word_too_long": b"process p { var x; ensures x = 1 within 9 by { x := 1; } else error; }\n",
    "word_of_two_near": b"process p { var x; wall x; }\n",
    "name_misspelled": b"process p {\n  var count;\n  cuont := 1;\n}\n",
    "name_in_large_letters": b"process p { var x; X := 1; }\n",
    "name_of_a_parameter": b"process p {\n  procedure twice(number) { print 2 * nunber; }\n  call twice(2);\n}\n",
    "name_of_two_near": b"process p { var ones; var onex; one := 1; }\n",
    "name_of_a_left_block": b"process p { if 1 { var inner; inner := 1; } innr := 2; }\n",
    "name_of_a_left_procedure": b"process p { procedure f(count) { print count; } cuont := 1; }\n",
    "name_of_a_later_procedure": b"process p {\n  procedure first() { call secnod(); }\n  procedure second() { }\n}\n",
    "name_of_a_procedure_elsewhere": b"process p { procedure settle() { } }\nprocess q { call setle(); }\n",
    "name_of_a_channel": b"channel items from p to q size 1;\nprocess p { send itmes 1; }\nprocess q { }\n",
    "name_of_a_later_process": b"channel items from first to secnod size 1;\nprocess first { }\nprocess second { }\n",
    "array_without_index": b"process p {\n  var row[3];\n  row := 1;\n}\n",
    "name_of_an_outer_block": b"process p {\n  var x[3];\n  if 1 {\n    var x;\n    x[0] := 1;\n  }\n}\n",
    "declared_twice": b"process p {\n  var x;\n  var y;\n  var x;\n}\n",
    "declared_as_a_parameter": b"process p {\n  procedure f(n, m) { var n; }\n}\n",
    "process_declared_twice": b"process p { procedure q() { } }\nprocess q { }\nprocess q { procedure q() { } }\n",
    "arguments_of_a_later_procedure": b"process two { procedure one() { call two(1); } procedure two() { } }\n",
    "prior_in_an_alternate": b"process p {\n  var x;\n  ensure x = 1 within 9\n  by { x := prior x + 1; }\n  else error;\n}\n",
    "prior_behind_a_block": b"process p {\n  var x;\n  ensure x = prior x within 9 by { x := 1; } else error;\n  x := prior x;\n}\n",
    "converse_in_a_procedure": b"conversation C (p, q);\nprocess p {\n  procedure early() { }\n  procedure meet() {\n"
                               b"    converse C ensure 1 within 9 by { } else error;\n  }\n  call meet();\n}\n"
                               b"process q { converse C ensure 1 within 9 by { } else error; }\n",
    "converse_in_the_inner_ensure": b"conversation C (p, q);\nconversation D (p, q);\nprocess p {\n  converse C ensure 1 within 99\n  by {\n"
                                    b"    ensure 1 within 9 by { } else error;\n    ensure 1 within 9\n    by { if 1 {\n"
                                    b"      converse D ensure 1 within 9 by { } else error;\n    } }\n    else error;\n  }\n  else error;\n}\n"
                                    b"process q {\n  converse C ensure 1 within 99\n  by { converse D ensure 1 within 9 by { } else error; }\n"
                                    b"  else error;\n}\n",
    "member_named_twice": b"conversation B (p, q);\nconversation C (\n  q,\n  p,\n  q);\n" + b"".join(
        b"process %c {\n  converse B ensure 1 within 9 by { } else error;\n  converse C ensure 1 within 9 by { } else error;\n}\n" % member
        for member in b"pq"),
    "ends_on_two_lines": b"channel b from p to q size 1;\nchannel c from p\n  to p size 1;\nprocess p { }\nprocess q { }\n",
    "alternates_with_inner_blocks": b"conversation C (p, q);\nprocess p {\n  converse C ensure 1 within 99 by {\n"
                                    b"    ensure 1 within 9 by { } else by { } else error;\n  } else error;\n}\n"
                                    b"process q { converse C ensure 1 within 9 by { } else by { } else by { } else error; }\n",
    "kind_of_a_later_process": b"channel c from d to p size 1;\nchannel d from p to q size 1;\nprocess p { }\nprocess q { }\n",
}

# The cases that no fault stands for: the words, and the files by their names.
CASES = {
    "byte_order_mark": (["check", "source"], {"source": b"\xef\xbb\xbf" + SMALL}),
    "byte_order_mark_on_a_later_line": (["check", "source"], {"source": b"program a;\nprocess p { }\n\xef\xbb\xbfend.\n"}),
    "byte_order_mark_on_the_first_line": (["check", "source"], {"source": b"program \xef\xbb\xbfa;\nprocess p { }\nend.\n"}),
    "byte_past_ascii": (["check", "source"], {"source": b"program a;\nprocess p { print \"gr\xc3\xbc\xc3\x9fe\"; }\nend.\n"}),
    "colon_alone": (["check", "source"], {"source": b"program a;\nprocess p { var x; x : 1; }\nend.\n"}),
    "text_with_carriage_return": (["check", "source"], {"source": b"program a; process p { print \"one\rtwo\"; } end.\n"}),
    "carriage_return_before_a_text": (["check", "source"], {"source": b"program a;\nprocess p {\rprint \"one; }\nend.\n"}),
    "text_before_a_carriage_return_that_ends_its_line": (["check", "source"], {"source": b"program a;\r\nprocess p {\rprint \"one; }\r\nend.\r\n"}),
    "mark_behind_tabs": (["check", "source"], {"source": b"program a;\n\tprocess p {\tx := 1; }\nend.\n"}),
    "end_of_a_long_line": (["check", "source"], {"source": b"program a; process p { var x; " + b"x := 1; " * 20 + b"y := 1; } end.\n"}),
    "lines_that_end_with_carriage_returns": (["check", "source"], {"source": b"program a;\r\nprocess p { x := 1; }\r\nend.\r\n"}),
    "source_ends_early": (["check", "source"], {"source": b"program a;\nprocess p { var x;\n"}),
    "more_behind_the_end": (["check", "source"], {"source": b"program a; process p { } end.\nprocess q { }\n"}),
    "edition_that_is_none": (["check", "source"], {"source": b"edition 3; program a; process p { } end.\n"}),
    "word_of_edition_2": (["check", "source"], {"source": b"program a; process p { print (every i from 1 to 2 : i); } end.\n"}),
    "quantified_name_with_an_index": (["check", "source"],
                                      {"source": b"edition 2; program a; process p { var i; print (sum i from 1 to 2 : i[0]); } end.\n"}),
    "outside_here_inside_first": (["check", "source"], {"source": NESTED.replace(b"D (p, q);\n", b"D (p, q);\n# C is nested later\n")}),
    "schedule_for_source": (["run", "schedule", "source"], {"source": SMALL, "schedule": b"p 2\nq 1\n"}),
    "source_for_schedule": (["run", "source", "source"], {"source": SMALL}),
    "schedule_with_carriage_return": (["run", "source", "schedule"], {"source": SMALL, "schedule": b"p 2\nq\r 1\n"}),
    "schedule_with_carriage_return_before_a_comment": (["run", "source", "schedule"], {"source": SMALL, "schedule": b"p 2\nq 1\r# a\n"}),
    "schedule_with_carriage_return_in_a_comment": (["run", "source", "schedule"], {"source": SMALL, "schedule": b"p 2\nz 1 # a\rb\n"}),
    "record_with_carriage_return_in_a_comment": (["plain", "source", "record"], {"source": SMALL, "record": b"2 p\n2 q # a\rb\n"}),
    "session_with_carriage_return_in_a_comment": (["session", "source", "schedule", "session"],
                                                  {"source": SMALL, "schedule": b"p 2\n", "session": b"step 3 # a\rb\n"}),
    "history_with_carriage_return_in_a_comment": (["domino", "history"], {"history": b"process p\npoint q # a\rb\n"}),
    "process_edition_in_a_schedule": (["run", "source", "schedule"], {"source": EDITION, "schedule": b"# turns\nedition 1\nz 1\n"}),
    "process_edition_and_no_count": (["run", "source", "schedule"], {"source": EDITION, "schedule": b"edition 1\nedition 0\n"}),
    "process_edition_in_a_record": (["plain", "source", "record"], {"source": EDITION, "record": b"edition 1\n"}),
    "process_edition_in_a_session": (["session", "source", "schedule", "session"],
                                     {"source": EDITION, "schedule": b"edition 2\n", "session": b"edition 1\n"}),
    "no_process_edition_in_a_schedule": (["run", "source", "schedule"], {"source": SMALL, "schedule": b"edition 1\n"}),
    "source_for_record_of_process_edition": (["plain", "source", "source"], {"source": EDITION}),
    "schedule_with_byte_order_mark": (["run", "source", "schedule"], {"source": SMALL, "schedule": b"\xef\xbb\xbfp 2\n"}),
    "process_that_is_none": (["run", "source", "schedule"], {"source": SMALL, "schedule": b"p 2\n  r 1 # who?\n"}),
    "process_misspelled": (["run", "source", "schedule"], {"source": NAMED, "schedule": b"prodcuer 2\n"}),
    "process_misspelled_in_a_record": (["plain", "source", "record"], {"source": NAMED, "record": b"1 Consumer\n"}),
    "process_misspelled_in_a_session": (["session", "source", "schedule", "session"],
                                        {"source": NAMED, "schedule": b"producer 2\n", "session": b"show Producers\n"}),
    "process_of_two_near": (["run", "source", "schedule"], {"source": NAMED.replace(b"consumer", b"produced"), "schedule": b"produce 2\n"}),
    "waiting_in_a_record": (["plain", "source", "record"], {"source": WAITING, "record": b"1 q\n"}),
    "record_of_an_ended_process": (["plain", "source", "record"], {"source": SMALL, "record": b"3 p\n"}),
    "record_at_a_test_line": (["plain", "source", "record"], {"source": TOGETHER, "record": b"1 p\n2 p 1\n3 p\n4 p\n"}),
    "record_that_starts_nothing": (["plain", "source", "record"], {"source": BLOCK, "record": b"7 p 1\n"}),
    "record_without_an_alternate": (["plain", "source", "record"], {"source": BLOCK, "record": b"1 p\n2 p\n"}),
    "record_of_an_alternate_too_many": (["plain", "source", "record"], {"source": BLOCK, "record": b"1 p\n2 p 3 # one too many\n"}),
    "record_whose_test_fails": (["plain", "source", "record"], {"source": BLOCK, "record": b"1 p\n2 p 1\n3 p\n4 p\n"}),
    "record_without_room": (["plain", "source", "record"], {"source": BLOCK, "record": PLAYED + b"8 p\n"}),
    "line_that_is_long": (["check", "source"], {"source": LONG % b"y := 1; "}),
    "line_that_is_long_at_its_front": (["check", "source"], {"source": (LONG % b"").replace(b"var x", b"var z", 1)}),
    "trace_of_no_source": (["trace", "source", "schedule"], {"source": b"program a; process p { x := 1; } end.\n", "schedule": b"p 1\n"}),
    "page_of_an_unknown_process": (["page", "page", "source", "schedule"], {"page": b"<p></p>\n", "source": SMALL, "schedule": b"r 1\n"}),
    "session_without_process": (["session", "source", "schedule", "session"],
                                {"source": SMALL, "schedule": b"p 2\n", "session": b"step 1\nshow r\n"}),
    "image_that_is_none": (["load", "image", "schedule"], {"image": b"no image", "schedule": b"p 1\n"}),
    "schedule_that_is_too_long": (["run", "source", "schedule"], {"source": SMALL, "schedule": b" " * (MOST + 1)}),
    "file_that_is_missing": (["check", "missing"], {}),
    "nothing_refused": (["check", "source"], {"source": SMALL}),
}


def cases():
    """Each case: its name, the words of its command, and its files."""
    for fault in faults_and_causes()[0]:
        files = files_of(explained(fault)["files"])
        yield fault, words_over(files), files
    for name, (words, files) in CASES.items():
        yield name, words, files
    for name, statement in HABITS.items():
        source = b"program a;\nprocess p {\n  var x;\n  procedure f() { }\n  " + statement + b"\n}\nend.\n"
        yield f"habit_{name}", ["check", "source"], {"source": source}
    for name, processes in SLIPS.items():
        yield f"slip_{name}", ["check", "source"], {"source": b"program a;\n" + processes + b"end.\n"}


def told(words, files):
    """What a command writes to standard error over files of these names."""
    return answer_over(words, files).err


def place(name):
    """Where it stands what is wanted of a case."""
    return os.path.join(WANTED, f"{name}.stderr")


def words_of_all():
    """The words of which `rblview explain` tells."""
    faults, causes = faults_and_causes()
    return faults + causes


def explanation(word):
    """What `rblview explain` tells of a fault or a cause."""
    return answer(["explain", word]).out


def explained_place(word):
    """Where it stands what `rblview explain` is wanted to tell."""
    return os.path.join(EXPLAINED, f"{word}.txt")


if __name__ == "__main__":
    for word in words_of_all():
        write(explained_place(word), explanation(word))
    for name, words, files in cases():
        write(place(name), told(words, files))
