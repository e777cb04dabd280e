"""The examples of the docs, and those of `examples`: the program answers what they show, byte by byte.

What is looked at is told in tests/checking, file by file.
"""
from .checking import files, pages, tables
from .checking.program import PAGES
from .shared import Cases


def of_pages(checks):
    """The checks of one kind, of all pages."""
    return [check for page in PAGES for check in checks(page)]


class Examples(Cases):
    PROGRAMS = ("rbl",)

    def told(self, checks):
        """What each check came to; there is one at least."""
        self.each(checks, lambda wrong: wrong)

    def test_blocks(self):
        self.told(of_pages(pages.blocks))

    def test_command_lines(self):
        self.told(of_pages(pages.command_lines))

    def test_code_in_tables(self):
        self.told(of_pages(pages.listed_code))

    def test_exit_statuses(self):
        self.told(tables.statuses())

    def test_replays(self):
        self.told(files.replays())

    def test_told_by_files(self):
        self.told(files.told())

    def test_files_named(self):
        self.told(files.named(PAGES))
