"""Tables that documents are held to: of commands in words.sh, and of crates in crates.tsv; and pictures that scripts draw."""

import importlib.machinery
import importlib.util
import shutil

from testing import PROGRAM, TOP, FolderTest, need_program, run

LISTS = (("docs/FORMATS.md", "    net_tool key [FILE]\n", "    net_tool key [FILE] [--archive PATH]\n"),
         ("docs/FORMATS.md", "| `key` | what", "| `keys` | what"),
         ("docs/man/net_tool.1", ".Cm cover\n.Op Ar file\n.Fl -cell Ar rows\n", ".Cm cover\n.Op Ar file\n.Op Fl -cell Ar rows\n"),
         ("docs/man/net_tool.1", ".It Cm place ", ".It Cm places "),
         ("front/net_tool.bash", "verify workload\"", "verify\""),
         ("front/net_tool.bash", "\"--archive --name\"", "\"--archive\""),
         ("front/words.sh", "\nworkload|N|", "\nworkloads|N|"))


CRATES = (("docs/ARCHITECTURE.md", "coordination sequences\n", "sequences\n"), ("docs/ARCHITECTURE.md", "\nplacing ", "\nplaces  "),
          ("dev/crates.tsv", "theory\tintegers\t", "theory\tinteger\t"))


class Documents(FolderTest):
    """A copy of what is compared, in which one word is another."""

    def copy(self, names: set[str]) -> None:
        for name in names:
            (self.folder / name).parent.mkdir(parents=True, exist_ok=True)
            shutil.copy(TOP / name, self.folder / name)

    def module(self):
        loader = importlib.machinery.SourceFileLoader("check_documents", str(TOP / "dev/check_documents"))
        module = importlib.util.module_from_spec(importlib.util.spec_from_loader(loader.name, loader))
        loader.exec_module(module)
        module.TOP = self.folder
        return module

    def test_each_list_of_commands_that_differs_is_found(self):
        self.copy({"dev/check_documents", *(name for name, _, _ in LISTS)})
        self.assert_found(LISTS, self.module().check_commands, "front/words.sh")

    def test_each_word_on_crates_that_differs_is_found(self):
        self.copy({name for name, _, _ in CRATES})
        self.assert_found(CRATES, self.module().check_crates, "dev/crates.tsv")

    def test_a_command_that_no_table_has_is_found(self):
        document = self.folder / "a.md"
        document.write_text("`net_tool keys FILE`\n    ./net_tool archive make\n    $ net_tool archive mend\n`net_tool help`\n")
        found = list(self.module().check_shown(document, {"key", "archive make", "help"}))
        self.assertEqual(found, ["a.md:1: there is no command net_tool keys", "a.md:3: there is no command net_tool archive"])

    def assert_found(self, changes, check, table):
        self.assertEqual(list(check()), [])
        for name, text, other in changes:
            path = self.folder / name
            whole = path.read_text()
            self.assertIn(text, whole)
            path.write_text(whole.replace(text, other, 1))
            found = list(check())
            self.assertTrue(found, text)
            if name != table:
                self.assertTrue(all(finding.startswith(name) for finding in found), found)
            path.write_text(whole)


class Pictures(FolderTest):
    def test_the_way_of_a_net_is_what_the_program_prints(self):
        need_program()
        run(TOP / "dev/draw_way", "--check", PROGRAM)
        for name in ("examples/dia.cgd", "archives/common.archive", "dev/draw_way", "dev/crates.tsv", "docs/way.svg"):
            (self.folder / name).parent.mkdir(parents=True, exist_ok=True)
            shutil.copy(TOP / name, self.folder / name)
        picture = self.folder / "docs/way.svg"
        for path, text, other in ((picture, "(-1/4, -1/4, -1/4)", "(1/4, 1/4, 1/4)"),
                                  (self.folder / "dev/crates.tsv", "\tleast_list\t", "\tlist\t")):
            whole = path.read_text()
            self.assertIn(text, whole)
            path.write_text(whole.replace(text, other))
            self.assertIn(b"way.svg: ", run(self.folder / "dev/draw_way", "--check", PROGRAM, status=1).stdout)
            path.write_text(whole)
        self.assertIn(b"not drawn", run(self.folder / "dev/draw_way", "--check", self.folder / "absent").stdout)
