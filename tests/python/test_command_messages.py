"""Names of any bytes in any locale, messages of one line, unexpected errors, usage, and the man page."""
import doctest
import json
import os
import re
import shlex
import subprocess
import sys
import unittest

from running import ADS, ROOT, CommandTest, chunk_options, chunks, environment

sys.path.insert(0, str(ROOT / "python"))

import make_manual  # noqa: E402
from ads_metafile import __version__  # noqa: E402
from ads_metafile.command import output  # noqa: E402
from ads_metafile.command.parser import make_parser  # noqa: E402

NAMES = {
    b"with spaces.ads": "with spaces.ads",
    "Größe на.ads".encode(): "Größe на.ads",
    b"\xff\xfe.ads": '"\\xff\\xfe.ads"',
    b"line\nfeed\x1b[2J.ads": '"line\\nfeed\\x1b[2J.ads"',
    "\u202eads.\u0085".encode(): '"\\u202eads.\\u0085"',
    b'"quoted" \\back.ads': '"quoted" \\back.ads',
    b'"\t".ads': '"\\"\\t\\".ads"',
    b"%s{}.ads": "%s{}.ads",
}
SUBCOMMANDS = ["list", "check", "contents", "parents", "ancestors", "gather", "relations", "price", "fields", "begin",
               "append", "cut-back"] + ["pack", "unpack"]


class Names(CommandTest):
    def setUp(self) -> None:
        super().setUp()
        for name in NAMES:
            with open(os.path.join(os.fsencode(self.folder), name), "wb") as file:
                file.write(chunks(b"abc"))

    def test_in_every_locale(self) -> None:
        for locale in ("C", "POSIX", "C.UTF-8"):
            env = environment(LC_ALL=locale)
            ended = self.expect(0, "check", *NAMES, env=env)
            self.assertEqual(ended.lines, [f"{shown}: clean, 1 chunk, all sums good" for shown in NAMES.values()])
            ended = self.run_ads("list", *(name + b"x" for name in NAMES), env=env)
            self.assertEqual(ended.status, 3)
            for line, shown in zip(ended.errors.splitlines(), NAMES.values(), strict=True):
                quoted = shown[:-1] + 'x"' if shown.endswith('"') else shown + "x"
                self.assertEqual(line, f"ads: {quoted}: no such file")

    def test_where_the_streams_have_only_ascii(self) -> None:
        env = environment(LC_ALL="C", PYTHONIOENCODING="ascii:strict")
        lines = self.expect(0, "check", *list(NAMES)[:2], env=env).lines
        self.assertEqual(lines[1], "Gr\\xf6\\xdfe \\u043d\\u0430.ads: clean, 1 chunk, all sums good")
        errors = self.expect(3, "check", "list", "Größe", env=env)
        self.assertEqual(errors.lines[-1], "Gr\\xf6\\xdfe: no such file")

    def test_machine_formats(self) -> None:
        exact = [os.fsdecode(name) if b"\xff" not in name else "\\xff\\xfe.ads" for name in NAMES]
        for locale in ("C", "C.UTF-8"):
            env = environment(LC_ALL=locale)
            for arguments in (("list", "--format=json"), ("check", "--json")):
                lines = self.expect(0, *arguments, *NAMES, env=env).lines
                self.assertEqual([json.loads(line)["file"] for line in lines], exact)
                self.assertTrue("".join(lines).isascii())
            lines = self.expect(0, "list", "--format=tsv", *NAMES, env=env).output.split("\n")
            self.assertEqual(len(lines), len(NAMES) + 2)
            self.assertEqual({line.count("\t") for line in lines[:-1]}, {13})

    def test_jq_reads_it(self) -> None:
        output = self.expect(0, "list", "--format=json", *NAMES).bytes
        try:
            found = subprocess.run(["jq", "-r", ".rows[0].bytes"], input=output, capture_output=True, timeout=30)
        except FileNotFoundError:
            self.skipTest("jq isn't installed")
        self.assertEqual(found.stdout, b"3\n" * len(NAMES))

    def test_the_row_of_a_hostile_serial_number(self) -> None:
        number = '#20240229123456789"\\<b>%s\'{}  00042'
        number += "%03d" % (sum(number.encode()) % 256)
        self.path("data", b"")
        self.path("a.ads", chunks())
        self.expect(0, "append", "a.ads", *chunk_options(number, sub_format='"\\<>%d{}&,;\''), "--contents=data")
        row = json.loads(self.expect(0, "list", "--format=json", "a.ads").output)["rows"][0]
        self.assertEqual((row["serial"], row["sub_format"]), (number, '"\\<>%d{}&,;\''))
        self.assertIn(number, self.expect(0, "list", "a.ads").output)


class Messages(CommandTest):
    def test_usage_is_one_line(self) -> None:
        for arguments, said in (((), "ads: the following arguments are required: SUBCOMMAND; see `ads --help`\n"),
                                (("lost",), "invalid choice: 'lost'"),
                                (("list",), "list: the following arguments are required: FILE; see `ads list --help`"),
                                (("list", "--nothing", "a"), "unrecognized arguments: --nothing"),
                                (("list", "--form=tsv", "a"), "unrecognized arguments: --form=tsv"),
                                (("list", "--format=xml", "a"), "invalid choice: 'xml'"),
                                (("contents", "a", "1", "\n\x1b"), "unrecognized arguments: \\n\\x1b")):
            self.assertIn(said, self.expect(2, *arguments).errors)

    def test_unexpected_errors(self) -> None:
        self.path("tomllib.py", b"raise RuntimeError('two\\nlines')\n")
        env = environment(PYTHONPATH=str(self.folder))
        arguments = ("append", "a.ads", "--contents=x", "--fields=x")
        self.assertEqual(self.expect(3, *arguments, env=env).errors,
                         "ads: unexpected RuntimeError: two\\nlines; ADS_DEBUG=1 shows where\n")
        ended = self.run_ads(*arguments, env=env | {"ADS_DEBUG": "1"})
        self.assertEqual(ended.status, 3)
        self.assertIn("Traceback (most recent call last):", ended.errors)

    def test_without_the_library(self) -> None:
        self.path("a.ads", chunks(b"abc"))
        env = environment(ADS_LIBRARY=str(self.path("a.ads")))
        errors = self.expect(3, "list", "a.ads", env=env).errors
        self.assertRegex(errors, "the library libads can't be loaded: .*; run `make`")
        self.expect(0, "--version", env=env)

    def test_without_the_package(self) -> None:
        def version() -> tuple[int, str, str]:
            ended = subprocess.run([sys.executable, "ads", "--version"], cwd=self.folder, env=environment(),
                                   capture_output=True, text=True, timeout=30)
            return ended.returncode, ended.stdout, ended.stderr
        self.path("ads").symlink_to(ADS[1])
        self.assertEqual(version(), (0, f"ads {__version__}\n", ""))
        self.path("ads").unlink()
        self.path("ads", (ROOT / "python" / "bin" / "ads").read_bytes())
        status, output, errors = version()
        self.assertEqual((status, output), (3, ""))
        self.assertRegex(errors, r"\Aads: the Python package ads_metafile can't be loaded \(.*\); run `make install`, "
                         r"or set PYTHONPATH\n\Z")

    def test_as_a_module(self) -> None:
        found = subprocess.run([sys.executable, "-m", "ads_metafile", "--version"], capture_output=True, timeout=30,
                               env=environment(PYTHONPATH=str(ROOT / "python")))
        self.assertEqual((found.returncode, found.stdout), (0, f"ads {__version__}\n".encode()))


class Help(CommandTest):
    def test_docstrings(self) -> None:
        self.assertEqual(doctest.testmod(output), (0, 1))

    def test_the_lock_is_waited_for_ten_seconds(self) -> None:
        for arguments in (["append", "a", "--contents", "b"], ["cut-back", "a"]):
            self.assertEqual(make_parser().parse_args(arguments).wait, 10)

    def test_version(self) -> None:
        self.assertEqual(self.expect(0, "--version").output, f"ads {__version__}\n")

    def test_each_subcommand_has_an_example_that_is_taken(self) -> None:
        help_text = self.expect(0, "--help").output
        self.assertEqual(re.findall(r"(?m)^    ([\w-]+)  +", help_text), SUBCOMMANDS)
        parsers = make_manual.subcommands(make_parser())
        for name in SUBCOMMANDS:
            examples = parsers[name].format_help().split("example:\n")[1].replace("\\\n", " ")
            for line in filter(None, examples.splitlines()):
                words = shlex.split(line.split(" || ")[0].split(" > ")[0])
                self.assertEqual(words[0], "ads")
                self.assertEqual(make_parser().parse_args(words[1:]).subcommand, name)
        self.assertIn("example:\n  ads list survey.ads\n", self.expect(0, "list", "--help").output)

    def test_the_man_page(self) -> None:
        self.assertEqual((ROOT / "man" / "ads.1").read_text(encoding="utf-8"), make_manual.manual(),
                         "run `python3 python/make_manual.py > man/ads.1`")

    def test_the_man_page_is_good_roff(self) -> None:
        try:
            found = subprocess.run(["groff", "-man", "-ww", "-Tascii", str(ROOT / "man" / "ads.1")],
                                   capture_output=True, timeout=30)
        except FileNotFoundError:
            self.skipTest("groff isn't installed")
        self.assertEqual((found.returncode, found.stderr), (0, b""))


if __name__ == "__main__":
    unittest.main()
