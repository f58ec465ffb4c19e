"""Fields: the template of `ads fields`, files of fields, options over them, and messages that name a field."""
import datetime
import re
import unittest

from running import SERIAL, CommandTest, chunk_options, chunks, header_options
from metafile_bytes import serial

import ads_metafile


class FieldsTest(CommandTest):
    def setUp(self) -> None:
        super().setUp()
        self.file = self.path("a.ads", chunks(b"abc"))
        self.path("data", b"12345")
        self.template = self.expect(0, "fields").output

    def toml(self, text: str) -> str:
        self.path("f.toml", text.encode())
        return "f.toml"

    def append(self, status: int, *options: str) -> str:
        """Runs append; its message. Where it is refused the file is as it was."""
        before = self.file.read_bytes()
        errors = self.expect(status, "append", "a.ads", "--contents=data", *options).errors
        self.assertEqual(self.file.read_bytes() == before, status != 0)
        return errors


class Template(FieldsTest):
    def test_its_values_make_a_file_and_a_chunk(self) -> None:
        self.toml(self.template)
        self.expect(0, "begin", "b.ads", "--fields=f.toml")
        self.expect(0, "append", "b.ads", "--fields=f.toml", "--contents=data")
        with ads_metafile.open(self.path("b.ads")) as file:
            self.assertEqual((file.clean, file.header_good, len(file), file[0].good), (True, True, 1, True))
            self.assertEqual((file.strategy, file[0].sub_format), ("LLC", "ADS\\DATA\\TEST"))
            self.assertEqual(file[0].offset, 80350000000)

    def test_values_that_are_commented_out_are_good_too(self) -> None:
        for old, new in (("time_standard = 'UTC'\n", "alternate_standard"), ("event_synch = 'NUL'\n", "slave_event"),
                         ("event_synch = 'NUL'\n", "master_event")):
            self.assertIn(f"\n#{new} = ", self.template)
            self.toml(self.template.replace(old, "").replace(f"#{new} = ", f"{new} = "))
            self.append(0, "--fields=f.toml")
        for mark, name in ((b"--- next chunk ---", "mark"), (b"---\n", "mark_hex"), (b"from a file", "mark_file")):
            self.path("mark.bin", b"from a file")
            self.assertIn(f"\n#{name} = ", self.template)
            self.toml(self.template.replace(f"#{name} = ", f"{name} = "))
            self.expect(0, "begin", name, "--fields=f.toml", "--strategy=NUL")
            self.assertEqual(ads_metafile.open(self.path(name)).mark, mark)

    def test_every_option_is_in_it(self) -> None:
        for subcommand in ("append", "begin"):
            for option in self.expect(0, subcommand, "--help").output.split("fields:\n")[1].split("\n  --")[1:]:
                key = option.split()[0].replace("-", "_")
                self.assertTrue(key == "fields" or re.search(f"(?m)^#?{key} = ", self.template), key)


class Given(FieldsTest):
    def row(self) -> ads_metafile.Row:
        return ads_metafile.read(self.file.read_bytes())[-1]

    def integrity(self) -> bytes:
        return self.file.read_bytes()[-254:]

    def test_options_override_the_file(self) -> None:
        self.toml(self.template)
        number = serial("00777")
        self.append(0, "--fields=f.toml", f"--serial={number}", "--sub-format=OTHER", "--time-offset=-01000.5",
                    "--recorder=R", "--recorded=20250101", "--written=20250102", "--writer=W")
        row = self.row()
        self.assertEqual((row.serial, row.sub_format, row.offset), (number, "OTHER", -(3600 * 10**10 + 5 * 10**9)))
        for line in ("Recording_Date=20250101\n", "Recording_Agent=R" + " " * 31, "Writing_Date=20250102\n",
                     "Writing_Agent=W" + " " * 31):
            self.assertIn(line.encode(), self.integrity())

    def test_one_of_a_group_takes_the_others_place(self) -> None:
        self.toml(self.template)
        self.append(0, "--fields=f.toml", f"--alternate-standard={SERIAL}", f"--master-event={SERIAL}")
        chunk = self.file.read_bytes()[self.row().place:]
        self.assertIn(f"Chunk_Time_Standard=ALT{SERIAL}\n".encode(), chunk)
        self.assertIn(f"Chunk_Event_Synch=MAS{SERIAL}\n".encode(), chunk)
        self.assertIn("only one of event_synch, slave_event can be given",
                      self.append(2, *chunk_options(), f"--slave-event={SERIAL}"))

    def test_the_writing_fields_are_the_recording_ones(self) -> None:
        options = [option for option in chunk_options() if not option.startswith("--writ")]
        self.append(0, *options)
        for line in (b"Writing_Date=20240229\n", b"Writing_Agent=RECORDER  "):
            self.assertIn(line, self.integrity())

    def test_dates(self) -> None:
        before = datetime.datetime.now(datetime.timezone.utc)
        self.append(0, *chunk_options("auto", recorded="today", written="2024-03-01"))
        today = {each.strftime("%Y%m%d") for each in (before, datetime.datetime.now(datetime.timezone.utc))}
        found = self.integrity()
        self.assertIn(found.split(b"Recording_Date=")[1][:8].decode(), today)
        self.assertIn(b"Writing_Date=20240301\n", found)
        self.toml(self.template.replace("recorded = '20240229'", "recorded = 2024-02-28"))
        self.append(0, "--fields=f.toml")
        self.assertIn(b"Recording_Date=20240228\n", self.integrity())

    def test_serial_auto(self) -> None:
        said = self.expect(0, "append", "a.ads", "--contents=data", *chunk_options("auto")).output
        number = self.row().serial
        self.assertEqual(said, f"row 1 appended: 1,178 to 2,039, serial {number}\n")
        moment = datetime.datetime.strptime(number[1:15], "%Y%m%d%H%M%S").replace(tzinfo=datetime.timezone.utc)
        self.assertLess(abs(datetime.datetime.now(datetime.timezone.utc) - moment), datetime.timedelta(minutes=2))


class Refused(FieldsTest):
    def test_unknown_keys_are_named_with_the_known_ones(self) -> None:
        self.toml(self.template.replace("sub_format", "subformat").replace("strategy = ", "'sepa\tration' = "))
        self.assertRegex(self.append(2, "--fields=f.toml"), r"ads: append: f\.toml: unknown in \[chunk\]: subformat; "
                         "known are sub_format, generic_type, .*, writer\n")
        self.toml("[header]\n'sepa\tration' = ''\n")
        self.assertIn('unknown in [header]: "sepa\\tration"; known are strategy', self.append(2, "--fields=f.toml"))
        self.toml("sub_format = ''\n")
        self.assertIn("f.toml: unknown in the file: sub_format; known are chunk, header\n",
                      self.append(2, "--fields=f.toml"))

    def test_other_faults_of_the_file(self) -> None:
        for text, said in (("[header]\n", "f.toml: has no table [chunk]; `ads fields` prints a template"),
                           ("chunk = 1\n", "f.toml: chunk must be a table, [chunk]"),
                           ("[chunk]\nrecorded = 20240229\n", "f.toml: recorded must be a text in quotes"),
                           ("[chunk]\nwritten = 2024-02-29T00:00:00\n", "f.toml: written must be a text in quotes"),
                           ("[chunk]\nrecorder = 'x\n", "f.toml: isn't TOML: "),
                           ("[chunk]\nrecorder = 'x'\n", "fields are missing: sub_format, generic_type, synch_type, "
                            "time_standard, time_offset, event_synch, serial, recorded; give them as options")):
            self.assertIn(said, self.append(2, "--fields", self.toml(text)))
        self.path("f.toml", b"[chunk]\nrecorder = '\xff'\n")
        self.assertIn("f.toml: isn't TOML: ", self.append(2, "--fields=f.toml"))
        self.assertEqual(self.append(3, "--fields=missing.toml"), "ads: missing.toml: no such file\n")

    def test_what_is_out_of_form_is_named(self) -> None:
        said = "ads: a.ads: refused with 6 (a field is out of form or range): "
        for key, value in {"sub_format": "x" * 257, "generic_type": "TXX", "synch_type": "XXX", "time_standard": "ALT",
                           "time_offset": "+2400      0.000", "event_synch": "SLV", "serial": SERIAL[:-1] + "9",
                           "recorded": "20230229", "recorder": "é", "written": "00000101", "writer": "x" * 33}.items():
            with self.subTest(key):
                errors = self.append(1, *chunk_options(**{key: value}))
                self.assertTrue(errors.startswith(f"{said}{key} is '{value[:60]}"), errors)
                self.assertEqual(errors.count(", its form: "), 1)
        errors = self.append(1, *chunk_options(recorded="20230229", writer="\t"))
        self.assertIn("recorded is '20230229', its form: year, month and day", errors)
        self.assertIn("; writer is '\\t', its form: at most 32", errors)

    def test_only_what_is_out_of_form_is_named(self) -> None:
        """A strategy or sub-format that is refused with another number, alone, isn't meant."""
        options = header_options(strategy="NUL", mark="x", recorded="20240230")
        self.assertIn("or range): recorded is '20240230'", self.expect(1, "begin", "b.ads", *options).errors)
        errors = self.append(1, *chunk_options(sub_format="ADS\\SYS\\MultiChunk", recorded="20240230"))
        self.assertIn("or range): recorded is '20240230'", errors)

    def test_wrong_lengths(self) -> None:
        for key, value, said in (("recorded", "2024", "recording date must have 8 bytes, has 4"),
                                 ("generic_type", "TEXT", "generic_type must have 3 bytes, has 4"),
                                 ("serial", "#1", "serial_number must have 38 bytes, has 2")):
            self.assertEqual(self.append(2, *chunk_options(**{key: value})), f"ads: append: {said}\n")

    def test_of_a_header(self) -> None:
        for options, status, said in (
                (header_options(strategy="NUL"), 1, "with 2 (NUL with a mark of no bytes, the tape form): a file on"),
                (header_options(mark="MiniChunk="), 1, "refused with 3 (the mark begins with MiniChunk=): give a mark"),
                (header_options(mark_hex="2a00"), 1, "refused with 15 (the mark has a zero byte): give a mark"),
                (header_options(mark="x" * 1000), 1, "refused with 6 (a field is out of form or range): mark is 'xxx"),
                (header_options(recorded="20240230"), 1, "is out of form or range): recorded is '20240230', its form"),
                (header_options(mark_hex="2"), 2, "mark_hex must be hexadecimal digits, two for each byte"),
                (header_options(mark="x", mark_hex="2a"), 2, "only one of mark, mark_hex can be given"),
                (header_options(strategy="L"), 2, "strategy must have 3 bytes, has 1"),
                (header_options(mark_file="nowhere"), 3, "ads: nowhere: no such file"),
                (header_options()[:-4], 2, "fields are missing: recorded, recorder; give them")):
            with self.subTest(said):
                self.assertIn(said, self.expect(status, "begin", "b.ads", *options).errors)
                self.assertEqual(sorted(path.name for path in self.folder.iterdir()), ["a.ads", "data"])


if __name__ == "__main__":
    unittest.main()
