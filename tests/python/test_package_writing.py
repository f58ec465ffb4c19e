"""The package's writing: begin, descriptions, append, serial numbers, and what is refused."""
from __future__ import annotations

import unittest
from datetime import datetime, timedelta, timezone
from typing import Any, Callable
from unittest import mock

import support
from support import SAMPLE, SAMPLE_OPEN, begun, description, made, serial

import ads_metafile
from ads_metafile import Description, Refused, append, append_into, begin, room_for, serial_number

HEADER: dict[str, Any] = {"strategy": "LLC", "serial": serial(7), "recorded": "20240229", "recorder": "RECORDER",
                          "written": "20240301", "writer": "DESK"}


class Case(unittest.TestCase):
    def refused(self, number: int, call: Callable[..., object], *given: Any, **named: Any) -> Refused:
        with self.assertRaises(Refused) as caught:
            call(*given, **named)
        self.assertEqual(caught.exception.number, number)
        return caught.exception


class Begin(Case):
    def test_begun(self) -> None:
        self.assertEqual(begin(**HEADER), SAMPLE.read_bytes()[:319])
        self.assertEqual(begin(**HEADER | {"strategy": b"NUL", "mark": b"M" * 90}), SAMPLE_OPEN.read_bytes()[:499])
        self.assertEqual(len(begin(**HEADER | {"mark": bytes([255]) * 999})), 319 + 2 * 999)

    def test_refused(self) -> None:
        cases = ((ads_metafile.FORM, {"strategy": "XXX"}), (ads_metafile.FORM, {"recorder": "R" * 33}),
                 (ads_metafile.FORM, {"recorded": "20230229"}), (ads_metafile.FORM, {"mark": b"M" * 1000}),
                 (ads_metafile.FORM, {"serial": serial(7)[:-3] + "999"}), (ads_metafile.TAPE, {"strategy": "NUL"}),
                 (ads_metafile.MARK_MINI, {"mark": b"MiniChunk=1"}), (ads_metafile.MARK_ZERO, {"mark": b"a\0b"}))
        for number, changed in cases:
            with self.subTest(changed):
                self.refused(number, begin, **HEADER | changed)

    def test_wrong_arguments(self) -> None:
        for name, wrong in (("strategy", "LL"), ("serial", serial(7)[:-1]), ("recorded", "2024-02-29"),
                            ("written", ""), ("recorder", "RECÖRDER")):
            with self.subTest(name), self.assertRaisesRegex(ValueError, name):
                begin(**HEADER | {name: wrong})
        for name in ("strategy", "mark", "writer"):
            with self.subTest(name), self.assertRaisesRegex(TypeError, f"{name} must be str or bytes, not int"):
                begin(**HEADER | {name: 5})
        with self.assertRaises(TypeError):
            begin(strategy="LLC")  # type: ignore[call-arg]


class Descriptions(Case):
    def test_keywords_and_methods_agree(self) -> None:
        chained = (Description().sub_format(b"ADS\\DATA\\TEST").generic_type("TXT").synch_type("GEN")
                   .time_standard("UTC").time_offset("+0000      8.035").event_synch("NUL").serial_number(serial(42))
                   .recording("20240229", "RECORDER").writing("20240301", b"DESK"))
        self.assertEqual(append(begun(), chained, b"abc").data, SAMPLE.read_bytes())
        self.assertEqual(append(begun(), description(), b"abc").data, SAMPLE.read_bytes())

    def test_each_field_is_written(self) -> None:
        """Every field stands in the file as given, where its label is."""
        cases = (("sub_format", "OTHER", b"SubFormat_ID=OTHER "), ("generic_type", "BIN", b"Generic_Type=BIN\n"),
                 ("synch_type", "SPE", b"Chunk_Time_Synch_Type=SPE\n"), ("time_standard", "NUL", b"Standard=NUL "),
                 ("time_offset", "-2359  59.99    ", b"Chunk_Time_Offset=-2359  59.99    \n"),
                 ("serial_number", serial(99), b"\nChunk_Serial_Number=" + serial(99).encode()),
                 ("recording", ("19990101", "R2"), b"Recording_Date=19990101\nChunk_Recording_Agent=R2 "),
                 ("writing", ["19990102", "W2"], b"Writing_Date=19990102\nChunk_Writing_Agent=W2 "))
        for name, value, expected in cases:
            with self.subTest(name):
                self.assertIn(expected, bytes(append(begun(), description(**{name: value})).data[319:]))

    def test_serial_beside_a_word(self) -> None:
        """ALT, SLV and MAS come with their serial numbers, and the last call holds."""
        other = serial(77)
        cases = ((description().alternate_standard(other), f"Chunk_Time_Standard=ALT{other}\n"),
                 (description().slave_event(other), f"Chunk_Event_Synch=SLV{other}\n"),
                 (description().master_event(other), f"Chunk_Event_Synch=MAS{other}\n"),
                 (description().slave_event(serial(1)).master_event(other), f"Chunk_Event_Synch=MAS{other}\n"),
                 (description().alternate_standard(other).time_standard("UTC"), "Chunk_Time_Standard=UTC" + " " * 38),
                 (description(event_synch=None, slave_event=other), f"Chunk_Event_Synch=SLV{other}\n"))
        for given, expected in cases:
            self.assertIn(expected.encode(), bytes(append(begun(), given).data))

    def test_a_description_does_not_change(self) -> None:
        first = description()
        before = bytes(first._struct)
        second = first.sub_format("OTHER").generic_type("BIN")
        self.assertEqual(bytes(first._struct), before)
        self.assertNotEqual(bytes(second._struct), before)

    def test_refused_by_append(self) -> None:
        cases: tuple[dict[str, Any], ...] = (
            {"sub_format": "x" * 257}, {"generic_type": "XXX"}, {"synch_type": "XXX"}, {"time_standard": "ALT"},
            {"time_offset": "+0000     60.000"}, {"event_synch": "SLV"}, {"serial_number": "#" * 38},
            {"recording": ("20240230", "R")}, {"writing": ("20240229", "W" * 33)}, {"serial_number": None})
        for changed in cases:
            with self.subTest(changed):
                self.refused(ads_metafile.FORM, append, begun(), description(**changed))

    def test_wrong_arguments(self) -> None:
        for name in ("generic_type", "synch_type", "time_standard", "alternate_standard", "time_offset", "event_synch",
                     "slave_event", "master_event", "serial_number"):
            for wrong, error in (("four", ValueError), (b"", ValueError), ("ü" * 3, ValueError), (4, TypeError)):
                with self.subTest(name), self.assertRaisesRegex(error, name):
                    getattr(Description(), name)(wrong)
        for name in ("recording", "writing"):
            with self.assertRaisesRegex(ValueError, f"{name} date must have 8 bytes, has 2"):
                getattr(Description(), name)("24", "agent")
            with self.assertRaisesRegex(TypeError, f"{name} must be a pair"):
                Description(**{name: "20240229"})
        with self.assertRaisesRegex(ValueError, "only one of time_standard, alternate_standard"):
            Description(time_standard="UTC", alternate_standard=serial(1))
        with self.assertRaisesRegex(ValueError, "only one of event_synch, slave_event, master_event"):
            Description(slave_event=serial(1), master_event=serial(1))
        with self.assertRaises(TypeError):
            Description(colour="red")  # type: ignore[call-arg]


class Append(Case):
    def test_appended(self) -> None:
        data = begun("NUL", b"****")
        appended = append(data, description(), b"12345", specific=b"two", open=True)
        self.assertEqual((appended.old, appended.ends), (327, (327 + 571 + 34, 327 + 571 + 39, 327 + 571 + 39 + 262)))
        self.assertEqual(b"".join((data, *appended.writes)), appended.data)
        self.assertEqual((appended.writes[1], appended.data.readonly), (b"12345", True))
        self.assertEqual(append(begun("NUL", b"M" * 90), description(), b"12345", open=True).data,
                         SAMPLE_OPEN.read_bytes())
        with ads_metafile.read(appended.data) as file:
            self.assertEqual((file.clean, file[0].header, bytes(file[0].contents)), (True, 571, b"12345"))

    def test_parents(self) -> None:
        data = made(b"a", b"b", b"c")
        with ads_metafile.read(append(data, description(60), parents=(row for row in (2, 0))).data) as file:
            self.assertEqual([found.row for found in file.parents(3)], [2, 0])

    def test_refused(self) -> None:
        data = made(b"a", b"b")
        cases: tuple[tuple[int, bytes, dict[str, Any]], ...] = (
            (ads_metafile.NOT_CLEAN, data + b"x", {}), (ads_metafile.NOT_CLEAN, b"", {}),
            (ads_metafile.NO_ROW, data, {"parents": [2]}), (ads_metafile.NO_ROW, data, {"parents": [0, 0]}),
            (ads_metafile.NO_ROW, data, {"parents": range(17)}), (ads_metafile.OPEN, data, {"open": True}),
            (ads_metafile.OPEN, begun("NUL", b"ABAB"), {"contents": b"QAB", "open": True}))
        for number, file, given in cases:
            with self.subTest(number):
                self.refused(number, append, file, description(60), **given)
        self.refused(ads_metafile.REPEATED, append, data, description(42))
        self.refused(ads_metafile.MULTICHUNK, append, data, description(60, sub_format="ADS\\SYS\\MultiChunk"))

    def test_limit(self) -> None:
        """Over 2^30 bytes: the file, the contents, and the finished file alone."""
        over = memoryview(ads_metafile._memory.anonymous(2**30 + 1))
        self.refused(ads_metafile.LIMIT, append, over, description())
        self.refused(ads_metafile.LIMIT, append, begun(), description(), over)
        refused = self.refused(ads_metafile.NO_ROOM, append, begun(), description(), over[:2**30])
        self.assertIn("the file would have over 1,073,741,824 bytes", str(refused))

    def test_into_a_buffer(self) -> None:
        data = made(b"a")
        room = room_for(len(data), 3, 1, 5)
        buffer = bytearray(data.ljust(room, b"?"))
        ends = append_into(buffer, len(data), description(60), b"abc", [0], b"extra", False)
        self.assertEqual(buffer[:ends[2]], append(data, description(60), b"abc", parents=[0], specific=b"extra").data)
        self.assertEqual(buffer[ends[2]:], b"?" * (room - ends[2]))

    def test_a_refused_call_changes_nothing(self) -> None:
        data = made(b"a")
        for length, room, number in ((len(data), len(data) + 10, ads_metafile.NO_ROOM),
                                     (len(data) + 1, len(data), ads_metafile.LIMIT)):
            buffer = bytearray(data.ljust(room, b"?"))
            before = bytes(buffer)
            self.refused(number, append_into, buffer, length, description(60))
            self.assertEqual(buffer, before)

    def test_room_for(self) -> None:
        """Just enough for the longest mark, also with parents, contents and specific data."""
        data = made(b"a", strategy="NUL", mark=b"M" * 999)
        self.assertEqual(append(data, description(60), b"abcd", parents=[0], specific=b"x").ends[2],
                         room_for(len(data), 4, 1, 1))
        self.assertEqual(room_for(2**30, 1), 2**30)

    def test_overlap(self) -> None:
        buffer = bytearray(begun().ljust(4096, b"\0"))
        inside, before = memoryview(buffer)[4000:4003], bytes(buffer)
        for given in ({"contents": inside}, {"specific": inside}, {"contents": buffer}):
            with self.assertRaisesRegex(ValueError, "must not lie in the buffer"):
                append_into(buffer, 319, description(), **given)
        self.assertEqual(buffer, before)
        append_into(memoryview(buffer)[:4000], 319, description(), inside)

    def test_wrong_arguments(self) -> None:
        buffer = bytearray(2000)
        with self.assertRaisesRegex(TypeError, "description must be a Description, not dict"):
            append(begun(), {})  # type: ignore[arg-type]
        with self.assertRaises(BufferError):
            append_into(bytes(2000), 319, description())
        for wrong in ("text", None, 5):
            for given in ({"contents": wrong}, {"specific": wrong}):
                with self.assertRaises(TypeError):
                    append(begun(), description(), **given)  # type: ignore[arg-type]
            with self.assertRaises(TypeError):
                append(wrong, description())  # type: ignore[arg-type]
        for outside in (-1, 2**64):
            with self.assertRaisesRegex(ValueError, "parent is .* outside"):
                append(begun(), description(), parents=[outside])
            with self.assertRaisesRegex(ValueError, "length is .* outside"):
                append_into(buffer, outside, description())
        with self.assertRaises(BufferError):
            append(begun(), description(), memoryview(b"abcd")[::2])


class SerialNumber(unittest.TestCase):
    def test_given(self) -> None:
        self.assertEqual(serial_number(support.WHEN, "SURVEYDESK01", 42), support.SAMPLE_SERIAL)
        east = timezone(timedelta(hours=2))
        self.assertEqual(serial_number(datetime(2024, 2, 29, 14, 34, 56, 789999, east), b"SURVEYDESK01", 42),
                         support.SAMPLE_SERIAL)
        self.assertEqual(serial_number(datetime(9, 1, 2, 3, 4, 5), "A", 0)[:35], "#00090102030405000A           00000")

    def test_made(self) -> None:
        """The library takes it: a chunk with it can be appended. Two differ."""
        before = datetime.now(timezone.utc).replace(microsecond=0)
        made = serial_number()
        moment = datetime.strptime(made[1:15], "%Y%m%d%H%M%S").replace(tzinfo=timezone.utc)
        self.assertLessEqual(before, moment)
        self.assertLessEqual(moment, datetime.now(timezone.utc))
        append(begun(), description(serial_number=made))
        self.assertGreater(len({serial_number(support.WHEN) for _ in range(20)}), 1)

    def test_host(self) -> None:
        hosts = {"rig-7": "rig-7       ", "a-very-long-host-name": "a-very-long-", "hü\n": "h??         "}
        for host, processor in hosts.items():
            with mock.patch("os.uname", return_value=mock.Mock(nodename=host)):
                self.assertEqual(serial_number()[18:30], processor)

    def test_wrong_arguments(self) -> None:
        for given in ({"random": 65536}, {"random": -1}, {"processor": "thirteen char"}, {"processor": "a\n"},
                      {"processor": b"\xff"}, {"processor": "ü"}):
            with self.subTest(given), self.assertRaisesRegex(ValueError, next(iter(given))):
                serial_number(**given)  # type: ignore[arg-type]
        with self.assertRaises(TypeError):
            serial_number(random=1.5)  # type: ignore[arg-type]


if __name__ == "__main__":
    unittest.main()
