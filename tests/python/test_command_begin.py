"""`ads begin`: a new file that reads back as given, and a name that is never taken from another file."""
import os
import unittest

from running import SERIAL, CommandTest, header_options

import ads_metafile


class Begin(CommandTest):
    def names(self) -> list[str]:
        return sorted(path.name for path in self.folder.iterdir())

    def test_a_file_as_given(self) -> None:
        ended = self.expect(0, "begin", "ä b.ads", *header_options(strategy="NUL", mark_hex="2a" * 90))
        self.assertEqual(ended.output, f"ä b.ads begun: 499 bytes, serial {SERIAL}\n")
        self.assertEqual(self.names(), ["ä b.ads"])
        data = self.path("ä b.ads").read_bytes()
        self.assertEqual(data, ads_metafile.begin(strategy="NUL", mark=b"*" * 90, serial=SERIAL, recorded="20240229",
                                                  recorder="RECORDER", written="20240301", writer="DESK"))
        self.assertEqual(self.expect(0, "check", "ä b.ads").output, "ä b.ads: clean, 0 chunks, all sums good\n")

    def test_the_mask_of_the_user_holds(self) -> None:
        for mask, mode in ((0o022, 0o644), (0o077, 0o600)):
            name = f"{mask}.ads"
            self.expect(0, "begin", name, *header_options(), preexec_fn=lambda: os.umask(mask))
            self.assertEqual(self.path(name).stat().st_mode & 0o777, mode)

    def test_a_name_that_is_taken(self) -> None:
        self.path("a.ads", b"old")
        self.path("none.ads", b"")
        self.path("to nowhere").symlink_to("nowhere")
        os.mkdir(self.path("folder"))
        names = self.names()
        for name in ("a.ads", "none.ads", "to nowhere", "folder"):
            self.assertEqual(self.expect(3, "begin", name, *header_options()).errors,
                             f"ads: {name}: exists already, and is never overwritten; give another name\n")
        self.assertEqual((self.names(), self.path("a.ads").read_bytes()), (names, b"old"))
        self.assertEqual(self.path("none.ads").read_bytes(), b"")

    def test_no_folder(self) -> None:
        self.assertEqual(self.expect(3, "begin", "x/a.ads", *header_options()).errors,
                         "ads: x/a.ads: no such folder; nothing was begun\n")

    def test_a_folder_without_permission(self) -> None:
        self.folder.chmod(0o555)
        self.assertEqual(self.expect(3, "begin", "a.ads", *header_options(), unprivileged=True).errors,
                         "ads: a.ads: permission denied; nothing was begun\n")
        self.assertEqual(self.names(), [])

    def test_in_another_folder(self) -> None:
        os.mkdir(self.path("sub"))
        self.expect(0, "begin", "sub/a.ads", *header_options())
        self.assertEqual(os.listdir(self.path("sub")), ["a.ads"])


if __name__ == "__main__":
    unittest.main()
