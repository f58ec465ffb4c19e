"""What the documents name is there: every path, and every `crate::function` of the proved crates."""
import re
import unittest
from pathlib import Path

ROOT = Path(__file__).resolve().parents[2]
DOCUMENTS = ["docs/ARCHITECTURE.md", "docs/FORMAT.md", "docs/SPEED.md", "docs/TRUST.md", "samples/README.md"]
CRATES = re.findall(r"^(\w+)(?: staticlib)?:", (ROOT / "crates.txt").read_text(encoding="utf-8"), re.MULTILINE)
MADE = {"target"}
"""Folders that a build makes."""


def quoted(document: str) -> list[str]:
    """What stands in backticks."""
    return re.findall(r"`([^`\n]+)`", (ROOT / document).read_text(encoding="utf-8"))


def is_path(text: str) -> bool:
    """Whether a quoted text names a file or folder; capital letters (NAME) stand for any."""
    if not re.fullmatch(r"[\w.-]+(/[\w.*-]+)*/?", text) or re.search(r"\b[A-Z]{2,}\b(?!\.md)", text):
        return False
    first = text.split("/")[0]
    return first not in MADE and ("/" in text and (ROOT / first).exists() or bool(re.search(r"\w\.[a-z]+$", text)))


def path_missing(text: str) -> bool:
    """Whether it is neither in the repository, nor in a crate, nor among the samples, nor a file's own name."""
    places = [text, f"crates/{text}", f"crates/*/{text}", f"samples/{text}"]
    return not any(list(ROOT.glob(place)) for place in places) and ("/" in text or not list(ROOT.rglob(text)))


def function_missing(name: str) -> bool:
    """Whether a name crate::function, or crate::module::function, is nowhere in that crate."""
    crate, *modules, function = name.split("::")
    folder = ROOT / "crates" / crate / "src"
    files = [folder / (modules[0] + ".rt")] if modules else sorted(folder.glob("*.rt"))
    defined = re.compile(rf"\b(fn|struct|enum|mod|const) {function}\b")
    return not any(file.exists() and defined.search(file.read_text(encoding="utf-8")) for file in files)


class Names(unittest.TestCase):
    def test_paths_are_there(self) -> None:
        paths = [(document, text) for document in DOCUMENTS for text in quoted(document) if is_path(text)]
        self.assertEqual([named for named in paths if path_missing(named[1])], [])
        self.assertGreater(len(paths), 100)

    def test_functions_are_there(self) -> None:
        found = [text for document in DOCUMENTS for text in quoted(document) if re.fullmatch(r"[a-z_]+(::\w+)+", text)]
        names = [name for name in found if name != "crate::name"]
        self.assertEqual([name for name in names if name.split("::")[0] not in CRATES or function_missing(name)], [])
        self.assertGreater(len(names), 30)

    def test_a_name_that_is_not_there_is_seen(self) -> None:
        self.assertTrue(function_missing("read::reed"))
        self.assertTrue(function_missing("read::local::first"))
        self.assertFalse(function_missing("walk::cursor::first"))
        self.assertTrue(path_missing("docs/FORMATS.md") and path_missing("doc/FORMAT.md") and path_missing("none.ads"))
        self.assertFalse(path_missing("docs/FORMAT.md") or path_missing("metafile/proofs/Joint.antt"))


if __name__ == "__main__":
    unittest.main()
