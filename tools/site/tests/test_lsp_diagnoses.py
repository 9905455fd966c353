"""When documents are looked at, and which remarks are told."""

import queue
import threading
import unittest
from typing import Callable, List, Sequence, Tuple

from sievebench_site.ends import Refusal
from sievebench_site.lsp_diagnoses import LATER, PAUSE, Diagnoses
from sievebench_site.lsp_remarks import Remark
from sievebench_site.lsp_source import Document
from sievebench_site.lsp_text import UTF16, Text

SECONDS = 20.0


def document(uri: str, version: int) -> Document:
    """A document."""
    return Document(uri, version, Text("", UTF16), None)


def remark(kind: str) -> Remark:
    """A remark."""
    return Remark(0, 0, kind, "", 1)


class Looks(unittest.TestCase):
    """A thread that looks at documents, and tells what a function finds."""

    def setUp(self) -> None:
        self.told: "queue.Queue[Tuple[str, object, List[str]]]" = queue.Queue()
        self.complaints: "queue.Queue[str]" = queue.Queue()
        self.asked: List[Tuple[str, object, List[str]]] = []
        self.finds: Callable[[Document], List[Remark]] = lambda it: [remark(f"{it.uri}{it.version}")]

    def begin(self, pause: float = 0.01) -> Diagnoses:
        """Begins."""
        found = Diagnoses(self.find, self.tell, self.complaints.put, pause)
        found.thread.start()
        self.addCleanup(found.thread.join, SECONDS)
        self.addCleanup(found.end)
        return found

    def find(self, it: Document, others: Sequence[Document]) -> List[Remark]:
        """Finds remarks."""
        self.asked.append((it.uri, it.version, [other.uri for other in others]))
        return self.finds(it)

    def tell(self, it: Document, found: List[Remark]) -> None:
        """Keeps the remarks that are told."""
        self.told.put((it.uri, it.version, [remark.kind for remark in found]))

    def next(self) -> Tuple[str, object, List[str]]:
        """The next remarks that are told."""
        return self.told.get(timeout=SECONDS)

    def test_they_come_within_a_tenth_of_a_second(self) -> None:
        self.assertLess(PAUSE + LATER, 0.1)

    def test_quick_changes_are_looked_at_once(self) -> None:
        looks = self.begin(0.2)
        for version in range(1, 6):
            looks.put(document("a", version))
        self.assertEqual(self.next(), ("a", 5, ["a5"]))
        self.assertEqual(self.asked, [("a", 5, [])])

    def test_a_change_while_a_look_lasts(self) -> None:
        begun, goes = threading.Event(), threading.Event()

        def slow(it: Document) -> List[Remark]:
            begun.set()
            goes.wait(SECONDS)
            return [remark(f"a{it.version}")]

        self.finds = slow
        looks = self.begin()
        looks.put(document("a", 1))
        begun.wait(SECONDS)
        looks.put(document("a", 2))
        goes.set()
        self.assertEqual(self.next(), ("a", 2, ["a2"]))
        self.assertEqual([version for _, version, _ in self.asked], [1, 2])
        self.assertTrue(self.told.empty())

    def test_an_end_while_a_look_lasts(self) -> None:
        begun, goes = threading.Event(), threading.Event()

        def slow(it: Document) -> List[Remark]:
            begun.set()
            goes.wait(SECONDS)
            return [remark("late")] if it.uri == "a" else []

        self.finds = slow
        looks = self.begin()
        looks.put(document("a", 1))
        begun.wait(SECONDS)
        looks.drop("a")
        goes.set()
        looks.put(document("b", 1))
        self.assertEqual([self.next(), self.next()], [("a", None, []), ("b", 1, [])])
        self.assertTrue(self.told.empty())
        self.assertIsNone(looks.drop("a"))

    def test_others_are_looked_at_again_and_told_if_that_is_new(self) -> None:
        looks = self.begin()
        looks.put(document("a", 1))
        self.assertEqual(self.next(), ("a", 1, ["a1"]))
        looks.put(document("b", 1))
        self.assertEqual(self.next(), ("b", 1, ["b1"]))
        self.finds = lambda it: [remark("new")]
        looks.put(document("b", 2))
        self.assertEqual([self.next(), self.next()], [("b", 2, ["new"]), ("a", 1, ["new"])])
        looks.look_at(None)
        looks.put(document("b", 3))
        self.assertEqual(self.next(), ("b", 3, ["new"]))
        self.assertEqual({tuple(others) for uri, _, others in self.asked[1:] if uri == "a"}, {("b",)})

    def test_failures_are_told_once(self) -> None:
        looks = self.begin()

        def fails(it: Document) -> List[Remark]:
            if it.version == 4:
                return []
            raise Refusal("so it is", 3) if it.version != 3 else ValueError("x")

        self.finds = fails
        for version in range(1, 5):
            looks.put(document("a", version))
            self.assertEqual(self.next(), ("a", version, []))
        self.assertEqual([self.complaints.get(timeout=SECONDS) for _ in range(2)], ["so it is", "ValueError: x"])
        self.assertTrue(self.complaints.empty())

    def test_nobody_reads(self) -> None:
        def breaks(it: Document, found: List[Remark]) -> None:
            raise BrokenPipeError

        looks = Diagnoses(self.find, breaks, self.complaints.put, 0.01)
        looks.thread.start()
        looks.put(document("a", 1))
        looks.thread.join(SECONDS)
        self.assertFalse(looks.thread.is_alive())
