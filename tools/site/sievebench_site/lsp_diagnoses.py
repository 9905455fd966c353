"""The remarks about open documents: a thread of its own finds them a moment after the last change, and tells those that are new."""

from __future__ import annotations

import contextlib
import threading
import time
from typing import Callable, Dict, List, Optional, Sequence, Set, Tuple

from .ends import Refusal, Signalled
from .lsp_remarks import Remark
from .lsp_source import Document

# So long after a change a document is looked at, and so much later those beside it, which may include it.
PAUSE, LATER = 0.04, 0.005
# Finds the remarks about a document, with others beside it.
Find = Callable[[Document, Sequence[Document]], List[Remark]]


class Diagnoses:
    """Looks at documents that changed, one after another."""

    def __init__(
        self,
        find: Find,
        tell: Callable[[Document, List[Remark]], None],
        complain: Callable[[str], None],
        pause: float = PAUSE,
    ) -> None:
        self.find, self.tell, self.complain, self.pause = find, tell, complain, pause
        self.documents: Dict[str, Document] = {}
        # When a document is to be looked at, and what was told of it last.
        self.due: Dict[str, float] = {}
        self.told: Dict[str, Tuple[Document, List[Remark]]] = {}
        self.complaints: Set[str] = set()
        self.changed = threading.Condition()
        self.ended = False
        self.thread = threading.Thread(target=self.run, daemon=True)

    def put(self, document: Document) -> None:
        """A document that is open from now on, or has another text."""
        with self.changed:
            self.documents[document.uri] = document
            self.look_at(document.uri)

    def drop(self, uri: str) -> Optional[Document]:
        """A document that isn't open any more, if it was."""
        with self.changed:
            document = self.documents.pop(uri, None)
            self.due.pop(uri, None)
            self.told.pop(uri, None)
            if document:
                self.tell(document._replace(version=None), [])
                self.look_at(uri)
            return document

    def look_at(self, uri: Optional[str]) -> None:
        """Has a document looked at, if it is open, and then all others."""
        with self.changed:
            now = time.monotonic() + self.pause
            self.due.update({it: now if it == uri else now + LATER for it in self.documents})
            self.changed.notify()

    def others(self, uri: str) -> List[Document]:
        """The documents that are open beside one."""
        with self.changed:
            return [it for it in self.documents.values() if it.uri != uri]

    def next(self) -> Optional[Document]:
        """The next document to look at, once it is time; none at the end."""
        with self.changed:
            while not self.ended:
                first = min(self.due, key=lambda uri: self.due[uri]) if self.due else None
                wait = self.due[first] - time.monotonic() if first else None
                if first and wait is not None and wait <= 0:
                    del self.due[first]
                    return self.documents[first]
                self.changed.wait(wait)
        return None

    def run(self) -> None:
        """Looks at documents until the end, or until nobody reads what is told."""
        with contextlib.suppress(OSError, Signalled):
            for document in iter(self.next, None):
                found = self.looked_at(document)
                with self.changed:
                    self.found(document, found)

    def looked_at(self, document: Document) -> List[Remark]:
        """The remarks about a document, as it is now."""
        try:
            return self.find(document, self.others(document.uri))
        except Refusal as refusal:
            return self.failed(refusal.sentence)
        except Exception as error:
            return self.failed(f"{type(error).__name__}: {error}")

    def failed(self, sentence: str) -> List[Remark]:
        """Says why nothing is found, once."""
        if sentence not in self.complaints and not self.ended:
            self.complaints.add(sentence)
            self.complain(sentence)
        return []

    def found(self, document: Document, found: List[Remark]) -> None:
        """Tells the remarks about a document, unless it has changed meanwhile or they were told."""
        if self.documents.get(document.uri) is document and not self.ended:
            last = self.told.get(document.uri)
            self.told[document.uri] = document, found
            if last is None or last[0] is not document or last[1] != found:
                self.tell(document, found)

    def end(self) -> None:
        """Looks at nothing any more."""
        with self.changed:
            self.ended = True
            self.changed.notify()
