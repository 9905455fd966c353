"""A language server: what it does with each message of its client."""

from __future__ import annotations

import functools
from typing import Callable, Dict, List, Optional, Union

from .lsp_answers import QUICK_FIX, actions, completion, diagnostic, hover
from .lsp_client import Client, client_of
from .lsp_diagnoses import PAUSE, Diagnoses
from .lsp_frames import Broken, framed
from .lsp_messages import INTERNAL_ERROR, INVALID_REQUEST, METHOD_NOT_FOUND, NOT_INITIALIZED, PARSE_ERROR
from .lsp_messages import Call, Failure, answer, call_in, failed, notice, octets_of
from .lsp_place import path_of
from .lsp_remarks import Remark
from .lsp_source import Document, Source
from .lsp_text import Text
from .lsp_values import items, member, place_in, span_in, text_in, version_in

NAME = "sievebench-site"
# A message to the user that tells an error.
ERROR = 1
# How long the end waits for the thread that looks at documents.
PATIENCE = 1.0
Does = Callable[[object], object]


class Server:
    """Answers a client's messages, one after another, and tells it the remarks about documents."""

    def __init__(self, write: Callable[[bytes], None], source: Source, version: str, pause: float = PAUSE) -> None:
        self.write, self.source, self.version = write, source, version
        self.diagnoses = Diagnoses(source.remarks, self.publish, self.complain, pause)
        # The client, once it has begun.
        self.client: Optional[Client] = None
        self.is_shut = False
        # The status of the run, once it is to end.
        self.status: Optional[int] = None
        self.requests: Dict[str, Does] = {
            "initialize": self.initialize,
            "shutdown": self.shutdown,
            "textDocument/completion": self.completion,
            "textDocument/hover": self.hover,
            "textDocument/codeAction": self.code_action,
        }
        self.notifications: Dict[str, Does] = {
            "textDocument/didOpen": self.opened,
            "textDocument/didChange": self.changed,
            "textDocument/didSave": self.saved,
            "textDocument/didClose": self.closed,
            "workspace/didChangeWatchedFiles": self.watched,
        }

    def take(self, piece: Union[bytes, Broken]) -> None:
        """Takes a message, and answers it if it is a request."""
        try:
            if isinstance(piece, Broken):
                raise Failure(PARSE_ERROR, piece.why)
            call = call_in(piece)
        except Failure as failure:
            self.send(failed(failure))
            return
        if call and call.id is None:
            self.heed(call)
        elif call:
            try:
                told = answer(call.id, self.answered(call))
            except Failure as failure:
                failure.id = call.id
                told = failed(failure)
            self.send(told)

    def heed(self, call: Call) -> None:
        """Does what a notification says. One before the beginning, after the end, or of another kind says nothing."""
        if call.method == "exit":
            self.status = int(not self.is_shut)
        elif self.client and not self.is_shut and call.method in self.notifications:
            try:
                guarded(self.notifications[call.method], call)
            except Failure as failure:
                self.send(notice("window/logMessage", {"type": ERROR, "message": failure.sentence}))

    def answered(self, call: Call) -> object:
        """The answer to a request."""
        if self.is_shut:
            raise Failure(INVALID_REQUEST, "the server is shut down")
        if self.client is None and call.method != "initialize":
            raise Failure(NOT_INITIALIZED, "the server isn't initialized")
        if call.method not in self.requests:
            raise Failure(METHOD_NOT_FOUND, f"there is no request {call.method[:100]}")
        return guarded(self.requests[call.method], call)

    def send(self, message: Dict[str, object]) -> None:
        """Sends a message."""
        self.write(framed(octets_of(message)))

    def complain(self, sentence: str) -> None:
        """Tells the user why documents can't be looked at."""
        self.send(notice("window/showMessage", {"type": ERROR, "message": f"{NAME}: {sentence}"}))

    def initialize(self, params: object) -> object:
        """Begins, as the client wants it."""
        if self.client:
            raise Failure(INVALID_REQUEST, "the server is initialized already")
        self.client = client_of(member(params, "capabilities"))
        self.diagnoses.thread.start()
        provides = {
            "positionEncoding": self.client.encoding,
            "textDocumentSync": {"openClose": True, "change": 2, "save": {"includeText": False}},
            "completionProvider": {"triggerCharacters": [":", '"']},
            "hoverProvider": True,
            "codeActionProvider": {"codeActionKinds": [QUICK_FIX]} if self.client.actions else False,
        }
        return {"capabilities": provides, "serverInfo": {"name": NAME, "version": self.version}}

    def shutdown(self, params: object) -> object:
        """Does nothing any more."""
        self.is_shut = True
        self.diagnoses.end()
        return None

    def takes(self) -> Client:
        """The client, which takes the least until it has begun."""
        return self.client or Client()

    def document(self, params: object) -> Optional[Document]:
        """The document that parameters name, if it is open."""
        return self.diagnoses.documents.get(text_in(params, "textDocument", "uri"))

    def opened(self, params: object) -> None:
        """Takes a document that is opened."""
        told = member(params, "textDocument")
        uri, text = text_in(told, "uri"), Text(text_in(told, "text"), self.takes().encoding)
        self.diagnoses.put(Document(uri, version_in(told), text, path_of(uri)))

    def changed(self, params: object) -> None:
        """Takes the changes of a document, all or none of them."""
        document = self.document(params)
        if document:
            text = document.text
            for change in items(member(params, "contentChanges")):
                span = None if member(change, "range") is None else span_in(member(change, "range"))
                text = text.edited(span, text_in(change, "text"))
            version = version_in(member(params, "textDocument"))
            self.diagnoses.put(document._replace(version=version, text=text))

    def saved(self, params: object) -> None:
        """Looks at documents again, once one is saved."""
        self.diagnoses.look_at(text_in(params, "textDocument", "uri"))

    def watched(self, params: object) -> None:
        """Looks at documents again, once other files are saved."""
        self.diagnoses.look_at(None)

    def closed(self, params: object) -> None:
        """Forgets a document that is closed."""
        self.diagnoses.drop(text_in(params, "textDocument", "uri"))

    def publish(self, document: Document, found: List[Remark]) -> None:
        """Tells the remarks about a document."""
        told: Dict[str, object] = {"uri": document.uri, "diagnostics": [diagnostic(document.text, it) for it in found]}
        if document.version is not None:
            told["version"] = document.version
        self.send(notice("textDocument/publishDiagnostics", told))

    def completion(self, params: object) -> object:
        """The words that may stand at a place."""
        place, document = place_in(member(params, "position")), self.document(params)
        if not document:
            return None
        scripts = functools.partial(self.source.beside, document, self.diagnoses.others(document.uri))
        return completion(document, place, self.source.known(document), scripts)

    def hover(self, params: object) -> object:
        """The meaning of the word at a place."""
        place, document = place_in(member(params, "position")), self.document(params)
        return hover(document, place, self.takes()) if document else None

    def code_action(self, params: object) -> object:
        """The edits by which diagnostics of a range come to an end."""
        span_in(member(params, "range"))
        document = self.document(params)
        if not document:
            return None
        return actions(document, member(params, "context"), self.source.known(document), self.takes())

    def end(self) -> None:
        """Ends the sessions."""
        self.diagnoses.end()
        self.source.stop()
        if self.diagnoses.thread.is_alive():
            self.diagnoses.thread.join(PATIENCE)
        self.source.close()


def guarded(does: Does, call: Call) -> object:
    """The answer to a call, also where that fails by a fault of this tool."""
    try:
        return does(call.params)
    except (Failure, OSError, MemoryError):
        raise
    except Exception as error:
        raise Failure(INTERNAL_ERROR, f"{call.method[:100]} fails: {type(error).__name__}: {error}") from None
