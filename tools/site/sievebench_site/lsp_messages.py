"""Messages of JSON-RPC 2.0, as the Language Server Protocol has them."""

from __future__ import annotations

import json
from typing import Dict, NamedTuple, NoReturn, Optional, Union


PARSE_ERROR, INVALID_REQUEST, METHOD_NOT_FOUND, INVALID_PARAMS, INTERNAL_ERROR = -32700, -32600, -32601, -32602, -32603
NOT_INITIALIZED = -32002
# A number of JSON has at most so many digits here: reading one takes time by their square.
DIGITS = 400
Id = Union[int, str]


class Failure(Exception):
    """An error that is answered: its code, its sentence, and the request's id where that is known."""

    def __init__(self, code: int, sentence: str, id: Optional[Id] = None) -> None:
        super().__init__(sentence)
        self.code, self.sentence, self.id = code, sentence, id


class Call(NamedTuple):
    """A request, or a notification, which has no id and isn't answered."""

    method: str
    params: object
    id: Optional[Id]


def call_in(body: bytes) -> Optional[Call]:
    """The call that a body has; nothing where it is an answer."""
    told = value_in(body)
    if not isinstance(told, dict):
        raise Failure(INVALID_REQUEST, "a message is an object")
    id = told.get("id")
    known = id if isinstance(id, str) or is_integer(id) else None
    if told.get("jsonrpc") != "2.0" or ("id" in told and known is None and "method" in told):
        raise Failure(INVALID_REQUEST, "a message has the version 2.0 and, if it is a request, an id", known)
    if "method" not in told and ("result" in told or "error" in told):
        return None
    method, params = told.get("method"), told.get("params")
    if not isinstance(method, str):
        raise Failure(INVALID_REQUEST, "a method is a string", known)
    if params is not None and not isinstance(params, (dict, list)):
        raise Failure(INVALID_REQUEST, "parameters are an object or an array", known)
    return Call(method, params, known)


def value_in(body: bytes) -> object:
    """The value that a body spells."""
    try:
        return json.loads(body.decode(), parse_int=integer, parse_float=real, parse_constant=no_number)
    except (ValueError, RecursionError) as error:
        raise Failure(PARSE_ERROR, f"a message can't be read: {error}") from None


def integer(text: str) -> int:
    """A number without a fraction."""
    return int(text) if len(text) <= DIGITS else no_number(text)


def real(text: str) -> float:
    """Any other number."""
    return float(text) if len(text) <= DIGITS else no_number(text)


def no_number(text: str) -> NoReturn:
    """Refuses what is no number, or too long for one."""
    raise ValueError(f"{text[:20]} is no number here")


def is_integer(value: object) -> bool:
    """Whether a value is a number without a fraction."""
    return isinstance(value, int) and not isinstance(value, bool)


def octets_of(message: Dict[str, object]) -> bytes:
    """A message as a body. Halves of characters, which no UTF-8 has, become question marks."""
    whole: Dict[str, object] = {"jsonrpc": "2.0", **message}
    return json.dumps(whole, ensure_ascii=False, separators=(",", ":")).encode("utf-8", "replace")


def answer(id: Optional[Id], result: object) -> Dict[str, object]:
    """The answer to a request."""
    return {"id": id, "result": result}


def failed(failure: Failure) -> Dict[str, object]:
    """The answer to a request that fails."""
    error: Dict[str, object] = {"code": failure.code, "message": failure.sentence}
    return {"id": failure.id, "error": error}


def notice(method: str, params: object) -> Dict[str, object]:
    """A notification."""
    return {"method": method, "params": params}
