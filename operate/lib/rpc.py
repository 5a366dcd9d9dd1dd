"""A Bitcoin node's JSON-RPC."""
import base64
import http.client
import json
import os
from dataclasses import dataclass
from typing import Any

from lib.addresses import split_address

SECONDS = 30.0
COOKIE = os.path.join("~", ".bitcoin", ".cookie")
UNAUTHORIZED = (401, 403)


class NodeError(Exception):
    """Why the node gave no answer."""


class Refused(NodeError):
    """What the node itself says against a request."""


@dataclass(slots=True)
class Node:
    """Where a node is asked, and as whom: by a user with a password, or by the cookie that the node writes
    anew at each start."""

    address: str
    user: str | None = None
    cookie: str = COOKIE

    def call(self, method: str, *params: object) -> Any:
        """The result of a request."""
        content = json.dumps({"jsonrpc": "1.0", "id": 0, "method": method, "params": params}).encode()
        host, port = split_address(self.address)
        connection = http.client.HTTPConnection(host, port, timeout=SECONDS)
        try:
            connection.request("POST", "/", content, self._headers())
            answer = connection.getresponse()
            said = answer.read()
        except (OSError, http.client.HTTPException) as error:
            raise NodeError(f"the node isn't reached at {self.address}: {error}") from None
        finally:
            connection.close()
        if answer.status in UNAUTHORIZED:
            raise NodeError("the node refuses the user or the cookie")
        return result_in(said, answer.status)

    def _headers(self) -> dict[str, str]:
        user = self.user
        if user is None:
            try:
                with open(os.path.expanduser(self.cookie), encoding="utf-8") as file:
                    user = file.read().strip()
            except OSError as error:
                raise NodeError(f"the node's cookie can't be read: {error.strerror}: {self.cookie}") from None
        token = base64.b64encode(user.encode()).decode()
        return {"Authorization": f"Basic {token}", "Content-Type": "application/json"}


def result_in(said: bytes, status: int) -> Any:
    try:
        answer = json.loads(said)
        error, result = answer.get("error"), answer.get("result")
    except (AttributeError, ValueError):
        raise NodeError(f"the node answers no JSON, with status {status}") from None
    if error is not None:
        raise Refused(error.get("message", str(error)) if isinstance(error, dict) else str(error))
    return result
