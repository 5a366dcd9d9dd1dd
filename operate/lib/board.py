"""A page over HTTP that shows what is put on it last."""
import json
import socket
import socketserver
import threading
from http import HTTPStatus
from http.server import BaseHTTPRequestHandler

from lib.pages import assembled


class Board:
    """What is shown: the last snapshot, as the bytes of its JSON."""

    def __init__(self) -> None:
        self.content = b"null"

    def show(self, snapshot: dict) -> None:
        self.content = json.dumps(snapshot).encode()


class Server(socketserver.ThreadingTCPServer):
    """Gives a board's page and its JSON."""

    daemon_threads = True
    allow_reuse_address = True

    def __init__(self, board: Board, host: str, port: int) -> None:
        self.address_family = socket.AF_INET6 if ":" in host else socket.AF_INET
        self.board = board
        self.page = assembled("watch.html", {}).encode()
        super().__init__((host, port), Handler)


class Handler(BaseHTTPRequestHandler):
    server: Server
    timeout = 10

    def do_GET(self) -> None:
        if self.path == "/":
            self._answer("text/html; charset=utf-8", self.server.page)
        elif self.path == "/now.json":
            self._answer("application/json", self.server.board.content)
        else:
            self.send_error(HTTPStatus.NOT_FOUND)

    def _answer(self, kind: str, content: bytes) -> None:
        self.send_response(HTTPStatus.OK)
        self.send_header("Content-Type", kind)
        self.send_header("Content-Length", str(len(content)))
        self.send_header("Cache-Control", "no-store")
        self.end_headers()
        self.wfile.write(content)

    def log_message(self, format: str, *args: object) -> None:
        """Who asked is nobody's business."""


def serve_page(board: Board, host: str, port: int) -> str:
    """Serves a board's page from now on, and answers where."""
    server = Server(board, host, port)
    threading.Thread(target=server.serve_forever, daemon=True).start()
    shown = f"[{host}]" if ":" in host else host
    return f"http://{shown}:{server.server_address[1]}/"
