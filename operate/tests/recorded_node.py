"""Stands in for a Bitcoin node: answers JSON-RPC by what a file says, and keeps the blocks that it is handed.

    recorded_node.py FILE COOKIE PORT-FILE FOLDER

FILE has templates; the first is answered until a file `next` stands in FOLDER, then the second, and so on,
each `next` being removed. A block that is handed in is written to FOLDER/submitted, a line each. It says
at which port it listens in PORT-FILE. While a file `silent` stands in FOLDER it answers status 503.
"""
import base64
import http.server
import json
import os
import sys


class Recorded(http.server.BaseHTTPRequestHandler):
    """Answers one request."""

    templates: list[dict]
    user: str
    folder: str

    def do_POST(self) -> None:
        said = json.loads(self.rfile.read(int(self.headers["Content-Length"])))
        token = base64.b64encode(self.user.encode()).decode()
        if self.headers["Authorization"] != f"Basic {token}":
            self.answer(401, b"")
        elif os.path.exists(os.path.join(self.folder, "silent")):
            self.answer(503, b"Work queue depth exceeded")
        else:
            self.answer(200, json.dumps({
                "result": self.result(said["method"], said["params"]), "error": None, "id": said["id"],
            }).encode())

    def result(self, method: str, params: list) -> object:
        step = os.path.join(self.folder, "next")
        if os.path.exists(step):
            os.remove(step)
            self.templates.pop(0)
        if method == "getbestblockhash":
            return self.templates[0]["previousblockhash"]
        if method == "getblocktemplate":
            return self.templates[0] if "segwit" in params[0]["rules"] else None
        with open(os.path.join(self.folder, "submitted"), "a", encoding="ascii") as file:
            file.write(params[0] + "\n")
        return None

    def answer(self, status: int, content: bytes) -> None:
        self.send_response(status)
        self.send_header("Content-Length", str(len(content)))
        self.end_headers()
        self.wfile.write(content)

    def log_message(self, *_: object) -> None:
        """Nothing is said of requests."""


def main() -> None:
    answers, cookie, port_file, Recorded.folder = sys.argv[1:]
    with open(answers, encoding="utf-8") as file:
        Recorded.templates = json.load(file)["templates"]
    with open(cookie, encoding="utf-8") as file:
        Recorded.user = file.read()
    server = http.server.HTTPServer(("127.0.0.1", 0), Recorded)
    with open(f"{port_file}.new", "w", encoding="ascii") as file:
        file.write(str(server.server_address[1]))
    os.rename(f"{port_file}.new", port_file)
    server.serve_forever()


if __name__ == "__main__":
    main()
