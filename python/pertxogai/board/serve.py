"""The command `page`: starts the server on this machine alone, and opens the browser."""
from __future__ import annotations

import hashlib
import logging
import os
import socket
import tempfile
import webbrowser
from collections.abc import Iterator
from contextlib import contextmanager, suppress
from pathlib import Path
from threading import Timer

from werkzeug.serving import BaseWSGIServer, WSGIRequestHandler, make_server

from pertxogai.board.app import board
from pertxogai.board.guard import Guard
from pertxogai.board.workers import Bounds, Workers
from pertxogai.program import Program

LOOPBACK = "127.0.0.1"
FIRST_PORT, PORTS = 49152, 16000
"""Ports from which the usual one of a user is taken."""
SILENT_SECONDS = 10.0
"""Seconds of silence after which a connection is closed that hasn't said all."""
MORE_SECONDS = 20.0
"""Seconds beyond the limit of a call that a connection lasts."""
LEADS = """<!doctype html><meta charset="utf-8"><title>The drawing board</title>
<meta name="referrer" content="no-referrer"><meta http-equiv="refresh" content="0; url={address}">
<a href="{address}">The drawing board</a>
"""


def listening(port: int | None) -> socket.socket:
    """A socket at a port of this machine: the one that is named, else the user's usual one, so
    that the browser finds again what it keeps for that address, else any that is free. Raises
    OSError where the named one is taken."""
    if port is not None:
        return _bound(port)
    with suppress(OSError):
        return _bound(usual_port())
    return _bound(0)


def usual_port() -> int:
    """The port that this user's board has where it is free."""
    name = f"{os.getuid()} {Path(__file__).resolve()}".encode()
    return FIRST_PORT + int.from_bytes(hashlib.sha256(name).digest()[:4], "big") % PORTS


def _bound(port: int) -> socket.socket:
    found = socket.socket(socket.AF_INET, socket.SOCK_STREAM)
    found.setsockopt(socket.SOL_SOCKET, socket.SO_REUSEADDR, 1)
    try:
        found.bind((LOOPBACK, port))
        found.listen(64)
    except OSError:
        found.close()
        raise
    return found


def server_at(found: socket.socket, guard: Guard, workers: Workers) -> BaseWSGIServer:
    """A server at a socket that listens."""
    logging.getLogger("werkzeug").setLevel(logging.ERROR)
    most = workers.bounds.seconds + MORE_SECONDS
    connection = type("Bounded", (Connection,), {"most_seconds": most})
    return make_server(LOOPBACK, guard.port, board(guard, workers), threaded=True,
                       request_handler=connection, fd=found.fileno())


class Connection(WSGIRequestHandler):
    """A connection that ends when nothing comes, and when it lasts too long."""

    timeout = SILENT_SECONDS
    most_seconds = MORE_SECONDS

    def handle(self) -> None:
        """Answers one request."""
        ends = Timer(self.most_seconds, self._end)
        ends.daemon = True
        ends.start()
        try:
            super().handle()
        finally:
            ends.cancel()

    def _end(self) -> None:
        with suppress(OSError):
            self.connection.shutdown(socket.SHUT_RDWR)

    def log_error(self, format: str, *args: object) -> None:
        """A client that said nothing is told to no one."""


@contextmanager
def leading_to(address: str) -> Iterator[str]:
    """The address of a file, for a while, that leads to an address and that its owner alone can
    read: the words of a browser's command are seen by every user of the machine."""
    rooms = os.environ.get("XDG_RUNTIME_DIR", "")
    above = rooms if os.access(rooms, os.W_OK) else None
    with tempfile.TemporaryDirectory(prefix="pertxogai-", dir=above) as room:
        path = Path(room) / "board.html"
        path.write_text(LEADS.format(address=address), encoding="utf-8")
        yield path.as_uri()


def serve(program: Program, port: int | None, opens: bool) -> None:
    """Serves until it is interrupted. Raises OSError where the port is taken."""
    with listening(port) as found:
        guard = Guard(found.getsockname()[1])
        workers = Workers(program.path, Bounds(program.seconds, program.memory_mib or 0))
        server = server_at(found, guard, workers)
        print(f"the board is at {guard.address}\nstop it by Ctrl+C", flush=True)
        if port is None and guard.port != usual_port():
            print(f"port {usual_port()} is taken, perhaps by another board of yours: this board "
                  "doesn't show the drawings that the browser keeps for that one", flush=True)
        try:
            with leading_to(guard.address) as file:
                if opens:
                    webbrowser.open(file)
                server.serve_forever()
        finally:
            workers.stop()
            server.server_close()
