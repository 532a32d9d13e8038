"""The page's own server."""
from __future__ import annotations

import json
from collections.abc import Callable, Mapping
from pathlib import Path
from typing import Protocol

from flask import Flask, Response, request, send_from_directory
from werkzeug.exceptions import HTTPException

from pertxogai.board.calls import trouble
from pertxogai.board.guard import Guard
from pertxogai.board.opened_files import gallery
from pertxogai.board.workers import Busy

STATIC = Path(__file__).resolve().parent / "static"
GALLERY = Path(__file__).resolve().parents[2] / "tests" / "drawings"
MOST_BYTES = 1 << 20
MOST_PASSED_OVER = 16 << 20
TOO_MUCH = f"the request has more than {MOST_BYTES} bytes: send less"
BUSY = "the board answers as many calls at once as it may: wait, try again"
HEADERS = {
    "Content-Security-Policy": "default-src 'none'; script-src 'self'; style-src 'self'; "
                               "img-src 'self' data: blob:; connect-src 'self'; base-uri 'none'; "
                               "form-action 'none'; frame-ancestors 'none'",
    "Cache-Control": "no-store",
    "Cross-Origin-Resource-Policy": "same-origin",
    "Cross-Origin-Opener-Policy": "same-origin",
    "Referrer-Policy": "no-referrer",
    "X-Content-Type-Options": "nosniff",
    "X-Frame-Options": "DENY",
}


class Answers(Protocol):
    """What answers a call by its name."""

    def text(self, call: str, given: object) -> str:
        """What it gives, as JSON. Raises Busy."""
        ...


def board(guard: Guard, answers: Answers) -> Flask:
    """The application: the page, the gallery, and the calls, all below the token."""
    app = Flask(__name__, static_folder=None)
    app.before_request(lambda: _turned_away(guard))
    app.after_request(_with_headers)
    app.register_error_handler(HTTPException, _told)
    app.add_url_rule("/<token>/", "page", _page)
    app.add_url_rule("/<token>/static/<name>", "static", _static)
    app.add_url_rule("/<token>/gallery", "gallery", _gallery)
    app.add_url_rule("/<token>/call/<name>", "call", _caller(answers), methods=["POST"])
    return app


def _turned_away(guard: Guard) -> Response | None:
    """The answer to a request that isn't the page's own, before anything of it is read."""
    headers = request.headers
    token = (request.view_args or {}).get("token") or request.path.split("/")[1]
    opens = request.endpoint == "page" and headers.get("Sec-Fetch-Dest") == "document"
    ground = guard.ground(headers.get("Host"), headers.get("Origin"),
                          headers.get("Sec-Fetch-Site"), str(token), opens)
    if ground is not None:
        return _json(trouble("guard", ground.value), 403)
    if request.method == "POST" and request.content_length is None:
        return _json(trouble("request", "give the length of the request as Content-Length"), 411)
    if (request.content_length or 0) > MOST_BYTES:
        _pass_over()
        return _json(trouble("request", TOO_MUCH), 413)
    return None


def _pass_over() -> None:
    """Reads some of what is too much, so that the browser hears the answer to it."""
    for _ in range(MOST_PASSED_OVER >> 16):
        if not request.stream.read(1 << 16):
            return


def _with_headers(response: Response) -> Response:
    response.headers.update(HEADERS)
    return response


def _told(error: HTTPException) -> Response:
    """A refused request, as JSON."""
    status = error.code or 500
    return _json(trouble("request", error.description or error.name), status)


def _page(token: str) -> Response:
    return send_from_directory(STATIC, "index.html")


def _static(token: str, name: str) -> Response:
    return send_from_directory(STATIC, name)


def _gallery(token: str) -> Response:
    return _json({"drawings": list(gallery(GALLERY))})


def _caller(answers: Answers) -> Callable[[str, str], Response]:
    """What answers a call."""

    def call(token: str, name: str) -> Response:
        if request.mimetype != "application/json":
            return _json(trouble("request", "give JSON, as application/json"), 415)
        try:
            given = json.loads(request.get_data())
        except (ValueError, RecursionError):
            return _json(trouble("request", "the request isn't JSON"), 400)
        try:
            return Response(answers.text(name, given), mimetype="application/json")
        except Busy:
            return _json(trouble("busy", BUSY), 503)

    return call


def _json(found: Mapping[str, object], status: int = 200) -> Response:
    return Response(json.dumps(found), status, mimetype="application/json")
