"""Who may call: this machine's own page, by the token in its address."""
from __future__ import annotations

import hmac
import secrets
from dataclasses import dataclass, field
from enum import Enum

from pertxogai.program.called import COMMAND


class Ground(Enum):
    """Why a request is turned away; the value is told, and says what to do."""

    HOST = f"the Host isn't this board's: open the address that {COMMAND} page printed"
    ORIGIN = f"the request comes from another page: open the address that {COMMAND} page printed"
    TOKEN = f"the token of the address is wrong: open the address that {COMMAND} page printed"


@dataclass(frozen=True)
class Guard:
    """The port and the token of a server that is bound to this machine alone."""

    port: int
    token: str = field(default_factory=lambda: secrets.token_urlsafe(24))

    @property
    def address(self) -> str:
        """What is opened in the browser."""
        return f"http://127.0.0.1:{self.port}/{self.token}/"

    def ground(self, host: str | None, origin: str | None, site: str | None,
               token: str, opens: bool = False) -> Ground | None:
        """Why a request with these headers and this token is turned away; None where it isn't.
        `opens`: the browser opens the page itself, as from the file that leads to it; whoever
        has the token may ask for that from anywhere."""
        hosts = (f"127.0.0.1:{self.port}", f"localhost:{self.port}")
        if host not in hosts:
            return Ground.HOST
        if origin is not None and origin != f"http://{host}":
            return Ground.ORIGIN
        if not opens and site not in (None, "same-origin", "none"):
            return Ground.ORIGIN
        if not hmac.compare_digest(token.encode(), self.token.encode()):
            return Ground.TOKEN
        return None
