"""The board's server: who may call, how much, how long, how many at once; and what calls give."""
from __future__ import annotations

import base64
import contextlib
import json
import os
import signal
import socket
import stat
import subprocess
import sys
import time
import urllib.request
from concurrent.futures import ThreadPoolExecutor
from http.client import HTTPConnection
from math import cos, radians, sin
from pathlib import Path

import pytest

flask = pytest.importorskip("flask", reason="the board needs Debian's python3-flask")

from boards import DRAWINGS, SECONDS, drawing, served, wait_for  # noqa: E402
from flask.testing import FlaskClient  # noqa: E402

from pertxogai.commands import main  # noqa: E402
from pertxogai.board import serve as serving  # noqa: E402
from pertxogai.board.calls import Desk  # noqa: E402
from pertxogai.board.guard import Ground, Guard  # noqa: E402
from pertxogai.board.app import board  # noqa: E402
from pertxogai.board.worker import WithDeadline  # noqa: E402
from pertxogai.board.workers import Bounds, Worker, Workers  # noqa: E402
from pertxogai.program import Program, Status  # noqa: E402

PORT = 4321
HOST = f"127.0.0.1:{PORT}"
GUARD = Guard(PORT, "a-token")


@pytest.fixture(scope="module")
def client(program) -> FlaskClient:
    """The board's own page, as the browser's."""
    return board(GUARD, Desk(program)).test_client()


def post(client: FlaskClient, call: str, given: object, **headers: str):
    known = {"Host": HOST, "Origin": f"http://{HOST}", "Content-Type": "application/json"}
    body = given if isinstance(given, (bytes, str)) else json.dumps(given)
    return client.post(f"/a-token/call/{call}", data=body, headers={**known, **headers})


def answer(client: FlaskClient, call: str, **given: object) -> dict:
    response = post(client, call, given)
    assert response.status_code == 200
    return response.get_json()


def trouble(response) -> str:
    return response.get_json()["trouble"]["message"]


# Who may call.

def test_the_page_and_its_files_are_given_with_headers(client) -> None:
    page = client.get("/a-token/", headers={"Host": HOST})
    assert page.status_code == 200 and b"Pertxogai" in page.data
    assert "default-src 'none'" in page.headers["Content-Security-Policy"]
    assert page.headers["Referrer-Policy"] == "no-referrer"
    script = client.get("/a-token/static/main.js", headers={"Host": HOST})
    assert script.status_code == 200 and "javascript" in script.headers["Content-Type"]


@pytest.mark.parametrize("host", ["evil.example", f"evil.example:{PORT}", "127.0.0.1:80",
                                  f"127.0.0.1.evil.example:{PORT}", ""])
def test_another_host_is_turned_away(client, host) -> None:
    response = post(client, "judge", {"text": ""}, Host=host)
    assert response.status_code == 403 and trouble(response) == Ground.HOST.value
    assert client.get("/a-token/", headers={"Host": host}).status_code == 403


@pytest.mark.parametrize("origin", ["https://evil.example", "null", f"https://{HOST}",
                                    "http://127.0.0.1:1"])
def test_another_origin_is_turned_away(client, origin) -> None:
    response = post(client, "judge", {"text": ""}, Origin=origin)
    assert response.status_code == 403 and trouble(response) == Ground.ORIGIN.value


def test_another_site_is_turned_away(client) -> None:
    response = post(client, "judge", {"text": ""}, **{"Sec-Fetch-Site": "cross-site"})
    assert response.status_code == 403


@pytest.mark.parametrize("path", ["/", "/wrong/", "/wrong/call/judge", "/a-tokem/gallery",
                                  "/static/main.js", "/a-token%00/", "/%F0%9F%98%80/"])
def test_no_token_or_a_wrong_one_is_turned_away(client, path) -> None:
    response = client.get(path, headers={"Host": HOST})
    assert response.status_code == 403 and trouble(response) == Ground.TOKEN.value


def test_files_beside_the_page_arent_given(client) -> None:
    for name in ("..%2fserver.py", "%2e%2e/server.py", "../server.py", "/etc/passwd"):
        response = client.get(f"/a-token/static/{name}", headers={"Host": HOST})
        assert response.status_code in (403, 404)


# What may be given.

def test_a_text_of_two_mebibytes_is_turned_away(client) -> None:
    response = post(client, "judge", {"text": "#" * (2 << 20)})
    assert response.status_code == 413 and "1048576 bytes" in trouble(response)


def test_a_text_whose_length_isnt_told_is_turned_away(program) -> None:
    with served(program) as there:
        call = HTTPConnection("127.0.0.1", there.guard.port, timeout=SECONDS)
        call.putrequest("POST", f"/{there.guard.token}/call/judge")
        call.putheader("Content-Type", "application/json")
        call.putheader("Transfer-Encoding", "chunked")
        call.endheaders()
        response = call.getresponse()
        assert response.status == 411 and b"Content-Length" in response.read()
        call.close()


def test_a_call_whose_process_cant_start_is_told_and_frees_its_place(tmp_path, monkeypatch) -> None:
    def refused(program: str, bounds: Bounds) -> Worker:
        raise OSError(11, "Resource temporarily unavailable")

    monkeypatch.setattr(Worker, "start", refused)
    workers = Workers("sketch", Bounds())
    for _ in range(6):
        found = json.loads(workers.text("judge", {"text": ""}))
        assert "temporarily unavailable" in found["trouble"]["message"]


def test_only_json_is_taken(client) -> None:
    assert post(client, "judge", "text=", **{"Content-Type": "text/plain"}).status_code == 415
    assert post(client, "judge", b"\xff{").status_code == 400
    assert post(client, "judge", "[" * 200000).status_code == 400
    for given in ("[]", "7", "null", "{}", '{"text": 5}'):
        assert "trouble" in post(client, "judge", given).get_json()


def test_only_posts_call(client) -> None:
    assert client.get("/a-token/call/judge", headers={"Host": HOST}).status_code == 405
    assert "no call" in trouble(post(client, "fly", {}))


# How long, how large, how many.

def script(path: Path, text: str) -> str:
    path.write_text("#!/bin/sh\n" + text, encoding="ascii")
    path.chmod(path.stat().st_mode | stat.S_IXUSR)
    return str(path)


@pytest.fixture
def workers():
    """Makes workers, and ends them behind the test."""
    made: list[Workers] = []

    def make(program: str, bounds: Bounds) -> Workers:
        made.append(Workers(program, bounds))
        return made[-1]

    yield make
    for each in made:
        each.stop()


SEGMENT = {"text": "segment A 0 0 1 0\nlength A 2\n"}


def test_of_ten_calls_at_once_four_are_answered(tmp_path, workers) -> None:
    go = tmp_path / "go"
    slow = workers(script(tmp_path / "slow", f"until [ -e {go} ]; do sleep 0.05; done; exit 1\n"), Bounds(SECONDS, 0))
    client = board(GUARD, slow).test_client
    with ThreadPoolExecutor(10) as pool:
        calls = [pool.submit(lambda: post(client(), "judge", SEGMENT).status_code) for _ in range(10)]
        wait_for("six answers", lambda: sum(call.done() for call in calls) >= 6)
        go.touch()
        found = [call.result() for call in calls]
    assert sorted(found) == [200] * 4 + [503] * 6
    assert post(client(), "judge", {"text": ""}).status_code == 200


@pytest.mark.parametrize("beside", ["weigh", "complete", "fit", "range"])
def test_of_ten_calls_beside_what_a_hand_does_three_are_answered(beside, tmp_path, workers) -> None:
    go = tmp_path / "go"
    waits = f"until [ -e {go} ]; do sleep 0.05; done; exit 1\n"
    slow = workers(script(tmp_path / "slow", waits), Bounds(SECONDS, 0))
    client = board(GUARD, slow).test_client
    given = {**SEGMENT, "number": 1}
    with ThreadPoolExecutor(10) as pool:
        calls = [pool.submit(lambda: post(client(), beside, given).status_code) for _ in range(10)]
        wait_for("seven answers", lambda: sum(call.done() for call in calls) >= 7)
        assert post(client(), "offers", {"text": "", "names": []}).status_code == 200
        go.touch()
        found = [call.result() for call in calls]
    assert sorted(found) == [200] * 3 + [503] * 7
    assert post(client(), beside, {"text": "", "number": 1}).status_code == 200


def test_what_was_asked_in_a_call_is_not_asked_again(tmp_path) -> None:
    runs = tmp_path / "runs"
    path = script(tmp_path / "counts", f"echo run >> {runs}\ncat > /dev/null\nexit 5\n")
    program = WithDeadline(Program(path), 5.0)
    for _ in range(2):
        program.begin()
        for word in ("check", "check", "solve"):
            assert program.ask([word], "sketch 1\n").status is Status.NO_MEMORY
    assert runs.read_text().count("run") == 4


def test_a_drag_comes_to_the_worker_that_had_its_last_frame() -> None:
    workers = Workers("sketch", Bounds())
    mine, other, last = (Worker(None, 1.0, drag=drag) for drag in ("mine", "other", ""))
    workers._free += [mine, other, last]
    assert workers._next("mine") is mine
    assert workers._next("mine") is last, "which became free last"
    assert workers._next("") is other


def test_a_program_that_takes_too_long_is_stopped(tmp_path, workers) -> None:
    slow = workers(script(tmp_path / "slow", "exec sleep 60\n"), Bounds(0.5, 0))
    began = time.monotonic()
    found = json.loads(slow.text("judge", SEGMENT))
    told = found["trouble"]["message"]
    assert told.startswith("the call took over 0.5 s and was stopped; the drawing stays as it was.")
    assert "Try again" in told and told.endswith("page --seconds 60")
    assert time.monotonic() - began < 30


def test_a_worker_that_hangs_is_stopped_and_another_starts(tmp_path, workers) -> None:
    hangs = workers(script(tmp_path / "no", "exit 1\n"), Bounds(-1.5, 0))
    worker = hangs._taken()
    os.kill(worker.process.pid, signal.SIGSTOP)
    hangs._back(worker)
    found = json.loads(hangs.text("judge", {"text": ""}))
    assert found["trouble"]["kind"] == "stopped"
    assert found["trouble"]["message"].endswith("page --seconds 60")
    assert worker.process.poll() is not None
    later = Workers(str(tmp_path / "no"), Bounds(20, 0))
    assert json.loads(later.text("judge", {"text": ""}))["judgement"] is None
    later.stop()


def test_a_worker_has_a_limit_of_memory(tmp_path, workers) -> None:
    made = workers(script(tmp_path / "no", "exit 1\n"), Bounds(20, 321))
    made.text("judge", {"text": ""})
    (worker,) = made._free
    limits = Path(f"/proc/{worker.process.pid}/limits").read_text(encoding="ascii")
    line = next(each for each in limits.splitlines() if each.startswith("Max address space"))
    assert line.split()[3] == str(321 << 20)


# What calls give.

def test_a_drawing_that_is_well_is_placed(client) -> None:
    found = answer(client, "judge", text=drawing("plate-with-hole"))
    judgement = found["judgement"]
    assert judgement["verdict"] == "well"
    assert judgement["placed"]["points"]["Hole.centre"] == [45, 30]
    assert judgement["placed"]["radii"] == {"Hole": 6}
    assert judgement["language"].startswith("sketch 1\n")
    bars = [each for each in found["drawing"]["marks"] if "bar" in each]
    assert [each["text"] for each in bars][:2] == ["120", "80"]
    assert bars[0]["bar"] == [[0, 0], [120, 0]]


def test_an_over_drawing_names_what_may_go_and_weighs_it(client) -> None:
    text = drawing("over-plate-contradiction")
    at_once = answer(client, "judge", text=text)["judgement"]["spare"]
    assert {"Bottom width", "Top width"} <= {each["name"] for each in at_once}
    assert all(each["off"] is None and each["repeats"] is None for each in at_once)
    spare = {each["name"]: each for each in answer(client, "weigh", text=text)["spare"]}
    assert {"Bottom width", "Top width"} <= set(spare)
    assert spare["Top width"]["off"] == 1_000_000 and spare["Top width"]["repeats"] is False


def test_of_what_is_not_over_nothing_is_weighed(client) -> None:
    assert answer(client, "weigh", text=drawing("bracket"))["spare"] == []


def test_an_open_drawing_is_shown_whole_by_numbers(client) -> None:
    judgement = answer(client, "judge", text=drawing("open-hinge"))["judgement"]
    assert judgement["missing"]["lacks_by_rank"] == 1
    assert judgement["missing"]["joints"][0]["shared"] == ["Wall.start"]
    assert judgement["colours"] == {
        "Wall": 1, "Wall.end": 1, "W1": 1, "W1.centre": 1, "W2": 1, "W2.centre": 1,
        "Door": 2, "Door.end": 2, "D1": 2, "D1.centre": 2, "D2": 2, "D2.centre": 2}
    found = judgement["found"]
    assert judgement["placed"] is None and judgement["laid"] == []
    assert found["places_by"] == "numbers" and found["freedoms"]["doubtful"] is False
    (ax, ay), (bx, by) = (found["places"]["points"][name] for name in ("W1.centre", "W2.centre"))
    assert ((bx - ax) ** 2 + (by - ay) ** 2) ** 0.5 == pytest.approx(50, abs=2e-6)
    assert found["places"]["radii"]["W1"] == found["places"]["radii"]["W2"] == 4


CRANK = """segment Ground 0 0 40 0
segment Crank Ground.start 10 25
coincident Ground.start Origin
horizontal Ground
length Ground 40
length Crank 30
"""


def test_what_is_free_and_where_to_it_moves_is_told(client) -> None:
    """The crank turns about the origin: its end moves square to it."""
    judgement = answer(client, "judge", text=CRANK)["judgement"]
    found = judgement["found"]
    assert found["freedoms"] == {"count": 1, "of_the_whole": 0, "doubtful": False}
    assert sorted(found["free"]) == ["Crank", "Crank.end"] and found["free_radii"] == []
    (move,), (x, y) = found["moves"], found["places"]["points"]["Crank.end"]
    assert move["point"] == "Crank.end" and x * move["dx"] + y * move["dy"] == pytest.approx(
        0, abs=1e-4)
    told = [each["text"] for each in judgement["lines"]]
    assert told[:3] == [
        "Under-constrained, or rigid in a way that the program doesn’t find.",
        "1 degree of freedom (by numbers).", "At least 1 dimension is missing, by rank."]
    assert "Certified by the program: 2 rigid clusters." in told


def test_a_moment_later_it_is_told_what_the_program_constructs(client) -> None:
    told = [each["text"] for each in answer(client, "weigh", text=CRANK)["lines"]]
    constructed, = (each for each in told if each.startswith("The program constructs"))
    assert "once these values are chosen: " in constructed


def frame(client, x: float, y: float, taken: int, name: str = "a",
          **more: object) -> dict[str, object]:
    return answer(client, "drag", text=CRANK, drag=name, names=["Crank.end"],
                  begin={"x": 11.14172, "y": 27.854301}, x=x, y=y, taken=taken, **more)


def test_a_drag_tells_what_moves_alone(client) -> None:
    """The hand is twice as far from the origin as the crank is long."""
    first = frame(client, 36, 48, 0)
    assert first["points"] == {"Crank.end": pytest.approx([18, 24], abs=1e-3)}
    assert first["reach"] == "beside" and first["off"] <= 2 and first["radii"] == {}
    assert [each["text"] for each in first["marks"]] == ["30"]
    still = frame(client, 36, 48, 1)
    assert all(abs(x - u) < 1e-3 for place in still["points"].values()
               for x, u in zip(place, (18, 24)))


def test_a_drag_that_the_server_has_lost_goes_on_from_its_places(client) -> None:
    assert frame(client, 0, 30, 1, "lost") == {"lost": True}
    places = {"points": {"Crank.end": [18, 24]}, "radii": {}}
    found = frame(client, 0, 30, 1, "lost", places=places)
    assert found["points"]["Crank.end"] == pytest.approx([0, 30], abs=1e-3)
    assert found["reach"] == "there"
    assert frame(client, 0, 30, 2, "lost")["reach"] == "there", "it is known from there on"


def test_a_process_that_missed_a_frame_of_a_drag_has_lost_it(client, program) -> None:
    """It would leave out that the end is again where it was in the frame that it told last."""
    other = board(GUARD, Desk(program)).test_client()
    up, left = [0, 30], [-30, 0]
    assert frame(client, *up, 0, "two")["points"]["Crank.end"] == pytest.approx(up, abs=1e-3)
    begun = {"places": {"points": {"Crank.end": up}, "radii": {}}}
    told = frame(other, *left, 1, "two", **begun)
    assert told["points"]["Crank.end"] == pytest.approx(left, abs=1e-3)
    assert frame(client, *up, 2, "two") == {"lost": True}
    gone_on = {"places": {"points": {"Crank.end": left}, "radii": {}}}
    told = frame(client, *up, 2, "two", **gone_on)
    assert told["points"]["Crank.end"] == pytest.approx(up, abs=1e-3)


def test_a_drag_is_lost_whose_places_arent_met_nearby(client) -> None:
    """The crank is 30 long, and not 18: what is met nearest is 12 mm away, and nothing leaps."""
    places = {"points": {"Crank.end": [18, 0]}, "radii": {}}
    found = frame(client, 0, 30, 1, "gone", places=places)
    assert found == {"fixed": "the drag was lost, and it stays where it is shown: start to drag "
                              "again"}


BOW = """arc Bow 0 0 20 0 0 20
coincident Bow.centre Origin
on Bow.start XAxis
radius Bow 20
"""
"""It begins at 0 degrees, and runs to its end at 90, to the left."""


def bow(client, turn: float, name: str, taken: int = 1, **more: object) -> dict[str, object]:
    """A frame of a drag of its end to an angle in degrees."""
    return answer(client, "drag", text=BOW, drag=name, names=["Bow.end"], begin={"x": 0, "y": 20},
                  x=20 * cos(radians(turn)), y=20 * sin(radians(turn)), taken=taken, **more)


def test_an_arc_that_is_dragged_past_its_own_end_is_told_until_it_comes_back(client) -> None:
    """Also by a process of the server that goes on with the drag."""
    assert bow(client, 20, "bow", 0)["passed"] == {}
    assert bow(client, -20, "bow")["passed"] == {"Bow": -1}
    places = {"points": {"Bow.end": [20 * cos(radians(-20)), 20 * sin(radians(-20))]}, "radii": {}}
    on = {"places": places, "passed": {"Bow": -1}}
    assert bow(client, -30, "another", **on)["passed"] == {"Bow": -1}
    assert bow(client, 20, "a third", **on)["passed"] == {}
    for wrong in ({"Bow": 0.5}, {"Bow": True}):
        found = bow(client, 20, "a fourth", places=places, passed=wrong)
        assert found["trouble"]["message"] == "'Bow' has to be a whole number"


def test_what_is_fixed_isnt_dragged(client) -> None:
    given = {"drag": "b", "begin": {"x": 40, "y": 0}, "x": 50, "y": 0, "taken": 0}
    for text, names in ((CRANK, ["Ground.end"]), (CRANK + "x Crank.end 18\n", ["Crank.end"])):
        found = answer(client, "drag", text=text, names=names, **given)
        assert found["fixed"].startswith("nothing is free here")
    nothing = answer(client, "drag", text=CRANK, names=[], **given)
    assert nothing["trouble"]["message"] == "'names' has to have a point or a shape"


@pytest.mark.parametrize("tie, still", [
    ("", "moved and turned"), ("coincident A.start Origin\n", "turned"),
    ("coincident A.start Origin\nhorizontal A\n", "")], ids=["nothing", "pinned", "tied"])
def test_of_what_isnt_tied_to_the_datum_the_shape_alone_is_fixed(client, tie, still) -> None:
    """A triangle of three lengths is well wherever it lies."""
    text = ("segment A 0 0 40 0\nsegment B A.end 20 30\nsegment C B.end A.start\n"
            f"length A 40\nlength B 36\nlength C 35\n{tie}")
    judgement = answer(client, "judge", text=text)["judgement"]
    assert judgement["verdict"] == "well"
    if still:
        assert f"only the whole may still be {still}, until it is tied" in judgement["still"]
    else:
        assert judgement["still"] == "nothing is free here: its constraints fix it"
    found = answer(client, "drag", text=text, drag="c", names=["A.end"], taken=0, x=0, y=0,
                   begin={"x": 40, "y": 0})
    assert found == {"fixed": judgement["still"]}


FLAT = "segment A 0 0 9 0\nsegment B A.end 4 3\nsegment C B.end A.start\nlength A 10\n" \
       "length B 4\nlength C 5\n"


def test_of_many_pieces_it_is_told_how_many_more_there_are(client) -> None:
    text = "".join(f"point P{number} {number} 0\n" for number in range(43))
    lines = answer(client, "judge", text=text)["judgement"]["lines"]
    for name, most, more in (("pieces", 40, 3), ("what to do", 20, 22)):
        told = [each["text"] for each in lines if each.get("list") == name]
        assert len(told) == most + 1 and told[-1] == f"and {more} more"


def test_a_fault_is_told_where_and_by_how_much(client) -> None:
    judgement = answer(client, "judge", text=FLAT)["judgement"]
    failure = judgement["failure"]
    assert judgement["verdict"] == "well" and judgement["placed"] is None
    assert sorted(failure["dimensions"]) == [
        "constraint 1 (length A 10)", "constraint 2 (length B 4)", "constraint 3 (length C 5)"]
    assert failure["amount"]["unit"] == "mm²" and failure["amount"]["high"] < 0
    assert set(failure["at"]) == {"A.start", "A.end", "B.end"}


def test_the_plan_of_a_triangle_is_one_step(client) -> None:
    text = FLAT.replace("length A 10", "length A 5")
    construction = answer(client, "plan", text=text)["construction"]
    (step,) = construction["steps"]
    assert step["choice"] in ("turn +", "turn -")
    assert sum(each["kept"] for each in step["joins"]) == 1
    assert len(step["loci"]) == 2 and all(each["radius"] in (
        pytest.approx(4, abs=1e-5), pytest.approx(5, abs=1e-5)) for each in step["loci"])
    moving = next(each for each in step["joins"] if not each["kept"])
    cos, sin = moving["motion"][:2]
    assert cos * cos + sin * sin == pytest.approx(1)


def test_the_other_shape_of_a_triangle_is_mirrored(client) -> None:
    text = "coincident A.start Origin\nhorizontal A\n"
    text = FLAT.replace("length A 10", "length A 5") + text
    plan = answer(client, "plan", text=text)["construction"]
    number = next(each["number"] for each in plan["steps"] if each["choice"].startswith("turn"))
    here = answer(client, "judge", text=text)["judgement"]["placed"]["points"]
    other = answer(client, "flips", text=text, steps=[number])["placed"]["points"]
    assert other["B.end"][0] == pytest.approx(here["B.end"][0], abs=1e-5)
    assert other["B.end"][1] == pytest.approx(-here["B.end"][1], abs=1e-5)
    drawn = answer(client, "redraw", text=text, steps=[number])
    assert drawn["judgement"]["placed"]["points"]["B.end"][1] < 0


@pytest.mark.parametrize("steps", [[0], [-1], [1, 1], list(range(1, 40))])
def test_steps_that_no_flip_takes_are_told(client, steps) -> None:
    for call in ("flips", "redraw"):
        found = answer(client, call, text=drawing("arm"), steps=steps)
        assert found["trouble"]["kind"] == "call" and "'steps'" in found["trouble"]["message"]


def test_a_claim_is_verified_and_exported(client) -> None:
    found = answer(client, "verify", text=drawing("arm"))
    assert found["said"].startswith("verified steps 3 ")
    assert "tolerance " in found["claim"]
    hinge = answer(client, "verify", text=drawing("open-hinge"))
    assert "isn't well" in hinge["trouble"]["message"]


def undated(content: bytes) -> bytes:
    """The shapes of a DXF, without what has the time and numbers by chance; all of an SVG."""
    begins = content.find(b"ENTITIES")
    return content[begins:content.find(b"ENDSEC", begins)] if begins >= 0 else content


def test_exports_are_those_of_the_commands(client, program, tmp_path, monkeypatch) -> None:
    monkeypatch.setenv("PERTXOGAI_SKETCH", program.path)
    text = drawing("bracket")
    for kind, call in ((".dxf", "dxf"), (".svg", "svg")):
        out = tmp_path / f"bracket{kind}"
        main(["draw", str(DRAWINGS / "bracket.drawing"), "-o", str(out)])
        found = answer(client, call, text=text, name="bracket", release="R2010")[call]
        assert undated(found.encode()) == undated(out.read_bytes())
    language = answer(client, "judge", text=text)["judgement"]["language"]
    own = answer(client, "program-dxf", text=text)["dxf"]
    assert own == program.ask(["dxf"], language).text and own.startswith("0\nSECTION")


def test_a_picture_of_what_has_no_places_tells_the_programs_counts(client) -> None:
    text = ("segment A 0 0 10 0\nsegment B A.end 3 8\nsegment C B.end A.start\n"
            "length A 40\nlength B 36\nlength C 3\n")
    found = answer(client, "svg", text=text, name="no-triangle")
    assert "constraints 3, rigid clusters 1" in found["svg"]


@pytest.mark.parametrize("name", ["open-hinge", "no-triangle"])
def test_what_has_no_places_is_no_dxf_of_the_program(client, name) -> None:
    text = drawing("open-hinge") if name == "open-hinge" else (
        "segment A 0 0 10 0\nsegment B A.end 3 8\nsegment C B.end A.start\n"
        "length A 40\nlength B 36\nlength C 3\n")
    found = answer(client, "program-dxf", text=text)
    why = "it is open" if name == "open-hinge" else "it can't be placed as drawn"
    assert "dxf" not in found
    assert found["trouble"]["message"] == f"no DXF is written of what isn't good: {why}"


def opened(client, path: Path) -> dict:
    data = base64.b64encode(path.read_bytes()).decode()
    return answer(client, "open", name=path.name, data=data)


def test_files_are_opened(client) -> None:
    files = DRAWINGS.parent / "files"
    freecad = opened(client, files / "twice.FCStd")
    assert freecad["sketches"] and "drawing 1" in freecad["sketches"][0]["text"]
    assert opened(client, DRAWINGS / "bracket.drawing")["sketches"][0]["name"] == "bracket"


def test_a_refused_sketch_says_what_to_do(client) -> None:
    data = base64.b64encode(b"sketch 1\npoint A 0 0\npiont B 1 1\nend\n").decode()
    told = answer(client, "open", name="part.sketch", data=data)["trouble"]["message"]
    assert told.startswith("part.sketch: refused line 3 E2 word: 'piont B 1 1': check the first word")


def test_constraints_that_are_known_arent_told_again(client) -> None:
    text = drawing("bracket")
    judged = answer(client, "judge", text=text)
    known = judged["drawing"]["constraints"]
    edit = {"do": "shift", "shapes": [], "points": [], "dx": 1, "dy": 1}
    assert answer(client, "edit", text=text, edit=edit)["drawing"]["constraints"] == known
    same = answer(client, "edit", text=text, edit=edit, knows=judged["told"])
    assert same["drawing"]["constraints"] is None and same["judgement"]["verdict"] == "well"
    other = answer(client, "edit", text=text, edit={"do": "erase", "shapes": [], "constraints": [1]},
                   knows=judged["told"])
    assert len(other["drawing"]["constraints"]) == len(known) - 1


def test_a_sketch_of_the_language_becomes_a_drawing(client) -> None:
    path = DRAWINGS.parents[2] / "examples" / "rectangle.sketch"
    (found,) = opened(client, path)["sketches"]
    assert "segment S A B" in found["text"].splitlines()
    judgement = answer(client, "judge", text=found["text"])["judgement"]
    assert judgement["verdict"] == "well"


@pytest.mark.parametrize("word, drawn, left_out", [
    ("outside", 30, []), ("inside", 3, []),
    ("inside", 30, ["inside A B: drawn so, they would touch outside"]),
    ("outside", 3, ["outside A B: drawn so, they would touch inside"])])
def test_circles_that_are_drawn_otherwise_than_they_touch(client, word, drawn, left_out) -> None:
    text = f"sketch 2\ncircle A 0 0 10\ncircle B {drawn} 0 5\n{word} A B\nend\n"
    data = base64.b64encode(text.encode()).decode()
    (found,) = answer(client, "open", name="belt.sketch", data=data)["sketches"]
    assert found["left_out"] == left_out
    assert ("tangent A B" in found["text"].splitlines()) is (not left_out)


@pytest.mark.parametrize("name, data", [
    ("part.FCStd", b"PK no zip"), ("part.slvs", b"\x00\x01"), ("part.dxf", b"\xff\xff"),
    ("part.step", b""), ("../../etc/passwd", b"x"), ("", b""), ("part.sketch", b"sketch 9\n"),
    ("part.drawing", b"lenght A 3\n"), ("part." + "x" * 400, b"x"), ("part.\0dxf", b"x"),
])
def test_bad_files_are_refused_in_one_line(client, name, data) -> None:
    found = answer(client, "open", name=name, data=base64.b64encode(data).decode())
    told = found.get("trouble", {}).get("message") or found["refused"]["message"]
    assert "\n" not in told and "/tmp" not in told and "Traceback" not in told
    assert "base 64" in answer(client, "open", name="a.dxf", data="%%")["trouble"]["message"]


def test_the_gallery_begins(client) -> None:
    found = client.get("/a-token/gallery", headers={"Host": HOST}).get_json()["drawings"]
    assert "bracket" in [each["name"] for each in found]


def test_a_served_board_is_bound_to_this_machine(program) -> None:
    with served(program) as found:
        assert found.guard.address.startswith("http://127.0.0.1:")
        assert found.server.server_address[0] == "127.0.0.1"


def _hears_interrupts() -> None:
    signal.signal(signal.SIGINT, signal.default_int_handler)


def test_the_command_serves_until_it_is_interrupted(program) -> None:
    words = [sys.executable, "-m", "pertxogai", "page", "--no-browser", "--port", "0"]
    path = str(DRAWINGS.parents[1])
    environment = {**os.environ, "PYTHONPATH": path, "PERTXOGAI_SKETCH": program.path}
    with subprocess.Popen(words, stdout=subprocess.PIPE, text=True, env=environment,
                          preexec_fn=_hears_interrupts) as started:
        assert started.stdout is not None
        address = started.stdout.readline().split()[-1]
        with urllib.request.urlopen(address) as page:
            assert b"Pertxogai" in page.read()
        started.send_signal(signal.SIGINT)
        rest, _ = started.communicate(timeout=SECONDS)
    assert started.returncode == 0 and "the board is stopped" in rest


def test_the_browser_is_led_by_a_file_that_its_owner_alone_can_read(program, monkeypatch) -> None:
    seen = []

    def opened(url: str) -> None:
        path = Path(url.removeprefix("file://"))
        text = path.read_text(encoding="utf-8")
        seen.append((url, stat.S_IMODE(path.parent.stat().st_mode), text))

    monkeypatch.setattr(serving.webbrowser, "open", opened)
    monkeypatch.setattr(serving.BaseWSGIServer, "serve_forever", lambda server: None)
    monkeypatch.setattr(serving, "Guard", lambda port: GUARD)
    serving.serve(program, 0, True)
    (url, rights, text), = seen
    assert rights == 0o700 and GUARD.token not in url and GUARD.address in text
    assert not Path(url.removeprefix("file://")).exists()


def test_the_page_may_be_opened_from_elsewhere_and_nothing_else(client) -> None:
    opens = {"Host": HOST, "Sec-Fetch-Site": "cross-site", "Sec-Fetch-Dest": "document"}
    assert client.get("/a-token/", headers=opens).status_code == 200
    assert client.get("/wrong/", headers=opens).status_code == 403
    assert client.get("/a-token/gallery", headers=opens).status_code == 403
    assert client.get("/a-token/", headers={**opens, "Sec-Fetch-Dest": "iframe"}).status_code == 403


@pytest.mark.parametrize("silent, more", [(0.3, 20.0), (20.0, 0.5 - SECONDS)])
def test_a_client_that_says_nothing_is_let_go(program, monkeypatch, silent, more) -> None:
    monkeypatch.setattr(serving.Connection, "timeout", silent)
    monkeypatch.setattr(serving, "MORE_SECONDS", more)
    with served(program) as there:
        for said in (b"", b"POST /x/call/judge HTTP/1.1\r\nHost: "):
            with socket.create_connection(("127.0.0.1", there.guard.port), timeout=10) as client:
                # one that is late to say it meets a closed connection
                with contextlib.suppress(BrokenPipeError, ConnectionResetError):
                    client.sendall(said)
                    assert client.recv(1) == b""


@pytest.mark.parametrize("seconds", ["0", "-1", "nan", "inf", "1e9"])
def test_seconds_that_no_call_can_have_are_told(program, monkeypatch, capsys, seconds) -> None:
    monkeypatch.setenv("PERTXOGAI_SKETCH", program.path)
    assert main(["page", "--no-browser", "--seconds", seconds]) == 2
    assert "--seconds takes a number above 0 and up to 86400" in capsys.readouterr().err


def test_a_port_that_is_taken_is_told(program, monkeypatch, capsys) -> None:
    monkeypatch.setenv("PERTXOGAI_SKETCH", program.path)
    with served(program) as found:
        assert main(["page", "--no-browser", "--port", str(found.guard.port)]) == 2
    assert "choose another by --port" in capsys.readouterr().err
    assert main(["page", "--no-browser", "--port", "99999999"]) == 2
