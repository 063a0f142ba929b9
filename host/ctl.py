"""`remus-host ctl`: asks a daemon over its control socket."""
import argparse
import json
import os
import socket
from typing import Any

from host import managed, settings
from host.logs import one_line
from host.out import complain, failed, put

DONE, REFUSED, BAD, NO_ANSWER, UNWRITTEN = range(5)
MOST_ANSWER = 1 << 24  # bytes
MOST_SECONDS = 86400.0
VERBS = {
    "status": "says what this host is",
    "promote": "makes this host live",
    "alone": "says that the standby has stopped for good",
    "drain": "moves the guest to its standby, which loses nothing",
    "demote": "drains, or freezes the guest where there is no standby",
    "save": "keeps the guest in a file, from this host's log or, at a host that is alone, without one",
    "metrics": "prints what is counted, as Prometheus reads it",
}


PARTS = {"peer", "log"}  # of a status: what has parts, each of which is a line
PATIENCE = {"promote": 70.0, "drain": 60.0, "demote": 60.0, "save": 600.0}  # seconds, where it isn't 10


class NoAnswer(Exception):
    """No daemon listens there, or none answered in time."""


def add(kinds: Any) -> None:
    """The command line of ctl."""
    one = kinds.add_parser("ctl", help="asks a daemon that runs")
    add_shared(one, None)
    verbs = one.add_subparsers(dest="verb", required=True, metavar="VERB")
    readers = {verb: verbs.add_parser(verb, help=said, description=said) for verb, said in VERBS.items()}
    for each in readers.values():
        add_shared(each, argparse.SUPPRESS)
    readers["promote"].add_argument("--boot", action="store_true", help="boots the configured guest at an empty host")
    readers["promote"].add_argument("--new", action="store_true", help="even where a guest was booted before")
    readers["promote"].add_argument("--from", dest="source", metavar="FILE", help="takes the guest of a snapshot")
    readers["promote"].add_argument("--disk", metavar="FILE", help="with --boot: boots over the disk of a snapshot")
    readers["promote"].add_argument("--without-peer", action="store_true",
                                    help="a standby from its log goes live though the peer wasn't heard: it is lost for good")
    readers["promote"].add_argument("--bare", action="store_true",
                                    help="with --from or --disk: takes also the text of a full checkpoint alone, which has no sum")
    readers["promote"].add_argument("--fenced", action="store_true",
                                    help="at once, though the peer was heard to be live just before: it was made sure to be off since")
    readers["promote"].add_argument("--force", action="store_true", help="even where the peer says that it is live")
    readers["alone"].add_argument("--standby", metavar="INSTANCE", help="only if this is the standby")
    readers["drain"].add_argument("--promote", action="store_true", help="tells the standby to go live then")
    readers["drain"].add_argument("--within", type=milliseconds, metavar="MS", help="the longest that it may take")
    readers["save"].add_argument("file", metavar="FILE")


def add_shared(one: argparse.ArgumentParser, unless_given: object) -> None:
    """The options that stand before the verb or behind it."""
    one.add_argument("--control", default=unless_given, metavar="PATH", help="its control socket")
    one.add_argument("--config", default=unless_given, metavar="FILE", help="its configuration, which names the socket")
    one.add_argument("--json", action="store_true", default=unless_given, help="prints the answer as it came")
    one.add_argument("--timeout", type=seconds, default=unless_given, metavar="SECONDS",
                     help="how long an answer is awaited (default: 10, for drain and demote 60, promote 70, save 600)")


def seconds(word: str) -> float:
    try:
        found = float(word)
    except ValueError:
        found = 0.0
    if not 0 < found <= MOST_SECONDS:
        raise argparse.ArgumentTypeError(f"must be seconds, above 0 and up to {MOST_SECONDS:g}")
    return found


def milliseconds(word: str) -> float:
    try:
        return settings.DRAIN_MS(word) * 1000
    except settings.Mistake as mistake:
        raise argparse.ArgumentTypeError(str(mistake)) from None


def request_of(plan: argparse.Namespace) -> dict[str, Any]:
    request = {"do": plan.verb}
    if plan.verb == "promote":
        request |= {name: True for name in ("boot", "new", "bare", "without_peer", "fenced", "force") if getattr(plan, name)}
        request |= {name: os.path.abspath(path) for name, path in (("from", plan.source), ("disk", plan.disk)) if path}
    elif plan.verb == "alone" and plan.standby:
        request["standby"] = plan.standby
    elif plan.verb == "drain":
        request |= ({"promote": True} if plan.promote else {}) | ({"within_ms": plan.within} if plan.within is not None else {})
    elif plan.verb == "save":
        request["file"] = os.path.abspath(plan.file)
    return request


def ask(path: str, request: dict[str, Any], timeout: float = 10.0) -> dict[str, Any]:
    """The answer to a request. Raises NoAnswer."""
    try:
        with socket.socket(socket.AF_UNIX) as line:
            line.settimeout(timeout)
            line.connect(path)
            line.sendall(json.dumps(request).encode() + b"\n")
            with line.makefile("rb") as answers:
                answer = answers.readline(MOST_ANSWER)
    except TimeoutError:
        raise NoAnswer(f"no answer at {path} within {timeout:g} s: what was asked is under way, or isn't done") from None
    except PermissionError:
        raise NoAnswer(f"no permission to ask at {path}: root may, and the daemon's user") from None
    except OSError as error:
        raise NoAnswer(f"no daemon listens at {path}: {error.strerror or error}") from None
    if not answer.endswith(b"\n"):
        raise NoAnswer(f"the daemon at {path} ended before it answered")
    return read(answer, path)


def read(line: bytes, path: str) -> dict[str, Any]:
    """An answer, as a daemon spells it. Raises NoAnswer."""
    try:
        answer = json.loads(line)
    except (ValueError, RecursionError):
        answer = None
    is_answer = isinstance(answer, dict) and isinstance(answer.get("ok"), bool)
    if not is_answer or not answer["ok"] and not {"refused", "why"} <= answer.keys():
        raise NoAnswer(f"what listens at {path} doesn't answer as remus-host does")
    return answer


def control_of(plan: argparse.Namespace) -> str:
    """The control socket's path. Raises Mistakes."""
    if plan.control is not None:
        return plan.control
    if plan.config is None:
        return settings.Settings.control
    value, place = settings.from_file(plan.config).get("control", (settings.Settings.control, ""))
    try:
        return settings.KEYS["control"][0](value)
    except settings.Mistake as mistake:
        raise settings.Mistakes(f"{place}: control {mistake}") from None


def run(plan: argparse.Namespace) -> int:
    timeout = PATIENCE.get(plan.verb, 10.0) if plan.timeout is None else plan.timeout
    try:
        answer = ask(control_of(plan), request_of(plan), timeout)
    except settings.Mistakes as mistakes:
        complain(str(mistakes))
        return BAD
    except NoAnswer as error:
        return failed(str(error), NO_ANSWER)
    except KeyboardInterrupt:
        return failed("interrupted before an answer came: what was asked may be done all the same", NO_ANSWER)
    if not plan.json and not answer["ok"]:
        complain(one_line(f"refused, {answer['refused']}: {answer['why']}"))
        return REFUSED
    try:
        put(json.dumps(answer) + "\n" if plan.json else said(plan.verb, answer))
    except (OSError, KeyboardInterrupt) as error:
        return failed(f"it is {'done' if answer['ok'] else 'refused'}, and the answer can't be written: "
                      f"{getattr(error, 'strerror', None) or 'interrupted'}", UNWRITTEN)
    if answer["ok"] and (warning := managed.warning(plan.verb)):
        complain(f"remus-host: {warning}")
    return DONE if answer["ok"] else REFUSED


def said(verb: str, answer: dict[str, Any]) -> str:
    """An answer that is ok, for a reader."""
    if verb == "metrics":
        return answer.get("text", "")
    if verb != "status":
        return one_line(str(answer.get("did", "done"))) + "\n"
    lines = []
    for name, value in answer.items():
        if name in PARTS and value is not None:
            lines += [f"{name} {part}: {shown(of_it)}" for part, of_it in value.items()]
        elif name == "drift" and value is not None:
            lines += [f"drift {key}: {shown(here)} here, {shown(there)} at the peer" for key, (here, there) in value.items()]
        elif name not in ("ok", "did"):
            lines.append(f"{name}: {shown(value)}")
    return "".join(one_line(line) + "\n" for line in lines)


def shown(value: object) -> object:
    if value is None:
        return "-"
    return {True: "yes", False: "no"}[value] if isinstance(value, bool) else value
