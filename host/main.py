"""The command line of `remus-host`."""
import argparse
import os
import sys

from host import ctl, keys, settings
from host.daemon import VERSION, Daemon
from host.log import command as log_command
from host.logs import Log
from host.network import Unusable
from host.node import NodeEnded
from host.out import complain, failed, give_up, put

TEXT = """The daemon of one host of a pair.

    remus-host run --config FILE       runs the daemon
    remus-host check --config FILE     checks a configuration, and does no more
    remus-host keys FOLDER NAME        makes NAME.key and NAME.crt for the link; with --renew and --switch renews them
    remus-host log list|check|export   shows or checks a host's log, or makes a snapshot of it
    remus-host ctl VERB                asks a daemon that runs: status, promote, alone, drain, demote, save, metrics

docs/OPERATE.md says what each does, key by key and verb by verb."""


def reader():
    form = argparse.RawDescriptionHelpFormatter
    commands = argparse.ArgumentParser(prog="remus-host", description=TEXT, formatter_class=form)
    commands.add_argument("--version", action="version", version=f"remus-host {VERSION}")
    kinds = commands.add_subparsers(dest="command", required=True, metavar="COMMAND")
    for name, said in (("run", "runs the daemon"), ("check", "checks a configuration, and does no more")):
        one = kinds.add_parser(name, help=said, description=said)
        one.add_argument("--config", metavar="FILE", help="the configuration")
        for key, (_, meaning) in settings.KEYS.items():
            one.add_argument("--" + key.replace("_", "-"), dest=key, default=argparse.SUPPRESS, metavar="VALUE", help=meaning)
    one = kinds.add_parser("keys", help="makes a key and its certificate, or renews them while a link is up")
    how = one.add_mutually_exclusive_group()
    how.add_argument("--renew", dest="how", action="store_const", const="renew", help="makes the next key, beside the one that is used")
    how.add_argument("--switch", dest="how", action="store_const", const="switch", help="uses the next key, once the other host takes it")
    one.set_defaults(how="make")
    one.add_argument("folder")
    one.add_argument("name")
    log_command.add(kinds)
    ctl.add(kinds)
    return commands


def make_keys(plan: argparse.Namespace) -> int:
    try:
        name = plan.name.encode()
    except UnicodeEncodeError:
        name = b""
    if not plan.name.isprintable() or "/" in plan.name or not 0 < len(name) <= 64:
        return failed(f"{plan.name!r} can't be a name: at most 64 bytes that can be printed, without /", 1)
    try:
        put(KEYS[plan.how](plan.folder, plan.name) + "\n")
    except OSError as error:
        return failed(f"{error.filename or 'standard output'}: {error.strerror}", 1)
    except keys.NoKeys as error:
        return failed(str(error), 1)
    return 0


def made(folder: str, name: str) -> str:
    key, certificate = keys.make(folder, name)
    return f"{key} is secret, and stays on this host; {certificate} goes to the other one, as its peer_certificate"


def renewed(folder: str, name: str) -> str:
    certificate = keys.renew(folder, name)
    return (f"{certificate} has the certificate that is used and the new one: copy it to the other host, which takes either then; "
            "after that 'keys --switch' uses the new key")


def switched(folder: str, name: str) -> str:
    certificate = keys.switch(folder, name)
    return f"the new key is used from the next link on; {certificate} has its certificate alone: copy it to the other host"


KEYS = {"make": made, "renew": renewed, "switch": switched}


def configured(plan: argparse.Namespace) -> settings.Settings:
    """The settings; ends the program where they are wrong."""
    options = {key: getattr(plan, key) for key in settings.KEYS if hasattr(plan, key)}
    if plan.config is None and "network" not in options:
        sys.exit(failed("no configuration is given: name one by --config FILE, or give the settings as options, --network among them", 2))
    try:
        return settings.read(plan.config, options)
    except settings.Mistakes as mistakes:
        complain(str(mistakes))
        sys.exit(2)


def open_ends() -> None:
    """Standard input, output and error, where one is closed, lead nowhere: else the next file that is opened would be it."""
    for number in range(3):
        try:
            os.fstat(number)
        except OSError:
            os.open(os.devnull, os.O_RDWR)


def run(plan: argparse.Namespace) -> int:
    found = configured(plan)
    open_ends()
    log = Log(found.log_format, found.log_level, found.name)
    log.write_by_thread(2)
    try:
        return run_daemon(found, log)
    finally:
        log.end()


def run_daemon(found: settings.Settings, log: Log) -> int:
    try:
        daemon = Daemon(found, log)
    except (NodeEnded, Unusable) as error:
        log.error(str(error))
        return 1
    except OSError as error:
        log.error(f"{error.filename}: {error.strerror}" if error.filename else error.strerror or str(error))
        return 1
    log.info(f"this host is {daemon.role}; process {os.getpid()}, node {daemon.node.pid}, control socket {found.control}")
    try:
        daemon.run()
    except NodeEnded as error:
        is_logged = daemon.kept.on_disk() is not None
        log.error(f"{error}: what this host held is {'in its log' if is_logged else 'gone'}")
        return 1
    log.info("ended")
    return 0


def main(words: list[str] | None = None) -> int:
    plan = planned(words)
    if plan.command == "keys":
        return make_keys(plan)
    if plan.command == "check":
        configured(plan)
        return 0
    if plan.command == "log":
        return log_command.run(plan)
    return ctl.run(plan) if plan.command == "ctl" else run(plan)


def planned(words: list[str] | None) -> argparse.Namespace:
    """What the command line says; ends the program where that is done by a help, or is wrong."""
    try:
        return reader().parse_args(words)
    except SystemExit:
        try:
            if sys.stdout is not None:
                sys.stdout.flush()
        except OSError as error:
            give_up(sys.stdout)
            sys.exit(failed(f"standard output: {error.strerror}", 1))
        raise
