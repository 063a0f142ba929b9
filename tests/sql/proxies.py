"""TLS by a proxy before the database: stunnel's and nginx's lines of docs/SQL.md, where these are installed."""
from __future__ import annotations

import os
import re
import shutil
import socket
import subprocess
import tempfile
import time
from collections.abc import Iterator
from pathlib import Path

from tests.sql.host import ROOT, Built, Served
from tests.sql.units import differs

PAGE = ROOT / "docs/SQL.md"
# What nginx and stunnel need besides so that they run here, without root's folders.
NGINX = """daemon off;
error_log {folder}/nginx.log;
pid {folder}/nginx.pid;
events {{ }}
http {{
    access_log off;
    client_body_temp_path {folder}/body;
    proxy_temp_path {folder}/proxy;
    fastcgi_temp_path {folder}/fastcgi;
    uwsgi_temp_path {folder}/uwsgi;
    scgi_temp_path {folder}/scgi;
{server}}}
"""


def lines_of(name: str) -> str:
    """The indented lines of the page behind a proxy's name."""
    found = re.search(rf"\*\*{name}\*\*.*?\n\n((?:    .*\n|\n)+)", PAGE.read_text())
    return found[1] if found else ""


def free_port() -> int:
    with socket.create_server(("127.0.0.1", 0)) as one:
        return int(one.getsockname()[1])


def program(*names: str) -> str | None:
    return next((found for name in names if (found := shutil.which(name, path=f"{os.environ['PATH']}:/usr/sbin:/usr/bin"))), None)


def wait_for(port: int, process: subprocess.Popen[bytes]) -> None:
    for _ in range(300):
        try:
            socket.create_connection(("127.0.0.1", port), 1).close()
            return
        except OSError:
            if process.poll() is not None:
                raise RuntimeError(f"it ended with {process.returncode}") from None
            time.sleep(0.05)
    raise TimeoutError("nobody listens")


def asked(*command: str) -> str:
    ran = subprocess.run(command, capture_output=True, text=True, timeout=60)
    return ran.stdout + ran.stderr


def certificate(folder: Path) -> None:
    """Of `localhost`, with its key in one file."""
    kind = ["-newkey", "ec", "-pkeyopt", "ec_paramgen_curve:prime256v1", "-nodes", "-days", "1"]
    name = ["-subj", "/CN=localhost", "-addext", "subjectAltName=DNS:localhost"]
    subprocess.run(["openssl", "req", "-x509", *kind, *name, "-keyout", folder / "db.key", "-out", folder / "db.crt"], check=True,
                   capture_output=True)
    (folder / "db.pem").write_text((folder / "db.crt").read_text() + (folder / "db.key").read_text())


def changed(text: str, folder: Path, port: int, served: int) -> str:
    """The page's lines, with this test's files and ports."""
    text = re.sub(r"/etc/\S*?(db\.\w+)", rf"{folder}/\1", text)
    return re.sub(r"10\.0\.0\.1(:\d+)?", f"127.0.0.1:{served}", re.sub(r"(accept = |listen )\d+", rf"\g<1>{port}", text))


def stunnel(served: Served, folder: Path) -> Iterator[tuple[str, str | None]]:
    found, port = program("stunnel4", "stunnel"), free_port()
    if found is None or not shutil.which("psql"):
        print("skipped: stunnel or psql isn't installed", flush=True)
        return
    (folder / "stunnel.conf").write_text(f"foreground = yes\npid =\n{changed(lines_of('stunnel'), folder, port, served.postgres)}")
    with open(folder / "stunnel.log", "w") as log, subprocess.Popen([found, folder / "stunnel.conf"], stderr=log, stdout=log) as process:
        try:
            wait_for(port, process)
            where = f"host=localhost port={port} user=me dbname=db sslmode=verify-full sslrootcert={folder}/db.crt"
            came = asked("psql", "-X", "-A", "-t", "-c", "SELECT 1", "-c", "\\conninfo", where)
            yield "psql by stunnel", None if came.startswith("1\n") and "SSL connection (protocol: TLSv1.3" in came else came
            yield "psql -l by stunnel", differs(asked("psql", "-X", "-A", "-t", "-l", where).split("|")[:2], ["db", "anyone"])
        finally:
            process.terminate()


def nginx(served: Served, folder: Path) -> Iterator[tuple[str, str | None]]:
    found, port = program("nginx"), free_port()
    if found is None or not shutil.which("curl"):
        print("skipped: nginx or curl isn't installed", flush=True)
        return
    (folder / "nginx.conf").write_text(NGINX.format(folder=folder, server=changed(lines_of("nginx"), folder, port, served.http)))
    with subprocess.Popen([found, "-p", folder, "-c", folder / "nginx.conf"], stderr=subprocess.DEVNULL) as process:
        try:
            wait_for(port, process)
            url = f"https://localhost:{port}"
            curl = ["curl", "-s", "--cacert", str(folder / "db.crt")]
            sql = "CREATE TABLE t(a); INSERT INTO t VALUES(7); SELECT a FROM t"
            yield "curl by nginx", differs(asked(*curl, "-d", sql, f"{url}/sql"), "7\n")
            browser = ["-H", "User-Agent: Mozilla/5.0", "-H", f"Origin: {url}"]
            yield "a browser's page by nginx", differs(asked(*curl, *browser, "-d", "SELECT 8", f"{url}/sql"), "8\n")
            other = ["-H", "User-Agent: Mozilla/5.0", "-H", "Origin: https://other.example"]
            status = asked(*curl, *other, "-o", "/dev/null", "-w", "%{http_code}", "-d", "SELECT 8", f"{url}/sql")
            yield "another site's", differs(status, "403")
            subprocess.run([*curl, "-o", folder / "copy", f"{url}/db"], check=True)
            yield "the database by nginx", None if (folder / "copy").read_bytes()[:15] == b"SQLite format 3" else "no database"
        finally:
            process.terminate()


def tests(built: Built) -> Iterator[tuple[str, str | None]]:
    if not shutil.which("openssl"):
        print("skipped: openssl isn't installed", flush=True)
        return
    with tempfile.TemporaryDirectory() as name, Served(built, Path(name) / "proxies") as served:
        folder = Path(name)
        certificate(folder)
        yield from stunnel(served, folder)
        yield from nginx(served, folder)
