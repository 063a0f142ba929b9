"""`remus-host keys`: an Ed25519 key and its certificate, signed by itself, by the program `openssl`."""
import os
import shutil
import subprocess
import tempfile
from pathlib import Path

from host.files import written

SHOWN = 0o644  # the mode of a certificate, which anybody may read
MISSING = "the program openssl isn't there: on Debian, apt-get install openssl"
# A certificate begins and ends by no host's clock: it is pinned, and given up by hand.
BEGINS, ENDS = "20200101000000Z", "99991231235959Z"
CONFIGURATION = """
[req]
distinguished_name = asked
[asked]
[ca]
default_ca = itself
[itself]
database = index
new_certs_dir = .
rand_serial = yes
default_md = null
policy = any
x509_extensions = extensions
[any]
commonName = supplied
[extensions]
basicConstraints = critical, CA:FALSE
"""


class NoKeys(Exception):
    """No key could be made; its text says why."""


def openssl(folder: Path, *words: str | Path) -> None:
    """Runs openssl in that folder. Raises NoKeys."""
    try:
        subprocess.run(["openssl", *words], cwd=folder, capture_output=True, text=True, check=True, stdin=subprocess.DEVNULL)
    except FileNotFoundError:
        raise NoKeys(MISSING) from None
    except subprocess.CalledProcessError as error:
        raise NoKeys(f"openssl {words[0]} failed: {error.stderr.strip()}") from None


def escaped(name: str) -> str:
    """A name as `-subj` takes it."""
    return "".join(f"\\{letter}" if letter in "\\+/" else letter for letter in name)


def made_in(room: Path, name: str) -> tuple[Path, Path]:
    """A key and its certificate as files of an empty folder. Raises OSError and NoKeys."""
    settings, key, asked, crt = (room / file for file in ("settings", "key", "asked", "crt"))
    settings.write_text(CONFIGURATION)
    (room / "index").touch()
    openssl(room, "genpkey", "-algorithm", "ed25519", "-out", key)
    openssl(room, "req", "-new", "-utf8", "-config", settings, "-key", key, "-subj", f"/CN={escaped(name)}", "-out", asked)
    openssl(room, "ca", "-selfsign", "-batch", "-notext", "-utf8", "-config", settings, "-keyfile", key, "-in", asked, "-out", crt,
            "-startdate", BEGINS, "-enddate", ENDS)
    return key, crt


def make(folder: str | Path, name: str) -> tuple[Path, Path]:
    """Writes NAME.key and NAME.crt into a folder that is there; neither of them may be. Raises OSError and NoKeys."""
    return written_as(Path(folder), name, name)


def written_as(folder: Path, file_name: str, name: str) -> tuple[Path, Path]:
    key, crt = folder / f"{file_name}.key", folder / f"{file_name}.crt"
    if crt.exists():
        raise FileExistsError(17, "File exists", str(crt))
    with tempfile.TemporaryDirectory() as room:  # which nobody else may look into
        made_key, made_crt = made_in(Path(room), name)
        with open(os.open(key, os.O_WRONLY | os.O_CREAT | os.O_EXCL, 0o600), "wb") as file:
            try:
                file.write(made_key.read_bytes())
                shutil.copyfile(made_crt, crt)
            except OSError:
                key.unlink()  # a key without its certificate would stand in the way of the next try
                raise
    return key, crt


# The renewal of a pair's keys while a link is up: the other host takes the old certificate and the new one, until the new key is used.

def renew(folder: str | Path, name: str) -> Path:
    """Makes the next key beside the one that is used, which goes on. NAME.crt then has both certificates, the one that is used first. Where
    that is done already, or a part of it, the rest is. Raises OSError and NoKeys."""
    folder = Path(folder)
    crt, new, key = (folder / f"{name}{end}" for end in (".crt", ".next.crt", ".next.key"))
    used = crt.read_bytes()
    if not new.exists():
        key.unlink(missing_ok=True)  # without its certificate nobody has it
        written_as(folder, f"{name}.next", name)
    if new.read_bytes() not in used:
        written(crt, used + new.read_bytes(), SHOWN)
    return crt


def switch(folder: str | Path, name: str) -> Path:
    """Puts the next key and its certificate into the places of those that are used. One that was broken off is finished by the next. Raises
    OSError."""
    folder = Path(folder)
    crt, key = folder / f"{name}.next.crt", folder / f"{name}.next.key"
    written(folder / f"{name}.crt", crt.read_bytes(), SHOWN)
    if key.exists():
        os.replace(key, folder / f"{name}.key")
    crt.unlink()
    return folder / f"{name}.crt"
