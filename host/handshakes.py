"""The keys and certificates of the link: what is read of them, and what is wrong where two ends don't take each other, said so that an
operator knows at which host it is, and what to do."""
import datetime
import re
import ssl
from collections.abc import Iterator
from typing import TYPE_CHECKING

if TYPE_CHECKING:
    from host.settings import Settings

EXPIRED, NOT_YET_VALID = 10, 9  # X509_V_ERR_CERT_HAS_EXPIRED, X509_V_ERR_CERT_NOT_YET_VALID
NOT_TLS = {"WRONG_VERSION_NUMBER", "HTTP_REQUEST", "HTTPS_PROXY_REQUEST", "UNKNOWN_PROTOCOL", "BAD_RECORD_TYPE", "PACKET_LENGTH_TOO_LONG",
           "RECORD_LAYER_FAILURE", "UNEXPECTED_MESSAGE", "NO_PROTOCOLS_AVAILABLE", "RECORD_TOO_SMALL", "DATA_LENGTH_TOO_LONG"}
IS_PLAIN = "it doesn't speak TLS: 'plain' is set there, or something else has that port"
IS_TLS = "it speaks TLS, and 'plain' is set here: both hosts need the same"


class Papers:
    """Those of a host: the TLS contexts to listen and to dial with, and the pinned certificates, as DER. Raises OSError, of which
    ssl.SSLError is one, and ValueError."""

    def __init__(self, settings: "Settings") -> None:
        self.own, self.peers = settings.certificate, settings.peer_certificate
        self.server, self.client = (self.context(settings.key, protocol) for protocol in (ssl.PROTOCOL_TLS_SERVER, ssl.PROTOCOL_TLS_CLIENT))
        self.server.num_tickets = 0  # no session is resumed: each link is authenticated anew
        self.pinned, self.shown = certificates_of(self.peers), certificates_of(self.own)

    def context(self, key: str, protocol: int) -> ssl.SSLContext:
        """Of what it takes a pinned certificate alone is let in; this host's own one is told from others."""
        context = ssl.SSLContext(protocol)
        context.minimum_version = ssl.TLSVersion.TLSv1_3
        context.check_hostname = False
        context.verify_mode = ssl.CERT_REQUIRED
        context.load_cert_chain(self.own, key, password=no_password)
        for path in (self.peers, self.own):
            context.load_verify_locations(path)
        context.verify_flags |= ssl.VERIFY_X509_PARTIAL_CHAIN  # the certificate itself, where another one has its name
        return context

    def why_not(self, certificate: bytes | None) -> str | None:
        """Why this isn't the peer's certificate, if so."""
        if certificate in self.pinned:
            return None
        if certificate in self.shown:
            return (f"it shows this host's own certificate, {self.own}: each host needs a key of its own, made there by 'remus-host keys', "
                    "and the other one's certificate as its peer_certificate")
        return self.another()

    def another(self) -> str:
        return (f"it shows another certificate than this host's peer_certificate, {self.peers}: copy the certificate of the host there to "
                "this file")

    def why_failed(self, error: ssl.SSLError) -> str | None:
        """What is wrong with the certificate that was shown, or that this host has shown; None where it is something else."""
        if isinstance(error, ssl.SSLCertVerificationError):
            return self.why_unfit(error.verify_code)
        reason = error.reason or ""
        if "ALERT" in reason:
            return self.why_alert(reason)
        if reason == "PEER_DID_NOT_RETURN_A_CERTIFICATE":
            return "it shows no certificate, so it isn't the peer"
        return IS_PLAIN if reason in NOT_TLS else None

    def why_unfit(self, code: int) -> str:
        clock = f"{datetime.datetime.now(datetime.timezone.utc):%Y-%m-%d %H:%M} UTC"
        if code == EXPIRED:
            return (f"its certificate has run out, by this host's clock ({clock}): if that is right, make a new one there by 'remus-host "
                    f"keys', and copy it to {self.peers}")
        if code == NOT_YET_VALID:
            return f"its certificate isn't valid yet, by this host's clock ({clock}): set the clocks of both hosts"
        return self.another()

    def why_alert(self, reason: str) -> str | None:
        """What the other end says of this host's certificate: OpenSSL says of one that isn't valid yet that it is bad."""
        if "EXPIRED" in reason:
            return (f"by its clock this host's certificate, {self.own}, has run out: if that clock is right, make a new one here by "
                    "'remus-host keys', and copy it there")
        if "BAD_CERTIFICATE" in reason:
            return f"by its clock this host's certificate, {self.own}, isn't valid yet: set the clocks of both hosts"
        if "UNKNOWN_CA" in reason or "CERTIFICATE" in reason or "DECRYPT_ERROR" in reason:
            return f"it doesn't take this host's certificate. {self.to_copy()}"
        return None

    def to_copy(self) -> str:
        return f"Copy {self.own} there as its peer_certificate"


def certificates_of(path: str) -> frozenset[bytes]:
    """The certificates of a file, as DER: one, or two while they are renewed. Raises OSError, ValueError."""
    with open(path, encoding="ascii") as file:
        found = re.findall(f"{ssl.PEM_HEADER}.*?{ssl.PEM_FOOTER}", file.read(), re.S)
    if not found:
        raise ValueError(f"{path} has no certificate")
    return frozenset(map(ssl.PEM_cert_to_DER_cert, found))


def no_password() -> str:
    """For a key that has one: nobody is asked for it, by whom a daemon that starts would wait."""
    return ""


def papers(settings: "Settings") -> Papers | None:
    """None for a plain link, and without one. Raises OSError, ValueError."""
    return None if settings.plain or settings.listen is None else Papers(settings)


# What is wrong with files.


def mistakes(settings: "Settings") -> Iterator[tuple[str, str]]:
    """What is wrong with files that can be read: pairs of a key and a sentence."""
    found = [(key, f"{key} isn't a certificate in PEM: {getattr(settings, key)}")
             for key in ("certificate", "peer_certificate") if not is_certificate(getattr(settings, key))]
    yield from found
    why = None if found else why_apart(settings.certificate, settings.key)
    if why is None:
        return
    if "MISMATCH" not in why:
        yield "key", f"key isn't a private key in PEM, without a password: {settings.key}"
    elif why_apart(settings.peer_certificate, settings.key) is None:
        yield "key", "key belongs to peer_certificate, and not to certificate: the files of the two hosts are swapped"
    else:
        yield "key", f"key doesn't belong to certificate: {settings.key} and {settings.certificate} weren't made together"


def is_certificate(path: str) -> bool:
    try:
        ssl.SSLContext(ssl.PROTOCOL_TLS_CLIENT).load_verify_locations(cadata=b"".join(certificates_of(path)))
    except (OSError, ValueError):
        return False
    return True


def why_apart(certificate: str, key: str) -> str | None:
    """Why a key doesn't go with a certificate, as OpenSSL calls it, if so."""
    try:
        ssl.SSLContext(ssl.PROTOCOL_TLS_CLIENT).load_cert_chain(certificate, key, password=no_password)
    except (OSError, ValueError) as error:
        return getattr(error, "reason", None) or "UNREADABLE"
    return None
