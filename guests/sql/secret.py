#!/usr/bin/env python3
"""Prints, as C, what a guest keeps of the password that stands in PASSWORD: what SCRAM-SHA-256 does (RFC 5802), so that the image doesn't
have the password itself. Without a password nothing is set."""
import base64
import hashlib
import hmac
import os
import secrets
import sys

ROUNDS = 4096


def numbers(data: bytes) -> str:
    return "{" + ", ".join(map(str, data)) + "}"


def main() -> None:
    secret = os.environ.get("PASSWORD", "")
    if not (secret.isascii() and secret.isprintable()):
        sys.exit("a password has letters, digits and signs of ASCII")
    salt = secrets.token_bytes(16) if secret else bytes(16)
    salted = hashlib.pbkdf2_hmac("sha256", secret.encode(), salt, ROUNDS)
    client_key, server_key = (hmac.digest(salted, name, "sha256") for name in (b"Client Key", b"Server Key"))
    print('#include "password.h"\n')
    print(f"const struct password password = {{{int(bool(secret))}, {ROUNDS}, \"{base64.b64encode(salt).decode()}\",")
    print(f"    {numbers(hashlib.sha256(client_key).digest())},\n    {numbers(server_key)}}};")


if __name__ == "__main__":
    main()
