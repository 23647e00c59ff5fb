"""From both Nonces and the secret key to an AES key and a starting vector.

The protocol document lists the parts of the init message; the three versions
differ only in what stands for addresses and in the shared secret at the end.
"""

import hashlib
import struct
from dataclasses import dataclass

TO_SERVER = b"CLIENT"
TO_CLIENT = b"SERVER"


@dataclass
class Facts:
    """All that both ends know once both Nonces have been seen."""

    server_nonce: bytes
    client_nonce: bytes
    server_time: int
    client_time: int
    server_address: tuple  # IP as a number, port
    client_address: tuple
    shared: bytes          # 32 bytes of Diffie-Hellman, used by version 2 alone


def init_message(version, direction, facts, key):
    server_ip, server_port = facts.server_address
    client_ip, client_port = facts.client_address
    if version > 0:
        # From version 1 on the addresses are zero, and the place of the
        # server's IP holds the server's time.
        server_ip, server_port = facts.server_time, 0
        client_ip, client_port = 0, 0
    nonces = facts.server_nonce + facts.client_nonce
    message = nonces + struct.pack("<IIH", facts.client_time, server_ip, client_port)
    message += direction + struct.pack("<IH", client_ip, server_port)
    message += key + nonces
    return message + facts.shared if version == 2 else message


def _md5(data):
    return hashlib.md5(data, usedforsecurity=False).digest()


def derive(message):
    """AES key and starting vector."""
    sha1 = hashlib.sha1(message, usedforsecurity=False).digest()
    return _md5(message[1:])[:12] + sha1, _md5(message[2:])
