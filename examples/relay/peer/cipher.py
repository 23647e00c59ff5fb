"""AES-256 in CBC mode, the vector carried from call to call; and X25519."""

from cryptography.hazmat.primitives.asymmetric.x25519 import (
    X25519PrivateKey,
    X25519PublicKey,
)
from cryptography.hazmat.primitives.ciphers import Cipher, algorithms, modes
from cryptography.hazmat.primitives.serialization import Encoding, PublicFormat

BLOCK = 16


def encipherer(key, vector):
    """A function from whole blocks to as many enciphered ones."""
    return Cipher(algorithms.AES(key), modes.CBC(vector)).encryptor().update


def decipherer(key, vector):
    return Cipher(algorithms.AES(key), modes.CBC(vector)).decryptor().update


class Pair:
    """A key pair of X25519, a fresh one for each connection."""

    def __init__(self, scalar=None):
        if scalar is None:
            self._private = X25519PrivateKey.generate()
        else:
            self._private = X25519PrivateKey.from_private_bytes(scalar)
        public = self._private.public_key()
        self.point = public.public_bytes(Encoding.Raw, PublicFormat.Raw)

    def shared(self, point):
        try:
            return self._private.exchange(X25519PublicKey.from_public_bytes(point))
        except ValueError:
            # A point of small order gives 32 zeros, and the library refuses it.
            return bytes(32)
