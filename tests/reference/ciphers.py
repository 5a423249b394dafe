"""AES-128 in CBC (FIPS 197; SP 800-38A, 6.2), its CMAC (RFC 4493), and the keys derived by it (OMS Volume 2)."""
from functools import lru_cache

from cryptography.hazmat.primitives.ciphers import Cipher, algorithms, modes
from cryptography.hazmat.primitives.cmac import CMAC

BLOCK = 16
METER_CIPHER, METER_MAC, COLLECTOR_CIPHER, COLLECTOR_MAC = 0x00, 0x01, 0x10, 0x11


def cbc_decrypted(key: bytes, vector: bytes, blocks: bytes) -> bytes:
    """`cbc_decrypted`: SP 800-38A, 6.2."""
    reader = Cipher(algorithms.AES(key), modes.CBC(vector)).decryptor()
    return reader.update(blocks) + reader.finalize()


def cbc_encrypted(key: bytes, vector: bytes, blocks: bytes) -> bytes:
    """`cbc_encrypted`: SP 800-38A, 6.2."""
    writer = Cipher(algorithms.AES(key), modes.CBC(vector)).encryptor()
    return writer.update(blocks) + writer.finalize()


def cmac(key: bytes, message: bytes) -> bytes:
    """`cmac`: RFC 4493, 2.4."""
    chain = CMAC(algorithms.AES(key))
    chain.update(message)
    return chain.finalize()


@lru_cache(maxsize=4096)
def derived(key: bytes, constant: int, counter: int, identification: bytes) -> bytes:
    """`derived`: the CMAC of constant, counter, identification and seven 07."""
    return cmac(key, bytes([constant]) + counter.to_bytes(4, "little") + identification + bytes([7]) * 7)
