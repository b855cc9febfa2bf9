"""OSCORE by another hand. The ciphers are those of Python's `cryptography` (Debian's python3-cryptography); the rest is written from the RFCs alone: CoAP
(RFC 7252), OSCORE (RFC 8613), and the exchange at authz-info (RFC 9203)."""
from cryptography.hazmat.primitives.ciphers.aead import AESCCM
from cryptography.hazmat.primitives.hashes import SHA256
from cryptography.hazmat.primitives.kdf.hkdf import HKDF

OSCORE = 9
TAGS = {10: 8, 30: 16}  # AES-CCM-16-64-128 and AES-CCM-16-128-128 (RFC 9053 section 4.2), and how many bytes their tags have
TOKEN, NONCE1, NONCE2, CLIENT_RECIPIENT_ID, SERVER_RECIPIENT_ID = 1, 40, 42, 43, 44  # RFC 9200 section 8.10, RFC 9203 section 4
METHODS = {"GET": 1, "POST": 2, "PUT": 3, "DELETE": 4}
CREATED, DELETED, CHANGED, CONTENT, NOT_FOUND = 0x41, 0x42, 0x44, 0x45, 0x84


def spelled(code):
    """A code as it is written (RFC 7252 section 3)."""
    return f"{code >> 5}.{code & 31:02}"


def head(major, number):
    """The shortest head of a CBOR item (RFC 8949 section 3)."""
    if number < 24:
        return bytes([major << 5 | number])
    if number < 256:
        return bytes([major << 5 | 24, number])
    return bytes([major << 5 | 25]) + number.to_bytes(2, "big")


def cbor(item):
    if item is None:
        return b"\xf6"
    if isinstance(item, int):
        return head(0, item)
    if isinstance(item, bytes):
        return head(2, len(item)) + item
    if isinstance(item, str):
        return head(3, len(item)) + item.encode()
    if isinstance(item, dict):
        return head(5, len(item)) + b"".join(cbor(key) + cbor(value) for key, value in item.items())
    return head(4, len(item)) + b"".join(map(cbor, item))


def members(payload):
    """The members of a CBOR map whose keys are numbers and whose values are byte strings."""

    def item(at):
        major, number = payload[at] >> 5, payload[at] & 31
        at += 1
        if number in (24, 25):
            width = number - 23
            number, at = int.from_bytes(payload[at : at + width], "big"), at + width
        if major == 2:
            return payload[at : at + number], at + number
        return number, at

    count, at = item(0)
    found = {}
    for _ in range(count):
        key, at = item(at)
        found[key], at = item(at)
    return found


def option(delta, value):
    """An option whose delta and length are below 269."""
    wide = [bytes([size - 13]) if size >= 13 else b"" for size in (delta, len(value))]
    return bytes([min(delta, 13) << 4 | min(len(value), 13)]) + b"".join(wide) + value


class Message:
    """A CoAP message (RFC 7252 section 3)."""

    def __init__(self, datagram):
        self.code, self.options, at = datagram[1], {}, 4 + (datagram[0] & 15)
        self.token = datagram[4:at]
        number = 0
        while at < len(datagram) and datagram[at] != 0xFF:
            delta, length = datagram[at] >> 4, datagram[at] & 15
            at += 1
            sizes = []
            for size in (delta, length):
                if size == 13:
                    size, at = 13 + datagram[at], at + 1
                elif size == 14:
                    size, at = 269 + int.from_bytes(datagram[at : at + 2], "big"), at + 2
                sizes.append(size)
            number += sizes[0]
            self.options.setdefault(number, datagram[at : at + sizes[1]])
            at += sizes[1]
        self.payload = datagram[at + 1 :]


class Context:
    """A security context (RFC 8613 section 3.2)."""

    def __init__(self, secret, algorithm, salt, client_id, server_id):
        def derived(name, kind, length):
            info = cbor([name, None, algorithm, kind, length])
            return HKDF(SHA256(), length, salt, info).derive(secret)

        def cipher(name):
            return AESCCM(derived(name, "Key", 16), tag_length=TAGS[algorithm])

        self.algorithm, self.salt, self.client_id, self.server_id = algorithm, salt, client_id, server_id
        self.iv = derived(b"", "IV", 13)
        self.ciphers = {"client": cipher(client_id), "server": cipher(server_id)}

    def under(self, partial_iv):
        """The nonce and the additional data of the client's request that has this Partial IV, and of its response (sections 5.2 to 5.4)."""
        own = self.client_id
        plain = bytes([len(own)]) + own.rjust(7, b"\0") + partial_iv.rjust(5, b"\0")
        nonce = bytes(a ^ b for a, b in zip(plain, self.iv))
        external = cbor([1, [self.algorithm], own, partial_iv, b""])
        return nonce, cbor(["Encrypt0", b"", external])

    def open(self, sender, partial_iv, sealed):
        """What the sender sealed under the nonce of this request."""
        nonce, additional = self.under(partial_iv)
        return self.ciphers[sender].decrypt(nonce, sealed, additional)

    def seal(self, partial_iv, text):
        """What the client seals."""
        nonce, additional = self.under(partial_iv)
        return self.ciphers["client"].encrypt(nonce, text, additional)


def made_context(secret, algorithm, asked, answer):
    """The context of this exchange. Both nonces make its master salt (RFC 9203 section 4.3), and each end says by which id it wants to be addressed."""
    salt = cbor(b"") + cbor(asked[NONCE1]) + cbor(answer[NONCE2])
    return Context(secret, algorithm, salt, answer[SERVER_RECIPIENT_ID], asked[CLIENT_RECIPIENT_ID])
