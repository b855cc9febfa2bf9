"""Whether a holder who fills the tree can still be revoked, by a real file and sockets on loopback.

    bash bench/run fills [REQUESTS]

A server has a store and a revocation path. A holder of PUT on `/a` and all below it makes REQUESTS resources there, 1100 where they are left out. 960 are
made, and each of the others has to be 5.03. Then the owner revokes the holder's token, by a resource below the revocation path: that has to be made, and the
holder has to be refused from then on, also after the server was killed and starts again from its store. The owner lets the holder in again.

The same then with a token of the owner's that the settings revoke (`revoked_ids`), and while 63 others hold contexts, one place being the owner's
(`reserved_id`).

The status is 1 where something isn't so. It needs the port 5986 of this machine."""
import pathlib
import tempfile

from lib import Holder, Server, fail, given

PORT = 5986
# How many resources there may be elsewhere, and how many token ids have contexts at once.
MOST, IDS = 960, 64


def server(folder, *more):
    """A server over a store in this folder."""
    return Server(folder, PORT, "open = []", f'store = "{folder}/store"', 'revoked = "/revoked"', *more)


def holder(folder, id, scope):
    return Holder(folder, PORT, scope, id, id * 16)


def answer(holder, method, path, *more):
    """The code that the holder is answered, after `unverified` where the answer isn't protected."""
    said = holder.ask(method, path, *more).splitlines()[0].split()
    return said[2] if said[:2] == ["c1", "answer"] else " ".join(said[1:3])


def has(holder, wanted, method, path, *more):
    told = answer(holder, method, path, *more)
    if told != wanted:
        fail(f"{method} {path} by {holder.config.stem} is answered {told}, and not {wanted}")


def fill(folder, requests):
    thief, owner = holder(folder, "02", "/a:PUT+SUB"), holder(folder, "01", "/revoked:PUT+DELETE+SUB")
    with server(folder):
        for number in range(requests):
            has(thief, "2.01" if number < MOST else "5.03", "PUT", f"/a/{number}", "--text", "mine")
        has(owner, "2.01", "PUT", "/revoked/02", "--text", "")
        has(thief, "unverified 4.01", "PUT", "/a/0", "--text", "mine")
    print(f"fills: of {requests} resources {min(requests, MOST)} were made, the token was revoked, and its holder is refused", flush=True)
    with server(folder):
        has(thief, "unverified 4.01", "PUT", "/a/0", "--text", "mine")
        has(owner, "2.02", "DELETE", "/revoked/02")
        has(thief, "2.04", "PUT", "/a/0", "--text", "mine")
    print("fills: so it is after a restart, until the owner lets it in again", flush=True)
    with server(folder, 'revoked_ids = ["02"]'):
        has(thief, "unverified 4.01", "PUT", "/a/0", "--text", "mine")
    print("fills: so it is where the settings revoke it", flush=True)


def keep_out(folder):
    owner = holder(folder, "01", "/revoked:PUT+DELETE+SUB")
    with server(folder, 'reserved_id = "01"'):
        for number in range(IDS):
            told = answer(holder(folder, f"{number + 16:02x}", "/a:GET"), "GET", "/a")
            if told != ("4.04" if number < IDS - 1 else "unverified 5.03"):
                fail(f"holder {number + 1} of {IDS} is answered {told}")
        has(owner, "2.01", "PUT", "/revoked/10", "--text", "")
    print(f"fills: with contexts of {IDS - 1} others, the owner's place was free", flush=True)


requests = given(1100)
with tempfile.TemporaryDirectory() as folder:
    fill(pathlib.Path(folder), requests)
with tempfile.TemporaryDirectory() as folder:
    keep_out(pathlib.Path(folder))
