"""Redis Streams: a stream, a group and a consumer for each consumer of a load."""
import re

from common import BATCH, PIPELINE, Server, connect, measure, receive

NAMES = {False: "Redis, in memory", True: "Redis, file"}

KEY = re.compile(rb"\*2\r\n\$\d+\r\n(s:\d+)\r\n")
IDENTIFIER = re.compile(rb"\$\d+\r\n\d+-\d+\r\n")
ACKNOWLEDGED = re.compile(rb"(?::\d+\r\n)*")


def command(*words):
    """A command as Redis reads it."""
    told = b"*%d\r\n" % len(words)
    for word in words:
        word = word if isinstance(word, bytes) else str(word).encode()
        told += b"$%d\r\n%b\r\n" % (len(word), word)
    return told


PING, PONG = command("PING"), b"+PONG\r\n"


def keys_of(load):
    return [b"s:%d" % number for number in range(load.consumers)]


def words_of(keeps):
    """The command of the server, which keeps its data in a file that is written through each second, or doesn't."""

    def words(port, folder):
        kept = ["--appendonly", "yes", "--appendfsync", "everysec"] if keeps else ["--appendonly", "no"]
        return ["redis-server", "--bind", "127.0.0.1", "--port", str(port), "--dir", folder, "--save", "", *kept]

    return words


def talk(link, commands):
    """The replies to commands. The reply to a PING behind them says where they end."""
    link.sendall(commands + PING)
    replies = bytearray()
    while not replies.endswith(PONG):
        replies += receive(link)
    return bytes(replies[: -len(PONG)])


def produce(link, load):
    payload = b"e" * load.payload
    batches = [command("XADD", key, "*", "d", payload) * BATCH for key in keys_of(load)]
    halves = 0

    def answers():
        # The reply to each XADD has two lines: the length of the identifier, and itself.
        nonlocal halves
        halves += receive(link).count(b"\n")
        whole, halves = divmod(halves, 2)
        return whole

    return lambda: load.publish(batches, link.sendall, answers)


def acknowledgements(reply):
    """The commands that acknowledge the events of a reply, and how many events these are."""
    commands, count = [], 0
    parts = KEY.split(reply)
    for key, events in zip(parts[1::2], parts[2::2]):
        own = IDENTIFIER.findall(events)
        count += len(own)
        commands.append(b"*%d\r\n$4\r\nXACK\r\n$%d\r\n%b\r\n$1\r\ng\r\n" % (len(own) + 3, len(key), key))
        commands += own
    return b"".join(commands), count


def consume(link, load):
    keys = keys_of(load)
    new = [b">"] * len(keys)
    read = command("XREADGROUP", "GROUP", "g", "c", "COUNT", PIPELINE, "BLOCK", 10_000, "STREAMS", *keys, *new)

    def handle():
        handled = acknowledged = 0
        acks = b""
        while acknowledged < load.events:
            reply = talk(link, acks + (read if handled < load.events else b""))
            acked = ACKNOWLEDGED.match(reply).group()
            acknowledged += sum(int(number) for number in acked.replace(b":", b"").split())
            acks, count = acknowledgements(reply[len(acked) :])
            handled += count
        if not handled == acknowledged == load.events:
            raise RuntimeError("not each event was acknowledged once")

    return handle


def run(load, keeps):
    """A run on a new server."""
    with Server(words_of(keeps)) as server, connect(server.port) as link:
        keys = keys_of(load)
        made = talk(link, b"".join(command("XGROUP", "CREATE", key, "g", "$", "MKSTREAM") for key in keys))
        if made != b"+OK\r\n" * len(keys):
            raise RuntimeError("a group isn't made")
        done = measure(server, produce, consume, load)
        lengths = talk(link, b"".join(command("XLEN", key) for key in keys))
        if lengths != b":%d\r\n" % load.each * len(keys):
            raise RuntimeError("a stream has another length")
        return done
