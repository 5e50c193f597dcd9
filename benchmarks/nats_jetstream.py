"""NATS JetStream: a stream with a subject and a durable consumer for each consumer of a load."""
import json
import re

from common import BATCH, PIPELINE, Server, connect, measure, receive

NAMES = {False: "JetStream, in memory", True: "JetStream, file"}
# How long the server waits for an acknowledgement, and for the events of a pull, in nanoseconds.
LONG = 300_000_000_000

DELIVERED = re.compile(rb"MSG s\.(\d+) 1 (\S+) \d+\r\n")
PING = b"PING\r\n"
ANSWERED = re.compile(rb"MSG _A 2 +0\r\n")


def words(port, folder):
    """The command of the server."""
    return ["nats-server", "-a", "127.0.0.1", "-p", str(port), "-js", "-sd", folder]


def publish_words(subject, answer, body):
    """A publish as NATS reads it, which is to be answered to a subject."""
    return b"PUB %b %b %d\r\n%b\r\n" % (subject.encode(), answer.encode(), len(body), body)


def greet(link):
    """Says hello, as each client does first."""
    receive(link)
    link.sendall(b'CONNECT {"verbose":false,"headers":true}\r\nPING\r\n')
    told = b""
    while not told.endswith(b"PONG\r\n"):
        told += receive(link)


def ask(link, subject, body=None):
    """What the server answers where its administration is asked for something."""
    link.sendall(publish_words("$JS.API." + subject, "_I", json.dumps(body).encode() if body else b""))
    told = b""
    while True:
        told += receive(link)
        # The server asks now and then whether somebody is there.
        if PING in told:
            told = told.replace(PING, b"")
            link.sendall(b"PONG\r\n")
        head, _, rest = told.partition(b"\r\n")
        if rest and len(rest) == int(head.split()[-1]) + 2:
            break
    answer = json.loads(rest)
    if "error" in answer:
        raise RuntimeError(answer["error"])
    return answer


def make(link, load, keeps):
    """Makes the stream and its consumers."""
    storage = "file" if keeps else "memory"
    ask(link, "STREAM.CREATE.S", {"name": "S", "subjects": ["s.*"], "storage": storage})
    for number in range(load.consumers):
        config = {
            "durable_name": f"c{number}",
            "filter_subject": f"s.{number}",
            "ack_policy": "explicit",
            "ack_wait": LONG,
            "max_ack_pending": load.each,
        }
        ask(link, f"CONSUMER.DURABLE.CREATE.S.c{number}", {"stream_name": "S", "config": config})


def check(link, load):
    """Sees that nothing is left to deliver or to acknowledge, and that each consumer has got each event once."""
    for number in range(load.consumers):
        told = ask(link, f"CONSUMER.INFO.S.c{number}")
        counts = told["num_pending"], told["num_ack_pending"], told["ack_floor"]["consumer_seq"]
        if counts != (0, 0, load.each):
            raise RuntimeError(f"the consumer {number} isn't done: {counts}")


def produce(link, load):
    greet(link)
    link.sendall(b"SUB _P 1\r\n")
    payload = b"e" * load.payload
    batches = [publish_words(f"s.{number}", "_P", payload) * BATCH for number in range(load.consumers)]
    # The answer to each publish is an object without others in it.
    return lambda: load.publish(batches, link.sendall, lambda: receive(link).count(b"}"))


class Consumers:
    """The consumers of a load on one connection."""

    def __init__(self, load):
        wants = json.dumps({"batch": PIPELINE, "expires": LONG}).encode()
        self.each = load.each
        self.counts = [0] * load.consumers
        self.pulls = [
            publish_words(f"$JS.API.CONSUMER.MSG.NEXT.S.c{number}", "_C", wants) for number in range(load.consumers)
        ]

    def acknowledge(self, number, answer):
        """What acknowledges an event of a consumer, with the next pull. The last acknowledgement is answered."""
        self.counts[number] += 1
        count = self.counts[number]
        if count == self.each:
            return b"PUB %b _A 4\r\n+ACK\r\n" % answer
        pull = self.pulls[number] if count % PIPELINE == 0 else b""
        return b"PUB %b 4\r\n+ACK\r\n%b" % (answer, pull)


def consume(link, load):
    greet(link)
    link.sendall(b"SUB _C 1\r\nSUB _A 2\r\n")
    consumers = Consumers(load)

    def handle():
        link.sendall(b"".join(consumers.pulls))
        rest, left = b"", load.consumers
        while left:
            rest += receive(link)
            told, end = [], 0
            for found in DELIVERED.finditer(rest):
                told.append(consumers.acknowledge(int(found[1]), found[2]))
                end = found.end()
            for found in ANSWERED.finditer(rest):
                left -= 1
                end = max(end, found.end())
            rest = rest[end:]
            if told:
                link.sendall(b"".join(told))

    return handle


def run(load, keeps):
    """A run on a new server."""
    with Server(words) as server, connect(server.port) as link:
        greet(link)
        link.sendall(b"SUB _I 1\r\n")
        make(link, load, keeps)
        done = measure(server, produce, consume, load)
        check(link, load)
        return done
