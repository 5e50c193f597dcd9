"""What both servers are measured with: a load, a server of its own for each run, and two clients; and what is printed."""
import multiprocessing
import os
import shutil
import socket
import subprocess
import tempfile
import time
from dataclasses import dataclass

# A publish of the library carries 64 events, which is the most it may. A client of a server sends 256 at a time.
BATCH = 64
PIPELINE = 256
# How many events of a producer are on their way to a server at most.
WINDOW = 4 * PIPELINE
# After how many seconds without a byte a client gives up.
PATIENCE = 60


@dataclass(frozen=True)
class Load:
    """The length of each payload, the number of streams with a consumer each, and the batches to each stream."""

    payload: int
    consumers: int
    rounds: int

    @property
    def each(self):
        """How many events a consumer handles."""
        return self.rounds * BATCH

    @property
    def events(self):
        return self.consumers * self.each

    def publish(self, batches, send, answers):
        """Sends the batches of the streams in turn, where each stream has one, and waits for the answers to all.

        `send` sends bytes, and `answers` waits for some and says how many came.
        """
        waiting, held = 0, []
        for _ in range(self.rounds):
            for batch in batches:
                held.append(batch)
                if len(held) * BATCH == PIPELINE:
                    send(b"".join(held))
                    held, waiting = [], waiting + PIPELINE
                while waiting > WINDOW - PIPELINE:
                    waiting -= answers()
        send(b"".join(held))
        waiting += len(held) * BATCH
        while waiting > 0:
            waiting -= answers()


@dataclass(frozen=True)
class Run:
    """The seconds of a run, and the processor time of the server, or of the library, and of the clients."""

    seconds: float
    server: float
    clients: float


def connect(port):
    """A connection on the loopback, as soon as somebody listens."""
    for _ in range(200):
        try:
            link = socket.create_connection(("127.0.0.1", port))
            link.setsockopt(socket.IPPROTO_TCP, socket.TCP_NODELAY, 1)
            link.settimeout(PATIENCE)
            return link
        except ConnectionRefusedError:
            time.sleep(0.05)
    raise RuntimeError(f"nothing listens on port {port}")


def receive(link):
    """Some bytes, at least one."""
    told = link.recv(1 << 20)
    if not told:
        raise ConnectionError("the server has closed the connection")
    return told


def free_port():
    """A port that nobody listens on."""
    with socket.socket() as it:
        it.bind(("127.0.0.1", 0))
        return it.getsockname()[1]


class Server:
    """A server in a process of its own, with a folder that goes when it goes."""

    def __init__(self, words_of):
        self.port = free_port()
        self.folder = tempfile.mkdtemp(prefix="streams-compare-")
        words = words_of(self.port, self.folder)
        self.process = subprocess.Popen(words, stdout=subprocess.DEVNULL, stderr=subprocess.DEVNULL)

    def __enter__(self):
        return self

    def __exit__(self, *_):
        self.process.terminate()
        self.process.wait()
        shutil.rmtree(self.folder, ignore_errors=True)

    def processor(self):
        """The processor time that it has taken, in seconds."""
        with open(f"/proc/{self.process.pid}/stat") as it:
            fields = it.read().rsplit(")", 1)[1].split()
        return (int(fields[11]) + int(fields[12])) / os.sysconf("SC_CLK_TCK")


class Client:
    """A client in a process of its own. `prepare` does what isn't measured, and gives the function that is."""

    def __init__(self, prepare, port, load):
        fork = multiprocessing.get_context("fork")
        self.pipe, theirs = fork.Pipe()
        self.process = fork.Process(target=Client.work, args=(theirs, prepare, port, load), daemon=True)
        self.process.start()
        theirs.close()
        # It is ready.
        self.pipe.recv()

    @staticmethod
    def work(pipe, prepare, port, load):
        with connect(port) as link:
            step = prepare(link, load)
            pipe.send("ready")
            pipe.recv()
            before = time.process_time()
            step()
            pipe.send(time.process_time() - before)

    def go(self):
        self.pipe.send("go")

    def end(self):
        """Waits until it is done, and gives the processor time that it took."""
        spent = self.pipe.recv()
        self.process.join()
        return spent


def measure(server, produce, consume, load):
    """A run of a producer and a consumer, from the first publish to the last acknowledgement."""
    consumer = Client(consume, server.port, load)
    producer = Client(produce, server.port, load)
    before, start = server.processor(), time.monotonic()
    consumer.go()
    producer.go()
    clients = consumer.end()
    seconds, spent = time.monotonic() - start, server.processor() - before
    return Run(seconds, spent, clients + producer.end())


def counted(number, word):
    return f"{number} {word}" if number == 1 else f"{number} {word}s"


def print_table(head, rows):
    """A table, as Markdown."""
    print("| " + " | ".join(head) + " |")
    print("|" + "---|" * len(head))
    for row in rows:
        print("| " + " | ".join(row) + " |")
    print()
