"""What the scripts of this folder share: servers that are started, and connections to them."""
import pathlib
import socket
import subprocess
import time


class Server:
    """A process that serves, with those that it starts."""

    def __init__(self, process, dict_address, http_address=None):
        self.process, self.dict_address, self.http_address = process, dict_address, http_address

    def processes(self):
        """The ids of the process and of its children."""
        pid = self.process.pid
        children = pathlib.Path(f"/proc/{pid}/task/{pid}/children").read_text().split()
        return [pid, *map(int, children)]

    def times(self):
        """Seconds of the processor's time of each process that is there, by its id."""
        found = {}
        for pid in self.processes():
            try:
                found[pid] = int(pathlib.Path(f"/proc/{pid}/schedstat").read_text().split()[0]) / 1e9
            except (FileNotFoundError, ProcessLookupError):
                continue
        return found

    def spent_since(self, before):
        """Seconds that were taken since these times, by processes that are still there."""
        return sum(seconds - before.get(pid, 0) for pid, seconds in self.times().items())

    def memory(self):
        """Resident memory in kilobytes, and how much of it no other process shares."""
        resident = own = 0
        for pid in self.processes():
            try:
                lines = pathlib.Path(f"/proc/{pid}/smaps_rollup").read_text().splitlines()
            except (FileNotFoundError, ProcessLookupError):   # it has ended meanwhile
                continue
            for line in lines:
                name, *rest = line.split()
                resident += int(rest[0]) if name == "Rss:" else 0
                own += int(rest[0]) if name.startswith("Private_") else 0
        return resident, own

    def kill(self):
        self.process.kill()
        self.process.wait()


def address_of(line, word):
    """The address in a line that says which of the two it is."""
    first, text = line.split()
    assert first == word, line
    host, port = text.rsplit(":", 1)
    return host, int(port)


def serve(program, path):
    """dictcat over the catalogue in a file, at two free ports."""
    free = "127.0.0.1:0"
    process = subprocess.Popen([program, "serve", path, "--dict", free, "--http", free], stdout=subprocess.PIPE, text=True)
    dict_address = address_of(process.stdout.readline(), "dict")
    return Server(process, dict_address, address_of(process.stdout.readline(), "http"))


def opened(address):
    """A connection whose greeting was read."""
    it = socket.create_connection(address)
    it.setsockopt(socket.IPPROTO_TCP, socket.TCP_NODELAY, 1)
    greeting = b""
    while not greeting.endswith(b"\r\n"):
        more = it.recv(4096)
        assert more, "no greeting"
        greeting += more
    return it


def started(process, address):
    """A server of another program's, once it greets."""
    for _ in range(6000):
        time.sleep(0.01)
        assert process.poll() is None, f"{process.args[0]} has ended"
        try:
            opened(address).close()
            return Server(process, address)
        except (OSError, AssertionError):
            continue
    raise TimeoutError(f"{process.args[0]} doesn't greet")


def closed(held):
    """Closes connections, and leaves the server time to see it: while 64 are open dictcat takes no other."""
    for it in held:
        it.close()
    time.sleep(0.3)


def request(address, method, target, request_id, body=b""):
    """The status and the body that an editor's request is answered."""
    with socket.create_connection(address) as it:
        it.sendall(b"%s %s HTTP/1.1\r\nRequest-Id: %s\r\nContent-Length: %d\r\n\r\n" % (method, target, request_id, len(body)) + body)
        answer = b""
        while more := it.recv(65536):
            answer += more
    head, _, text = answer.partition(b"\r\n\r\n")
    length = next((int(line.split()[1]) for line in head.split(b"\r\n") if line.startswith(b"Content-Length:")), None)
    if length is None or len(text) != length:
        raise ConnectionError("the answer is cut off")
    return int(head.split()[1]), text


def install(address, name, request_id, index, text):
    return request(address, b"PUT", b"/databases/" + name, request_id, b"%d\n%s%s" % (len(index), index, text))
