"""What the scripts that try the host share: messages as document 01 lays them out, and a host that runs."""
import os
import socket
import subprocess
import tempfile
import threading
import time

import sheet

HERE = os.path.dirname(os.path.abspath(__file__))


def message(kind, payload=b"", version=b"\x03\xfc"):
    return version + kind.to_bytes(2, "big") + len(payload).to_bytes(4, "big") + payload


def h(text):
    return bytes.fromhex(text)


def activation(address, kind=0):
    return message(0x0005, address.to_bytes(2, "big") + bytes([kind]) + bytes(4))


def activated(address, entity, code):
    return message(0x0006, address.to_bytes(2, "big") + entity.to_bytes(2, "big") + bytes([code]) + bytes(4))


def alive(address):
    return message(0x0008, address.to_bytes(2, "big"))


def diagnostic(source, target, user):
    return message(0x8001, source.to_bytes(2, "big") + target.to_bytes(2, "big") + user)


def reply(kind, source, target, code):
    """8002 or 8003 to what `source` said to `target`."""
    return message(kind, target.to_bytes(2, "big") + source.to_bytes(2, "big") + bytes([code]))


def nack(code):
    return message(0x0000, bytes([code]))


ALIVE_CHECK = message(0x0007)


def free_port():
    """A port whose next one is free too, for TCP and UDP."""
    for first in range(23400, 33400, 10):
        held = []
        try:
            for kind in (socket.SOCK_STREAM, socket.SOCK_DGRAM):
                for port in (first, first + 1):
                    held.append(socket.socket(socket.AF_INET, kind))
                    held[-1].bind(("127.0.0.1", port))
            return first
        except OSError:
            continue
        finally:
            for s in held:
                s.close()
    raise OSError("no two free ports on 127.0.0.1")


class Host:
    """The host as a process, with the sheet of rig.txt. `command` is what starts it."""

    def __init__(self, command, seconds=120, words=("--echo",)):
        self.port = free_port()
        self.folder = tempfile.TemporaryDirectory()
        self.sheet = os.path.join(self.folder.name, "sheet")
        with open(os.path.join(HERE, "rig.txt"), encoding="utf-8") as text:
            with open(self.sheet, "wb") as out:
                out.write(sheet.build(text.read()))
        self.lines = []
        self.closings = 0
        try:
            self.process = subprocess.Popen(
                [command, "--port", str(self.port), "--seconds", str(seconds), *words, self.sheet],
                stdin=subprocess.PIPE, stdout=subprocess.PIPE, stderr=subprocess.STDOUT, text=True)
        except OSError as fault:
            raise SystemExit(f"{command} can't be started: {fault.strerror}")
        self.reader = threading.Thread(target=self.read, daemon=True)
        self.reader.start()
        try:
            self.wait_for("farm 1 on 127.0.0.1 port")
        except AssertionError as fault:
            self.process.kill()
            raise SystemExit(str(fault))

    def read(self):
        for line in self.process.stdout:
            self.lines.append(line.rstrip("\n"))
            self.closings += line.startswith("close row")

    def wait_for(self, begin, count=1, seconds=10):
        """Until so many lines of the host's output begin like this."""
        end = time.monotonic() + seconds
        while sum(line.startswith(begin) for line in list(self.lines)) < count:
            if time.monotonic() > end or self.process.poll() is not None:
                raise AssertionError(f"the host did not print '{begin}' {count} times; it printed:\n" + "\n".join(self.lines[-20:]))
            time.sleep(0.01)

    def command(self, line):
        self.process.stdin.write(line + "\n")
        self.process.stdin.flush()

    def connect(self, farm):
        s = socket.create_connection(("127.0.0.1", self.port + farm), timeout=10)
        s.setsockopt(socket.IPPROTO_TCP, socket.TCP_NODELAY, 1)
        return s

    def ask(self, farm, datagram, seconds=5.0):
        """The answer to a datagram, or nothing."""
        with socket.socket(socket.AF_INET, socket.SOCK_DGRAM) as s:
            s.settimeout(seconds)
            s.sendto(datagram, ("127.0.0.1", self.port + farm))
            try:
                return s.recv(65536)
            except TimeoutError:
                return None

    def end(self):
        """Ends it; its exit status and its last lines."""
        self.process.terminate()
        status = self.process.wait(10)
        self.reader.join(5)
        return status, self.lines
