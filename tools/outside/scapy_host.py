#!/usr/bin/env python3
"""Tries the example host with scapy's DoIP layer: a tester that is not ours.

    scapy_host.py [COMMAND]     COMMAND starts the host; examples/host/run if none is given

It needs scapy (Debian: python3-scapy; 2.5.0 was used). Scapy builds each message that is sent and takes apart each one that comes back.
The stream is cut into messages here, by the length in the header, because scapy 2.5.0 takes two messages in one segment for one.
Scapy speaks version 02 unless it is told otherwise, and it expects 33 bytes in a 0004, where ISO allows 32 or 33 and the core
sends 32.
"""
import os
import sys

ROOT = os.path.dirname(os.path.dirname(os.path.dirname(os.path.abspath(__file__))))
HOST = os.path.join(ROOT, "examples", "host")
sys.path.insert(0, HOST)

from rig import Host  # noqa: E402

try:
    from scapy.contrib.automotive.doip import DoIP
    from scapy.contrib.automotive.uds import UDS, UDS_RDBI, UDS_TP
except ImportError:
    print("scapy_host.py: scapy is not installed (Debian: python3-scapy)", file=sys.stderr)
    sys.exit(2)


def ours(**fields):
    return DoIP(protocol_version=3, inverse_version=0xFC, **fields)


def check(what, packet, **wanted):
    """Each field of the packet as scapy reads it."""
    if packet is None:
        raise AssertionError(f"{what}: no answer")
    wanted = {"protocol_version": 3, "inverse_version": 0xFC, **wanted}
    for name, value in wanted.items():
        got = packet.getfieldval(name)
        if got != value:
            raise AssertionError(f"{what}: {name} is {got!r}, wanted {value!r}")
    print(f"ok  {what}: " + ", ".join(f"{n} {v:#x}" if isinstance(v, int) else f"{n} {v!r}" for n, v in wanted.items()))


def ask(host, farm, packet):
    got = host.ask(farm, bytes(packet))
    if got is None:
        return None
    # the 33rd byte that scapy wants; the length field still says what was sent
    return DoIP(got + b"\0" if got[2:4] == b"\0\x04" and len(got) == 40 else got)


class Tester:
    def __init__(self, host, farm):
        self.socket = host.connect(farm)

    def send(self, packet):
        self.socket.sendall(bytes(packet))

    def exactly(self, count):
        got = b""
        while len(got) < count:
            more = self.socket.recv(count - len(got))
            if not more:
                raise AssertionError(f"closed after {got.hex()}")
            got += more
        return got

    def next(self):
        head = self.exactly(8)
        return DoIP(head + self.exactly(int.from_bytes(head[4:8], "big")))

    def closed(self, what):
        try:
            rest = self.socket.recv(100)
        except ConnectionResetError:
            rest = b""
        if rest:
            raise AssertionError(f"{what}: {rest.hex()} in place of a close")
        print(f"ok  {what}: closed")


def datagrams(host):
    who = dict(payload_type=4, payload_length=32, vin=b"DOKRAWIN000000001", logical_address=0x1000,
               eid=bytes.fromhex("020000000001"), gid=bytes.fromhex("0200000000ff"), further_action=0)
    check("identification", ask(host, 0, ours(payload_type=1)), **who)
    check("identification by EID", ask(host, 0, ours(payload_type=2, eid=who["eid"])), **who)
    check("identification by VIN", ask(host, 0, ours(payload_type=3, vin=who["vin"])), **who)
    check("entity status", ask(host, 0, ours(payload_type=0x4001)), payload_type=0x4002, payload_length=7, node_type=0,
          max_open_sockets=1, cur_open_sockets=0, max_data_size=2048)
    check("power mode", ask(host, 0, ours(payload_type=0x4003)), payload_type=0x4004, payload_length=1,
          diagnostic_power_mode=1)
    check("version 02: NACK", ask(host, 0, DoIP(payload_type=0x4003)), payload_type=0, payload_length=1, nack=0)


def connections(host):
    a = Tester(host, 0)
    a.send(ours(payload_type=5, source_address=0x0E00))
    check("activation", a.next(), payload_type=6, payload_length=9, logical_address_tester=0x0E00,
          logical_address_doip_entity=0x1000, routing_activation_response=0x10, reserved_iso=0, reserved_oem=b"")
    a.send(ours(payload_type=0x8001, source_address=0x0E00, target_address=0x1010) / UDS() / UDS_TP())
    check("diagnostic message: ack", a.next(), payload_type=0x8002, payload_length=5, source_address=0x1010,
          target_address=0x0E00, ack_code=0, previous_msg=b"")
    said = a.next()
    check("and the controller's answer", said, payload_type=0x8001, source_address=0x1010, target_address=0x0E00)
    check_uds("tester present", said, 0x7E)
    a.send(ours(payload_type=0x8001, source_address=0x0E00, target_address=0x1010) / UDS() / UDS_RDBI(identifiers=[0xF190]))
    check("read data by identifier: ack", a.next(), payload_type=0x8002, ack_code=0)
    check_uds("read data by identifier", a.next(), 0x62)
    a.send(ours(payload_type=0x8001, source_address=0x0E00, target_address=0x4444) / UDS() / UDS_TP())
    check("unknown target", a.next(), payload_type=0x8003, payload_length=5, source_address=0x4444, target_address=0x0E00,
          nack_code=3, previous_msg=b"")
    b = Tester(host, 0)
    b.send(ours(payload_type=5, source_address=0x0E01))
    check("a second tester asks: alive check request", a.next(), payload_type=7, payload_length=0)
    a.send(ours(payload_type=8, source_address=0x0E00))
    check("alive check answered: the second is refused", b.next(), payload_type=6, logical_address_tester=0x0E01,
          routing_activation_response=1)
    b.closed("the second")
    check("entity status meanwhile", ask(host, 0, ours(payload_type=0x4001)), payload_type=0x4002, cur_open_sockets=1)
    a.send(DoIP(payload_type=8, source_address=0x0E00))
    check("version 02 on TCP: NACK", a.next(), payload_type=0, payload_length=1, nack=0)
    a.closed("the first")


def check_uds(what, packet, service):
    if not packet.haslayer(UDS) or packet[UDS].service != service:
        raise AssertionError(f"{what}: {packet!r}")
    print(f"ok  {what}: service {service:#x}")


def main():
    host = Host(sys.argv[1] if len(sys.argv) > 1 else os.path.join(HOST, "run"))
    try:
        datagrams(host)
        connections(host)
    except (AssertionError, OSError) as fault:
        print(f"NOT {fault}")
        return 1
    finally:
        host.end()
    return 0


if __name__ == "__main__":
    sys.exit(main())
