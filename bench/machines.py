"""Machines that are network namespaces, and the network between them: what bench/hosts and bench/kills have in common.

Each machine has a device of its own (tun), and whoever makes them is the network between these: of a hundred packets it loses 5, lets
each take 20 ms, 10 ms more or less, and sends a quarter at once, before those that wait. A machine that loses its power says nothing
more on the connections that it had, and answers what comes on them, once it is on again, as one that knows nothing of them.

Needs Linux, root, `ip`, and /dev/net/tun.
"""

import fcntl
import heapq
import os
import select
import struct
import subprocess
import threading
import time

LOSS = 0.05
AT_ONCE = 0.25
DELAY = (0.010, 0.030)

TCP = 6
RESETS = 4


def ip(*words):
    subprocess.run(["ip", *words], check=True, stdout=subprocess.DEVNULL, stderr=subprocess.PIPE)


def ends_of(packet, number, to):
    """The two ends of a packet's connection."""
    head = packet[0] % 16 * 4
    source, target = struct.unpack_from(">HH", packet, head)
    return frozenset([(number, source), (to, target)])


def check_sum(data):
    total = sum(struct.unpack(f">{len(data) // 2}H", data))
    while total > 0xFFFF:
        total = total % 0x10000 + total // 0x10000
    return struct.pack(">H", total ^ 0xFFFF)


def reset_for(packet):
    """What a machine answers to a packet of a connection that it doesn't know: none to one that resets it."""
    head = packet[0] % 16 * 4
    source, target, _, acknowledged, _, flags = struct.unpack_from(">HHIIBB", packet, head)
    if flags & RESETS:
        return None
    hosts = packet[16:20] + packet[12:16]
    segment = struct.pack(">HHIIBBHHH", target, source, acknowledged, 0, 5 * 16, RESETS, 0, 0, 0)
    summed = check_sum(hosts + struct.pack(">HH", TCP, len(segment)) + segment)
    header = struct.pack(">BBHHHBBH", 0x45, 0, 20 + len(segment), 0, 0, 64, TCP, 0) + hosts
    return header[:10] + check_sum(header) + header[12:] + segment[:16] + summed + segment[18:]


class Network:
    """Namespaces with a device each, and a thread that is the network between these."""

    def __init__(self, name, machines, chance):
        self.chance = chance
        self.names = [f"{name}m{number}" for number in range(machines)]
        self.down_until = [0.0] * machines
        # Connections, each as its two ends, and who of them lost its power since.
        self.connections, self.gone = set(), {}
        self.devices, self.waiting, self.count, self.is_over = [], [], 0, False
        for number, space in enumerate(self.names):
            ip("netns", "add", space)
            device = os.open("/dev/net/tun", os.O_RDWR | os.O_NONBLOCK)
            inside = f"{name}t{number}"
            fcntl.ioctl(device, 0x400454CA, struct.pack("16sH", inside.encode(), 0x0001 | 0x1000))
            ip("link", "set", inside, "netns", space)
            ip("-n", space, "addr", "add", f"{self.address(number)}/24", "dev", inside)
            ip("-n", space, "link", "set", "lo", "up")
            ip("-n", space, "link", "set", inside, "mtu", "1400", "up")
            self.devices.append(device)
        self.thread = threading.Thread(target=self.carry, daemon=True)
        self.thread.start()

    def address(self, number):
        return f"10.77.0.{number + 1}"

    def carry(self):
        while not self.is_over:
            now = time.monotonic()
            while self.waiting and self.waiting[0][0] <= now:
                _, _, to, packet = heapq.heappop(self.waiting)
                try:
                    os.write(self.devices[to], packet)
                except OSError:
                    pass
            left = max(0.0, self.waiting[0][0] - now) if self.waiting else 0.02
            ready, _, _ = select.select(self.devices, [], [], min(left, 0.02))
            for device in ready:
                self.take(self.devices.index(device))

    def take(self, number):
        try:
            packet = os.read(self.devices[number], 2048)
        except OSError:
            return
        now = time.monotonic()
        if len(packet) < 20 or packet[0] >> 4 != 4:
            return
        to = packet[19] - 1
        if not 0 <= to < len(self.devices) or packet[16:19] != bytes([10, 77, 0]):
            return
        if now < self.down_until[number] or now < self.down_until[to] or self.chance.random() < LOSS:
            return
        if packet[9] == TCP:
            ends = ends_of(packet, number, to)
            self.connections.add(ends)
            gone = self.gone.get(ends, ())
            if number in gone:
                return
            if to in gone:
                number, to, packet = to, number, reset_for(packet)
                if packet is None:
                    return
        delay = 0.0 if self.chance.random() < AT_ONCE else self.chance.uniform(*DELAY)
        self.count += 1
        heapq.heappush(self.waiting, (now + delay, self.count, to, packet))

    def take_down(self, number, seconds):
        self.down_until[number] = time.monotonic() + seconds

    def lose_power(self, number, seconds):
        """From now on for so long nothing comes to a machine or from it, and the connections that it has are none later."""
        self.take_down(number, seconds)
        for ends in list(self.connections):
            if any(machine == number for machine, _ in ends):
                self.gone.setdefault(ends, set()).add(number)

    def end(self):
        self.is_over = True
        self.thread.join()
        for device in self.devices:
            os.close(device)
        for space in self.names:
            subprocess.run(["ip", "netns", "del", space], check=False, stderr=subprocess.DEVNULL)
