"""What the system tells of a process and of the machine, read from /proc."""
import os
import pathlib
import platform
import subprocess
import time

TICK = 1 / os.sysconf("SC_CLK_TCK")
SECONDS_OF_A_LOOK = 2


class Meter:
    """The processor time that a process takes from now on: to a nanosecond, or where one of its threads ended meanwhile, to
    a hundredth of a second."""

    def __init__(self, process):
        self.process, self.before, self.ticks_before = process, by_thread(process), ticks(process)

    def seconds(self):
        now = by_thread(self.process)
        if self.before.keys() <= now.keys():
            return (sum(now.values()) - sum(self.before.values())) / 1e9
        return (ticks(self.process) - self.ticks_before) * TICK


def by_thread(process):
    """Nanoseconds that each thread has had a processor."""
    files = pathlib.Path(f"/proc/{process}/task").glob("*/schedstat")
    return {file.parent.name: int(file.read_text().split()[0]) for file in files}


def ticks(process):
    """Processor time of a process so far, that of its ended threads too."""
    fields = pathlib.Path(f"/proc/{process}/stat").read_text().rpartition(")")[2].split()
    return int(fields[11]) + int(fields[12])


def switches(process):
    """How often its threads gave up a processor."""
    files = pathlib.Path(f"/proc/{process}/task").glob("*/status")
    return sum(int(line.split()[1]) for file in files for line in file.read_text().splitlines() if "ctxt_switches" in line)


def threads(process):
    """How many threads it has."""
    return len(list(pathlib.Path(f"/proc/{process}/task").iterdir()))


def resident_kilobytes(process):
    """Its memory that is in store."""
    lines = pathlib.Path(f"/proc/{process}/status").read_text().splitlines()
    return next(int(line.split()[1]) for line in lines if line.startswith("VmRSS:"))


def datagrams_lost():
    """Datagrams that found a receive buffer full, of the whole machine."""
    names, numbers = (line.split() for line in pathlib.Path("/proc/net/snmp").read_text().splitlines()
                      if line.startswith("Udp:"))
    return int(numbers[names.index("RcvbufErrors")])


def busy_share():
    """Which part of the processors is at work, over a look of some seconds."""
    def look():
        numbers = [int(number) for number in pathlib.Path("/proc/stat").read_text().splitlines()[0].split()[1:9]]
        return sum(numbers), numbers[3] + numbers[4]

    total, idle = look()
    time.sleep(SECONDS_OF_A_LOOK)
    total_after, idle_after = look()
    return 1 - (idle_after - idle) / max(1, total_after - total)


def machine():
    """What the figures are of."""
    cpu = [line.partition(":")[2].strip() for line in pathlib.Path("/proc/cpuinfo").read_text().splitlines()
           if line.startswith("model name")]
    memory = pathlib.Path("/proc/meminfo").read_text().split()[1]
    release = pathlib.Path("/etc/os-release").read_text() if pathlib.Path("/etc/os-release").is_file() else ""
    names = [line.partition("=")[2].strip('"') for line in release.splitlines() if line.startswith("PRETTY_NAME=")]
    cc = subprocess.run(["cc", "--version"], capture_output=True, text=True, check=False).stdout.splitlines()
    return {
        "day": time.strftime("%Y-%m-%d", time.gmtime()),
        "processors": os.cpu_count(),
        "processor": cpu[0] if cpu else platform.machine(),
        "memory_mb": int(memory) // 1024,
        "system": f"{names[0] if names else platform.system()}, Linux {platform.release()}",
        "compiler": cc[0] if cc else "unknown",
    }
