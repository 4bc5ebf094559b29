"""Machines in namespaces, with the program installed in each: a router that is also the switch, proxies, access servers, a home server.

The whole of it stands in a namespace of networks and of mounts of the script that calls it (`inside`), so that nothing of it is left
when the script has ended. The access servers are 10.20.0.1 to 10.20.0.60, behind the router. The router is 10.30.0.254, the home server
10.30.0.200, and the proxies' machines are 10.30.0.11 and so on. A machine has the files of this one, but what it writes is its own, except
below /mnt, which all of them have.
"""
import contextlib
import ctypes
import os
import pathlib
import shutil
import socket
import subprocess
import sys
import tempfile

from tests.lib import TOP, conclude, configured, environment, need, until
from tests.lib.starting import LIBC, Server, end_with_parent

EXAMPLES = TOP / "examples" / "cluster"
NASES = [f"10.20.0.{number}" for number in range(1, 61)]
ROUTER, HOME, ADDRESS = "10.30.0.254", "10.30.0.200", "10.30.0.1"
PORT = 1813
NAS_SECRET, HOME_SECRET = b"a secret of all clients", b"a secret of the home server"
NEW_NETWORK = 0x40000000
PLACES = "/usr/local/sbin:/usr/local/bin:/usr/sbin:/usr/bin:/sbin:/bin"
# The namespaces that a machine has of its own.
ALONE = ["--net", "--mount", "--pid", "--uts", "--fork", "--kill-child"]
# The first process of a machine: it waits for the processes that nobody else waits for.
INIT = ("import os, time\nprint(flush=True)\nwhile True:\n    try:\n        os.wait()\n    except ChildProcessError:\n"
        "        time.sleep(0.05)")
ROOT = """set -e
mount -t overlay -o lowerdir={installed}:/,upperdir={room}/upper,workdir={room}/work none {room}/root
cd {room}/root
mount -t proc none proc && mount -t sysfs none sys && mount --bind /dev dev && mount -t tmpfs none run && mount -t tmpfs none tmp
mount --bind {shared} mnt
ip link set lo up
exec chroot . "$1" -c "$2"
"""
# What stands for systemd in a machine: it stops, starts and restarts `serve` of an instance.
SYSTEMCTL = """#!/bin/sh
[ "${1-}" != --no-block ] || shift
word=$1 instance=${2%.service} config=rad_proxy
case $instance in
rad_proxy@*) config=${instance#*@} instance=rad_proxy-$config ;;
esac
[ ! -f /etc/rad_proxy/environment ] || . /etc/rad_proxy/environment
pid=/run/$instance.pid
case $word in
is-active) kill -0 "$(cat "$pid")" 2>/dev/null ;;
stop | restart)
	if kill -TERM "$(cat "$pid")" 2>/dev/null; then
		while kill -0 "$(cat "$pid")" 2>/dev/null; do sleep 0.02; done
	fi
	;;
esac
case $word in
start | restart)
	echo "$word $instance" >>/run/systemctl.log
	RUNTIME_DIRECTORY=/run/$instance RAD_PROXY_LOG=debug \\
		setsid /usr/libexec/rad_proxy/serve "/etc/rad_proxy/$config.toml" </dev/null >>"/run/$instance.out" 2>>"/run/$instance.log" 3>&- &
	echo $! >"$pid"
	;;
esac
"""


def inside(main, *programs):
    """Runs the script in namespaces of its own, or says why it is left out: it wants root and these programs."""
    os.environ["PATH"] += ":/usr/sbin:/sbin"
    missing = [program for program in ("unshare", "nsenter", "ip", *programs) if not shutil.which(program)]
    if os.geteuid() or missing or subprocess.run(["unshare", *ALONE, "true"], check=False).returncode:
        print(f"left out: it wants {', '.join(missing) or 'root'}")
        conclude(0, 0)
    if os.environ.get("RAD_PROXY_INSIDE") != "yes":
        os.environ["RAD_PROXY_INSIDE"] = "yes"
        words = ["unshare", "--net", "--mount", "--propagation", "private", sys.executable, "-m", sys.modules["__main__"].__spec__.name]
        os.execvp(words[0], [*words, *sys.argv[1:]])
    with tempfile.TemporaryDirectory() as folder:
        run("mount", "-t", "tmpfs", "none", folder)
        try:
            main(pathlib.Path(folder))
        finally:
            subprocess.run(["umount", "-l", folder], check=False, stderr=subprocess.DEVNULL)


def run(*words, **options):
    """Runs a command that has to succeed, and gives what it prints."""
    pipes = {"stdout": subprocess.PIPE, "stderr": subprocess.STDOUT} | options
    done = subprocess.run([str(word) for word in words], text=True, check=False, **pipes)
    need(done.returncode == 0, *words, "ended with", done.returncode, done.stdout)
    return done.stdout


def proxy_text(listen=f"0.0.0.0:{PORT}", number=1, clients=(), window=200):
    """The configuration of an instance, whose home server is at a port that tells which instance asks."""
    home = Server("main", f"{HOME}:{PORT + number - 1}", f"window = {window}\n", secret=HOME_SECRET.decode())
    return configured(listen, [home], [*NASES, *clients], secret=NAS_SECRET.decode(), linger=3000, default="main")


class Machine:
    """One machine. Its link is that to the router's machine, which is also the switch."""

    def __init__(self, site, name, addresses, gateway=ROUTER):
        self.site, self.name, self.address = site, name, addresses[0] if addresses else None
        self.room = site.folder / name
        for part in ("upper", "work", "root"):
            (self.room / part).mkdir(parents=True)
        script = ROOT.format(installed=site.installed, room=self.room, shared=site.shared)
        words = ["unshare", *ALONE, "sh", "-c", script, "sh", sys.executable, INIT]
        self.holder = subprocess.Popen(words, stdin=subprocess.DEVNULL, stdout=subprocess.PIPE, preexec_fn=end_with_parent)
        need(self.holder.stdout.readline() == b"\n", f"the machine {name} does not begin")
        self.init = int(pathlib.Path(f"/proc/{self.holder.pid}/task/{self.holder.pid}/children").read_text().split()[0])
        self.is_alive, self.last_logs = True, ""
        if addresses:
            site.join(self, addresses, gateway)

    def write(self, path, text, mode=0o644):
        """Writes a file of it."""
        place = self.path(path)
        place.parent.mkdir(parents=True, exist_ok=True)
        place.write_text(text)
        place.chmod(mode)

    def path(self, path):
        """A file of it, as this script finds it."""
        return pathlib.Path(f"/proc/{self.init}/root") / path.lstrip("/")

    def read(self, path):
        """The text of a file of it, or nothing."""
        with contextlib.suppress(OSError):
            return self.path(path).read_text("utf-8", "replace")
        return ""

    def words(self, *words):
        """The words that have a command run there."""
        return ["nsenter", f"--target={self.init}", "--net", "--mount", "--pid", "--uts", "--root", "--wd", *map(str, words)]

    def run(self, *words, **options):
        """Runs a command there that has to succeed."""
        return run(*self.words(*words), env=self.environment(), **options)

    def tries(self, *words):
        """Runs a command there, and gives its status."""
        return subprocess.run(self.words(*words), env=self.environment(), capture_output=True, check=False).returncode

    def start(self, log, *words):
        """Starts a command there, which ends with the machine; what it prints is in a file of /run."""
        with self.path(f"/run/{log}").open("ab") as told:
            return subprocess.Popen(self.words(*words), env=self.environment(), stdin=subprocess.DEVNULL, stdout=told, stderr=told)

    @staticmethod
    def environment():
        return environment() | {"PATH": PLACES}

    def install(self, *files, to="/usr/local/sbin", mode=0o755):
        """Puts files of examples/cluster/ there."""
        for file in files:
            self.write(f"{to}/{pathlib.Path(file).name}", (EXAMPLES / file).read_text(), mode)

    def end(self, script):
        """Ends a script of the recipe there, where it runs."""
        self.run("sh", "-c", f"kill $(pgrep -f '[/]{script}') 2>/dev/null; :")

    def kill_service(self, instance):
        """Kills the program of an instance, and `serve` with it, without a word to them."""
        self.run("sh", "-c", f"kill -s KILL -- -$(cat /run/{instance.replace('@', '-')}.pid)")

    def die(self):
        """The machine loses its link and all its processes at once."""
        self.is_alive, self.last_logs = False, self.logs()
        self.site.router.run("ip", "link", "set", self.name, "down")
        self.stop()

    def stop(self):
        """Ends it with all its processes."""
        self.holder.kill()
        self.holder.wait()
        self.holder.stdout.close()

    def serve(self, text, instance="rad_proxy"):
        """Starts an instance of the service with this configuration, and waits until it listens."""
        self.write(f"/etc/rad_proxy/{instance.partition('@')[2] or 'rad_proxy'}.toml", text)
        self.restart(instance)

    def restart(self, instance="rad_proxy"):
        """Starts an instance anew, and waits until it listens."""
        out = f"/run/{instance.replace('@', '-')}.out"
        before = self.read(out).count("listening")
        self.run("systemctl", "restart", instance, stdin=subprocess.DEVNULL)
        until(f"{self.name} listens", lambda: self.read(out).count("listening") > before, 10)

    def logs(self):
        """What the instances there logged, up to the death of the machine."""
        if not self.is_alive:
            return self.last_logs
        return "".join(self.read(f"/run/{place.name}") for place in self.path("/run").glob("rad_proxy*.log"))


class Site:
    """All machines, and what is between them."""

    def __init__(self, program, folder):
        self.folder, self.installed, self.shared, self.machines = folder, folder / "installed", folder / "shared", []
        self.shared.mkdir()
        programs = [f"{name}={program}" for name in ("PROGRAM", "AUDITOR")]
        run("make", "-s", "install-proxy", f"DESTDIR={self.installed}", "PREFIX=/usr", *programs, cwd=TOP)
        (self.installed / "usr/bin/systemctl").write_text(SYSTEMCTL)
        (self.installed / "usr/bin/systemctl").chmod(0o755)
        self.router = self.add("router", [])
        self.router.run("ip", "link", "add", "lan", "type", "bridge")
        self.router.run("ip", "link", "set", "lan", "up")
        self.router.run("ip", "address", "add", f"{ROUTER}/24", "dev", "lan")
        self.router.run("sh", "-c", "echo 1 >/proc/sys/net/ipv4/ip_forward")
        self.nas = self.add("nas", [f"{address}/24" for address in NASES], "10.20.0.254")
        self.home = self.add("home", [HOME + "/24"])

    def add(self, name, addresses, gateway=ROUTER):
        made = Machine(self, name, addresses, gateway)
        self.machines.append(made)
        return made

    def proxy(self, number):
        """A machine for proxies: the first is `one`, at 10.30.0.11."""
        return self.add(("one", "two", "three", "four")[number - 1], [f"10.30.0.{10 + number}/24"])

    def join(self, machine, addresses, gateway):
        """Links a machine with the router."""
        router = self.router.init
        run("ip", "link", "add", machine.name, "netns", router, "type", "veth", "peer", "name", "eth0", "netns", machine.init)
        if machine.name == "nas":
            self.router.run("ip", "address", "add", f"{gateway}/24", "dev", machine.name)
        else:
            self.router.run("ip", "link", "set", machine.name, "master", "lan")
        self.router.run("ip", "link", "set", machine.name, "up")
        lines = [*(f"address add {address} dev eth0" for address in addresses), "link set eth0 up", f"route add default via {gateway}"]
        machine.run("ip", "-batch", "-", input="\n".join([*lines, ""]))

    def socket_at(self, machine, address, port=0):
        """A UDP socket of a machine's address."""
        with open("/proc/thread-self/ns/net", "rb") as own, open(f"/proc/{machine.init}/ns/net", "rb") as other:
            try:
                if LIBC.setns(other.fileno(), NEW_NETWORK):
                    raise OSError(ctypes.get_errno(), "setns")
                made = socket.socket(socket.AF_INET, socket.SOCK_DGRAM)
                made.setsockopt(socket.SOL_SOCKET, socket.SO_RCVBUF, 1 << 20)
                made.bind((address, port))
                made.setblocking(False)
                return made
            finally:
                LIBC.setns(own.fileno(), NEW_NETWORK)

    def stop(self):
        for machine in self.machines:
            if machine.is_alive:
                machine.stop()
