"""A container without systemd: `serve` is its first process, its ledger is in a volume, and SIGTERM drains it.

usage: python3 -m tests.cluster.container PROGRAM [--long] [--blind] [--verbose] [NAME ..]

Each test is a function below, and its first line tells what holds. The short ones run what examples/container/Containerfile says in
namespaces of this script. --long makes the image by examples/container/build, which wants mmdebstrap, buildah and an archive of Debian,
and runs it with `--isolation chroot`. It wants root and `ip`. The last line is `N passed, M failed`.
"""
import json
import os
import pathlib
import re
import shutil
import subprocess
import sys
import tempfile

from tests.lib import TOP, conclude, hope, need, until
from tests.lib.cluster.machines import NASES, PORT, proxy_text
from tests.lib.cluster.recipes import Recipe, run

CONTAINER = TOP / "examples" / "container"
# The variable that names the image.
IMAGE = "RAD_PROXY_IMAGE"
CONFIG, LEDGER, USER = "/etc/rad_proxy/rad_proxy.toml", "/var/lib/rad_proxy", "998"


def said(name):
    """What the Containerfile says by a word, each time."""
    return re.findall(f"^{name} (.*)$", (CONTAINER / "Containerfile").read_text(), re.M)


class Container(Recipe):
    """A machine in which the entry point runs, with a volume."""

    def begin_machines(self):
        self.machine = self.site.proxy(1)
        self.instances[1] = self.machine, "rad_proxy"
        self.machine.write(CONFIG, proxy_text())
        self.machine.run("install", "-d", "-o", USER, "-g", USER, "-m", "700", "/run/rad_proxy", LEDGER)
        self.process = self.start_container()
        until("it listens", lambda: "listening" in self.machine.read("/run/container"), 20)

    def start_container(self):
        """The entry point, as the user and with the variables of the Containerfile, in namespaces of processes and mounts of its own."""
        (entry,), (command,) = map(json.loads, said("ENTRYPOINT")), map(json.loads, said("CMD"))
        alone = ["unshare", "--pid", "--mount-proc", "--fork", "--kill-child"]
        user = ["setpriv", f"--reuid={USER}", f"--regid={USER}", "--clear-groups"]
        return self.machine.start("container", *alone, *user, "env", "RAD_PROXY_LOG=debug", *said("ENV"), *entry, *command)

    def terminate(self):
        """What a runtime does that stops a container."""
        self.machine.run("sh", "-c", "kill -TERM $(pgrep -o -f '^/bin/sh /usr/libexec/rad_proxy/serve')")

    def begin(self, seconds=1.5, **options):
        super().begin(seconds, target=(self.machine.address.partition("/")[0], PORT), **options)

    def printed(self):
        return self.machine.read("/run/container").splitlines()

    def entries(self):
        """The entries of the ledger in the volume."""
        return [line for file in self.machine.path(LEDGER).glob("*") for line in file.read_text().splitlines() if '"entry"' in line]


def a_stop_drains(container):
    """SIGTERM to the first process: what was accepted is answered, the program ends with nothing left, and the ledger has all of it."""
    container.begin(2)
    container.load.nases.is_asking = False
    container.terminate()
    hope("the status", container.process.wait(20), 0)
    need("end: queued 0 outstanding 0 untaken 0" in container.printed(), "the last line:", container.printed()[-1:])
    answered = sum(record.answered is not None for record in container.load.nases.records)
    need(answered > len(NASES), f"only {answered} were answered")
    hope("entries of the ledger", len(container.entries()), answered)


def run_without_input_ends(container):
    """`rad_proxy run FILE` with an input that is closed ends at once, with status 0, and serves nobody."""
    container.terminate()
    hope("the status", container.process.wait(20), 0)
    told = container.machine.run("timeout", "10", "rad_proxy", "run", CONFIG, stdin=subprocess.DEVNULL)
    hope("the last line", told.splitlines()[-1], "end: queued 0 outstanding 0 untaken 0")


class Built(Container):
    """The same with the image that is built, which buildah runs in the machine, in a root of its own."""

    def start_container(self):
        self.volume = self.machine.path("/tmp/volume")
        store = ["buildah", "--storage-driver", "vfs", "--root", "/tmp/store", "--runroot", "/tmp/run"]
        self.machine.run("install", "-d", "-o", USER, "-g", USER, "/tmp/volume")
        self.machine.write("/tmp/image", "")
        shutil.copyfile(os.environ[IMAGE], self.machine.path("/tmp/image"))
        made = self.machine.run(*store, "from", "--quiet", "oci-archive:/tmp/image").split()[-1]
        entry = [*json.loads(said("ENTRYPOINT")[0]), *json.loads(said("CMD")[0])]
        volumes = ["--volume=/etc/rad_proxy:/etc/rad_proxy:ro", f"--volume=/tmp/volume:{LEDGER}:rw"]
        options = ["--isolation", "chroot", "--env", "RAD_PROXY_LOG=debug", *volumes]
        return self.machine.start("container", *store, "run", *options, made, "--", *entry)

    def entries(self):
        return [line for file in self.volume.glob("*") for line in file.read_text().splitlines() if '"entry"' in line]


def the_image_drains(container):
    """The same of the image that build makes, run with `--isolation chroot`."""
    a_stop_drains(container)


def built(program):
    """The image, as a file, made before this script is in namespaces, which have no network."""
    missing = [name for name in ("mmdebstrap", "buildah") if not shutil.which(name)]
    if missing:
        print(f"left out: it wants {', '.join(missing)}")
        conclude(0, 0)
    file = pathlib.Path(tempfile.mkdtemp(), "image")
    words = [CONTAINER / "build", file, "bookworm", "--isolation", "chroot"]
    done = subprocess.run(words, env=os.environ | dict.fromkeys(("PROGRAM", "AUDITOR", "CONFIG_JSON"), program), capture_output=True, text=True, check=False)
    if done.returncode:
        print(f"failed: {CONTAINER / 'build'}: {done.stdout}{done.stderr}")
        conclude(0, 1)
    return str(file)


SHORT, LONG = [a_stop_drains, run_without_input_ends], [the_image_drains]
RECIPES = {a_stop_drains: Container, run_without_input_ends: Container, the_image_drains: Built}

if __name__ == "__main__":
    os.environ["PATH"] += ":/usr/sbin:/sbin"
    if "--long" in sys.argv and IMAGE not in os.environ:
        os.environ[IMAGE] = built(str(pathlib.Path(sys.argv[1]).resolve()))
    try:
        run(RECIPES, SHORT, LONG, [], __doc__)
    finally:
        if IMAGE in os.environ:
            shutil.rmtree(pathlib.Path(os.environ[IMAGE]).parent, ignore_errors=True)
