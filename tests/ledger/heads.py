"""Has an authority that `openssl ts` makes stamp ledgers that the program wrote, and `rad_ledger heads --check` tell what these heads bind.

usage: python3 -m tests.ledger.heads PROGRAM [NAME ..]

PROGRAM is rad_proxy. The auditor is beside it, or where `make build` leaves it. Each test is a function below, and its first line tells what
holds. Names choose tests. The last line is `N passed, M failed`.
"""
import contextlib
import gzip
import http.server
import json
import os
import pathlib
import re
import shutil
import subprocess
import threading
import time

from tests.ledger.asked import START, Site, staged
from tests.lib import built, hope, text, try_in_folders, until
from tests.lib.ledgers import chained
from tests.lib.tools.running import want

AUTHORITY = """[tsa]
default_tsa = it
[it]
dir = {folder}
serial = $dir/serial
crypto_device = builtin
signer_cert = $dir/{name}.pem
certs = $dir/{name}-ca.pem
signer_key = $dir/{name}.key
signer_digest = sha256
default_policy = 1.2.3.4.1
digests = sha256, sha512
accuracy = secs:1
ordering = yes
tsa_name = {named}
ess_cert_id_chain = no
[stamping]
extendedKeyUsage = critical,timeStamping
"""
SAID = re.compile(r"^run ([0-9a-f]{16}) bound up to (\S+) by (.*), (\d+) lines? behind it$", re.MULTILINE)


class Authority:
    """One that stamps: its own certificate of a root of its own, made by openssl. It may leave its name out."""

    def __init__(self, folder, name, named="yes"):
        self.folder, self.name = pathlib.Path(folder), name
        self.config, self.root = self.path("cnf"), self.folder / f"{name}-ca.pem"
        self.config.write_text(AUTHORITY.format(folder=folder, name=name, named=named))
        (self.folder / "serial").write_text("01\n")
        key = ("-newkey", "ec", "-pkeyopt", "ec_paramgen_curve:prime256v1", "-nodes")
        openssl("req", "-x509", *key, "-keyout", f"{folder}/{name}-ca.key", "-out", self.root, "-subj", f"/CN=root of {name}", "-days", "2")
        openssl("req", *key, "-keyout", self.path("key"), "-out", self.path("csr"), "-subj", f"/O=Tests/CN={name}")
        openssl("x509", "-req", "-in", self.path("csr"), "-CA", self.root, "-CAkey", f"{folder}/{name}-ca.key", "-CAcreateserial", "-days", "2",
                "-out", self.path("pem"), "-extfile", self.config, "-extensions", "stamping")
        self.asked = 0

    def path(self, end):
        return self.folder / f"{self.name}.{end}"

    def answer(self, query):
        """The answer to a query, as octets."""
        self.asked += 1
        (self.folder / "query").write_bytes(query)
        openssl("ts", "-reply", "-config", self.config, "-queryfile", self.folder / "query", "-out", self.folder / "answer")
        return (self.folder / "answer").read_bytes()

    @contextlib.contextmanager
    def served(self):
        """Its URL, as long as it answers there."""
        class Answers(http.server.BaseHTTPRequestHandler):
            def do_POST(this):
                query = this.rfile.read(int(this.headers["Content-Length"]))
                is_query = this.headers["Content-Type"] == "application/timestamp-query"
                octets = self.answer(query) if is_query else b""
                this.send_response(200 if is_query else 400)
                this.send_header("Content-Type", "application/timestamp-reply")
                this.send_header("Content-Length", str(len(octets)))
                this.end_headers()
                this.wfile.write(octets)

            def log_message(this, *_):
                pass

        with http.server.ThreadingHTTPServer(("127.0.0.1", 0), Answers) as server:
            threading.Thread(target=server.serve_forever, daemon=True).start()
            yield f"http://127.0.0.1:{server.server_port}/"
            server.shutdown()


def openssl(*words):
    ran = subprocess.run(["openssl", *map(str, words)], capture_output=True, check=False)
    hope(f"openssl {words[:2]}: {ran.stderr.decode()}", ran.returncode, 0)
    return ran


def authority_of(site, name="stamper", **how):
    want("openssl", "curl")
    folder = site.folder / name
    folder.mkdir()
    return Authority(folder, name, **how)


def checked(site, authority, *words, paths=None):
    """Status of a check, what each run is bound by, by its name, and all that is printed."""
    status, out, err = site.ask("heads", "--check", "--trust", authority.root, *words, site.config, *(paths or [site.ledger]))
    hope("errors", err, "")
    return status, {run: (moment, by, int(behind)) for run, moment, by, behind in SAID.findall(out)}, out


def runs_of(site):
    return [json.loads(it.open().readline())["run"] for it in site.files()]


def stamp(site, *words):
    return site.ask("heads", *words, site.ledger)


def each_run_is_bound_by_an_authority(site):
    """The latest sum of each run is stamped once, over HTTP, and the check tells up to when and by whom each run is bound, and how many lines
    stand behind that."""
    authority = authority_of(site)
    site.run((b"S1",), (b"S2", START, "spare"))
    site.run((b"S3",))
    first, second = runs_of(site)
    with authority.served() as url:
        began = time.strftime("%Y-%m-%dT%H:%M:%SZ", time.gmtime())
        status, out, err = stamp(site, "--authority", url)
        hope(f"{out} {err}", (status, out.count(": stamped\n"), authority.asked), (0, 2, 2))
        hope("again", (stamp(site, "--authority", url), authority.asked), ((0, "", ""), 2))
        status, told, out = checked(site, authority)
        hope(out, (status, set(told), {it[1:] for it in told.values()}), (0, {first, second}, {("CN=stamper,O=Tests", 0)}))
        ended = time.strftime("%Y-%m-%dT%H:%M:%SZ", time.gmtime())
        hope("times", [began <= it[0] <= ended for it in told.values()], [True, True])
        hope("modes", {it.stat().st_mode & 0o777 for it in (site.ledger / "heads").iterdir()}, {0o640})
        hope("nothing is unread", site.found(site.config, site.ledger)[0], 0)
        site.run((b"S4",), (b"S5",))
        status, told, out = checked(site, authority)
        hope(f"a run without a head: {out}", (status, len(told), f"run {runs_of(site)[2]} is bound by no head, 4 lines\n" in out), (13, 2, True))
        hope("stamped", (stamp(site, "--authority", url)[0], authority.asked, checked(site, authority)[0]), (0, 3, 0))
    file = site.files()[0]
    (packed := pathlib.Path(f"{file}.gz")).write_bytes(gzip.compress(file.read_bytes()))
    file.unlink()
    hope("compressed", checked(site, authority)[0], 0)
    hope("a file alone", checked(site, authority, paths=[packed])[:2][1].keys(), {first})
    moved = site.folder / "elsewhere"
    (site.ledger / "heads").rename(moved)
    hope("elsewhere", (checked(site, authority)[0], checked(site, authority, "--heads", moved)[0]), (13, 0))


def a_run_that_goes_on_is_bound_up_to_a_line(site):
    """Of a run that goes on the sum of the last line is stamped, and the lines behind that are counted."""
    authority = authority_of(site)
    with authority.served() as url, site.running():
        site.talk(b"S1")
        time.sleep(0.5)
        status, out, _ = stamp(site, "--authority", url)
        (run,) = runs_of(site)
        hope(f"stamped {out}", (status, authority.asked), (0, 1))
        status, told, out = checked(site, authority)
        hope(out, (status, told[run][2]), (6, 0))
        site.talk(b"S2")
        time.sleep(0.5)
        status, told, out = checked(site, authority)
        hope(out, (status, told[run][2]), (6, 1))


def the_next_file_binds_the_one_before(site):
    """Of a run that goes on at midnight the sum of the last line of the next file is stamped, and binds all lines of the file before."""
    authority = authority_of(site)
    back = 4 + int(time.time()) % 86_400
    with authority.served() as url, site.running(LD_PRELOAD=built(site.folder, "wrong_clock"), CLOCK_AHEAD=str(-back)):
        site.talk(b"S1")
        until("midnight", lambda: len(site.files()) == 2)
        site.talk(b"S2")
        time.sleep(0.5)
        (run,) = set(runs_of(site))
        hope("stamped", (stamp(site, "--authority", url)[0], authority.asked), (0, 1))
        status, told, out = checked(site, authority)
        hope(out, (status, [it[2] for it in told.values()]), (6, [0]))
    status, told, out = checked(site, authority)
    hope(f"behind the end {out}", (status, [it[2] for it in told.values()]), (0, [1]))


def a_head_is_carried_by_hand(site):
    """Without an authority the query is made and waits; its answer is put beside it."""
    authority = authority_of(site, named="no")
    site.run((b"S1",))
    status, out, _ = stamp(site)
    (query,) = (site.ledger / "heads").glob("*.tsq")
    hope("it waits", (status, out), (13, f"{query}: it has no answer yet\n"))
    status, told, out = checked(site, authority)
    hope("no answer", (status, told, f"refused: {query.with_suffix('.tsr')}: there is no such file\n" in out), (13, {}, True))
    query.with_suffix(".tsr").write_bytes(authority.answer(query.read_bytes()))
    hope("nothing waits", stamp(site), (0, "", ""))
    status, told, out = checked(site, authority)
    hope(out, (status, {it[1:] for it in told.values()}), (0, {("CN=stamper,O=Tests", 0)}))


def stamped(site):
    """A run that is stamped; the authority, the query and the answer."""
    authority = authority_of(site)
    site.run((b"S1",), (b"S2",))
    stamp(site)
    (query,) = (site.ledger / "heads").glob("*.tsq")
    answer = query.with_suffix(".tsr")
    answer.write_bytes(authority.answer(query.read_bytes()))
    hope("as it is", checked(site, authority)[0], 0)
    return authority, query, answer


def refused(site, authority, wanted, text=""):
    status, told, out = checked(site, authority)
    hope(f"{text} {out}", (status, told, out.count("refused: ")), (wanted, {}, 1))
    hope(f"{text} {out}", text in out, True)


def a_wrong_head_is_refused(site):
    """One of another authority, of another hash, to another query, one that is damaged, and one that is missing."""
    authority, query, answer = stamped(site)
    right, asked = answer.read_bytes(), query.read_bytes()
    other = authority_of(site, "another")
    refused(site, other, 13)
    answer.write_bytes(other.answer(asked))
    refused(site, authority, 13)
    hope("with its own root", checked(site, other)[0], 0)
    answer.write_bytes(right)
    digest = query.name.split("-")[2].removesuffix(".tsq")
    for name, words in (("another hash", ("-digest", "ab" * 32, "-sha256")), ("another kind of hash", ("-digest", digest * 2, "-sha512")),
                        ("another query", ("-digest", digest, "-sha256"))):
        openssl("ts", "-query", *words, "-cert", "-out", site.folder / "q")
        answer.write_bytes(authority.answer((site.folder / "q").read_bytes()))
        refused(site, authority, 13)
        if name != "another query":
            query.write_bytes((site.folder / "q").read_bytes())
            refused(site, authority, 13)
            query.write_bytes(asked)
    for octets in (right[:-9], b"", right.replace(bytes.fromhex(digest), bytes(32))):
        answer.write_bytes(octets)
        refused(site, authority, 13)
    answer.unlink()
    refused(site, authority, 13, "there is no such file")
    answer.write_bytes(right)
    query.unlink()
    refused(site, authority, 13, "there is no such file")
    query.write_bytes(asked)
    hope("as it was", checked(site, authority)[0], 0)


def a_head_from_before_the_run_is_refused(site):
    """A stamp that is older than the first line of the run, as of a ledger whose times were moved."""
    authority, query, answer = stamped(site)
    (file,) = site.files()
    octets, year = file.read_bytes(), time.strftime('"time":"%Y-', time.gmtime())
    later = octets.replace(year.encode(), b'"time":"2099-')
    file.write_bytes(later)
    status, told, out = checked(site, authority)
    hope(out, (status, told, "it is from before the run" in out), (5, {}, True))
    file.write_bytes(octets)
    hope("as it was", checked(site, authority)[0], 0)


def a_ledger_without_the_stamped_sum_is_refused(site):
    """Whoever writes all sums anew is found: a line that is changed, or is gone, a run that is another one or is gone."""
    authority, query, answer = stamped(site)
    (file,) = site.files()
    octets = file.read_bytes()
    anew = [json.loads(line) for line in octets.splitlines()]
    anew = [{key: value for key, value in its.items() if key != "sum"} for its in anew]
    anew[1]["port"] = 7
    file.write_text(text(chained(anew)))
    hope("the auditor sees nothing", site.found(site.config, site.ledger)[0], 0)
    status, told, out = checked(site, authority)
    hope(out, (status, told, "the ledger has no line of this sum" in out), (5, {}, True))
    lines = octets.splitlines(True)
    changed = octets.replace(b'"port":', b'"port":1', 1)
    for name, spoiled in (("changed", changed), ("cut", b"".join(lines[:-1])), ("a line gone", b"".join([lines[0], *lines[2:]]))):
        file.write_bytes(spoiled)
        status, told, out = checked(site, authority)
        hope(f"{name} {out}", (status in (5, 13), "the searched ledger is whole" in out), (True, False))
    site.run((b"S1",), (b"S2",))
    file.unlink()
    status, told, out = checked(site, authority)
    hope(f"another run {out}", (status, told, "the ledger has no line of this sum" in out), (5, {}, True))


def errors_are_one_line(site):
    """An authority that is not there or refuses, words that are wrong, and programs that are not there."""
    want("openssl", "curl")
    site.run((b"S1",))
    status, out, err = stamp(site, "--authority", "http://127.0.0.1:1/")
    hope(f"nobody answers {out} {err}", (status, out.count("\n"), err), (13, 1, ""))
    hope("what is left", sorted(it.suffix for it in (site.ledger / "heads").iterdir()), [".tsq"])
    with contextlib.ExitStack() as stack:
        server = http.server.ThreadingHTTPServer(("127.0.0.1", 0), http.server.SimpleHTTPRequestHandler)
        server.RequestHandlerClass.log_message = lambda *_: None
        threading.Thread(target=server.serve_forever, daemon=True).start()
        stack.callback(server.shutdown)
        hope("no authority", stamp(site, "--authority", f"http://127.0.0.1:{server.server_port}/")[0], 13)
    hope("another protocol", stamp(site, "--authority", f"file://{site.config}")[0], 13)
    for words in ((), ("--check", site.config, site.ledger), ("--check", "--trust", site.config, site.config), ("--trust", site.config, site.ledger),
                  ("--check", "--authority", "x", "--trust", site.config, site.config, site.ledger)):
        status, out, err = site.ask("heads", *words)
        hope(f"{words} {err}", (status, out, err.count("\n")), (1, "", 1))
    folder = site.folder / "bin"
    folder.mkdir()
    for name in ("python3", "rad_audit"):
        (folder / name).symlink_to(shutil.which(name) or site.auditor)
    shutil.rmtree(site.ledger / "heads")
    status, out, err = site.ask("heads", site.ledger, env=os.environ | {"PATH": str(folder)})
    hope(f"no openssl {out} {err}", (status, out, err), (4, "", "rad_ledger: no program openssl, which heads want\n"))


TESTS = [each_run_is_bound_by_an_authority, a_run_that_goes_on_is_bound_up_to_a_line, the_next_file_binds_the_one_before,
         a_head_is_carried_by_hand, a_wrong_head_is_refused,
         a_head_from_before_the_run_is_refused, a_ledger_without_the_stamped_sum_is_refused, errors_are_one_line]


if __name__ == "__main__":
    try_in_folders([staged(it) for it in TESTS], __doc__)
