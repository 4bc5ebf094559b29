"""The one list of the scripts that the gate runs, in the order in which they run."""
from dataclasses import dataclass

from tests.lib import TOP

# What stands for the program that the gate is called with.
PROGRAM = "PROGRAM"
SIMULATION, AUDITOR, CONFIG_JSON = (f"crates/{name}/out/{name}" for name in ("rad_simulation", "rad_audit", "config_json"))
LIBRARY_TESTS = "crates/library_tests/out/library_tests_tests"


@dataclass(frozen=True)
class Script:
    """A script, by its place in tests/ and the word that it is called with. One that measures times or loads the machine runs alone."""

    place: str
    word: str = PROGRAM
    is_alone: bool = False

    @property
    def name(self):
        """The name of its log."""
        return self.place.replace("/", "-")

    @property
    def log(self):
        return TOP / "out" / f"{self.name}.txt"

    @property
    def file(self):
        return TOP / "tests" / f"{self.place}.py"

    @property
    def module(self):
        return f"tests.{self.place.replace('/', '.')}"


SCRIPTS = [
    Script("gate/edits", "--check"),
    Script("gate/pages", "--check"),
    Script("gate/docs", "--check"),
    Script("gate/drawings", "--check"),
    Script("gate/limits", "--check"),
    Script("gate/unproved", "--check"),
    Script("gate/mutants", "--check"),
    Script("models/vectors", "--check"),
    Script("models/replay_model", "--check"),
    Script("models/example_ledgers", "--check"),
    Script("models/auditor_model", "--check"),
    Script("rows/run"),
    Script("configuration/examples"),
    Script("configuration/first_faults"),
    Script("configuration/warnings"),
    Script("configuration/told_faults"),
    Script("configuration/schema", "--check"),
    Script("configuration/replayed_datagrams"),
    Script("configuration/reasons_by_command"),
    Script("configuration/read_as_json", CONFIG_JSON),
    Script("models/simulations", SIMULATION),
    Script("models/spoiled_datagrams"),
    Script("models/longest_lists"),
    Script("faults/refused_memory"),
    Script("faults/failing_calls"),
    Script("faults/closed_descriptors"),
    Script("faults/queue_memory", LIBRARY_TESTS),
    Script("faults/spool_crashes", LIBRARY_TESTS),
    Script("faults/exit_reasons"),
    Script("faults/stdin_and_stdout"),
    Script("network/several_addresses"),
    Script("network/source_ports"),
    Script("network/flooded_port"),
    Script("network/unreachable_home_server"),
    Script("network/limits"),
    Script("network/log_of_downs_cuts_loops"),
    Script("network/loops"),
    Script("network/log_lines_and_metrics"),
    Script("network/metrics_of_realms_and_process"),
    Script("network/traced_lines", is_alone=True),
    Script("service/serve_and_rad_proxyctl"),
    Script("service/rad_proxyctl_metrics"),
    Script("service/alerts", "--check"),
    Script("service/rad_proxyctl_trace"),
    Script("service/first_run"),
    Script("ledger/auditor_verdicts", AUDITOR),
    Script("service/rad_proxyctl_restart_and_probe"),
    Script("service/rad_proxyctl_stand_in"),
    Script("service/rad_proxyctl_http"),
    Script("tools/resend"),
    Script("tools/spool"),
    Script("tools/ledger"),
    Script("ledger/rows", AUDITOR),
    Script("ledger/asked"),
    Script("ledger/heads"),
    Script("tools/convert"),
    Script("timing/start_and_unread_output", is_alone=True),
    Script("timing/end_with_requests_left", is_alone=True),
    Script("timing/wakes_and_resendings", is_alone=True),
    Script("timing/counts_and_log", is_alone=True),
    Script("timing/metrics_over_time", is_alone=True),
    Script("timing/lane_call_times", is_alone=True),
    Script("faults/counters_and_log_files", is_alone=True),
    Script("network/lossy_network", is_alone=True),
    Script("faults/memory_leaks", is_alone=True),
    Script("network/parallel_lanes", is_alone=True),
    Script("ledger/written_ledgers", is_alone=True),
    Script("ledger/written_lines", is_alone=True),
    Script("ledger/folders_and_writes", is_alone=True),
    Script("ledger/days_of_files", is_alone=True),
    Script("ledger/shares", is_alone=True),
    Script("ledger/disk_faults", is_alone=True),
    Script("ledger/resumed", is_alone=True),
    Script("ledger/watched_spool", is_alone=True),
    Script("faults/killed_runs", is_alone=True),
    Script("ledger/auditor_spoiled_lines", AUDITOR, is_alone=True),
    Script("tools/check"),
    Script("tools/judge"),
    Script("tools/trial", is_alone=True),
    Script("tools/moving"),
    Script("tools/stopped"),
    Script("tools/advised"),
    Script("ledger/left", is_alone=True),
    Script("cluster/keepalived", is_alone=True),
    Script("cluster/nft", is_alone=True),
    Script("cluster/ecmp", is_alone=True),
    Script("cluster/failover", is_alone=True),
    Script("cluster/container", is_alone=True),
]
