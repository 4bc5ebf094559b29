"""The limits of the sources: each number that a source names, and each bound of the configuration, with what sees that it is another one.

usage: python3 -m tests.gate.limits --check

A number that the table lacks, or has with another value, or that is gone from the sources, is a fault, and so is a test that is not there.
The last line is `N passed, M failed`.
"""
import re
import sys

from tests.lib import TOP, conclude

CRATES = TOP / "crates"
LEFT_OUT = ("library_tests/", "memory_disk/", "rad_simulation/")
NUMBER = re.compile(r"^ *(?:pub(?:\(crate\))? )?const ([A-Z_0-9]+): (?:[ui](?:8|16|32|64)|usize) = ([^;]+);", re.M)
BOUND = re.compile(r"within\(numbers\.(\w+), (\S+), (\S+), LimitFault")

# What sees another number, where no test does: contracts; the form of what others make, such as the number of an attribute, which each
# test of a packet or of the system sees. Or it is a choice: how often, or how much at once, of which nothing is promised.
PROVED, FORM, CHOICE = "contracts", "form", "choice"
LIMITS, RINGS, WAKES, LEFT = "network/limits", "network/parallel_lanes", "timing/wakes_and_resendings", "ledger/left"

# By source: each number, and what sees it: a test of a script, a row of tests/rows, or one of the above.
NUMBERS = {
    "block_queue/src/block_queue.rt": {"MOST": ("0x8000_0000_0000_0000", PROVED)},
    "rad_server/src/waking/apart.rt": {"LINE": ("8", CHOICE)},
    "rad_server/src/wires/udp_wire.rt": {"STATUS_SERVER": ("12", FORM)},
    "spool_files/src/folder.rt": {"MODE": ("0o600", FORM), "FOLDER_MODE": ("0o700", FORM), "DIGITS": ("16", FORM)},
    "spool_files/src/reading.rt": {"VERSION": ("1", PROVED)},
    "spool_files/src/segment.rt": {"MOST_OCTETS": ("1 << 24", PROVED), "BESIDE": ("10", PROVED)},
    "ledger_files/src/batch.rt": {"SHARED": ("65_536", CHOICE), "LONG": ("2048", CHOICE), "THREADS": ("3", CHOICE)},
    "ledger_files/src/chain.rt": {"SUM_OCTETS": ("32", PROVED)},
    "ledger_files/src/tail.rt": {"TAIL_OCTETS": ("75", PROVED)},
    "ledger_files/src/rotation.rt": {"MOST_OCTETS": ("268_369_920", PROVED), "STAY": ("10_000", PROVED)},
    "ledger_files/src/utc.rt": {"DAY": ("86_400_000", PROVED), "DAYS_TO_1970": ("719_468", PROVED), "CYCLE": ("146_097", PROVED),
                                "CENTURY": ("36_524", PROVED), "FOUR_YEARS": ("1461", PROVED), "YEAR": ("365", PROVED)},
    "ledger_files/src/tail.rt": {"TAIL_OCTETS": ("75", PROVED)},
    "ledger_lines/src/reading.rt": {"MOST_LINE_OCTETS": ("65_536", "ledger/auditor_verdicts shown")},
    "raw_lists/src/region.rt": {"PLACES": ("32", CHOICE), "MOST_PLACES": ("0x1_0000_0000", PROVED)},
    "raw_lists/src/rows.rt": {"LEAST_PLACES": ("32", CHOICE)},
    "raw_lists/src/sliding_list.rt": {"STEP": ("16", CHOICE)},
    "rad_addresses/src/known_addresses.rt": {"MOST": ("512", "network/several_addresses test_many_addresses")},
    "rad_addresses/src/local_addresses.rt": {"MOST_OCTETS": ("1 << 22", CHOICE)},
    "rad_addresses/src/origins.rt": {"ROWS": ("1 << 13", CHOICE), "ROW": ("8", CHOICE), "CUT": ("51", CHOICE)},
    "rad_advice/src/name_text.rt": {"MOST_OCTETS": ("64", PROVED)},
    "rad_advice/src/near.rt": {"MOST_EDITS": ("2", PROVED)},
    "rad_advice/src/unread.rt": {"MOST_LISTED": ("20", PROVED)},
    "rad_audit/src/auditing.rt": {"READ_OCTETS": ("262_144", CHOICE), "LINES_APART": ("65_536", "ledger/auditor_spoiled_lines of_places")},
    "rad_audit/src/blocks.rt": {"LINES_EACH": ("64", CHOICE), "MOST_THREADS": ("16", CHOICE)},
    "rad_audit/src/facts.rt": {"USER_NAME": ("1", PROVED), "ACCT_STATUS_TYPE": ("40", PROVED), "ACCT_INPUT_OCTETS": ("42", PROVED),
                               "ACCT_OUTPUT_OCTETS": ("43", PROVED), "ACCT_SESSION_TIME": ("46", PROVED),
                               "ACCT_INPUT_GIGAWORDS": ("52", PROVED), "ACCT_OUTPUT_GIGAWORDS": ("53", PROVED)},
    "rad_advice/src/doubts.rt": {"MOST_LISTED": ("50", PROVED)},
    "rad_advice/src/faults.rt": {"MOST_LISTED": ("50", PROVED)},
    "rad_auth/src/hmac.rt": {"BLOCK_LENGTH": ("64", PROVED)},
    "rad_auth/src/lib.rt": {"ACCOUNTING_REQUEST": ("4", PROVED), "ACCOUNTING_RESPONSE": ("5", PROVED), "STATUS_SERVER": ("12", PROVED),
                            "PROXY_STATE": ("33", PROVED), "MESSAGE_AUTHENTICATOR": ("80", PROVED)},
    "rad_auth/src/mark.rt": {"MARK_LENGTH": ("12", PROVED), "VALUE_LENGTH": ("MARK_LENGTH - 2", PROVED)},
    "rad_auth/src/secret.rt": {"GREATEST_SECRET_LENGTH": ("128", PROVED)},
    "rad_auth/src/status.rt": {"MESSAGE_AUTHENTICATOR_LENGTH": ("18", PROVED)},
    "rad_config/src/realms.rt": {"LONGEST_REALM": ("252", PROVED)},
    "rad_console/src/commands.rt": {"MOST": ("64", PROVED), "ROOM": ("512", CHOICE)},
    "rad_desk/src/front.rt": {"LISTEN": ("0", PROVED)},
    "rad_desk/src/leaving.rt": {"PORTS": ("4", PROVED)},
    "rad_desk/src/marks.rt": {"PROXY_STATE": ("33", PROVED), "MARK_VALUE_LENGTH": ("MARK_LENGTH - 2", PROVED)},
    "rad_desk/src/told_values.rt": {"USER_NAME": ("1", PROVED), "ACCT_STATUS_TYPE": ("40", PROVED)},
    "rad_lane/src/accepting.rt": {"NUMBER_LIMIT": ("1 << 62", PROVED)},
    "rad_lane/src/entry.rt": {"PROBE_LENGTH": ("38", PROVED)},
    "rad_lane/src/session.rt": {"ACCT_SESSION_ID": ("44", PROVED)},
    "ledger_rules/src/numbers.rt": {"MOST_RANGES": ("4096", PROVED)},
    "rad_log/src/levels.rt": {"ROOM": ("16", CHOICE)},
    "rad_log/src/line_queue.rt": {
        "ROOM": ("65_536", "faults/counters_and_log_files LOST"), "LONGEST": ("4096", CHOICE), "ENOUGH": ("4 * LONGEST", CHOICE),
        "LOOK": ("1", CHOICE), "PATIENCE": ("5000", f"{LEFT} ends_where_nobody_reads"), "LAST": ("10_000", f"{LEFT} ends_where_nobody_reads")},
    "rad_log/src/line_writer.rt": {"MOST": ("4096", CHOICE), "LOST_LINE": ("64", CHOICE)},
    "rad_log/src/locking.rt": {"TRIES": ("2000", CHOICE)},
    "rad_log/src/writer_state.rt": {"WORK": ("1", FORM), "END": ("2", FORM)},
    "rad_metrics/src/own_process.rt": {"UNIT": ("10", FORM)},
    "rad_metrics/src/counts.rt": {"APART": ("16", CHOICE)},
    "rad_metrics/src/histogram.rt": {"FIRST": ("APART", CHOICE), "SUM": ("FIRST + BUCKETS", FORM), "BUCKETS": ("18", PROVED)},
    "rad_metrics/src/home_times.rt": {
        "IDENTIFIERS": ("256", f"{LIMITS} the_widest_window_is_out_at_once"), "BESIDE": ("256", CHOICE), "SERIALS": ("1 << 23", CHOICE),
        "UNTOLD": ("u64::MAX", FORM), "NUMBERS": ("1 << 24", PROVED), "TIMES": ("1 << 40", PROVED)},
    "ledger_state/src/file_sums.rt": {"SUMS": ("16", CHOICE), "WORDS": ("4", PROVED)},
    "ledger_state/src/fault.rt": {"NUMBERS": ("1 << 32", CHOICE)},
    "ledger_state/src/handlings.rt": {
        "TIMES": ("1 << 42", PROVED), "ROWS": ("1 << 22", PROVED), "COUNTS": ("1 << 32", PROVED), "UNTOLD": ("u64::MAX", FORM)},
    "rad_files/src/configuration.rt": {"MOST_FILE_OCTETS": ("1_048_576", "rows command/check-file-of-the-greatest-length")},
    "rad_metrics/src/numbers.rt": {"STEP": ("1000", "ledger/disk_faults a_clock_that_is_set_moves_the_times")},
    "rad_metrics/src/system_files.rt": {"MOST_OCTETS": ("1 << 22", CHOICE)},
    "rad_packet/src/datagram.rt": {"GREATEST_VALUE_LENGTH": ("253", PROVED)},
    "rad_packet/src/lib.rt": {"HEADER_LENGTH": ("20", PROVED), "GREATEST_LENGTH": ("4096", PROVED)},
    "rad_packet/src/reading.rt": {"LEAST_ATTRIBUTE_LENGTH": ("2", PROVED)},
    "rad_proxy/src/descriptors.rt": {"FOR_EVER": ("-1", FORM)},
    "rad_proxy/src/machine.rt": {"MOST_SETTING_OCTETS": ("1 << 20", CHOICE)},
    "rad_proxy/src/main.rt": {"LEFT_OVER": ("3", f"{LIMITS} no_linger_ends_at_once")},
    "rad_proxy/src/run_command.rt": {
        "LAST_TEXT": ("500", "faults/counters_and_log_files TESTS"), "LAST_LINES": ("1000", "faults/counters_and_log_files TESTS"),
        "LAST_ENTRIES": ("10_000", "ledger/disk_faults TRIES")},
    "rad_proxy/src/small_stack.rt": {"LEAST": ("1 << 20", "timing/start_and_unread_output tells_that_a_stack_is_too_small")},
    "rad_realms/src/checking.rt": {"USER_NAME": ("1", PROVED)},
    "rad_replay/src/datagrams.rt": {"MOST_OCTETS": ("65_507", "rows requests/greatest-datagram"), "MOST_ATTRIBUTES": ("4076", PROVED)},
    "rad_replay/src/replaying.rt": {"MOST_INPUT": ("16_777_216", "rows script/greatest-input")},
    "rad_replay/src/sent.rt": {"IDENTIFIERS": ("256", FORM)},
    "locked_lanes/src/proxy.rt": {"TRIES": ("2000", f"{WAKES} a_worker_sleeps_until_its_lane_is_free")},
    "locked_lanes/src/spent.rt": {"GREATEST_VALUE_LENGTH": ("253", PROVED)},
    "rad_server/src/sockets/address_monitor.rt": {"LOOK": ("10", CHOICE)},
    "rad_server/src/sending/client_queue.rt": {"MOST": ("64", PROVED)},
    "rad_server/src/sockets/client_sockets.rt": {"MOST": ("256", "network/several_addresses test_many_addresses")},
    "rad_server/src/sending/departing.rt": {"RECEIVES": ("8", f"{WAKES} an_answer_leaves_within_eight_receives"), "SLEEP": ("5", CHOICE)},
    "rad_server/src/wires/heap_room.rt": {"OCTETS": ("60_000", f"{WAKES} heaps_grow_by_large_pieces"), "DATAGRAMS": ("128", CHOICE)},
    "rad_server/src/console/interrupting.rt": {"FOR_EVER": ("-1", FORM)},
    "rad_server/src/sending/kept.rt": {"MOST": ("2048", f"{RINGS} keep_so_many_in_all"), "LONGEST": ("2000", f"{RINGS} keep_no_longer")},
    "rad_server/src/serving/lingering.rt": {"LOOK": ("1", CHOICE)},
    "rad_server/src/waking/neighbours.rt": {"RECEIVES": ("8", f"{WAKES} requests_that_come_together_wake_a_lane_once_for_eight")},
    "rad_server/src/waking/notifying.rt": {"AWAKE": ("0", FORM), "ASLEEP": ("1", FORM), "NOTIFIED": ("2", FORM)},
    "rad_server/src/sending/outbox.rt": {"MOST": ("8", f"{RINGS} keep_each_before_it_is_sent")},
    "rad_server/src/wires/polling.rt": {"RECEIVES": ("16", CHOICE)},
    "rad_server/src/sockets/port_range.rt": {"ROOTS": ("1023", PROVED), "FEW": ("8192", PROVED)},
    "rad_server/src/console/printing.rt": {"LINE": ("256", CHOICE)},
    "rad_server/src/sockets/raw_sockets.rt": {"ADDRESS_OCTETS": ("16", FORM)},
    "rad_server/src/waking/sleeping.rt": {"SLEEP": ("20", f"{WAKES} an_idle_worker_looks_again_after_twenty_milliseconds"), "EVENTS": ("8", CHOICE)},
    "rad_server/src/sockets/source_ports.rt": {"MOST_TRIED": ("300", "network/source_ports test_none_is_left"), "MOST_DRAWN": ("10_000", CHOICE)},
    "rad_server/src/sockets/bound_sockets.rt": {"BUFFER": ("1 << 20", "faults/closed_descriptors BUFFERS")},
    "rad_server/src/console/streams.rt": {"LOOK": ("20", CHOICE), "MOST": ("4096", CHOICE), "MOST_OF_TERMINAL": ("1", CHOICE)},
    "rad_tables/src/moment.rt": {"LONGEST_WAIT": ("120_000", PROVED)},
    "rad_telemetry/src/counter_file.rt": {"HEAD_OCTETS": ("17", FORM), "MODE": ("0o644", "faults/counters_and_log_files TESTS")},
    "rad_telemetry/src/left_log.rt": {"MOST_LOGGED": ("20", f"{LEFT} names_those_of_each_home")},
    "rad_telemetry/src/trace_file.rt": {
        "MOST_LINES": ("16", "network/traced_lines TESTS"), "MOST_OCTETS": ("4096", "network/traced_lines TESTS"),
        "MOST_VALUE": ("253", FORM)},
    "rad_telemetry/src/tracer.rt": {"MOST_LINES": ("200", PROVED), "SECOND": ("1_000_000", PROVED)},
    "rad_telemetry/src/reporter.rt": {"PERIOD": ("1000", "timing/metrics_over_time TESTS"), "ASKED": ("40", CHOICE)},
    "spool_writer/src/fault.rt": {"NUMBERS": ("1 << 32", PROVED)},
    "spool_writer/src/log_lines.rt": {"MOST": ("20", "ledger/resumed what_no_longer_passes_the_checks_is_told_and_stays")},
    "spool_writer/src/offers.rt": {"PAUSE": ("1000", CHOICE)},
    "spool_writer/src/open_table.rt": {"MAY_BE": ("u64::MAX", FORM)},
    "spool_writer/src/waiting_keys.rt": {"ANSWERED": ("u64::MAX", FORM), "WAITS": ("0", PROVED)},
    "spool_writer/src/opening.rt": {"DEFAULT_LIMIT": ("1 << 34", CHOICE), "PLACES": ("32_768", CHOICE)},
    "spool_writer/src/inlet.rt": {"LONGEST": ("10_000", CHOICE), "LOOK": ("1", CHOICE)},
    "spool_writer/src/room.rt": {"LONGEST": ("1000", CHOICE), "LOOK": ("1", CHOICE)},
    "spool_writer/src/runtime_disk.rt": {
        "MODE": ("0o600", "ledger/resumed a_folder_of_another_process_or_for_others_is_refused"),
        "OTHERS": ("0o077", "ledger/resumed a_folder_of_another_process_or_for_others_is_refused"),
    },
    "spool_writer/src/surveying.rt": {"TRIES": ("5", CHOICE)},
    "spool_writer/src/writer.rt": {"AGAIN": ("1000", CHOICE), "BATCH": ("1 << 22", CHOICE), "GREATEST_REQUEST": ("4096", PROVED), "LOOK": ("20", CHOICE), "LOOKS": ("5", CHOICE), "MUCH": ("200", CHOICE), "PAUSE": ("50", CHOICE)},
    "ledger_writer/src/filling.rt": {"SIZE": ("262_144", CHOICE), "LINES": ("1024", CHOICE)},
    "ledger_writer/src/inlet.rt": {"LOOK": ("1", CHOICE), "DUE": ("16", CHOICE), "MOST_LOST": ("256", FORM)},
    "ledger_writer/src/record_counts.rt": {
        "PAUSE": ("5000", "ledger/written_lines what_is_sent_again_is_counted"), "MOST": ("65_536", CHOICE)},
    "ledger_state/src/responses.rt": {"MOST": ("4096", CHOICE)},
    "ledger_writer/src/lines.rt": {"GREATEST_SERIAL": ("9_223_372_036_854_775_807", PROVED)},
    "ledger_writer/src/file_before.rt": {
        "END_OCTETS": ("2 * (MOST_LINE_OCTETS + 1)", "ledger/written_ledgers the_tie_is_found_at_the_end_of_any_file"), "RUN_DIGITS": ("16", "ledger/written_ledgers names_the_file_of_another_run_before"),
        "NUMBER_DIGITS": ("6", "ledger/written_ledgers names_the_file_of_another_run_before")},
    "ledger_writer/src/giving.rt": {
        "ROOM": ("67_108_864", "ledger/written_ledgers BOUND"),
        "PLACES": ("180_000", "ledger/written_ledgers a_hundred_eighty_thousand_small_entries_wait")},
    "ledger_writer/src/opening.rt": {"IDENTIFIERS": ("256", FORM), "BESIDE": ("256", CHOICE)},
    "ledger_writer/src/parcel.rt": {"LONGEST": ("4096", PROVED), "MOST": ("3 * LONGEST", PROVED)},
    "ledger_writer/src/runtime_disk.rt": {"MODE": ("0o640", "ledger/written_ledgers TESTS")},
    "ledger_writer/src/writer.rt": {
        "PAUSE": ("50", "ledger/written_ledgers WRITTEN"), "AGAIN": ("1000", CHOICE), "SYNC": ("900", "ledger/written_ledgers SYNCED"),
        "ANEW": ("60_000", "ledger/disk_faults FAILS"), "TOLD": ("3_600_000", "ledger/written_ledgers tells_the_sum_each_hour")},
}

# By key of a home server: the least and the most, and what sees that a lane works at both. That they are the bounds is proved.
BOUNDS = {
    "ports": ("1", "4", f"{LIMITS} the_widest_window_is_out_at_once"),
    "window": ("1", "widest", f"{LIMITS} the_widest_window_is_out_at_once"),
    "queue": ("1", "65_536", f"{LEFT} writes_all_of_many"),
    "book": ("1", "1_000_000", f"{LIMITS} all_that_is_over_is_cut_at_once"),
    "tries": ("1", "10", f"{LIMITS} the_longest_times_pass"),
    "first_wait": ("100", "60_000", f"{LIMITS} the_longest_times_pass"),
    "probe_every": ("1000", "600_000", f"{LIMITS} the_longest_times_pass"),
    "down_wait": ("1000", "3_600_000", f"{LIMITS} the_longest_times_pass"),
    "span": ("0", "600_000", f"{LIMITS} the_longest_times_pass"),
    "ring": ("1", "4096", f"{LIMITS} the_longest_ring_fills"),
}


def found_numbers():
    """The numbers of the sources, by source."""
    found = {}
    for file in CRATES.glob("*/src/**/*.rt"):
        name = str(file.relative_to(CRATES))
        numbers = dict(NUMBER.findall(file.read_text("utf-8")))
        if numbers and not name.startswith(LEFT_OUT):
            found[name] = numbers
    return found


def is_there(seen):
    """Whether what sees a number is there: the row, or the script with such a name in it."""
    place, _, name = seen.partition(" ")
    if not name:
        return seen in (PROVED, FORM, CHOICE)
    if place == "rows":
        return (TOP / "tests" / "rows" / f"{name}.row").exists()
    script = TOP / "tests" / f"{place}.py"
    return script.exists() and re.search(rf"\b{name}\b", script.read_text("utf-8")) is not None


def compared(what, found, known):
    """What is not as it has to be of each name: nothing, where it is. The last of what is known is what sees it."""
    for name in sorted(found.keys() | known.keys()):
        value, *rest = found.get(name, (None,)), *known.get(name, (None,))
        right = rest and tuple(rest[:-1]) == tuple(value) and is_there(rest[-1])
        yield None if right else f"{what} {name}: it is {found.get(name)} in the sources, and {known.get(name)} in the table"


def told():
    """What is not as it has to be of each number and bound."""
    found = found_numbers()
    for source in sorted(found.keys() | NUMBERS.keys()):
        numbers = {name: (value,) for name, value in found.get(source, {}).items()}
        yield from compared(source, numbers, NUMBERS.get(source, {}))
    bounds = BOUND.findall((CRATES / "rad_config" / "src" / "limits.rt").read_text("utf-8"))
    yield from compared("the configuration", {name: (least, most) for name, least, most in bounds}, BOUNDS)


def main():
    if sys.argv[1:] != ["--check"]:
        sys.exit(__doc__)
    faults = list(told())
    for fault in filter(None, faults):
        print(fault)
    conclude(faults.count(None), len(faults) - faults.count(None))


if __name__ == "__main__":
    main()
