"""Tries the rules of examples/alerts.yml over series, by promtool, and has Alertmanager tell alerts by examples/alertmanager.yml.

The series are those of alerts-test.yml, and also tried over them are rules of which one is another one.

usage: python3 -m tests.service.alerts --check

A test is a function below; its first line says what holds. Those that want promtool or Alertmanager (Debian's packages prometheus and
prometheus-alertmanager) are left out where it is not here. The last line is `N passed, M failed`.
"""
import contextlib
import http.server
import json
import math
import pathlib
import re
import subprocess
import tempfile
import threading
import time
import urllib.request

from tests.lib import HERE, TOP, free_port, hope, need, started, try_each, trying, until
from tests.lib.tools.running import want

RULES = TOP / "examples" / "alerts.yml"
MANAGER = TOP / "examples" / "alertmanager.yml"
SERIES = TOP / "tests" / "service" / "alerts-test.yml"
RULE = re.compile(r"^      - alert: (\w+)\n(?:        #.*\n)*        expr: (?:>-\n(?:          .*\n)+|.*\n)", re.M)
# In place of the rule of this name one that fires from one look of a file that cron writes once a minute.
FROM_ONE_LOOK = {
    "RadProxyHomeDown": "avg_over_time(rad_proxy_home_up[2m]) < 0.6",
    "RadProxyHomeSilent": "rad_proxy_oldest_outstanding_age_seconds > 60 and time() - rad_proxy_last_answer_time_seconds > 60",
    "RadProxyRecordStuck": "rad_proxy_oldest_outstanding_age_seconds > 75 and time() - rad_proxy_last_answer_time_seconds < 60",
    "RadProxyClockStands": "time() - rad_proxy_report_time_seconds > 60",
}
AT_ONCE = ["RadProxyRecordStuck", "RadProxyBookFills", "RadProxyQueueFills", "RadProxyQueueWaits", "RadProxyHomeSlow", "RadProxyClientUnanswered",
           "RadProxyLedgerWaits", "RadProxyLedgerUnsynced", "RadProxySpoolUnsynced", "RadProxySpoolFails"]


def rules():
    return RULES.read_text("utf-8")


def names(text):
    """The names of its rules."""
    return [found[1] for found in RULE.finditer(text)]


def with_expressions(expression_of):
    """The rules, of which each that there is another expression for has that one."""

    def other(found):
        expression = expression_of(found[1])
        return found[0] if expression is None else f"      - alert: {found[1]}\n        expr: {expression}\n"

    return RULE.sub(other, rules())


def tried(text):
    """What promtool says of rules over the series, and whether these are as they should be."""
    with tempfile.TemporaryDirectory() as folder:
        pathlib.Path(folder, RULES.name).write_text(text, "utf-8")
        pathlib.Path(folder, SERIES.name).write_text(SERIES.read_text("utf-8"), "utf-8")
        ran = subprocess.run(["promtool", "test", "rules", SERIES.name], cwd=folder, capture_output=True, text=True, check=False)
    return ran.returncode == 0, ran.stdout + ran.stderr


def see_refused(names_of_others, text, series=".*"):
    """Sees that series of these names tell each of these rules from the right one."""
    is_right, told = tried(text)
    found = set(re.findall(rf"name: {series},\n +alertname: (\w+),", told))
    need(not is_right and found.issuperset(names_of_others), "the series do not tell", sorted(set(names_of_others) - found))


def each_rule_fires_where_it_should():
    """promtool finds that each rule fires over the series where it should, and nowhere else; and the rules are rules."""
    want("promtool")
    subprocess.run(["promtool", "check", "rules", RULES], capture_output=True, check=True)
    is_right, told = tried(rules())
    need(is_right, told)


def each_rule_has_both_kinds_of_series():
    """Of each rule the series have a moment at which it fires, and one at which it does not."""
    series = SERIES.read_text("utf-8")
    for name in names(rules()):
        asked = re.findall(rf"alertname: {name}(?:, exp_alerts|\n +(exp_alerts)|(}}))", series)
        need(any(fires for fires, _ in asked), "no series has", name, "fire")
        need(any(none for _, none in asked), "no series has", name, "not fire")
    hope("rules", len(names(rules())), rules().count("- alert: "))


def no_rule_may_fire_always_or_never():
    """Of a rule that fires always, and of one that never does, the series tell."""
    want("promtool")
    for expression in ("vector(1)", "vector(1) > 1"):
        see_refused(names(rules()), with_expressions(lambda name, other=expression: other))


def no_rule_may_fire_from_one_look():
    """Of rules that fire from one look of a file that is written once a minute the series by the minute tell."""
    want("promtool")
    see_refused(FROM_ONE_LOOK, with_expressions(FROM_ONE_LOOK.get), "by the minute.*")
    need(rules().count("        for: 75s\n") == len(AT_ONCE) + 1, "other rules wait")
    see_refused(AT_ONCE, rules().replace("        for: 75s\n", ""), "by the minute.*")


# A day without a fault, by the minute: 20 to 120 records a second with a burst each six hours, a home server that is marked down once for
# six seconds, and some datagrams that are dropped. Each series is what its name has at a minute.
DAY_MINUTES = 1440


def sum_to(rate):
    """A counter that rises by so much in each minute."""
    values, total = [], 0
    for minute in range(DAY_MINUTES):
        total += rate(minute)
        values.append(total)
    return values


def records(minute):
    """How many records come in a minute: by the time of day, and four times as many in five minutes each six hours."""
    return round(60 * (70 - 50 * math.cos(2 * math.pi * minute / DAY_MINUTES)) * (4 if minute % 360 < 5 else 1))


def of_day():
    """The series of the day."""
    home, client, each = '{lane="0",home="h1"}', '{client="192.0.2.10"}', range(DAY_MINUTES)
    yield f"rad_proxy_home_up{home}", [1 for _ in each]
    yield f"rad_proxy_home_down_seconds_total{home}", [6 if minute >= 700 else 0 for minute in each]
    yield f"rad_proxy_downs_total{home}", [int(minute >= 700) for minute in each]
    yield f"rad_proxy_outstanding{home}", [records(minute) // 600 for minute in each]
    yield f"rad_proxy_queued{home}", [300 if minute % 360 < 5 else 0 for minute in each]
    yield f"rad_proxy_queue_limit{home}", [4096 for _ in each]
    yield f"rad_proxy_oldest_queued_age_seconds{home}", [0.8 if minute % 360 < 5 else 0 for minute in each]
    yield f"rad_proxy_oldest_outstanding_age_seconds{home}", [0.05 for _ in each]
    yield f"rad_proxy_last_answer_time_seconds{home}", [60 * minute for minute in each]
    yield f"rad_proxy_home_report_time_seconds{home}", [60 * minute for minute in each]
    yield "rad_proxy_report_time_seconds", [60 * minute for minute in each]
    yield f"rad_proxy_book{home}", [min(30 * records(minute) // 60, 50_000) for minute in each]
    yield f"rad_proxy_book_limit{home}", [100_000 for _ in each]
    for name in ("received", "accepted", "responses"):
        yield f"rad_proxy_client_{name}_total{client}", sum_to(records)
    yield 'rad_proxy_client_received_total{client="192.0.2.11"}', sum_to(lambda minute: records(minute) // 40)
    yield 'rad_proxy_client_dropped_total{client="192.0.2.10",reason="NoRealm"}', sum_to(lambda minute: int(minute % 7 == 0))
    yield "rad_proxy_strangers_total", sum_to(lambda minute: int(minute % 11 == 0))
    for name, value in (("unsynced_seconds", 0.04), ("failing", 0), ("lost_total", 0), ("dropped_requests", 0)):
        yield f"rad_proxy_spool_{name}", [value for _ in each]
    yield "rad_proxy_spool_oldest_seconds", [40 if minute % 360 < 5 else 0.3 for minute in each]
    for name, part in (("0.25", 60), ("2", 99), ("4", 100), ("+Inf", 100)):
        yield f'rad_proxy_response_seconds_bucket{{lane="0",home="h1",le="{name}"}}', sum_to(lambda minute, part=part: records(minute) * part // 100)


def fired_on(day, minutes):
    """Which alerts fire over these series at any of these minutes."""
    series = [{"series": name, "values": " ".join(map(str, values))} for name, values in day]
    asked = [{"eval_time": f"{minute}m", "alertname": name} for name in names(rules()) for minute in minutes]
    text = {"rule_files": [RULES.name], "evaluation_interval": "1m", "tests": [{"interval": "1m", "input_series": series, "alert_rule_test": asked}]}
    with tempfile.TemporaryDirectory() as folder:
        pathlib.Path(folder, RULES.name).write_text(rules(), "utf-8")
        pathlib.Path(folder, "day.yml").write_text(json.dumps(text), "utf-8")
        ran = subprocess.run(["promtool", "test", "rules", "day.yml"], cwd=folder, capture_output=True, text=True, check=False)
    told = ran.stdout + ran.stderr
    fired = set(re.findall(r"alertname: (\w+),", told))
    need((ran.returncode == 0) != bool(fired), told[:2000])
    return fired


def a_day_without_a_fault_fires_none():
    """Over a day of load with bursts, and with some drops, no alert fires at any minute."""
    want("promtool")
    hope("alerts", fired_on(of_day(), range(20, DAY_MINUTES, 5)), set())


def since(minute, rate):
    """What a counter has more at a minute, where it rises by so much a minute for ten minutes of the day."""
    return rate * min(10, max(0, minute - FAULT_AT))


def is_now(minute):
    """Whether the fault lasts at a minute."""
    return FAULT_AT <= minute < FAULT_AT + 10


# When a fault begins that lasts ten minutes, of the first minutes of the day; and each alert with a series, and what that has at a minute
# instead of what it had.
FAULT_AT, MINUTES = 60, 80
OF_A_DAY = {
    "RadProxyHomeDown": ("rad_proxy_home_down_seconds_total", lambda values, minute: values[minute] + since(minute, 50)),
    "RadProxyHomeFlaps": ("rad_proxy_downs_total", lambda values, minute: values[minute] + since(minute, 1)),
    "RadProxyQueueWaits": ("rad_proxy_oldest_queued_age_seconds", lambda values, minute: 6 if is_now(minute) else values[minute]),
    "RadProxyQueueFills": ("rad_proxy_queued", lambda values, minute: 3500 if is_now(minute) else values[minute]),
    "RadProxyRecordStuck": ("rad_proxy_oldest_outstanding_age_seconds", lambda values, minute: 90 if is_now(minute) else values[minute]),
    "RadProxyClientDropped": ("rad_proxy_client_dropped_total", lambda values, minute: values[minute] + since(minute, 3)),
    "RadProxyStrangers": ("rad_proxy_strangers_total", lambda values, minute: values[minute] + since(minute, 3)),
    "RadProxyClientUnanswered": ("rad_proxy_client_responses_total", lambda values, minute: values[FAULT_AT if is_now(minute) else minute]),
    "RadProxyHomeSlow": ('rad_proxy_response_seconds_bucket.*le="(0.25|2)"', lambda values, minute: values[min(minute, FAULT_AT)]),
    "RadProxyClockStands": ("rad_proxy_report_time_seconds", lambda values, minute: values[FAULT_AT if is_now(minute) else minute]),
    "RadProxyLaneStands": ("rad_proxy_home_report_time_seconds", lambda values, minute: values[FAULT_AT if is_now(minute) else minute]),
    "RadProxySpoolUnsynced": ("rad_proxy_spool_unsynced_seconds", lambda values, minute: 60 * since(minute, 1) if is_now(minute) else values[minute]),
    "RadProxySpoolFails": ("rad_proxy_spool_failing", lambda values, minute: int(is_now(minute))),
    "RadProxySpoolLost": ("rad_proxy_spool_lost_total", lambda values, minute: values[minute] + since(minute, 7)),
    "RadProxySpoolOld": ("rad_proxy_spool_oldest_seconds", lambda values, minute: 3700 if is_now(minute) else values[minute]),
    "RadProxySpoolDropped": ("rad_proxy_spool_dropped_requests", lambda values, minute: 12 if is_now(minute) else values[minute]),
}


def each_fault_of_a_day_fires_its_own():
    """In the morning of this day ten minutes of a fault, which one series shows, have its alert fire, and no other one."""
    want("promtool")
    for alert_of_it, (series, value) in OF_A_DAY.items():
        day = [(name, [value(values, minute) if re.match(series, name) else values[minute] for minute in range(MINUTES)])
               for name, values in of_day()]
        hope(alert_of_it, fired_on(day, range(FAULT_AT - 10, MINUTES, 2)), {alert_of_it})


# What is told of the alerts of a cause. An alert is its name and its labels; a message is a receiver, and the alerts that it has.

CRITICAL = {"RadProxyGone", "RadProxyHomeDown", "RadProxyHomeSilent", "RadProxyClientUnanswered", "RadProxyLedgerWaits", "RadProxyLedgerUnsynced",
            "RadProxyLedgerDrops", "RadProxyClockStands", "RadProxyLaneStands", "RadProxySpoolUnsynced", "RadProxySpoolFails"}


def alert(name, instance, **labels):
    return {"alertname": name, "job": "rad_proxy", "instance": instance, "severity": "critical" if name in CRITICAL else "warning"} | labels


def of_home(instance, home, *names_of_alerts):
    return [alert(name, instance, lane="0", home=home) for name in names_of_alerts]


# The alerts of each cause, and what is told: of another home server, and of another proxy, as much as ever.
CAUSES = {
    "a home server dies": (
        [*of_home("a", "h1", "RadProxyHomeSilent", "RadProxyHomeDown", "RadProxyHomeFlaps", "RadProxyQueueWaits", "RadProxyQueueFills"),
         alert("RadProxyClientUnanswered", "a", client="192.0.2.10"), alert("RadProxyRefuses", "a", reason="QueueFull"),
         alert("RadProxyClientFloods", "a", client="192.0.2.10"), alert("RadProxyClientFloods", "b", client="192.0.2.10"),
         *of_home("a", "h2", "RadProxyQueueWaits"), alert("RadProxyRefuses", "b", reason="BookFull")],
        [("call", "RadProxyHomeDown h1"), ("mail", "RadProxyQueueWaits h2"), ("mail", "RadProxyRefuses b"),
         ("mail", "RadProxyClientFloods b")]),
    "a home server is slow": (
        of_home("c", "h1", "RadProxyHomeSlow", "RadProxyHomeFlaps", "RadProxyQueueWaits"), [("mail", "RadProxyHomeSlow h1")]),
    "one record is never answered": (
        of_home("d", "h1", "RadProxyRecordStuck", "RadProxyHomeFlaps", "RadProxyBookFills"), [("mail", "RadProxyRecordStuck h1")]),
    "the ledger's disk is full": (
        [alert(f"RadProxyLedger{what}", "e") for what in ("Waits", "Unsynced", "Drops")], [("call", "RadProxyLedgerDrops e, RadProxyLedgerWaits e")]),
    "the spool's disk is full": (
        [alert(f"RadProxySpool{what}", "h") for what in ("Fails", "Unsynced", "Lost")], [("call", "RadProxySpoolFails h")]),
    "the spool's disk hangs": (
        [alert(f"RadProxySpool{what}", "i") for what in ("Unsynced", "Lost", "Old")],
        [("call", "RadProxySpoolUnsynced i"), ("mail", "RadProxySpoolOld i")]),
    "a client is gone, and the spool has some of its requests": (
        [alert(f"RadProxySpool{what}", "j") for what in ("Dropped", "Old")], [("mail", "RadProxySpoolDropped j")]),
    "the clock stands": (
        [alert("RadProxyClockStands", "f"), *of_home("f", "h1", "RadProxyLaneStands")], [("call", "RadProxyClockStands f")]),
}
GONE = [alert("RadProxyHomeDown", "g", lane="0", home="h1"), alert("RadProxyStrangers", "g"),
        {"alertname": "RadProxyGone", "severity": "critical"}]


class Receivers:
    """Listens for what Alertmanager tells: each message as its receiver and a text of its alerts."""

    def __init__(self):
        told = self.told = set()

        class Listener(http.server.BaseHTTPRequestHandler):
            def do_POST(self):
                message = json.loads(self.rfile.read(int(self.headers["Content-Length"])))
                found = sorted(f"{it['alertname']} {it.get('home', it.get('instance', '-'))}" for it in (one["labels"] for one in message["alerts"]))
                told.add((message["receiver"], ", ".join(found)))
                self.send_response(200)
                self.end_headers()

            def log_message(self, *_):
                pass

        self.server = http.server.ThreadingHTTPServer((HERE, 0), Listener)
        threading.Thread(target=self.server.serve_forever, daemon=True).start()


def posted(port, alerts):
    asked = urllib.request.Request(f"http://{HERE}:{port}/api/v2/alerts", json.dumps([{"labels": it} for it in alerts]).encode(),
                                   {"Content-Type": "application/json"})
    with contextlib.suppress(OSError), urllib.request.urlopen(asked, timeout=5) as got:
        return got.status == 200
    return False


def told_by(text, alerts):
    """What Alertmanager tells of these alerts by a configuration."""
    receivers, port = Receivers(), free_port()
    text = text.replace("http://127.0.0.1:9095", f"http://{HERE}:{receivers.server.server_port}").replace("group_wait: 30s", "group_wait: 1s")
    with tempfile.TemporaryDirectory() as folder:
        pathlib.Path(folder, "it.yml").write_text(text, "utf-8")
        words = ["prometheus-alertmanager", f"--config.file={folder}/it.yml", f"--storage.path={folder}/data", "--cluster.listen-address=",
                 f"--web.listen-address={HERE}:{port}"]
        with started(words, stdout=subprocess.DEVNULL, stderr=subprocess.DEVNULL):
            until("it takes alerts", lambda: posted(port, alerts))
            time.sleep(2.5)
    receivers.server.shutdown()
    receivers.server.server_close()
    return receivers.told


def one_cause_calls_once():
    """Each cause is told once, by its own alert; what befalls another home server or proxy at the same time is told too."""
    want("amtool", "prometheus-alertmanager")
    subprocess.run(["amtool", "check-config", MANAGER], capture_output=True, check=True)
    text = MANAGER.read_text("utf-8")
    wanted = {message for _, messages in CAUSES.values() for message in messages}
    hope("what is told", sorted(told_by(text, [it for alerts, _ in CAUSES.values() for it in alerts])), sorted(wanted))
    hope("no proxy is there", sorted(told_by(text, GONE)), [("call", "RadProxyGone -")])


def each_rule_of_inhibition_holds_one_back():
    """Without any one of these rules more is told."""
    want("prometheus-alertmanager")
    text = MANAGER.read_text("utf-8")
    blocks = re.findall(r"(?m)^(?:  #.*\n)*  - source_matchers.*\n(?:    .*\n)*", text)
    head = text[:text.index(blocks[0])]
    hope("rules", head + "".join(blocks), text)
    alerts = [it for given, _ in CAUSES.values() for it in given]
    whole = {True: told_by(head + "".join(blocks), GONE), False: told_by(head + "".join(blocks), alerts)}
    for at, block in enumerate(blocks):
        is_gone = "RadProxyGone" in block
        found = told_by(head + "".join(blocks[:at] + blocks[at + 1:]), GONE if is_gone else alerts)
        need(len(found - whole[is_gone]) > 0, "nothing is told without", block)


def alerts_of_the_rules_are_known():
    """What the rules of inhibition name is an alert, with the severity that the causes here have."""
    known, text = set(names(rules())), MANAGER.read_text("utf-8")
    named = set(re.findall(r"RadProxy\w+", text))
    hope("unknown", sorted(named - known), [])
    severities = dict(re.findall(r"- alert: (\w+)\n(?:.*\n)*?        labels: {severity: (\w+)}", rules()))
    hope("critical ones", sorted(name for name in named if severities[name] == "critical"), sorted(named & CRITICAL))


TESTS = [each_rule_fires_where_it_should, each_rule_has_both_kinds_of_series, no_rule_may_fire_always_or_never,
         no_rule_may_fire_from_one_look, a_day_without_a_fault_fires_none, each_fault_of_a_day_fires_its_own, one_cause_calls_once,
         each_rule_of_inhibition_holds_one_back, alerts_of_the_rules_are_known]


if __name__ == "__main__":
    try_each(TESTS, trying.fault_of)
