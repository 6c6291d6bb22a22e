"""Rules and alerts for Prometheus: checked, tried by cases, and an alert sent to a webhook."""
import contextlib
import http.server
import json
import re
import shutil
import tempfile
import threading
import time
from pathlib import Path

from library.lab import Lab
from packaging_parts.common import LeftOut, holds, need, ran, run, same
from packaging_parts.dashboard import SAMPLE, metrics_of
from packaging_parts.watched import ALERTS, FOLDER, RULES, Watched, asked, replace

CASES = "snmpmon-tests.yml"
# How long nothing more may come after what is waited for.
QUIET = 3
# What promtool says of the sample: ifName is spelt as snmp_exporter spells it, and a speed is in
# bits, as ifSpeed is.
SAID = [
    "label names should be written in 'snake_case' not 'camelCase'",
    'snmpmon_interface_speed_bits use base unit "bytes" instead of "bits"',
]
UP = "(snmpmon_target_up and on (instance, job, station) snmpmon:fresh)"
EACH = "without (instance, job, station, device, ifAlias)\n          ("
NAMED = "without (instance, job, station, ifAlias)\n          ("
NUMBERED = "without (instance, job, device, ifAlias)\n          ("
GONE = (
    "or on (instance, job) "
    '0 * (snmpmon:station_up and on (instance, job) up{job="snmpmon"})'
)
# By the beginning of a case's name what it must refuse. Each breaks a rule in one place: file,
# text, and what is put in its place.
WRONG = {
    "one alarm that two stations see": [
        (RULES, "sum without (instance, job, station)", "sum without (instance, job)"),
        (RULES, "\n          or max without (station) (snmpmon:station_up == 1)", ""),
        (RULES, f"{EACH}snmpmon_alarm", f"{NUMBERED}snmpmon_alarm"),
        (RULES, f"max {EACH}snmpmon_alarm", f"min {EACH}snmpmon_alarm"),
        (RULES, f"{EACH}snmpmon_rate", f"{NUMBERED}snmpmon_rate"),
        (RULES, f"{EACH}snmpmon_interface", f"{NUMBERED}snmpmon_interface"),
    ],
    "an alarm of a device that goes down": [
        (ALERTS, "(last_over_time(snmpmon:alarms[1h]) == 1", "(snmpmon:alarms == 1"),
        (ALERTS, "[1h]", "[2h]"),
    ],
    "peers with another ifAlias": [
        (RULES, f"{EACH}snmpmon_alarm", f"{NAMED}snmpmon_alarm"),
        (RULES, f"{EACH}snmpmon_alarm", EACH.replace("ifAlias", "rising") + "snmpmon_alarm"),
        (RULES, f"{EACH}snmpmon_sample_age", f"{NAMED}snmpmon_sample_age"),
        (RULES, ">= bool 3", "> bool 3"),
        (RULES, f"{EACH}snmpmon_number", f"{NAMED}snmpmon_number"),
        (RULES, f"max {EACH}snmpmon_number", f"sum {EACH}snmpmon_number"),
    ],
    "a device is named": [
        (RULES, '{device!=""}', ""),
        (RULES, "topk by (group, target, engine) (1, ", "("),
        (RULES, "topk by (group, target, engine)", "topk by (target, engine)"),
        (RULES, '"$1", "target"', '"$1", "engine"'),
        (RULES, "(snmpmon_target_up or snmpmon_samples)", "snmpmon_target_up"),
        (RULES, "(snmpmon_target_up or snmpmon_samples)", "snmpmon_samples"),
    ],
    "a device that neither station reaches": [
        (RULES, "snmpmon:station_up == 1\n          or max", "max"),
        (RULES, "max without (instance, job, station, number)", "max without (job, number)"),
        (RULES, "max without (instance, job, station, number)", "max without (instance, job)"),
        (RULES, "max without (instance, job, station, n", "min without (instance, job, station, n"),
        (RULES, "min without (instance, job, station, n", "max without (instance, job, station, n"),
        (RULES, "min without (instance, job, station, n", "min without (instance, job, n"),
        (ALERTS, " unless on (group, target, engine) snmpmon:target_up == 0", ""),
        (ALERTS, "for: 1m", "for: 2m"),
    ],
    "a peer that is gone": [
        (RULES, f"{GONE}\n          ", ""),
        (RULES, "or on (instance, job) 0 * up", "or 0 * up"),
        (RULES, 'snmpmon:station_up == 0, "peer"', 'snmpmon:station_up > 1, "peer"'),
    ],
    "a station that receives nothing": [
        (RULES, "1 - (snmpmon_peer_up", "0 + (snmpmon_peer_up"),
        (RULES, "unless on (group, peer)", "unless on (peer)"),
        (RULES, '{station=""} == 0', " == 0"),
        (ALERTS, "snmpmon:peer_silent == 1", "snmpmon:peer_silent >= 0"),
        (ALERTS, "peer_silent == 1\n        for: 5m", "peer_silent == 1\n        for: 4m"),
    ],
    "a station that is no target": [(RULES, GONE, "or 0 * snmpmon:station_up")],
    "a station that is gone since": [
        (RULES, '\n          or on (instance, job) 0 * up{job="snmpmon"}', ""),
        (RULES, '\n          unless on (group) snmpmon:station_up{station=""} == 0', ""),
        (RULES, "unless on (group) snmpmon", "unless on () snmpmon"),
    ],
    "the old file of a station": [
        (RULES, f"number)\n          {UP}", "number)\n          (snmpmon_target_up)"),
        (RULES, "snmpmon_peer_up and on (instance, job, station) snmpmon:fresh", "snmpmon_peer_up"),
        (ALERTS, "> 0)\n          and on (instance, job, station) snmpmon:fresh", "> 0)"),
    ],
    "two stations with --station-label": [
        (RULES, "snmpmon_alarm and on (instance, job, station)", "snmpmon_alarm and on (instance)"),
        (RULES, "snmpmon_target_up and on (instance, job, station)", "snmpmon_target_up and on ()"),
    ],
    "a group that is gone": [(ALERTS, " unless on (group) snmpmon:stations_up == 0", "")],
    "an instance without new samples": [
        (RULES, f"min {EACH}snmpmon_sample_age", f"max {EACH}snmpmon_sample_age"),
    ],
    "saves that fail": [(ALERTS, "[10m]) > 0", "[10m]) >= 0")],
    "rounds longer than the interval": [
        (ALERTS, "duration_seconds > (", "duration_seconds >= ("),
        (ALERTS, "(snmpmon_round_interval_seconds > 0)", "snmpmon_round_interval_seconds"),
    ],
    "a device of two targets": [
        (RULES, "(min without (number)", "(max without (number)"),
        (RULES, "max without (instance, job, station) (min", "max without (instance, job) (min"),
        (ALERTS, "snmpmon:target_all_up == 1", "snmpmon:target_up == 1"),
    ],
    "a device that one station of two": [
        (ALERTS, "on (group, target, engine) snmpmon:target_all_up == 1", "snmpmon_target_up"),
    ],
    "rates in bits by interface": [
        (RULES, f"{EACH}snmpmon_rate", f"{NAMED}snmpmon_rate"),
        (RULES, f"max {EACH}snmpmon_rate", f"min {EACH}snmpmon_rate"),
        (RULES, "8 * snmpmon:rate", "snmpmon:rate"),
        (RULES, "if(HC)?(In|Out)Octets", "if.*"),
        (RULES, "if(HC)?(In|Out)Octets", "if(HC)?InOctets"),
        (RULES, f"{EACH}rate(", f"{NAMED}rate("),
        (RULES, f"{EACH}rate(", f"{NUMBERED}rate("),
        (RULES, "8 * max without", "max without"),
        (RULES, "ifHC(In|Out)Octets", "if(HC)?(In|Out)Octets"),
        (RULES, f"{EACH}snmpmon_interface", f"{NAMED}snmpmon_interface"),
        (RULES, f"max {EACH}snmpmon_interface", f"sum {EACH}snmpmon_interface"),
        (RULES, "snmpmon:bits:rate / snmpmon:speed_bits", "snmpmon:rate / snmpmon:speed_bits"),
        (RULES, "/ snmpmon:speed_bits", "/ snmpmon:speed_bits or 0 * snmpmon:bits:rate"),
    ],
}


def alertmanager():
    """The name of Alertmanager's program: Debian's, or that of its authors."""
    for name in ("prometheus-alertmanager", "alertmanager"):
        if shutil.which(name):
            return name
    raise LeftOut("prometheus-alertmanager is not installed")


def try_rules(_):
    """Promtool reads the rules, and each metric in them is one that the program prints."""
    need("promtool")
    ran("promtool", "check", "rules", FOLDER / RULES, FOLDER / ALERTS)
    text = (FOLDER / RULES).read_text() + (FOLDER / ALERTS).read_text()
    plain = re.sub(r"^ *#.*", "", text, flags=re.M)
    printed = metrics_of(SAMPLE.read_text())
    used = set(re.findall(r"\bsnmpmon_\w+", plain))
    same("metrics that the program does not print", sorted(used - set(printed)), [])
    recorded = set(re.findall(r"record: (\S+)", text))
    named = set(re.findall(r"\bsnmpmon:[\w:]+", plain))
    same("series that no rule records", sorted(named - recorded), [])


def try_config(_):
    need("promtool", "amtool")
    ran("promtool", "check", "config", FOLDER / "prometheus.yml")
    ran("amtool", "check-config", FOLDER / "alertmanager.yml")


def try_rule_cases(_):
    """The cases pass. Each alert is raised in one, and is not raised at another moment of it."""
    need("promtool")
    ran("promtool", "test", "rules", FOLDER / CASES)
    text = (FOLDER / CASES).read_text()
    raised = set(re.findall(r"alertname: (\w+)\n +eval_time: \w+\n +exp_alerts:", text))
    not_raised = set(re.findall(r"\{alertname: (\w+), eval_time: \w+\}", text))
    alerts = set(re.findall(r"alert: (\w+)", (FOLDER / ALERTS).read_text()))
    same("alerts that no case raises", sorted(alerts - raised), [])
    same("alerts of which no case shows that they are not raised", sorted(alerts - not_raised), [])


def case_named(beginning):
    """The file of cases with only the one whose name begins so."""
    head, *cases = re.split(r"(?m)^(?=  - name: )", (FOLDER / CASES).read_text())
    found = [it for it in cases if it.startswith(f"  - name: {beginning}")]
    same(f"cases that begin with {beginning!r}", len(found), 1)
    return head + found[0]


def try_wrong_rules(_):
    """The cases refuse rules that are wrong in one place."""
    need("promtool")
    with tempfile.TemporaryDirectory() as folder:
        for beginning, wrong in WRONG.items():
            text = case_named(beginning)
            for name, was, then in wrong:
                shutil.copytree(FOLDER, folder, dirs_exist_ok=True)
                replace(Path(folder) / name, (was, then))
                (Path(folder) / CASES).write_text(text)
                ran("promtool", "check", "rules", Path(folder) / name)
                status, _ = run("promtool", "test", "rules", Path(folder) / CASES)
                what = f"{then!r} for {was!r} in {name}"
                holds(f"case {beginning!r} does not refuse {what}", status != 0)


def try_metrics(_):
    """Promtool reads the sample, and says of it only how ifName and ifAlias are spelt."""
    need("promtool")
    _, said = run("promtool", "check", "metrics", input=SAMPLE.read_text())
    others = [line for line in said.splitlines() if not line.endswith(tuple(SAID))]
    same("what promtool says of the sample", others, [])
    for what in SAID:
        holds(f"promtool did not say {what!r}", what in said)


class Webhook(http.server.BaseHTTPRequestHandler):
    """Keeps the alerts that Alertmanager sends, in the order in which they come."""

    def do_POST(self):
        message = json.loads(self.rfile.read(int(self.headers["Content-Length"])))
        self.server.alerts += message["alerts"]
        self.send_response(200)
        self.end_headers()

    def log_message(self, *_):
        pass


class Alerted(Watched):
    """Stations and Prometheus, with Alertmanager and a webhook."""

    def __init__(self, lab, stack):
        super().__init__(lab, stack)
        self.webhook = http.server.ThreadingHTTPServer(("127.0.0.1", 0), Webhook)
        self.webhook.alerts = []
        stack.callback(self.webhook.shutdown)
        threading.Thread(target=self.webhook.serve_forever, daemon=True).start()
        self.name_device()
        self.start_stations()
        self.write_settings()
        self.start_alertmanager()
        self.start_prometheus()

    def write_settings(self):
        super().write_settings()
        replace(self.folder / ALERTS, ("for: 1m", "for: 2s"))
        replace(
            self.folder / "alertmanager.yml",
            ("http://127.0.0.1:9095/", f"http://127.0.0.1:{self.webhook.server_port}/"),
            ("group_wait: 30s", "group_wait: 1s"),
            ("group_interval: 5m", "group_interval: 1s"),
        )

    def start_alertmanager(self):
        self.start_server(
            alertmanager(),
            f"--config.file={self.folder}/alertmanager.yml",
            f"--storage.path={self.folder}/alerts",
            f"--web.listen-address=127.0.0.1:{self.ports[2]}",
            "--cluster.listen-address=",
        )

    def values(self, query):
        """The values of a query by ifName and name."""
        return {(it.get("ifName", ""), it.get("name", "")): v for it, v in self.series(query)}

    def wait_for(self, what, found, more=None):
        alerts = more or (lambda: f"the webhook has {self.webhook.alerts}")
        return super().wait_for(what, found, alerts)

    def received(self, name, status):
        """The alerts of this name and status that came to the webhook."""
        return [
            it
            for it in self.webhook.alerts
            if (it["labels"]["alertname"], it["status"]) == (name, status)
        ]


def read_as_open_metrics(watched):
    """Prometheus asks for OpenMetrics and gets it: only there are these families called so."""
    data = asked(watched.ports[3], "targets/metadata")
    types = {it["metric"]: it["type"] for it in data if it["metric"].startswith("snmpmon")}
    wanted = {"snmpmon": "info", "snmpmon_samples_taken": "counter", "snmpmon_counted": "counter"}
    same("families", {name: types.get(name) for name in wanted}, wanted)
    same("families with a suffix", [it for it in types if it.endswith(("_total", "_info"))], [])


def follow_alarm(watched):
    """Rates by interface, and the alarm of the second one: once, with edge1 and gi0/1."""
    watched.wait_for(
        "both stations are up",
        lambda: watched.values("snmpmon:stations_up") == {("", ""): 2},
    )
    rates = {("gi0/0", "ifHCInOctets.1"): 1e6, ("gi0/0", "ifHCOutOctets.1"): 5e5}
    rates |= {("gi0/1", "ifHCInOctets.2"): 1e10, ("gi0/2", "ifHCInOctets.3"): 16e3}
    rates[("gi0/2", "ifInOctets.3")] = 16e3
    watched.wait_for("bits by ifName", lambda: watched.values("snmpmon:bits:rate") == rates)
    watched.wait_for("the alarm", lambda: watched.received("SnmpmonAlarmRaised", "firing"))
    time.sleep(QUIET)
    alarms = watched.received("SnmpmonAlarmRaised", "firing")
    same("alerts of one alarm", len(alarms), 1)
    same("its summary", alarms[0]["annotations"]["summary"], "Alarm on edge1 gi0/1: ifHCInOctets.2")
    holds("its description has ifAlias", "(storage)" in alarms[0]["annotations"]["description"])


def follow_device(watched):
    """The agent stops: one alert, though two stations say so. It is back: resolved."""
    watched.lab.kill(watched.agent)
    watched.wait_for(
        "both stations see the device down",
        lambda: watched.values("count(snmpmon_target_up == 0)") == {("", ""): 2},
    )
    watched.wait_for("the alert", lambda: watched.received("SnmpmonDeviceDown", "firing"))
    time.sleep(QUIET)
    downs = watched.received("SnmpmonDeviceDown", "firing")
    same("alerts of one device", len(downs), 1)
    said = downs[0]["annotations"]
    same("its summary", said["summary"], "Device edge1 does not answer")
    holds("its description has the address", watched.device in said["description"])
    same("resolved before the agent is back", watched.received("SnmpmonDeviceDown", "resolved"), [])
    watched.lab.start("agent", "agent-large.toml", "--count", "4294967295", "--boots", "2")
    watched.wait_for("its end", lambda: watched.received("SnmpmonDeviceDown", "resolved"))
    time.sleep(QUIET)
    for status in ("firing", "resolved"):
        same(f"alerts {status}", len(watched.received("SnmpmonDeviceDown", status)), 1)
    same("alerts of the alarm", len(watched.received("SnmpmonAlarmRaised", "firing")), 1)
    same("ends of the alarm", watched.received("SnmpmonAlarmRaised", "resolved"), [])


def try_alert(program):
    """An agent stops and comes back: the webhook gets one alert and one end of it. At most 60 s."""
    need("prometheus", alertmanager())
    with tempfile.TemporaryDirectory() as folder, contextlib.ExitStack() as stack:
        lab = Lab(program, folder)
        stack.callback(lab.close)
        watched = Alerted(lab, stack)
        follow_alarm(watched)
        read_as_open_metrics(watched)
        follow_device(watched)
        same(
            "alerts of other kinds",
            {it["labels"]["alertname"] for it in watched.webhook.alerts}
            - {"SnmpmonAlarmRaised", "SnmpmonDeviceDown"},
            set(),
        )
