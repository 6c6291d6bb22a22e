"""The JSON object of a change that a station with --notify sends, from what Alertmanager's documentation says of its webhook, version 4: a group of
one alert, grouped by all its labels. Written apart from the proved code; the text is that of Python's own writer of JSON.

What is not in that documentation is a choice of ours: members and labels by their names, no space in the text, the receiver's name, and that the key of
the group is its fingerprint. The fingerprint is Prometheus' own of these labels, FNV-1a of 64 bits (RFC 9923).
"""
import json
import re
from datetime import datetime, timezone
from typing import NamedTuple

# When an alert ends that has not ended: the first time of Go's calendar.
NEVER = "0001-01-01T00:00:00Z"
# RFC 3339, section 5.6, in UTC and to the second.
TIME = re.compile(r"[0-9]{4}-[0-9]{2}-[0-9]{2}T[0-9]{2}:[0-9]{2}:[0-9]{2}Z")
ALARM, DEVICE = "SnmpmonAlarmRaised", "SnmpmonDeviceDown"
MAX_OCTETS = 4096


def fingerprint(labels):
    """FNV-1a of 64 bits over names and values in the order of the names, an octet of ones behind each, in hex digits."""
    hashed = 0xCBF29CE484222325
    for name in sorted(labels):
        for octet in name.encode() + b"\xff" + labels[name].encode() + b"\xff":
            hashed = ((hashed ^ octet) * 0x100000001B3) % 2**64
    return f"{hashed:016x}"


def alarm_labels(station, engine, name, rising, falling, **more):
    """The labels of a change of an alarm: `more` are device, target, ifName and ifAlias, where they are known."""
    known = {key: text for key, text in more.items() if text is not None}
    return {
        "alertname": ALARM, "station": str(station), "engine": engine, "name": name, "rising": str(rising), "falling": str(falling), **known,
    }


def device_labels(station, target, device=None):
    """The labels of a change of a device."""
    return {"alertname": DEVICE, "station": str(station), "target": target} | ({} if device is None else {"device": device})


class Notice(NamedTuple):
    """What an object says: its labels, a line for people, and when the alert began and ended (None if it has not), in seconds since 1970."""

    labels: dict
    summary: str
    starts_at: int
    ends_at: int | None

    def is_raised(self):
        return self.ends_at is None


def time_text(seconds):
    return NEVER if seconds is None else datetime.fromtimestamp(seconds, timezone.utc).strftime("%Y-%m-%dT%H:%M:%SZ")


def seconds_of(text):
    return None if text == NEVER else int(datetime.strptime(text, "%Y-%m-%dT%H:%M:%SZ").replace(tzinfo=timezone.utc).timestamp())


def object_of(notice):
    """The object of a notice."""
    labels, annotations, hashed = dict(sorted(notice.labels.items())), {"summary": notice.summary}, fingerprint(notice.labels)
    status = "firing" if notice.ends_at is None else "resolved"
    alert = {
        "annotations": annotations, "endsAt": time_text(notice.ends_at), "fingerprint": hashed, "generatorURL": "", "labels": labels,
        "startsAt": time_text(notice.starts_at), "status": status,
    }
    return {
        "alerts": [alert], "commonAnnotations": annotations, "commonLabels": labels, "externalURL": "",
        "groupKey": f'{{}}:{{fingerprint="{hashed}"}}', "groupLabels": labels, "receiver": "snmpmon", "status": status, "truncatedAlerts": 0,
        "version": "4",
    }


def text_of(notice):
    """The text of the object, in octets."""
    return json.dumps(object_of(notice), ensure_ascii=False, separators=(",", ":")).encode()


def differences(found, wanted, at="$"):
    """Where two values differ, member by member."""
    if type(found) is not type(wanted):
        return [f"{at}: {found!r}, not {wanted!r}"]
    if isinstance(wanted, dict):
        missing = [f"{at}.{name}: missing" for name in wanted if name not in found] + [f"{at}.{name}: not wanted" for name in found if name not in wanted]
        return missing + [it for name in wanted if name in found for it in differences(found[name], wanted[name], f"{at}.{name}")]
    if isinstance(wanted, list) and len(found) == len(wanted):
        return [it for place, pair in enumerate(zip(found, wanted)) for it in differences(*pair, f"{at}[{place}]")]
    return [] if found == wanted else [f"{at}: {found!r}, not {wanted!r}"]


class NoNotice(Exception):
    """Octets are no object of a change; it says where they differ from one."""


def read(octets):
    """The notice that a text is, octet by octet that of the model; or NoNotice."""
    try:
        value = json.loads(octets)
        (alert,) = value["alerts"]
        times = alert["startsAt"], alert["endsAt"]
        if not all(TIME.fullmatch(it) for it in times):
            raise NoNotice(f"times {times}")
        notice = Notice(alert["labels"], alert["annotations"]["summary"], *map(seconds_of, times))
    except (ValueError, KeyError, TypeError) as error:
        raise NoNotice(f"{error!r}: {octets[:300]!r}") from error
    if found := differences(value, object_of(notice)):
        raise NoNotice("; ".join(found))
    if octets != text_of(notice):
        raise NoNotice(f"other octets: {octets!r}, not {text_of(notice)!r}")
    return notice
