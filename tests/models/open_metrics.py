"""OpenMetrics 1.0 as the parser of its authors reads it: Debian's python3-prometheus-client.

`families(text)` gives of each family its name, type and text of help, and of each sample its name, labels and value; None if the
parser is not installed. It raises ValueError if the parser refuses the text.
"""
import json
import subprocess
import sys
from pathlib import Path

# The interpreter of these scripts may not be the one for which Debian installs modules.
INTERPRETERS = [sys.executable, "/usr/bin/python3"]
MODULE = "prometheus_client.openmetrics.parser"
READER = f"""
import json, sys
from {MODULE} import text_string_to_metric_families
found = []
for it in text_string_to_metric_families(sys.stdin.buffer.read().decode()):
    found.append([it.name, it.type, it.documentation, [[s.name, s.labels, s.value] for s in it.samples]])
print(json.dumps(found))
"""


def interpreter():
    """The first interpreter that has the parser, or None."""
    for it in INTERPRETERS:
        if Path(it).exists() and not subprocess.run([it, "-c", f"import {MODULE}"], capture_output=True).returncode:
            return it
    return None


def families(text):
    found = interpreter()
    if not found:
        return None
    done = subprocess.run([found, "-c", READER], input=text.encode(), capture_output=True)
    if done.returncode:
        raise ValueError(done.stderr.decode().strip().split("\n")[-1])
    return json.loads(done.stdout)
