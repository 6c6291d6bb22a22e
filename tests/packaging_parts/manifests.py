"""What the manifests of packaging/kubernetes must hold, to fit one another and the program.

No cluster is needed. Names, ports and paths are compared with what has them: with one another,
with packaging/Containerfile, and with the settings as the program reads them.
"""
import json
import re
import tempfile
import tomllib
from pathlib import Path

from packaging_parts.common import PACKAGING, TOP, LeftOut, holds, ran, run, same

try:
    import yaml
except ImportError:
    yaml = None

FOLDER = PACKAGING / "kubernetes"
CONTAINERFILE = (PACKAGING / "Containerfile").read_text()
# What a pod of this program has, in the words of Kubernetes' level "restricted".
POD_SECURITY = {"runAsNonRoot": True, "seccompProfile": {"type": "RuntimeDefault"}}
CONTAINER_SECURITY = {
    "allowPrivilegeEscalation": False,
    "readOnlyRootFilesystem": True,
    "capabilities": {"drop": ["ALL"]},
}
# The labels that the Prometheus Operator gives a pod's series, and those that the rules need.
OPERATORS_LABELS = ["namespace", "pod", "container", "endpoint"]
LABELS_OF_RULES = ["job", "instance", "group"]
# The fields of a manifest by its kind, where kubectl has no command that knows them.
FIELDS = {
    "Namespace": "",
    "ConfigMap": "data",
    "StorageClass": "provisioner volumeBindingMode",
    "PersistentVolume": "spec.storageClassName spec.capacity.storage spec.accessModes"
    " spec.persistentVolumeReclaimPolicy spec.claimRef.namespace spec.claimRef.name"
    " spec.local.path spec.nodeAffinity.required.nodeSelectorTerms",
    "PodDisruptionBudget": "spec.maxUnavailable spec.selector.matchLabels",
    "PodMonitor": "spec.jobLabel spec.podTargetLabels spec.selector.matchLabels"
    " spec.podMetricsEndpoints",
}
COMMON_FIELDS = ["apiVersion", "kind", "metadata"]
KNOWN_BY_KUBECTL = ["Service", "StatefulSet"]
# Each breaks the manifests in one place: file, text, and what is put in its place.
WRONG = [
    ("namespace.yaml", "enforce: privileged", "enforce: baseline"),
    ("settings.yaml", "station = 2\n    listen", "station = 3\n    listen"),
    ("settings.yaml", 'community = "public"\n', 'comunity = "public"\n'),
    ("settings.yaml", 'listen = "192.0.2.12:16101"', 'listen = "192.0.2.12:161"'),
    ("settings.yaml", 'address = "192.0.2.11:16101"', 'address = "192.0.2.13:16101"'),
    ("settings.yaml", "falling = 90000000000\n  labels", "falling = 80000000000\n  labels"),
    ("settings.yaml", "wait_ms = 500", "wait_ms = 1000"),
    ("settings.yaml", "edge-1.toml: |", "edge-2.toml: |"),
    ("settings.yaml", "index = 3", "index = 0"),
    ("settings.yaml", '  name: edge\n', '  name: other\n'),
    ("volumes.yaml", "name: state-edge-1", "name: state-edge-2"),
    ("volumes.yaml", 'values: ["node-b"]', 'values: ["node-a"]'),
    ("volumes.yaml", "storage: 16Mi", "storage: 1Mi"),
    ("volumes.yaml", "spec:\n  storageClassName: snmpmon", "spec:\n  storageClassName: other"),
    ("volumes.yaml", "claimRef:", "claimReference:"),
    ("stations.yaml", "serviceName: edge", "serviceName: other"),
    ("stations.yaml", "replicas: 2", "replicas: 3"),
    ("stations.yaml", "  clusterIP: None\n", ""),
    ("stations.yaml", "targetPort: peers", "targetPort: peer"),
    ("stations.yaml", "peers\n      protocol: UDP", "peers\n      protocol: TCP"),
    ("stations.yaml", "      hostNetwork: true\n", ""),
    ("stations.yaml", "runAsUser: 65532", "runAsUser: 0"),
    ("stations.yaml", "fsGroup: 65532", "fsGroup: 65533"),
    ("stations.yaml", 'drop: ["ALL"]', 'drop: ["NET_RAW"]'),
    ("stations.yaml", "            readOnlyRootFilesystem: true\n", ""),
    ("stations.yaml", "snmpmon:0.1.0", "snmpmon:0.0.9"),
    ("stations.yaml", "fieldPath: metadata.name\n", "fieldPath: metadata.uid\n"),
    ("stations.yaml", "- name: HOST_IP", "- name: POD_IP"),
    ("stations.yaml", "$(HOST_IP):9732", "$(HOST_IP):80"),
    ("stations.yaml", "/etc/snmpmon/labels.toml", "/etc/snmpmon/label.toml"),
    ("stations.yaml", "- --names", "- --name-all"),
    ("stations.yaml", "mountPath: /var/lib/snmpmon", "mountPath: /var/lib/other"),
    ("stations.yaml", "- name: state\n              mount", "- name: stat\n              mount"),
    ("stations.yaml", "failureThreshold: 24", "failureThreshold: 6"),
    ("stations.yaml", "periodSeconds: 20", "periodSeconds: 2"),
    ("stations.yaml", "minReadySeconds: 30", "minReadySeconds: 5"),
    ("stations.yaml", "/healthz\n              port: http", "/health\n              port: http"),
    ("stations.yaml", "topologyKey: kubernetes.io/hostname", "topologyKey: kubernetes.io/host"),
    ("stations.yaml", "maxUnavailable: 1", "minUnavailable: 1"),
    ("podmonitor.yaml", "port: http", "port: web"),
    ("podmonitor.yaml", "|endpoint", ""),
    ("podmonitor.yaml", "namespace|", "namespace|group|"),
    ("podmonitor.yaml", "jobLabel: app.kubernetes.io/name", "jobLabel: app.kubernetes.io/part"),
    ("podmonitor.yaml", '["group"]', '["groups"]'),
]


class Manifests:
    """The documents of a folder, each by its kind and name."""

    def __init__(self, folder):
        if yaml is None:
            raise LeftOut("python3-yaml is not installed")
        self.found = {}
        for path in sorted(folder.glob("*.yaml")):
            for document in yaml.safe_load_all(path.read_text()):
                name = document["kind"], document["metadata"]["name"]
                holds(f"{name} is there twice", name not in self.found)
                self.found[name] = document
        self.set = self.one("StatefulSet")
        self.pod = self.set["spec"]["template"]["spec"]
        self.labels = self.set["spec"]["template"]["metadata"]["labels"]
        self.container = self.pod["containers"][0]
        self.ports = {it["name"]: it for it in self.container["ports"]}
        self.claim = self.set["spec"]["volumeClaimTemplates"][0]

    def all(self, kind):
        return [it for (found, _), it in self.found.items() if found == kind]

    def one(self, kind):
        same(f"how many manifests are a {kind}", len(self.all(kind)), 1)
        return self.all(kind)[0]

    def pods(self):
        """The names of the pods."""
        name = self.set["metadata"]["name"]
        return [f"{name}-{number}" for number in range(self.set["spec"]["replicas"])]

    def selects(self, selector):
        """Returns true if these labels are of the pods."""
        return bool(selector) and selector.items() <= self.labels.items()

    def words(self, pod):
        """The arguments of a pod's station, with its name and an address in place of variables."""
        values = {}
        for variable in self.container["env"]:
            field = variable["valueFrom"]["fieldRef"]["fieldPath"]
            known = {"metadata.name": pod, "status.hostIP": "127.0.0.1"}
            values[variable["name"]] = known[field]
        return [
            re.sub(r"\$\((\w+)\)", lambda found: values[found[1]], word)
            for word in self.container["args"]
        ]


def paths_of_image():
    """The paths that the manifests take to be in the image."""
    if yaml is None:
        return []
    words = Manifests(FOLDER).container["args"]
    return [word for word in words if word.startswith("/usr/")]


def check_names(manifests):
    """Namespaces, labels, selectors and names that refer to one another."""
    space = manifests.one("Namespace")
    level = space["metadata"]["labels"]["pod-security.kubernetes.io/enforce"]
    same("the namespace's level, which hostNetwork needs", level, "privileged")
    for kind in ("ConfigMap", "Service", "StatefulSet", "PodDisruptionBudget", "PodMonitor"):
        named = manifests.one(kind)["metadata"]["namespace"]
        same(f"namespace of {kind}", named, space["metadata"]["name"])
    service, spec = manifests.one("Service"), manifests.set["spec"]
    same("the stations' Service", spec["serviceName"], service["metadata"]["name"])
    same("its address", service["spec"]["clusterIP"], "None")
    term = manifests.pod["affinity"]["podAntiAffinity"]
    term = term["requiredDuringSchedulingIgnoredDuringExecution"][0]
    same("what has one pod at most", term["topologyKey"], "kubernetes.io/hostname")
    selectors = {
        "Service": service["spec"]["selector"],
        "StatefulSet": spec["selector"]["matchLabels"],
        "anti-affinity": term["labelSelector"]["matchLabels"],
    }
    for kind in ("PodDisruptionBudget", "PodMonitor"):
        selectors[kind] = manifests.one(kind)["spec"]["selector"]["matchLabels"]
    for what, selector in selectors.items():
        holds(f"the selector of {what} does not fit the pods", manifests.selects(selector))


def check_ports(manifests):
    """Ports of the Service are those of the pods, and none needs a privilege."""
    for port in manifests.one("Service")["spec"]["ports"]:
        held = manifests.ports[port["targetPort"]]
        same(
            f"port {port['name']}",
            (port["port"], port["protocol"]),
            (held["containerPort"], held["protocol"]),
        )
    protocols = {name: port["protocol"] for name, port in manifests.ports.items()}
    same("protocols", protocols, {"peers": "UDP", "http": "TCP"})
    for name, port in manifests.ports.items():
        holds(f"port {name} needs a privilege", port["containerPort"] >= 1024)
    words = manifests.words("edge-0")
    at = words[words.index("--http") + 1]
    same("where it serves", at, f"127.0.0.1:{manifests.ports['http']['containerPort']}")
    for probe in ("startupProbe", "readinessProbe", "livenessProbe"):
        same(probe, manifests.container[probe]["httpGet"], {"path": "/healthz", "port": "http"})


def check_security(manifests):
    """The user is that of the image, and has no privilege."""
    user = int(re.search(r"^USER (\d+):\1$", CONTAINERFILE, re.M)[1])
    context = manifests.pod["securityContext"]
    named = {key: context[key] for key in ("runAsUser", "runAsGroup", "fsGroup")}
    same("the pod's user", named, dict.fromkeys(named, user))
    holds("the pod's securityContext", POD_SECURITY.items() <= context.items())
    same("the container's", manifests.container["securityContext"], CONTAINER_SECURITY)
    holds("its network is not the node's", manifests.pod["hostNetwork"])
    version = re.search(r'"snmpmon ([\d.]+)', (TOP / "crates/mon_cli/src/parser.rt").read_text())[1]
    name, _, tag = manifests.container["image"].rpartition(":")
    same("the image", (name.rsplit("/")[-1], tag), ("snmpmon", version))


def check_volumes(manifests):
    """Pods mount the settings, and each its own claim at the folder that the image keeps."""
    kept = re.search(r"^VOLUME (\S+)$", CONTAINERFILE, re.M)[1]
    names = {it["name"]: it["configMap"]["name"] for it in manifests.pod["volumes"]}
    same("volumes", names, {"settings": manifests.one("ConfigMap")["metadata"]["name"]})
    mounts = {it["name"]: it["mountPath"] for it in manifests.container["volumeMounts"]}
    claim = manifests.claim["metadata"]["name"]
    same("mounts", mounts, {"settings": "/etc/snmpmon", claim: kept})
    asked = manifests.claim["spec"]["resources"]["requests"]["storage"]
    holds("a file does not fit its volume", int(asked.removesuffix("Mi")) * 2**20 > 4 * 2097152)


def check_nodes(manifests):
    """Each claim has a volume of its own, on a node of its own."""
    claim = manifests.claim["metadata"]["name"]
    specs = [it["spec"] for it in manifests.all("PersistentVolume")]
    space = manifests.set["metadata"]["namespace"]
    claims = {(spec["claimRef"]["namespace"], spec["claimRef"]["name"]) for spec in specs}
    same("claims", claims, {(space, f"{claim}-{pod}") for pod in manifests.pods()})
    terms = [spec["nodeAffinity"]["required"]["nodeSelectorTerms"] for spec in specs]
    nodes = [term[0]["matchExpressions"][0] for term in terms]
    same("nodes of volumes", len({node["values"][0] for node in nodes}), len(specs))
    same("keys of nodes", {node["key"] for node in nodes}, {"kubernetes.io/hostname"})
    asked = manifests.claim["spec"]
    stored = {spec["storageClassName"] for spec in [*specs, asked]}
    same("storage classes", stored, {manifests.one("StorageClass")["metadata"]["name"]})
    sizes = {spec["capacity"]["storage"] for spec in specs}
    same("sizes", sizes, {asked["resources"]["requests"]["storage"]})


def check_settings(manifests):
    """Stations of a group: one for each pod, which watch the same and are peers."""
    data = manifests.one("ConfigMap")["data"]
    files = {name.removesuffix(".toml"): tomllib.loads(text) for name, text in data.items()}
    del files["labels"]
    same("stations", sorted(files), manifests.pods())
    stations = [files[pod] for pod in manifests.pods()]
    same("their numbers", [it["station"] for it in stations], list(range(1, len(stations) + 1)))
    places = {it["station"]: it["listen"] for it in stations}
    same("different addresses", len(set(places.values())), len(stations))
    for station in stations:
        peers = {it["station"]: it["address"] for it in station["peer"]}
        others = {number: at for number, at in places.items() if number != station["station"]}
        same(f"peers of station {station['station']}", peers, others)
        port = int(station["listen"].split(":")[1])
        same("the port for peers", port, manifests.ports["peers"]["containerPort"])
        for key in ("target", "alarm", "window", "wait_ms", "file"):
            same(f"{key} of station {station['station']}", station[key], stations[0][key])
        holds("the file is not in the folder that is kept", "/" not in station["file"])


def checked_by_program(manifests, program, pod):
    """What `station --check` says of a pod's settings, with all of its arguments."""
    with tempfile.TemporaryDirectory() as folder:
        for name, text in manifests.one("ConfigMap")["data"].items():
            (Path(folder) / name).write_text(text)
        words = [word.replace("/etc/snmpmon/", f"{folder}/") for word in manifests.words(pod)]
        words = [word.replace("/usr/share/doc/snmpmon/", f"{TOP}/") for word in words]
        return ran(program, *words, "--check")


def check_program(manifests, program):
    """The program accepts arguments, settings and labels, and probes leave it the time it needs."""
    words = manifests.container["args"]
    interval = int(words[words.index("--interval") + 1])
    for pod in manifests.pods():
        said = checked_by_program(manifests, program, pod)
        longest = int(re.search(r"(\d+) ms at most", said)[1]) / 1000
        holds(f"a round outlasts the interval: {said}", longest <= interval)
        for name, least in {
            # (before its first round it waits for its turn)
            "startupProbe": 2 * (interval + longest),
            # (one refusal of memory, or one slow disk, is over by the next round)
            "livenessProbe": 2 * interval,
        }.items():
            probe = manifests.container[name]
            given = probe["periodSeconds"] * probe["failureThreshold"]
            holds(f"{name} ends after {given} s, not {least}", given >= least)
    ready = manifests.set["spec"]["minReadySeconds"]
    holds(f"an update waits for {ready} s only", ready >= 3 * interval)


def check_monitor(manifests):
    """Series have the labels that the rules of packaging/prometheus need, and no others."""
    spec = manifests.one("PodMonitor")["spec"]
    config = (PACKAGING / "prometheus/prometheus.yml").read_text()
    job = re.search(r"job_name: (\S+)", config)[1]
    same("the job", manifests.labels[spec["jobLabel"]], job)
    same("labels of the pod", spec["podTargetLabels"], ["group"])
    holds("the pod has no group", manifests.labels["group"])
    for endpoint in spec["podMetricsEndpoints"]:
        same("the path", endpoint["path"], "/metrics")
        same("the port", endpoint["port"] in manifests.ports and endpoint["port"], "http")
        drops = [it["regex"] for it in endpoint["relabelings"] if it["action"] == "labeldrop"]
        labels = [*LABELS_OF_RULES, *OPERATORS_LABELS]
        left = [it for it in labels if not any(re.fullmatch(drop, it) for drop in drops)]
        same("labels of a series", left, LABELS_OF_RULES)


def fields_of(value, path=""):
    """The paths of all fields within a value."""
    if isinstance(value, dict) and value:
        for key, part in value.items():
            yield from fields_of(part, f"{path}{key}.")
    else:
        yield path


def check_fields(manifests):
    """Each manifest has the fields that its kind must have, and no others."""
    for (kind, name), document in manifests.found.items():
        if kind in KNOWN_BY_KUBECTL:
            continue
        own = {key: document[key] for key in document if key not in COMMON_FIELDS}
        has, known = set(fields_of(own)) - {""}, {f"{it}." for it in FIELDS[kind].split()}
        lacks = [it for it in known if not any(field.startswith(it) for field in has)]
        same(f"fields that {kind} {name} lacks", lacks, [])
        more = [field for field in has if not any(field.startswith(it) for it in known)]
        same(f"fields that a {kind} has not", more, [])


def check_all(folder, program):
    manifests = Manifests(folder)
    check_fields(manifests)
    check_names(manifests)
    check_ports(manifests)
    check_security(manifests)
    check_volumes(manifests)
    check_nodes(manifests)
    check_settings(manifests)
    check_monitor(manifests)
    check_program(manifests, program)


def lost(given, known, path=""):
    """The fields of a manifest that came to nothing as kubectl read it."""
    if isinstance(given, dict) and isinstance(known, dict):
        for key, value in given.items():
            if key in known:
                yield from lost(value, known[key], f"{path}.{key}")
            else:
                yield f"{path}.{key}"
    elif isinstance(given, list) and isinstance(known, list) and len(given) == len(known):
        for number, (one, other) in enumerate(zip(given, known)):
            yield from lost(one, other, f"{path}[{number}]")
    elif given != known:
        yield path


def check_types(folder):
    """Kubectl reads Service and StatefulSet by Kubernetes' types, and drops all else."""
    manifests = Manifests(folder)
    service = manifests.one("Service")
    selector = ",".join(f"{key}={value}" for key, value in service["spec"]["selector"].items())
    # (it prints nothing if it changes nothing)
    for document, words in (
        (manifests.set, ["resources", "--limits=memory=1Mi"]),
        (service, ["selector", selector]),
    ):
        words = [*words, "--local", "--filename", "-", "--output", "json"]
        status, said = run("kubectl", "set", *words, input=yaml.safe_dump(document))
        if status != 0:
            raise AssertionError(f"kubectl refuses a {document['kind']}: {said[-600:]}")
        manifests.container["resources"]["limits"]["memory"] = "1Mi"
        same(f"fields of {document['kind']}", list(lost(document, json.loads(said))), [])
