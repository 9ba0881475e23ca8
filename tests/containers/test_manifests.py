"""What begins containers: each word of a front is one that it takes, and Kubernetes knows each field."""
from __future__ import annotations

import importlib.util
import json
import re
import sys
from importlib.machinery import SourceFileLoader
from pathlib import Path
from typing import Any, Dict, List

import pytest

TOP = Path(__file__).resolve().parents[2]
CONTAINERS = TOP / "packaging" / "containers"
sys.path.append(str(TOP / "tools"))
yaml = pytest.importorskip("yaml", reason="python3-yaml is not installed")


def keep() -> Any:
    """tools/keep as a module."""
    loader = SourceFileLoader("keep", str(TOP / "tools" / "keep"))
    spec = importlib.util.spec_from_loader("keep", loader)
    assert spec is not None
    module = importlib.util.module_from_spec(spec)
    loader.exec_module(module)
    return module


def compose() -> Any:
    return yaml.safe_load((CONTAINERS / "compose.yaml").read_text())


def objects() -> List[Any]:
    """All that the manifests have."""
    made = yaml.safe_load((CONTAINERS / "kubernetes" / "kustomization.yaml").read_text())
    return [it for name in made["resources"] for it in yaml.safe_load_all((CONTAINERS / "kubernetes" / name).read_text())]


def pods() -> Dict[str, Any]:
    return {it["metadata"]["name"]: it["spec"]["template"] for it in objects() if it["kind"] == "StatefulSet"}


def words_of_the_image() -> List[str]:
    (words,) = re.findall(r"^CMD (.*)$", (CONTAINERS / "kept.containerfile").read_text(), re.M)
    said: List[str] = json.loads(words)
    return said


FRONTS = {
    "the image": words_of_the_image(),
    **{name: compose()["services"][name]["command"] for name in ("front1", "front2")},
    "a pod": [word.replace("$(ADDRESS)", "10.0.0.1") for word in pods()["ljserve"]["spec"]["containers"][0]["args"]],
}


@pytest.mark.parametrize("words", FRONTS.values(), ids=FRONTS)
def test_each_front_takes_its_words(words: List[str], monkeypatch: pytest.MonkeyPatch) -> None:
    monkeypatch.setattr("shutil.which", lambda word: word if word == "/usr/bin/ljserve" else None)
    options = keep().options_of(words)
    assert (options.listen, options.metrics, options.log) == (("0.0.0.0", 4000), ("0.0.0.0", 9402), "-")
    assert (options.server.program, options.server.users) == ("/usr/bin/ljserve", "/etc/ljserve/users")
    is_shared = options.places[1].startswith("postgresql://")
    assert bool(options.advertise) == is_shared and (is_shared or options.places[1] == "/var/lib/ljserve")


def test_each_front_of_compose_is_found_at_its_own_address() -> None:
    services = compose()["services"]
    at = {name: services[name]["networks"]["inner"]["ipv4_address"] for name in services}
    assert len({*at.values()}) == len(at) == 4
    for number in (1, 2):
        words = services[f"front{number}"]["command"]
        assert words[words.index("--advertise") + 1] == f"{at[f'front{number}']}:4000"
        assert words[1] == f"postgresql://ljserve@{at['database']}/ljserve"
        assert services["haproxy"]["environment"][f"LJSERVE_FRONT_{number}"] == f"{at[f'front{number}']}:4000"


def test_fronts_of_compose_have_no_rights_and_end_in_time() -> None:
    for name in ("front1", "front2"):
        front = compose()["services"][name]
        assert front["read_only"] is True and front["cap_drop"] == ["ALL"] and front["security_opt"] == ["no-new-privileges"]
        assert front["stop_grace_period"] == "30s" and front["volumes"] == ["${LJSERVE_USERS:-./users}:/etc/ljserve/users:ro"]


def test_kubernetes_knows_each_field() -> None:
    """By the client of Kubernetes, which is made from the description of its interface: what it reads and writes again is all there."""
    pytest.importorskip("kubernetes", reason="python3-kubernetes is not installed")
    from kubernetes import client

    kinds = {"Service": "V1Service", "StatefulSet": "V1StatefulSet", "PodDisruptionBudget": "V1PodDisruptionBudget"}
    api = client.ApiClient()
    for it in objects():
        read = api._ApiClient__deserialize(it, kinds[it["kind"]])
        assert api.sanitize_for_serialization(read) == it


def test_kubernetes_refuses_a_field_that_it_does_not_know() -> None:
    pytest.importorskip("kubernetes", reason="python3-kubernetes is not installed")
    from kubernetes import client

    api, wrong = client.ApiClient(), {"containers": [{"name": "front", "imagePull": "Always"}]}
    assert api.sanitize_for_serialization(api._ApiClient__deserialize(wrong, "V1PodSpec")) != wrong
    with pytest.raises(ValueError, match="containers"):
        api._ApiClient__deserialize({"hostname": "front"}, "V1PodSpec")


def test_services_find_pods_and_their_ports() -> None:
    for service in (it for it in objects() if it["kind"] == "Service"):
        (pod,) = [pod for pod in pods().values() if service["spec"]["selector"].items() <= pod["metadata"]["labels"].items()]
        ports = {port["name"]: port["containerPort"] for port in pod["spec"]["containers"][0]["ports"]}
        for port in service["spec"]["ports"]:
            assert ports[port["targetPort"]] == port["port"]


def test_each_set_has_the_service_that_it_names() -> None:
    services = {it["metadata"]["name"] for it in objects() if it["kind"] == "Service" and it["spec"].get("clusterIP") == "None"}
    for it in (it for it in objects() if it["kind"] == "StatefulSet"):
        assert it["spec"]["serviceName"] in services
        assert it["spec"]["selector"]["matchLabels"] == it["spec"]["template"]["metadata"]["labels"]


def test_probes_ask_the_front() -> None:
    (front,) = pods()["ljserve"]["spec"]["containers"]
    ports = {port["name"]: port["containerPort"] for port in front["ports"]}
    for name in ("startupProbe", "readinessProbe", "livenessProbe"):
        asked = front[name]["httpGet"]
        assert (asked["path"], ports[asked["port"]]) == ("/healthz", 9402)
    # Nobody begins a front again before it has ended by itself.
    assert front["livenessProbe"]["periodSeconds"] * front["livenessProbe"]["failureThreshold"] > 60


def test_secrets_are_made_as_they_are_used() -> None:
    said = (CONTAINERS / "kubernetes" / "kustomization.yaml").read_text()
    made = dict(re.findall(r"kubectl create secret generic (\S+) --from-\w+=(\w+)=", said))
    assert made == {"ljserve-users": "users", "ljserve-database": "password"}
    users = pods()["ljserve"]["spec"]["volumes"][0]["secret"]
    assert users == {"secretName": "ljserve-users", "defaultMode": 0o440}
    for pod in pods().values():
        (one,) = [each for each in pod["spec"]["containers"][0]["env"] if each["name"].endswith("PASSWORD")]
        assert one["valueFrom"]["secretKeyRef"] == {"name": "ljserve-database", "key": "password"}


def test_no_process_is_root() -> None:
    for name, pod in pods().items():
        said, (container,) = pod["spec"]["securityContext"], pod["spec"]["containers"]
        assert said["runAsNonRoot"] and said["runAsUser"] == said["fsGroup"] == {"ljserve": 400, "ljserve-database": 999}[name]
        assert container["securityContext"]["capabilities"] == {"drop": ["ALL"]}
        assert container["securityContext"]["allowPrivilegeEscalation"] is False


def test_the_version_is_that_of_the_client() -> None:
    import ljclient

    (image,) = yaml.safe_load((CONTAINERS / "kubernetes" / "kustomization.yaml").read_text())["images"]
    assert image["newTag"] == ljclient.__version__
    assert f"LJSERVE_VERSION={ljclient.__version__} " in (CONTAINERS / "compose.yaml").read_text()
