"""The Debian packages of a release, as packaging/deb makes them: what is in them, and their life in a root of its own."""
import gzip
import os
import pathlib
import re
import shutil
import subprocess
import sys
import sysconfig
from typing import Any, Dict, Iterator, List

import pytest

import ljclient
from keepers import STATUS_OF_BEFORE, journal
from roots import NoRoot, root_of_its_own
from support import DIMER, EXAMPLES, PROGRAM, SECONDS, TOP, present

sys.path.append(str(TOP / "tools"))
from ljtools.keeping.items import Told  # noqa: E402

if sysconfig.get_platform() != "linux-x86_64":
    pytest.skip("the program is for Linux on x86-64", allow_module_level=True)
for command, package in (("dpkg-checkbuilddeps", "dpkg-dev"), ("lintian", "lintian")):
    if shutil.which(command) is None:
        pytest.skip(f"{package} is not installed", allow_module_level=True)
NEEDS = subprocess.run(["dpkg-checkbuilddeps", TOP / "packaging" / "debian" / "control"], capture_output=True, text=True)
if NEEDS.returncode != 0:
    pytest.skip(NEEDS.stderr.strip().rpartition("error: ")[2], allow_module_level=True)

VERSION = ljclient.__version__
LATER = "999.0.0"
IDENTITY = f"ljserve {VERSION}\nkit 4\ncommit 5\n"
TOOLS = [path.name for path in (TOP / "tools").iterdir() if path.is_file() and os.access(path, os.X_OK)]
SERVER, CLIENT = f"ljserve_{VERSION}_amd64.deb", f"python3-ljclient_{VERSION}_all.deb"
# The other program is begun in this one's place, so that the packages are made in half the time.
STAND_IN = '#!/bin/sh\nexec "$(dirname "$(readlink -f "$0")")/ljserve-v2" "$@"\n'
# It notes with what words it was called, in the place of systemd, which does not run there. The service without `keep` is disabled.
SYSTEMCTL = """\
#!/bin/sh
echo "$*" >>/var/log/systemctl
case "$*" in
    *is-enabled*-keep*) echo enabled ;;
    *is-enabled*) echo disabled ;;
    *is-active*) exit 3 ;;
esac
"""
# By hand: atom 0 of the dimer is at 589 after a step, and at 1774 after two.
CONNECT = """
import sys, ljclient
print(ljclient.__file__)
with open("/etc/ljserve/users") as file:
    (words,) = [line.split() for line in file if line.strip() and not line.startswith("#")]
user = ljclient.connect("127.0.0.1", 4000, *words[:2])
"""
LOAD = f"""
a = user.load("a", {DIMER!r}, edge=256, sigma=1, h=131072)
print(a.advance(1), a.place(0), flush=True)
"""
GO_ON = """
a = user.session("a", edge=256, sigma=1, h=131072)
print(a.advance(1), a.place(0))
"""
# By a package of before there was a store.
RECORDS_OF_BEFORE = [
    Told(f"LOAD a 256 1 131072 rest {len(DIMER)}\n{DIMER}".encode(), b"OK LOAD a 0 2\n"),
    Told(b"ADVANCE a 1\n", b"OK ADVANCE a 1\n"),
]
INSTALLED = "/usr/lib/python3/dist-packages/ljclient/__init__.py\n"


def making(folder: Any, programs: Any, *words: Any, **settings: Any) -> Any:
    """packaging/deb, begun."""
    environment: Dict[str, Any] = {**os.environ, "PYTHONDONTWRITEBYTECODE": "1", **settings}
    command = [sys.executable, TOP / "packaging" / "deb", *words, programs, folder]
    return subprocess.Popen(command, env=environment, stdout=subprocess.PIPE, stderr=subprocess.PIPE, text=True)


def put(path: Any, text: Any) -> None:
    path.write_text(text)
    path.chmod(0o755)


@pytest.fixture(scope="module")
def programs(tmp_path_factory: pytest.TempPathFactory) -> Any:
    folder = tmp_path_factory.mktemp("programs")
    shutil.copy(PROGRAM, folder / "ljserve-v2")
    put(folder / "ljserve-v3", STAND_IN)
    (folder / "VERSION").write_text(IDENTITY)
    return folder


@pytest.fixture(scope="module")
def both(tmp_path_factory: pytest.TempPathFactory, programs: Any) -> Any:
    """Two folders with the packages, made at the same time of the same day in 2023, under other settings."""
    folders = [tmp_path_factory.mktemp("packages") for _ in range(2)]
    settings = [{"TZ": "Asia/Tokyo", "LC_ALL": "C"}, {"TZ": "UTC", "PYTHONHASHSEED": "1"}]
    made = [making(folder, programs, SOURCE_DATE_EPOCH="1700000000", **words) for folder, words in zip(folders, settings)]
    for folder, process in zip(folders, made):
        out, err = process.communicate(timeout=20 * SECONDS)
        assert (process.returncode, out.split()) == (0, [SERVER, CLIENT]), err
        assert sorted(path.name for path in folder.iterdir()) == [SERVER, CLIENT]
    return folders


@pytest.fixture(scope="module")
def packages(both: Any) -> Any:
    return both[0]


def told(*words: Any) -> Any:
    return subprocess.run(words, check=True, capture_output=True, text=True, timeout=4 * SECONDS).stdout


def files_of(package: Any) -> Dict[Any, Any]:
    """The files of a package with their modes and owners."""
    rows = [line.split(maxsplit=5) for line in told("dpkg-deb", "--contents", str(package)).splitlines()]
    return {row[5].partition(" -> ")[0][1:]: (row[0], row[1]) for row in rows}


def test_the_same_sources_give_the_same_bytes(both: Any) -> None:
    for name in (SERVER, CLIENT):
        one, other = ((folder / name).read_bytes() for folder in both)
        assert one == other


def test_lintian_has_no_error_and_no_warning(packages: Any) -> None:
    # A program that is tested may be linked statically; bin/release links those of its packages with the system's C library.
    words = ["lintian", "--fail-on", "error,warning", "--suppress-tags", "statically-linked-binary"]
    done = subprocess.run([*words, packages / SERVER, packages / CLIENT], capture_output=True, text=True, timeout=20 * SECONDS)
    assert (done.returncode, done.stdout) == (0, ""), done


def test_the_files(packages: Any) -> None:
    server, client = files_of(packages / SERVER), files_of(packages / CLIENT)
    assert {owner for files in (server, client) for _, owner in files.values()} == {"root/root"}
    assert server["/usr/bin/ljserve"][0] == "-rwxr-xr-x"
    assert "/usr/lib/python3/dist-packages/ljclient/view/page/page.js" in client
    commands = ["ljserve", *(f"ljserve-{tool}" for tool in TOOLS)]
    assert sorted(path for path in server if re.match("/usr/bin/.", path)) == sorted(f"/usr/bin/{name}" for name in commands)
    assert {f"/usr/share/man/man1/{name}.1.gz" for name in commands} <= set(server)
    assert {f"/usr/share/man/man7/ljserve-{name}.7.gz" for name in ("protocol", "server")} <= set(server)
    assert "/usr/share/man/man1/ljclient.1.gz" in client
    assert not [path for path in [*server, *client] if re.search("/tests/|__pycache__|examples/users$", path)]
    units = {re.sub("^/usr", "", path) for path in server if path.endswith(".service") and "/doc/" not in path}
    assert units == {f"/lib/systemd/system/{name}.service" for name in ("ljserve", "ljserve-keep")}


def test_what_they_need(packages: Any) -> None:
    fields = "${Version} ${Depends}"
    version, _, needs = told("dpkg-deb", "--show", f"--showformat={fields}", str(packages / SERVER)).partition(" ")
    assert version == VERSION
    assert {"adduser", "python3:any", f"python3-ljclient (= {VERSION})"} <= set(needs.split(", "))
    assert told("dpkg-deb", "--show", f"--showformat={fields}", str(packages / CLIENT)) == f"{VERSION} python3:any"


def settings_of(path: Any) -> List[Any]:
    """What a unit says, by section and name, in order."""
    sections = re.split(r"^\[(\w+)\]\n", re.sub("^#.*\n", "", path.read_text(), flags=re.M), flags=re.M)
    lines = [(section, *line.partition("=")[::2]) for section, text in zip(sections[1::2], sections[2::2]) for line in text.split("\n")]
    return [line for line in lines if line[1]]


@pytest.mark.parametrize("unit, of_debian", [("ljserve", "ljserve"), ("ljserve-keep", "ljserve.ljserve-keep")])
def test_the_services_are_those_of_a_release_but_for_what_debian_has(unit: Any, of_debian: Any) -> None:
    ours, theirs = (settings_of(TOP / "packaging" / f"{path}.service") for path in (unit, f"debian/{of_debian}"))
    other = {("Service", name) for name in ("ExecStart", "ExecStartPre", "ExecReload", "EnvironmentFile", "DynamicUser", "User")}
    other |= {("Unit", "Documentation"), ("Unit", "ConditionFileNotEmpty")}
    assert [line for line in ours if line[:2] not in other] == [line for line in theirs if line[:2] not in other]
    defaults = (TOP / "packaging" / "debian" / "ljserve.default").read_text()
    begun = dict((line[:2], line[2]) for line in theirs)["Service", "ExecStart"]
    for name, value in re.findall(r"^(\w+)=(.*)$", defaults, re.M):
        begun = begun.replace(f"${{{name}}}", value)
    ours_begun = dict((line[:2], line[2]) for line in ours)["Service", "ExecStart"]
    assert begun == ours_begun.replace("/opt/ljserve/tools/", "/usr/bin/ljserve-").replace("/opt/ljserve/", "/usr/")


@pytest.fixture
def root(tmp_path: pathlib.Path) -> Iterator[Any]:
    """A root of its own without these packages, in which systemd seems to run."""
    if os.geteuid() != 0:
        pytest.skip("only root can have a root of its own")
    try:
        with root_of_its_own(tmp_path) as begun:
            for path in ("usr/sbin/policy-rc.d", "var/lib/man-db/auto-update"):
                (begun.path / path).unlink(missing_ok=True)
            begun.run("dpkg", "--purge", "ljserve", "python3-ljclient")
            begun.run("rm", "-rf", "/etc/ljserve", "/etc/default/ljserve", "/var/lib/ljserve")
            begun.put("usr/bin/systemctl", SYSTEMCTL, 0o755)
            (begun.path / "run/systemd/system").mkdir(parents=True)
            yield begun
    except NoRoot as reason:
        pytest.skip(f"there is no root of its own here: {reason}")


def asked(root: Any) -> List[Any]:
    """What systemd was asked to do with services since this was last looked at."""
    log = root.path / "var/log/systemctl"
    lines = log.read_text().splitlines() if log.exists() else []
    log.unlink(missing_ok=True)
    verbs = r"\b(start|stop|restart|try-restart|reload|reload-or-restart|kill) (.*ljserve.*)"
    return [found.groups() for line in lines if (found := re.search(verbs, line))]


def install(root: Any, *packages: Any) -> None:
    for package in packages:
        shutil.copy(package, root.path / "var/tmp")
    root.run("dpkg", "--install", *(f"/var/tmp/{package.name}" for package in packages))


def token_in(root: Any) -> Any:
    """The token of the one user of the file of users, which root alone can read."""
    path = root.path / "etc/ljserve/users"
    status = path.stat()
    assert (status.st_mode & 0o7777, status.st_uid, status.st_gid) == (0o600, 0, 0)
    assert root.run("ljserve-users", "--check", "/etc/ljserve/users") == "1 user\n"
    (words,) = [line.split() for line in path.read_text().splitlines() if not line.startswith("#")]
    assert words[2:] == ["8", "16384", "16"]
    return words[1]


class Service:
    """What a unit begins, begun by hand: as its user, with its file of settings and its folders, and with a copy of the users."""

    def __init__(self, root: Any, unit: Any) -> None:
        self.root, text = root, (root.path / "lib/systemd/system" / unit).read_text()
        folders = {"CREDENTIALS": "/run/credentials", "RUNTIME": "/run/ljserve-keep", "STATE": "/var/lib/ljserve"}
        for folder in folders.values():
            root.run("install", "-d", "-o", "ljserve", "-m", "700", folder)
        root.run("install", "-o", "ljserve", "-m", "400", "/etc/ljserve/users", "/run/credentials/users")
        self.settings = "set -a; . /etc/default/ljserve; " + "".join(f"{name}_DIRECTORY={path}; " for name, path in folders.items())
        for before in re.findall("^ExecStartPre=[+](.*)$", text, re.M):
            root.run("sh", "-ec", self.settings + before)
        (command,) = re.findall("^ExecStart=(.*)$", text, re.M)
        # What is not set is an empty word, as systemd has it.
        self.command = re.sub(r"\$\{\w+\}", r'"\g<0>"', command)
        self.begin()

    def begin(self) -> None:
        script = f"{self.settings} echo $$ >$CREDENTIALS_DIRECTORY/number; exec {self.command}"
        words = ["setpriv", "--reuid", "ljserve", "--regid", "ljserve", "--clear-groups", "sh", "-ec", script]
        self.process = subprocess.Popen(self.root.command(*words), stdin=subprocess.DEVNULL, stdout=subprocess.DEVNULL)
        self.root.await_listener(4000)

    def end(self) -> None:
        self.root.run("kill", (self.root.path / "run/credentials/number").read_text().strip())
        self.process.wait(4 * SECONDS)


def later(packages: Any, folder: Any) -> Any:
    """The same packages as those of a later version, whose program is another file."""
    made = []
    for name in (SERVER, CLIENT):
        tree = folder / name.partition("_")[0]
        told("dpkg-deb", "--raw-extract", str(packages / name), str(tree))
        control = tree / "DEBIAN" / "control"
        control.write_text(control.read_text().replace(VERSION, LATER))
        made.append(folder / name.replace(VERSION, LATER))
        told("dpkg-deb", "-Znone", "--root-owner-group", "--build", str(tree), str(made[-1]))
    return made


def test_install_run_upgrade_remove_and_purge(packages: Any, root: Any, tmp_path_factory: pytest.TempPathFactory) -> None:
    upgraded = later(packages, tmp_path_factory.mktemp("later"))
    token = check_installation(root, packages)
    service = Service(root, "ljserve.service")
    words = root.command("python3", "-c", CONNECT + LOAD + "sys.stdin.readline()" + GO_ON)
    visit = subprocess.Popen(words, stdin=subprocess.PIPE, stdout=subprocess.PIPE, text=True)
    assert (present(visit.stdout).readline(), present(visit.stdout).readline()) == (INSTALLED, "1 (589, 0, 0)\n")
    check_upgrade(root, upgraded, token)
    assert visit.communicate("\n", timeout=4 * SECONDS)[0] == "2 (1774, 0, 0)\n"
    words = ["ljclient", "127.0.0.1:4000", "user", "--token-file", "/etc/ljserve/users"]
    assert root.run(*words, given="LIST\nBYE\n").splitlines()[0] == "OK LIST 1"
    assert service.process.poll() is None
    service.end()
    check_keeping(root)
    check_taking_over(root)
    check_removal(root, token)
    check_purge(root)
    install(root, upgraded[0])
    assert token_in(root) != token


def check_keeping(root: Any) -> None:
    """Holds that a session is there again after an end of the service that keeps it."""
    service = Service(root, "ljserve-keep.service")
    assert root.run("python3", "-c", CONNECT + LOAD) == INSTALLED + "1 (589, 0, 0)\n"
    service.end()
    service.begin()
    assert root.run("python3", "-c", CONNECT + GO_ON) == INSTALLED + "2 (1774, 0, 0)\n"
    service.end()


def check_taking_over(root: Any) -> None:
    """Holds that a session is there which a package of before there was a store has kept, under settings of before, which had no
    METRICS."""
    settings, folder = (root.path / path for path in ("etc/default/ljserve", "var/lib/ljserve"))
    settings.write_text(re.sub("^METRICS=.*\n", "", settings.read_text(), flags=re.M))
    for path in folder.iterdir():
        path.unlink()
    kept = journal("user", RECORDS_OF_BEFORE)
    (folder / "user.journal").write_bytes(kept)
    root.put("var/lib/ljserve/status.json", STATUS_OF_BEFORE)
    root.run("chown", "--recursive", "ljserve:", "/var/lib/ljserve")
    assert "its status is of an older keep" in root.run("ljserve-keep", "--status", "/var/lib/ljserve", status=1)
    service = Service(root, "ljserve-keep.service")
    assert root.run("python3", "-c", CONNECT + GO_ON) == INSTALLED + "2 (1774, 0, 0)\n"
    assert root.run("ljserve-keep", "--status", "/var/lib/ljserve").startswith("runs since ")
    service.end()
    assert (folder / "before" / "user.journal").read_bytes() == kept and not (folder / "user.journal").exists()


def check_installation(root: Any, packages: Any) -> Any:
    """Holds what is there after the first installation. Returns the token of the user."""
    install(root, packages / CLIENT, packages / SERVER)
    assert asked(root) == [("start", "ljserve-keep.service")]
    token = token_in(root)
    assert token not in (EXAMPLES / "users").read_text()
    assert root.run("ljserve", "--version").startswith(f"{IDENTITY}cpu x86-64-v3\nsha256 ")
    dimer = (EXAMPLES / "dimer.txt").read_text(), (EXAMPLES / "dimer.replies").read_text()
    assert root.run("ljserve", given=dimer[0]) == root.run("ljclient", given=dimer[0]) == dimer[1]
    for tool in TOOLS:
        assert f"usage: {tool} " in root.run(f"ljserve-{tool}", "--help")
    name, _, number, group, *_, home, shell = root.run("getent", "passwd", "ljserve").strip().split(":")
    assert 0 < int(number) < 1000 and (home, shell) == ("/var/lib/ljserve", "/usr/sbin/nologin")
    if (root.path / "usr/bin/systemd-analyze").exists():
        units = sorted(path.name for path in (root.path / "lib/systemd/system").glob("ljserve*.service"))
        assert root.run("systemd-analyze", "verify", *(f"/lib/systemd/system/{unit}" for unit in units)) == ""
    return token


def check_upgrade(root: Any, packages: Any, token: Any) -> None:
    """Holds that an upgrade ends no service, and keeps the users and settings that were changed."""
    settings = root.path / "etc/default/ljserve"
    settings.write_text(settings.read_text().replace("WORKERS=4", "WORKERS=2"))
    install(root, *packages)
    assert {verb for verb, _ in asked(root)} <= {"start"}
    assert root.run("dpkg-query", "--show", "--showformat=${Version}", "ljserve") == LATER
    assert token_in(root) == token and "WORKERS=2\n" in settings.read_text()


def check_removal(root: Any, token: Any) -> None:
    """Holds that a removal ends the service, and keeps what is the user's."""
    root.put("var/lib/ljserve/kept", "what a service keeps")
    root.run("dpkg", "--remove", "ljserve")
    assert ("stop", "ljserve-keep.service") in asked(root)
    for path in ("usr/bin/ljserve", "usr/bin/ljserve-users", "usr/libexec/ljserve-v2", "usr/share/ljserve"):
        assert not (root.path / path).exists()
    assert token in (root.path / "etc/ljserve/users").read_text()
    assert (root.path / "etc/default/ljserve").exists() and (root.path / "var/lib/ljserve/kept").exists()


def check_purge(root: Any) -> None:
    """Holds that what the package and the operator have made is told, and is gone."""
    root.put("etc/ljserve/slips", "what an operator makes")
    root.put("var/lib/ljserve-1/kept", "what a service of several keeps")
    told = root.run("dpkg", "--purge", "ljserve")
    assert "\nljserve: purge removes /etc/ljserve/users /etc/ljserve/slips /var/lib/ljserve /var/lib/ljserve-1\n" in told
    for path in ("etc/ljserve", "etc/default/ljserve", "var/lib/ljserve", "var/lib/ljserve-1"):
        assert not (root.path / path).exists()


# For arm64, it tells its version, and of itself and of each of its commands the words that a page of the manual is made of.
FOR_ARM64 = f"""
#include <stdio.h>
#include <string.h>
int main(int count, char **words) {{
    if (!strcmp(words[count - 1], "--version")) return puts("ljserve {VERSION}") < 0;
    printf("Answers on arm64 alone.\\n\\nUsage: ljserve %s\\n\\n", count > 2 ? words[1] : "");
    return puts("Options:\\n  -h, --help  Prints help") < 0;
}}
"""


@pytest.mark.skipif(
    not all(map(shutil.which, ("aarch64-linux-gnu-gcc", "qemu-aarch64"))), reason="no C compiler for arm64, or no qemu-aarch64"
)
def test_the_package_for_arm64(tmp_path: pathlib.Path) -> None:
    """The manual is made here, of what the program for arm64 says by qemu, and the needs are those of a machine of arm64."""
    (tmp_path / "programs").mkdir()
    words = ["aarch64-linux-gnu-gcc", "-s", "-pie", "-Wl,-z,relro,-z,now", "-x", "c", "-"]
    words += ["-o", str(tmp_path / "programs" / "ljserve-arm64")]
    subprocess.run(words, input=FOR_ARM64, text=True, check=True, timeout=SECONDS)
    (tmp_path / "programs" / "VERSION").write_text(IDENTITY)
    process = making(tmp_path / "packages", tmp_path / "programs", "--machine", "arm64")
    out, err = process.communicate(timeout=20 * SECONDS)
    name = SERVER.replace("amd64", "arm64")
    assert (process.returncode, out) == (0, f"{name}\n"), err
    package = tmp_path / "packages" / name
    files = files_of(package)
    assert [path for path in files if re.match("/usr/libexec/.", path)] == ["/usr/libexec/ljserve-arm64"]
    fields = told("dpkg-deb", "--show", "--showformat=${Architecture} ${Depends}", str(package))
    assert fields.startswith("arm64 ") and re.search(r", libc6 \(>= [\d.]+\)", fields) and ":arm64" not in fields
    told("dpkg-deb", "--extract", str(package), str(tmp_path / "tree"))
    assert (tmp_path / "tree/usr/share/ljserve/VERSION").read_text() == IDENTITY
    assert b"Answers on arm64 alone." in gzip.decompress((tmp_path / "tree/usr/share/man/man1/ljserve.1.gz").read_bytes())
    done = subprocess.run(["lintian", "--fail-on", "error,warning", package], capture_output=True, text=True, timeout=20 * SECONDS)
    assert (done.returncode, done.stdout) == (0, ""), done


def test_programs_that_do_not_fit(tmp_path: pathlib.Path) -> None:
    put(tmp_path / "ljserve-v2", "#!/bin/sh\necho hello\n")
    process = making(tmp_path / "packages", tmp_path)
    out, err = process.communicate(timeout=4 * SECONDS)
    assert (process.returncode, out, "must be a built ljserve, got a program that shows no version" in err) == (70, "", True)
    assert not (tmp_path / "packages").exists()


def test_a_release_has_them() -> None:
    """bin/release makes them of what it has unpacked, with programs that are linked for Debian."""
    script = (TOP / "bin" / "release").read_text()
    assert 'link_all "$1" "$work/programs/$1" "${of_debian[@]}"\n' in script
    assert 'make_packages deb "the Debian packages" --machine "$1" "$work/programs/$1" "$work/debs/$1"\n' in script
