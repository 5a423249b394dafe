"""What Debian's package manager starts when the service's package is purged, over folders of the test's own."""
from __future__ import annotations

import os
from pathlib import Path

import pytest

from .kill import TOP
from .processes import run

POSTRM, PRERM = TOP / "service/debian/postrm", TOP / "service/debian/prerm"
# debconf's words for a shell, with an answer that stands in a file, where there is one
DEBCONF = """
db_fset() { :; }
db_input() { echo "$2" >>"$ASKED"; }
db_go() { :; }
db_get() { RET=$ANSWER; }
db_purge() { :; }
db_stop() { :; }
"""


class Machine:
    """A machine's folders below one of the test's, and a package manager that purges."""

    def __init__(self, folder: Path) -> None:
        self.folder, self.kept, self.settings = folder, folder / "var/lib/wmbus", folder / "etc/wmbus"
        self.asked, self.users = folder / "asked", folder / "users"
        self.units = folder / "etc/systemd/system"
        for path in (self.kept / "spool", self.settings, folder / "bin", self.units / "multi-user.target.wants"):
            path.mkdir(parents=True)
        (folder / "debconf").write_text(DEBCONF)
        user = folder / "bin/deluser"
        user.write_text(f'#!/bin/sh\necho "$@" >>{self.users}\n')
        user.chmod(0o755)

    def has_lost_user(self) -> bool:
        """Whether the service's user went; the page's, to whom nothing belongs, goes each time."""
        gone = self.users.read_text().splitlines()
        assert "--quiet --system wmbus-page" in gone
        return "--quiet --system wmbus" in gone

    def purge(self, answer: str | None) -> str:
        """Purges the service's package; what is said."""
        text = POSTRM.read_text(encoding="utf-8")
        debconf = "debconf" if answer is not None else "none"
        for path, own in (("/var/lib/wmbus", self.kept), ("/etc/wmbus", self.settings),
                          ("/usr/share/debconf/confmodule", self.folder / debconf)):
            assert path in text
            text = text.replace(path, str(own))
        text = text.replace("/etc/systemd/system", str(self.units))
        script = self.folder / "postrm"
        script.write_text(text)
        environment = os.environ | {"PATH": f"{self.folder}/bin:{os.environ['PATH']}", "ANSWER": answer or "", "ASKED": str(self.asked)}
        return run(["sh", script, "purge"], env=environment).stderr


@pytest.mark.parametrize("answer", [None, "false", "true"])
@pytest.mark.parametrize("name", ["wmbus.db", "gateway.cellar-12.db", "gateways/cellar-12/broker.password", "spool/attic.00000001.1.lines"])
def test_a_purge_asks_for_what_was_kept(tmp_path: Path, name: str, answer: str | None) -> None:
    """Whatever of the service, of a gateway or of a fleet's server stands in the folder goes by a yes alone, and with it the user."""
    machine = Machine(tmp_path)
    file = machine.kept / name
    file.parent.mkdir(parents=True, exist_ok=True)
    file.write_text("kept")
    said = machine.purge(answer)
    assert file.exists() is (answer != "true") and machine.has_lost_user() is (answer == "true")
    assert ("stays" in said) is file.exists()
    assert machine.asked.exists() is (answer is not None)


def test_a_purge_without_data(tmp_path: Path) -> None:
    """Nothing is asked, and nothing stays."""
    machine = Machine(tmp_path)
    (machine.kept / "lock").touch()
    assert not machine.purge("false")
    assert not machine.kept.exists() and not machine.settings.exists() and not machine.asked.exists()
    assert machine.has_lost_user()
    assert not machine.purge(None)


@pytest.mark.parametrize("answer", [None, "false", "true"])
def test_a_purge_of_a_folder_that_lies_elsewhere(tmp_path: Path, answer: str | None) -> None:
    """Where the folder is a link to one on another disk, what stands there is asked for too, and stays with its user or goes."""
    machine = Machine(tmp_path)
    disk = tmp_path / "disk"
    machine.kept.rename(disk)
    machine.kept.symlink_to(disk)
    (disk / "wmbus.db").write_text("kept")
    said = machine.purge(answer)
    assert (disk / "wmbus.db").exists() is machine.kept.is_symlink() is (answer != "true")
    assert machine.has_lost_user() is (answer == "true") and ("stays" in said) is (answer != "true")


def test_a_purge_of_a_folder_of_its_own_disk(tmp_path: Path) -> None:
    """Where a disk is mounted at the folder, which can't be taken away then, all on it goes by a yes, and the purge ends well."""
    machine = Machine(tmp_path)
    (machine.kept / "wmbus.db").write_text("kept")
    busy = machine.folder / "bin/rm"
    busy.write_text(f'#!/bin/sh\nfor it; do [ "$it" != {machine.kept} ] || {{ /bin/rm -rf "$it"/*; exit 1; }}; done; exec /bin/rm "$@"\n')
    busy.chmod(0o755)
    machine.purge("true")
    assert not list(machine.kept.iterdir()) and machine.has_lost_user() and not machine.settings.exists()


def test_a_purge_and_units(tmp_path: Path) -> None:
    """What `systemctl enable` made goes too, so that what is installed anew starts nothing; other packages' units stay."""
    machine = Machine(tmp_path)
    wants = machine.units / "multi-user.target.wants"
    others = {"wmbus-gateway.service", "ssh.service"}
    for name in others | {"wmbus.service", "wmbus-page.service", "wmbus-receiver@cellar.service"}:
        (wants / name).symlink_to(f"/lib/systemd/system/{name}")
    machine.purge(None)
    assert {path.name for path in wants.iterdir()} == others


@pytest.mark.parametrize("is_there", [True, False])
def test_a_removal(tmp_path: Path, is_there: bool) -> None:
    """The package can be removed also where somebody took its folder away before; what Python made of its files goes."""
    folder = tmp_path / "usr/lib/wmbus"
    if is_there:
        (folder / "wmbus_service/__pycache__").mkdir(parents=True)
    script = tmp_path / "prerm"
    script.write_text(PRERM.read_text(encoding="utf-8").replace("/usr/lib/wmbus", str(folder)).replace("/run/systemd/system", "/nowhere"))
    run(["sh", script, "remove"])
    assert not list(folder.rglob("__pycache__"))


def test_an_installation_under_a_strict_umask(tmp_path: Path) -> None:
    """Whatever the umask of who installs is, as 077 of root's on many machines, the service's user can read all and start the programs."""
    run(["sh", "-c", f"umask 077; exec sh {TOP}/service/install {tmp_path}/root"])
    found = list((tmp_path / "root").rglob("*"))
    assert len(found) > 60
    for path in found:
        wanted = 0o755 if path.is_dir() or os.access(path, os.X_OK) else 0o644
        assert path.stat().st_mode & 0o777 == wanted, path


def test_an_installation_reads_no_source_test_or_document(tmp_path: Path) -> None:
    """What an earlier release had of these goes, and page and demo find all their words and makers of messages without them."""
    library = tmp_path / "usr/lib/wmbus"
    for name in ("second/tests/reference", "tests/checks", "docs", "crates/meter_label/src"):
        (library / name).mkdir(parents=True)
    run(["sh", TOP / "service/install", tmp_path])
    assert sorted(it.name for it in library.iterdir() if it.is_dir()) == ["readings", "telegrams", "wmbus_service"]
    asked = ("import wmbus_service.page.app, wmbus_service.made_building as building, wmbus_service.page.shared as shared;"
             "print(shared.type_of('9315785634123303'), 'key' in shared.row_of('mac').to_do, len(building.Building(10**9, 1).meters),"
             "sorted({it.__file__.split('/')[-2] for it in (building.frames, building.messages)}))")
    ran = run(["/usr/bin/python3", "-B", "-c", asked], cwd=tmp_path, env={"PYTHONPATH": str(library), "PATH": os.environ["PATH"]})
    assert ran.stdout == "gas True 12 ['telegrams']\n", ran.stderr
