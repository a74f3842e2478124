# SPDX-License-Identifier: Apache-2.0
"""The package, the archive and the image."""

import functools
import hashlib
import os
import pathlib
import re
import sys
import tempfile
from unittest import mock

from tools_calls import *

ROOM = tempfile.TemporaryDirectory()


def made(program, kind, folder):
    """A package (deb) or an archive of a program, made in a folder."""
    if kind == "deb":
        for tool in ("dpkg", "dpkg-deb", "dpkg-shlibdeps", "dpkg-query"):
            wanted_tool(tool)
    wanted_tool("strip")
    told, status = output(TOP / "packaging" / kind, "--to", folder, program)
    assert status == 0, told
    return pathlib.Path(told.strip())


@functools.cache
def shared(program, kind):
    """The same, made once for all checks."""
    return made(program, kind, ROOM.name)


class Debian:
    """A folder that stands for a fresh system: dpkg knows this machine's packages of that the package depends on."""

    def __init__(self, folder):
        self.folder = pathlib.Path(folder, "root")
        known = self.folder / "var/lib/dpkg"
        for name in ("info", "updates", "triggers"):
            (known / name).mkdir(parents=True)
        told, _ = output("dpkg-query", "--status", "libc6", "libgcc-s1", "python3-minimal", "python3")
        (known / "status").write_text(told)
        self.words = [] if os.geteuid() == 0 else [wanted_tool("fakeroot")]
        self.words += ["dpkg", f"--root={self.folder}", f"--log={self.folder}.log", "--path-include=*"]

    def dpkg(self, *words):
        """Its scripts run outside the folder, where there is a shell, and are told of it."""
        paths = {"PATH": f"{os.environ['PATH']}:/usr/sbin:/sbin"}
        told, status = output(*self.words, "--force-script-chrootless", *words, env=os.environ | paths)
        assert status == 0, told
        return told

    def files(self):
        files = (file for file in self.folder.rglob("*") if not file.is_dir())
        return {str(file.relative_to(self.folder)) for file in files if "dpkg" not in file.parts}


@check
def a_user_of_the_package_starts_watches_and_stops_the_daemon_and_has_its_report(program, folder):
    debian = Debian(folder)
    debian.dpkg("-i", shared(program, "deb"))
    there = debian.files()
    wanted = {"etc/stampd.conf", "lib/systemd/system/stampd.service", "usr/share/doc/stampd/PROVED.md"}
    wanted |= {f"usr/bin/{name}" for name in ("stampd", "stampctl", "stampd-run", "stampd-why", "stampd-delays")}
    wanted |= {f"usr/share/man/man{page.suffix[1:]}/{page.name}.gz" for page in (TOP / "man").iterdir()}
    wanted |= {f"usr/share/doc/stampd/{name}" for name in ("README.md", "docs/OPERATING.md", "examples/edge.toml")}
    assert wanted <= there, wanted - there
    assert not debian.dpkg("-V", "stampd"), debian.dpkg("-V", "stampd")
    file = debian.folder / "etc/stampd.conf"
    local, operator = free_ports(2)
    file.write_text(file.read_text().replace("127.0.0.1:8862", f"{HOST}:{local}").replace(":8620", f":{operator}"))
    programs = debian.folder / "usr/bin"
    assert output(programs / "stampd", "check", file) == ("ok locals 1 configs 2 sessions 2\n", 0)
    with running(programs / "stampd-run", file, operator) as process:
        told, status = output(programs / "stampctl", "-s", f"{HOST}:{operator}", "watch", "--seconds", "1")
        assert status == 0 and "127.0.0.1:5000" in told, told
        process.terminate()
        told, _ = process.communicate(timeout=SECONDS)
    assert process.returncode == 0 and read_report(told).live == 2, (process.returncode, told)
    capture = capture_of(folder, ("127.0.0.1:5000", f"{HOST}:{local}", plain_request(1, 7)))
    told, status = output(programs / "stampd-why", file, capture)
    assert status == 0 and told.startswith("1 datagram: 1 answered\n"), told
    debian.dpkg("-r", "stampd")
    assert debian.files() == {"etc/stampd.conf"}, debian.files()
    debian.dpkg("-P", "stampd")
    assert not debian.files(), debian.files()


@check
def lintian_finds_no_error_in_the_package(program, folder):
    wanted_tool("lintian")
    told, status = output("lintian", "--fail-on", "error", shared(program, "deb"))
    assert status == 0 and "E: " not in told, told


@check
def a_package_is_made_to_the_octet_again(program, folder):
    for kind in ("deb", "archive"):
        first, second = (each.read_bytes() for each in (shared(program, kind), made(program, kind, folder)))
        assert first == second, f"two of {kind} differ"


@check
def an_archive_has_its_checksums_and_installs_without_a_toolchain(program, folder):
    archive = shared(program, "archive")
    assert output("sha256sum", "--check", f"{archive}.sha256", cwd=archive.parent)[1] == 0
    output("tar", "-x", "-f", archive, "-C", folder)
    (inside,) = (each for each in pathlib.Path(folder).iterdir() if each.is_dir())
    assert output("sha256sum", "--check", "--quiet", "SHA256SUMS", cwd=inside) == ("", 0)
    listed = {line.split("  ")[1] for line in (inside / "SHA256SUMS").read_text().splitlines()}
    files = {str(file.relative_to(inside)) for file in inside.rglob("*") if file.is_file()}
    assert files - listed == {"SHA256SUMS"}, files ^ listed
    prefix = pathlib.Path(folder, "prefix")
    told, status = output(inside / "packaging" / "install", prefix, env={"PATH": "/usr/bin:/bin"})
    assert status == 0, told
    file = prefix / "etc/stampd.conf"
    assert output(prefix / "bin/stampd", "check", file) == ("ok locals 1 configs 2 sessions 2\n", 0)
    page = (prefix / "share/doc/stampd/PROVED.md").read_text()
    assert output("sha256sum", prefix / "bin/stampd")[0].split()[0] in page, page
    assert "nothing is said to be proved of it" in page, page


@check
def the_page_on_a_program_that_was_built_names_toolchain_and_sources(program, folder):
    sys.path.insert(0, str(TOP / "packaging"))
    import making

    path = pathlib.Path(program)
    with mock.patch.object(making, "said", lambda *words: {"rt": "kit 7", "git": "f00"}[words[0]]):
        page = making.page(making.Program(path, True), path)
    rows = dict(re.findall(r"^    ([\w-]+) +(.*)$", page, re.M))
    assert rows.keys() == {"file", "SHA-256", "version", "sources", "toolchain"}, page
    assert rows["SHA-256"] == hashlib.sha256(path.read_bytes()).hexdigest() and rows["toolchain"] == "kit 7", page
    assert rows["sources"] == "commit f00, with changes that aren't in it" and "nothing is said" not in page, page


@check
def what_cannot_be_packed_is_told_in_one_line_and_nothing_is_written(program, folder):
    for kind in ("deb", "archive"):
        for named, wanted in (
            ("/no/such", "/no/such isn't run: No such file or directory"), ("/bin/true", "/bin/true is no stampd"),
        ):
            found = output(TOP / "packaging" / kind, "--to", f"{folder}/out", named)
            assert found == (f"{kind}: {wanted}\n", 1), found
    tools = pathlib.Path(folder, "tools")
    tools.mkdir()
    (tools / "python3").symlink_to(sys.executable)
    told, status = output(TOP / "packaging" / "deb", "--to", f"{folder}/out", program, env={"PATH": str(tools)})
    assert (status, told.count("\n")) == (1, 1) and told.startswith("deb: there is no dpkg-deb here"), told
    assert not pathlib.Path(folder, "out").exists()


@check
def the_image_copies_the_package_and_runs_what_is_in_it(program, folder):
    lines = (TOP / "packaging" / "Containerfile").read_text().replace("\\\n", "").splitlines()
    words = {line.split()[0]: line.split()[1:] for line in lines if line and not line.startswith("#")}
    package = shared(program, "deb")
    assert package.match(words["COPY"][0]) and f"/tmp/{words['COPY'][0]}" in words["RUN"], words
    listed = output("dpkg-deb", "--contents", package)[0]
    entry, file = (re.findall(r'"([^"]+)"', " ".join(words[name])) for name in ("ENTRYPOINT", "CMD"))
    assert f"./usr/bin/{entry[0]}\n" in listed and f".{file[0]}\n" in listed, listed
