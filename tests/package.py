#!/usr/bin/env python3
"""Tries the Debian package in a fresh Debian: what it installs, README's commands, the units' commands, a new version, and a purge.

    python3 tests/package.py PACKAGE [DEBIAN]    DEBIAN is a folder for a Debian 12, which debootstrap makes once and nothing changes later

PACKAGE is what tools/package.sh makes. It needs root, debootstrap, and the network while packages are installed: all else runs in a
network, processes and files of its own. It prints `ok` or `DIFFERS` for each case, and ends with 1 if one differs. With --stay it keeps
the page on port 8000 of its network until a line comes on standard input, for a look with a browser in that network.
"""
import argparse
import glob
import os
import shlex
import shutil
import subprocess
import sys
import tempfile
import time

HERE = os.path.dirname(os.path.abspath(__file__))
sys.path.append(HERE)

import documents  # noqa: E402
from clients.stand import Cases  # noqa: E402

UNITS = "/usr/lib/systemd/system"
FEATURE = '{"layer":"p","minzoom":0,"maxzoom":2,"geometry":{"points":[[0,0]]},"tags":{}}'
LOG = "/var/lib/vtserve-log/edits.jsonl"
# What this script uses of a Debian, and the package doesn't bring.
WITH = "curl,logrotate,nginx-light,systemd,procps"
# What other accounts of the machine don't read, once the units have run.
PRIVATE = ["/var/lib/vtserve/map.disk", "/var/backups/vtserve/*", "/var/lib/vtserve-log/*", "/var/lib/vtserve-wfs/*", "/var/lib/vtserve-nginx/*.log"]
PAGE = {"": "text/html", "page.js": "text/javascript", "page.css": "text/css", "style.json": "application/json", "vtmap.pyz": "application/octet-stream"}


def ran(*words, root=None, **more):
    """The status and the words of a command, in a root of its own if one is named."""
    place = ["chroot", root] if root else []
    names = {"PATH": "/usr/sbin:/usr/bin:/sbin:/bin", "HOME": "/root", "LANG": "C.UTF-8", "DEBIAN_FRONTEND": "noninteractive"}
    child = subprocess.run([*place, *words], stdout=subprocess.PIPE, stderr=subprocess.STDOUT, text=True, env=names, check=False, **more)
    return child.returncode, child.stdout


def done(*words, root=None):
    """What a command prints that has to succeed."""
    status, text = ran(*words, root=root)
    if status:
        sys.exit(f"package.py: {' '.join(words)} ended with {status}:\n{text}")
    return text


def mounted(base, scratch):
    """The root of a copy of the Debian in `base`, which stays as it is."""
    if not os.path.exists(base):
        done("debootstrap", "--variant=minbase", f"--include={WITH}", "bookworm", base)
    root = os.path.join(scratch, "root")
    for name in ("upper", "work", "root"):
        os.mkdir(os.path.join(scratch, name))
    done("mount", "-t", "overlay", "overlay", "-o", f"lowerdir={base},upperdir={scratch}/upper,workdir={scratch}/work", root)
    for name in ("dev", "sys"):
        done("mount", "--rbind", "/" + name, os.path.join(root, name))
        done("mount", "--make-rslave", os.path.join(root, name))
    done("mount", "-t", "proc", "proc", os.path.join(root, "proc"))
    shutil.copy("/etc/resolv.conf", os.path.join(root, "etc", "resolv.conf"))
    # As images of containers have it: a package starts no service here.
    with open(os.path.join(root, "usr", "sbin", "policy-rc.d"), "w", encoding="utf-8") as file:
        file.write("#!/bin/sh\nexit 101\n")
    os.chmod(file.name, 0o755)
    return root


def installed(cases, root, package):
    """What the package puts where, and that nothing runs."""
    shutil.copy(package, os.path.join(root, "srv", "vtserve.deb"))
    done("apt-get", "update", root=root)
    cases.show("apt install of the package", ran("apt-get", "install", "-y", "/srv/vtserve.deb", root=root)[0], 0)
    owners = done("stat", "-c", "%U:%G %a %n", "/var/lib/vtserve", "/var/backups/vtserve", root=root).splitlines()
    cases.show("the folders and their owner", owners, ["vtserve:vtserve 750 /var/lib/vtserve", "vtserve:vtserve 750 /var/backups/vtserve"])
    cases.show("the user can't log in", done("getent", "passwd", "vtserve", root=root).split(":")[5:], ["/var/lib/vtserve", "/usr/sbin/nologin\n"])
    cases.show("no unit is enabled", ran("find", "/etc/systemd/system", "-name", "*vtserve*", root=root), (0, ""))
    cases.show("nothing runs as the user", ran("pgrep", "-u", "vtserve", root=root), (1, ""))
    version = done("dpkg-query", "-W", "-f", "${Version}", "vtserve", root=root)
    for name in ("vtserve", "vtmap"):
        cases.show(f"{name} --version", ran(name, "--version", root=root), (0, f"{name} {version}\n"))
    cases.show("vtmap.pyz --version", ran("python3", "/usr/share/vtserve/web/vtmap.pyz", "--version", root=root), (0, f"vtmap {version}\n"))
    for page in ("vtserve", "vtmap"):
        text = subprocess.run(["zcat", f"{root}/usr/share/man/man1/{page}.1.gz"], stdout=subprocess.PIPE, check=True).stdout
        told = subprocess.run(["groff", "-man", "-Tutf8", "-ww", "-z"], input=text, capture_output=True, check=False) if shutil.which("groff") else None
        cases.show(f"the man page {page}(1), as groff reads it", told and (told.returncode, told.stderr) or (0, b""), (0, b""))
    units = sorted(os.path.basename(path) for path in glob.glob(f"{root}{UNITS}/vtserve*"))
    status, text = ran("systemd-analyze", "verify", *(f"{UNITS}/{unit}" for unit in units), root=root)
    cases.show(f"systemd-analyze verify of {len(units)} units", [line for line in text.splitlines() if "vtserve" in line], [])


def readme(cases, text):
    """README's commands, with what they print. The folder is as a clone's."""
    os.makedirs("/srv/clone")
    for name in ("docs", "examples"):
        os.symlink("/usr/share/doc/vtserve/" + name, "/srv/clone/" + name)
    os.symlink("/usr/share/vtserve/web", "/srv/clone/web")
    shell = documents.Shell("/srv/clone", "/usr/bin/vtserve", False)
    for _, command, lines in documents.commands(text)[0]:
        sought = documents.pattern(documents.tidy("\n".join(lines) + "\n").splitlines())
        found = shell.run(command, sought)
        cases.show(f"README: {command.splitlines()[0][:90]}", sought.fullmatch(found) is not None or found, True)
    pages(cases, "README")
    return shell


def pages(cases, name):
    """The files of the page, as nginx sends them."""
    for path, kind in PAGE.items():
        line = "%{http_code} %{content_type} %{size_download}"
        found = ran("curl", "-s", "-o", "/dev/null", "-w", line, "http://127.0.0.1:8000/pages/" + path)[1].split()
        cases.show(f"{name}: the page's /pages/{path}", (found[0], found[1].rstrip(";"), int(found[-1]) > 200), ("200", kind, True))


def lines_of(unit, folder=UNITS):
    """What a unit sets."""
    with open(os.path.join(folder, unit), encoding="utf-8") as file:
        return dict(line.split("=", 1) for line in file.read().replace("\\\n", " ").splitlines() if "=" in line and line[0] != "#")


def command_of(unit):
    """The words of a unit's ExecStart, with its umask and the user that it runs as. Makes the folder that systemd makes for it."""
    lines = lines_of(unit)
    words = shlex.split(lines["ExecStart"].replace("$$", "$").replace("%%", "%"))
    user = lines.get("User", "root")
    if "StateDirectory" in lines:
        done("install", "-d", "-o", user, "-g", user, "-m", lines.get("StateDirectoryMode", "755"), "/var/lib/" + lines["StateDirectory"])
    return ["sh", "-c", 'umask "$1"; shift; exec "$@"', "sh", lines.get("UMask", "022"), *(["runuser", "-u", user, "--"] if user != "root" else []), *words]


def units(cases):
    """What DEPLOYING.md says for the package, with the commands of its units."""
    done("runuser", "-u", "vtserve", "--", "vtserve", "format", "/var/lib/vtserve/map.disk", "--sectors", "4096")
    server = subprocess.Popen(command_of("vtserve.service"), stdout=subprocess.PIPE, stderr=subprocess.DEVNULL, text=True)
    cases.show("vtserve.service: its command", server.stdout.readline(), "serving on 127.0.0.1:8080\n")
    done("install", "-m", "644", "/usr/share/vtserve/nginx.conf", "/etc/vtserve/nginx.conf")
    done("install", "-d", "-g", "www-data", "-m", "750", "/var/lib/vtserve-nginx")
    os.symlink("/usr/share/vtserve/web", "/var/lib/vtserve-nginx/pages")
    cases.show("vtserve-nginx.service: its command", ran(*command_of("vtserve-nginx.service")), (0, ""))
    pages(cases, "vtserve-nginx.service")
    survey = ("vtmap", "import", "/usr/share/doc/vtserve/examples/survey.geojson", "--layer", "survey", "--url", "http://127.0.0.1:8000")
    cases.show("vtmap import, through nginx", ran(*survey)[1].splitlines()[-1], "5 taken, 1 refused")
    for unit, wanted in (("vtserve-publish", "published"), ("vtserve-backup", "5 features saved"), ("vtserve-watch", "5 features")):
        status, text = ran(*command_of(unit + ".service"))
        cases.show(f"{unit}.service: its command", (status, wanted in text or text), (0, True))
    with subprocess.Popen(command_of("vtserve-log.service"), stdout=subprocess.DEVNULL, stderr=subprocess.DEVNULL) as log:
        end = time.monotonic() + 20
        while not os.path.exists(LOG) and time.monotonic() < end:
            done("curl", "-s", "-X", "PUT", "--data", FEATURE, "http://127.0.0.1:8080/features/900")
            time.sleep(1)
        cases.show("vtserve-log.service: its command logs an edit", os.path.exists(LOG), True)
        log.terminate()
    with subprocess.Popen(command_of("vtserve-wfs.service"), stdout=subprocess.DEVNULL, stderr=subprocess.DEVNULL) as gateway:
        asked = ("curl", "-s", "-o", "/dev/null", "-w", "%{http_code}", "--retry", "10", "--retry-all-errors", "-f", "http://127.0.0.1:8000/ogc/")
        cases.show("vtserve-wfs.service: its command, through nginx", ran(*asked), (0, "200"))
        gateway.terminate()
    private(cases)
    return server


def private(cases):
    """What other accounts read of what the units have written: also once nginx's logs were rotated."""
    done("logrotate", "--force", "/etc/logrotate.d/vtserve")
    time.sleep(1)
    done("curl", "-s", "-f", "-X", "PUT", "--data", FEATURE, "http://127.0.0.1:8000/features/901")
    time.sleep(1)
    found = [path for pattern in PRIVATE for path in glob.glob(pattern)]
    cases.show("each kind of what is private is there", all(glob.glob(pattern) for pattern in PRIVATE), True)
    cases.show("another account reads none of it", [path for path in found if ran("runuser", "-u", "nobody", "--", "test", "-r", path)[0] == 0], [])
    words = ("runuser", "-u", "www-data", "--", "test", "-r", "/var/lib/vtserve/map.disk")
    cases.show("nor do nginx's workers read the map", ran(*words)[0] == 0, False)
    cases.show("nginx goes on in the new logs", os.path.getsize("/var/lib/vtserve-nginx/edits.log") > 0, True)


def restarted(cases, root):
    """A new version restarts each service of its programs that runs, by a stand-in for systemctl."""
    real, log = os.path.join(root, "usr", "bin", "systemctl"), os.path.join(root, "srv", "systemctl.log")
    os.makedirs(os.path.join(root, "run", "systemd", "system"))
    os.rename(real, real + ".real")
    with open(real, "w", encoding="utf-8") as file:
        file.write('#!/bin/sh\necho "$@" >> /srv/systemctl.log\n')
    os.chmod(real, 0o755)
    done("apt-get", "install", "-y", "--reinstall", "/srv/vtserve.deb", root=root)
    os.rename(real + ".real", real)
    os.rmdir(os.path.join(root, "run", "systemd", "system"))
    with open(log, encoding="utf-8") as file:
        asked = [line.split() for line in file]
    services = [os.path.basename(path) for path in glob.glob(f"{root}{UNITS}/vtserve*.service")]
    ours = [name for name in services if any(program in lines_of(name, root + UNITS)["ExecStart"] for program in ("/vtserve ", "/vtmap "))]
    # Of a template each unit that is made of it.
    kept = sorted(name.replace("@.", "@*.") for name in ours if lines_of(name, root + UNITS).get("Type") != "oneshot")
    cases.show("a new version restarts each service that runs", sorted(name for word, *given in asked if word == "try-restart" for name in given), kept)
    cases.show("and starts none", [words for words in asked if words[0] not in ("daemon-reload", "try-restart")], [])


def purged(cases, root):
    """A new version keeps the style; a purge keeps maps; once they are gone, it leaves nothing."""
    style = os.path.join(root, "etc", "vtserve", "style.json")
    with open(style, "a", encoding="utf-8") as file:
        file.write("\n")
    wanted = os.path.getsize(style)
    done("apt-get", "install", "-y", "--reinstall", "/srv/vtserve.deb", root=root)
    cases.show("another installation keeps the style that was changed", os.path.getsize(style), wanted)
    restarted(cases, root)
    status, text = ran("apt-get", "purge", "-y", "vtserve", root=root)
    left = "vtserve: left are /var/lib/vtserve /var/backups/vtserve /var/lib/vtserve-log /var/lib/vtserve-wfs, and the user"
    cases.show("a purge says that it leaves maps, backups and the log of edits", (status, left in text or text), (0, True))
    cases.show("and nginx's logs", "vtserve: left is /var/lib/vtserve-nginx, whose logs" in text or text, True)
    paths = ("/var/lib/vtserve/map.disk", "/var/lib/vtserve-log/edits.jsonl.1", "/var/lib/vtserve-nginx/edits.log", "/var/lib/vtserve-nginx/cache")
    kept = [os.path.exists(root + path) for path in paths]
    cases.show("and they are there", (kept, ran("getent", "passwd", "vtserve", root=root)[0]), ([True, True, True, False], 0))
    done("apt-get", "install", "-y", "/srv/vtserve.deb", root=root)
    folders = "/var/lib/vtserve/* /var/backups/vtserve/* /var/lib/vtserve-*"
    done("sh", "-c", f"rm -rf /srv/* {folders} /etc/vtserve/nginx.conf", root=root)
    cases.show("a purge without maps", ran("apt-get", "purge", "-y", "vtserve", root=root)[0], 0)
    words = ("sh", "-c", "find / -xdev -iname '*vtserve*' -o -iname '*vtmap*'; getent passwd vtserve")
    cases.show("leaves nothing", ran(*words, root=root)[1].splitlines(), [])


def inside(cases, root, stay):
    """What is tried in a network and processes of their own."""
    done("ip", "link", "set", "lo", "up")
    with open(os.path.join(HERE, "..", "README.md"), encoding="utf-8") as file:
        text = file.read()
    os.chroot(root)
    os.chdir("/")
    done("mount", "-t", "proc", "proc", "/proc")
    shell = readme(cases, text)
    if stay:
        cases.say(f"http://127.0.0.1:8000/pages/ in the network of process {os.getpid()}: a line ends this")
        sys.stdin.readline()
    done("nginx", "-p", "/srv/clone/front", "-c", "/usr/share/vtserve/nginx.conf", "-s", "stop")
    shell.run("kill $!; wait", documents.pattern(["..."]))
    server = units(cases)
    done("nginx", "-p", "/var/lib/vtserve-nginx", "-c", "/etc/vtserve/nginx.conf", "-s", "stop")
    server.terminate()
    server.wait(60)


def main():
    parser = argparse.ArgumentParser(description="Tries the Debian package in a fresh Debian.")
    parser.add_argument("package")
    parser.add_argument("debian", nargs="?", help="a folder for a Debian, which is made if it isn't there")
    parser.add_argument("--stay", action="store_true", help="wait while the page is there")
    parser.add_argument("--inside", help=argparse.SUPPRESS)
    words = parser.parse_args()
    cases = Cases()
    if words.inside:
        inside(cases, words.inside, words.stay)
        print(f"{cases.seen} cases of what runs, {cases.differ} differ", flush=True)
        return 1 if cases.differ else 0
    if os.environ.get("APART") != "1":
        os.execvpe("unshare", ["unshare", "--mount", sys.executable, *sys.argv], {**os.environ, "APART": "1"})
    with tempfile.TemporaryDirectory() as scratch:
        root = mounted(os.path.abspath(words.debian or os.path.join(scratch, "debian")), scratch)
        installed(cases, root, words.package)
        apart = ["unshare", "--net", "--mount", "--pid", "--fork", "--kill-child"]
        more = ["--stay"] if words.stay else []
        again = [sys.executable, os.path.abspath(__file__), words.package, "--inside", root, *more]
        cases.show("all that runs", subprocess.run([*apart, *again], check=False).returncode, 0)
        purged(cases, root)
        subprocess.run(["umount", "-R", "-l", root], check=False)
    print(f"{cases.seen} cases of what is installed, {cases.differ} differ")
    return 1 if cases.differ else 0


if __name__ == "__main__":
    sys.exit(main())
