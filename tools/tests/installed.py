"""That the wheel, the file that Python runs, `make install` and the Debian package install the command: each is built twice in other
folders, zones, locales and masks, to the same bytes, and runs a document in a fresh folder. A changed byte is no build and no run."""
import pathlib
import shutil
import subprocess
import tempfile
import zipfile

from . import tool

# What is built from, of the repository.
FOLDERS = "debian", "tools/virraupez", "release"
FILES = "Makefile", "pyproject.toml", ".gitignore", "README.md", "VERSION", "virraupez", "docs/virraupez.1", "docs/HEADLINE.md"
# The places in which each is built, with what differs there.
BUILDS = (("one", "022", {"TZ": "UTC", "LC_ALL": "C.UTF-8"}), ("another one", "077", {"TZ": "Asia/Tokyo", "LC_ALL": "C"}))
PYTHON, PATH = "/usr/bin/python3", "/usr/sbin:/usr/bin:/sbin:/bin"
TAG = "py3-none-manylinux_2_34_x86_64"
WRONG = "isn't the program that release/about names"


def answers(_program):
    with tempfile.TemporaryDirectory() as folder:
        top = pathlib.Path(folder)
        places = [(source(top / name), mask, around) for name, mask, around in BUILDS]
        version = (tool.TOP / "VERSION").read_text().strip()
        yield "the version of the Debian package", (tool.TOP / "debian/changelog").read_text().split("\n")[0], f"virraupez ({version}) unstable; urgency=medium"
        yield from of_make(top, places[0][0])
        if not lacks("no wheel was built", "hatchling", "pip", "venv"):
            yield from of_wheels(top, places)
        if not lacks("no Debian package was built", "dh", "dpkg-buildpackage", "dh_python3"):
            yield from of_debian(top, places)
        yield from of_changes(places[0][0])


def lacks(what, *names):
    """Whether a machine lacks a program, or a module of Python, that something needs; what isn't done is told then."""
    for name in names:
        is_package = any(pathlib.Path(folder, name).is_dir() for folder in ("/usr/share", "/opt/ros/share"))
        if not is_package and not shutil.which(name, path=PATH) and subprocess.run([PYTHON, "-c", f"import {name}"], stderr=subprocess.DEVNULL).returncode:
            tool.UNDONE.append(f"{what}, for want of {name}")
            return True
    return False


def source(top):
    """A copy of what is built from."""
    for name in FOLDERS:
        shutil.copytree(tool.TOP / name, top / name, ignore=shutil.ignore_patterns("__pycache__", "out"))
    for name in FILES:
        (top / name).parent.mkdir(parents=True, exist_ok=True)
        shutil.copy(tool.TOP / name, top / name)
    return top


def ran(words, top, mask="022", **around):
    """The status of a program, and what it says. It finds nothing of the repository, nor of this user."""
    known = {"PATH": PATH, "HOME": str(top), "LC_ALL": "C.UTF-8", **around}
    within = ["sh", "-c", 'umask "$0" && exec "$@"', mask, *map(str, words)]
    done = subprocess.run(within, cwd=top, env=known, stdin=subprocess.DEVNULL, stdout=subprocess.PIPE, stderr=subprocess.STDOUT)
    return done.returncode, done.stdout.decode()


def works(what, command, top, **around):
    """What an installed command must do in a folder that has nothing but a document."""
    room = pathlib.Path(tempfile.mkdtemp(dir=top))
    shutil.copy(tool.TOP / "examples/timer.json", room)
    timer = (tool.TOP / "examples/timer.txt").read_text()
    yield f"run by {what}", ran([*command, "run", "timer.json"], room, **around), (0, timer)
    yield f"run --definitions by {what}", ran([*command, "run", "--definitions", "timer.json", "-o", "own.txt"], room, **around)[0], 0
    yield f"what {what} computes", (room / "own.txt").read_text(), timer
    yield f"the version of {what}", ran([*command, "--version"], room, **around), (0, f"virraupez {(tool.TOP / 'VERSION').read_text()}")
    (room / "same.rules").write_text("never drop _\n")
    status, text = ran([*command, "search", "timer.json", "--rules", "same.rules", "--period", "t", "9..11"], room, **around)
    yield f"search by {what}: {text}", (status, "all there are" in text), (0, True)
    yield f"upgrade by {what}", ran([*command, "upgrade", "-i", "timer.json"], room, **around), (0, "")
    yield f"an upgrade by {what}", '"version":2' in (room / "timer.json").read_text(), True


def changed(file):
    """Changes a byte in the middle of a file."""
    held = bytearray(file.read_bytes())
    held[len(held) // 2] ^= 1
    file.write_bytes(held)


# ---- what is built


def of_make(top, place):
    root = top / "root"
    yield "make install", ran(["make", "-s", "install", "PREFIX=/usr", f"DESTDIR={root}"], place), (0, "")
    yield from works("make install", [root / "usr/bin/virraupez"], top)
    modes = {oct(it.stat().st_mode & 0o777) for it in root.rglob("*") if "__pycache__" not in it.parts}
    yield "the modes of what make installs", modes, {"0o755", "0o644"}
    yield "make compile", ran(["make", "-s", "compile", "PREFIX=/usr", f"DESTDIR={root}"], place), (0, "")
    package = root / "usr/lib/virraupez/tools/virraupez"
    yield "the byte code that make keeps", {it.name.split(".")[0] for it in package.glob("__pycache__/*.pyc")}, {it.stem for it in package.glob("*.py")}
    shared = [it for it in ("man/man1/virraupez.1", "bash-completion/completions/virraupez", "zsh/site-functions/_virraupez") if not (root / "usr/share" / it).is_file()]
    yield "what make install leaves out", shared, []
    changed(package / "shipped/exec_run")
    status, text = ran([root / "usr/bin/virraupez", "run", tool.TOP / "examples/timer.json"], top)
    yield f"an installed program with a changed byte: {text}", (status, "isn't the program that was installed" in text), (2, True)
    yield "make uninstall", ran(["make", "-s", "uninstall", "PREFIX=/usr", f"DESTDIR={root}"], place), (0, "")
    yield "what make uninstall leaves", [str(it) for it in root.rglob("*") if not it.is_dir()], []


def of_wheels(top, places):
    wheels = []
    for place, mask, around in places:
        status, text = ran([PYTHON, "-m", "pip", "wheel", "--no-deps", "--no-build-isolation", "--no-index", "-w", place / "wheels", "."], place, mask, **around)
        yield f"pip wheel: {text}", status, 0
        wheels += (place / "wheels").glob("*.whl")
    yield "the names of wheels", [it.name for it in wheels], [f"virraupez-{(tool.TOP / 'VERSION').read_text().strip()}-{TAG}.whl"] * 2
    files = [place / "virraupez.pyz" for place, _, _ in places]
    for file, wheel, (place, mask, around) in zip(files, wheels, places):
        yield "a file of a wheel", ran([PYTHON, "release/pyz.py", wheel, file], place, mask, **around), (0, "")
    for what, (one, other) in (("wheels", wheels), ("files of wheels", files)):
        yield f"whether two {what} are the same", one.read_bytes() == other.read_bytes(), True
    yield f"a wheel of {wheels[0].stat().st_size} bytes", wheels[0].stat().st_size < 600_000, True
    yield from of_pip(top, wheels[0])
    yield from of_file(top, files[0])


def of_pip(top, wheel):
    room = top / "venv"
    yield "a fresh environment", ran([PYTHON, "-m", "venv", "--without-pip", room], top)[0], 0
    pip = [PYTHON, "-m", "pip", "--python", room / "bin/python", "install", "--quiet", "--no-index", "--no-deps"]
    for platform in ("manylinux_2_17_x86_64", "manylinux_2_34_aarch64", "macosx_11_0_x86_64"):
        status, text = ran([*pip, "--platform", platform, "--target", top / "other", wheel], top)
        yield f"pip on {platform}: {text}", (status, "not a supported wheel" in text), (1, True)
    status, text = ran([*pip, wheel], top)
    yield f"pip install: {text}", status, 0
    yield from works("pip install", [room / "bin/virraupez"], top)
    yield "the manual page of pip install", (room / "share/man/man1/virraupez.1").is_file(), True
    changed(next(room.glob("lib/*/site-packages/virraupez/shipped/exec_upgrade")))
    status, text = ran([room / "bin/virraupez", "upgrade", tool.TOP / "examples/timer.json"], top)
    yield f"an installed exec_upgrade with a changed byte: {text}", (status, "isn't the program that was installed" in text), (2, True)


def of_file(top, file):
    cache = top / "cache"
    yield from works("a file that Python runs", [PYTHON, file], top, XDG_CACHE_HOME=str(cache))
    yield "how often it was unpacked", len(list((cache / "virraupez").iterdir())), 1
    (cache / "virraupez").chmod(0o777)
    status, text = ran([PYTHON, file, "--version"], top, XDG_CACHE_HOME=str(cache))
    yield f"one beside a cache of all: {text}", (status, "others may write there" in text), (1, True)
    other = file.with_name("other.pyz")
    with zipfile.ZipFile(file) as held, zipfile.ZipFile(other, "w") as made:
        for it in held.infolist():
            made.writestr(it, held.read(it).replace(b"\x7fELF", b"\x7fELf"))
    status, text = ran([PYTHON, other, "run", tool.TOP / "examples/timer.json"], top)
    yield f"one with a changed byte: {text}", (status, "isn't the program that was installed" in text), (2, True)


def of_debian(top, places):
    packages = []
    for place, mask, around in places:
        status, text = ran(["dpkg-buildpackage", "-b", "-us", "-uc"], place, mask, **around)
        yield f"dpkg-buildpackage: {text[-2000:] if status else ''}", status, 0
        made = list(place.parent.glob("virraupez_*.deb"))
        packages += [it.rename(place / it.name) for it in made]
    yield "whether two Debian packages are the same", packages[0].read_bytes() == packages[1].read_bytes(), True
    if not lacks("no Debian package was looked at", "lintian"):
        yield "lintian", ran(["lintian", "--fail-on", "error,warning", "--allow-root", packages[0]], top), (0, "")
    root = top / "unpacked"
    yield "dpkg-deb -x", ran(["dpkg-deb", "-x", packages[0], root], top), (0, "")
    yield from works("a Debian package", [root / "usr/bin/virraupez"], top)


def of_changes(place):
    """A packed program with a changed byte is packed nowhere."""
    changed(place / "release/exec_run.gz")
    builds = {"make install": ["make", "-s", "install", f"DESTDIR={place / 'root'}"]}
    if not lacks("no wheel of a changed program was built", "hatchling", "pip"):
        builds["pip wheel"] = [PYTHON, "-m", "pip", "wheel", "--no-deps", "--no-build-isolation", "--no-index", "-w", place / "wrong", "."]
    for what, words in builds.items():
        status, text = ran(words, place)
        yield f"{what} of a changed program: {text}", (status != 0, WRONG in text, list(place.glob("wrong/*.whl"))), (True, True, [])
