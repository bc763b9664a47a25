"""virraupez.pyz: unpacks itself into the user's cache, once, and runs from there."""
import contextlib
import hashlib
import os
import pathlib
import shutil
import stat
import sys
import tempfile
import zipfile

if sys.version_info < (3, 8):
    sys.exit("virraupez: Python 3.8 or later is needed, and this is %d.%d" % sys.version_info[:2])


def cache():
    """The user's folder for what is unpacked. Nobody else may write there, since what is there is run."""
    own = os.environ.get("XDG_CACHE_HOME", "")
    folder = (pathlib.Path(own) if os.path.isabs(own) else pathlib.Path.home() / ".cache") / "virraupez"
    folder.parent.mkdir(parents=True, exist_ok=True)
    folder.mkdir(mode=0o700, exist_ok=True)
    found = folder.stat()
    if found.st_uid != os.geteuid() or stat.S_IMODE(found.st_mode) & 0o022:
        sys.exit(f"virraupez: {folder} is another user's, or others may write there")
    return folder


def unpacked(file):
    """The folder to which a file was unpacked."""
    folder = cache()
    room = folder / hashlib.sha256(file.read_bytes()).hexdigest()
    if not room.is_dir():
        new = pathlib.Path(tempfile.mkdtemp(dir=folder))
        with zipfile.ZipFile(file) as held:
            for it in held.infolist():
                os.chmod(held.extract(it, new), it.external_attr >> 16 & 0o777)
        os.sync()
        with contextlib.suppress(OSError):  # another one was quicker
            new.rename(room)
        shutil.rmtree(new, ignore_errors=True)
    return room


try:
    sys.path[0] = str(unpacked(pathlib.Path(__file__).resolve().parent))
    from virraupez.launcher import entry
except OSError as wrong:
    sys.exit(f"virraupez: {wrong.filename}: {wrong.strerror}")
except KeyboardInterrupt:
    sys.exit(130)
sys.exit(entry())
