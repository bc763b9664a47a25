"""furnish.py FOLDER: fills the folder `shipped` of an installed package. It has the proved programs of release/, unpacked, if their
sums are those of release/about, and what the package reads beside them."""
import gzip
import hashlib
import pathlib
import shutil
import sys

TOP = pathlib.Path(__file__).resolve().parent.parent
PROGRAMS = "exec_run", "exec_upgrade", "exec_serve"
# What else the package reads, by its name in the repository and in the folder.
FILES = {"VERSION": "VERSION", "release/about": "about", "release/NOTICES.md": "NOTICES.md", "docs/HEADLINE.md": "docs/HEADLINE.md"}


def program(name):
    """The bytes of a program, unpacked. It stops here if a sum is another than that of release/about."""
    facts = dict(line.rpartition(" ")[::2] for line in (TOP / "release/about").read_text().splitlines())
    packed = (TOP / f"release/{name}.gz").read_bytes()
    for what, of in (("packed", lambda: packed), ("program", lambda: gzip.decompress(packed))):
        found = of()
        if hashlib.sha256(found).hexdigest() != facts.get(f"{name} {what}"):
            sys.exit(f"release/{name}.gz isn't the program that release/about names: its sum is another one")
    return found


def furnish(folder):
    (folder / "docs").mkdir(parents=True)
    for name in PROGRAMS:
        (folder / name).write_bytes(program(name))
        (folder / name).chmod(0o755)
    for name, there in FILES.items():
        shutil.copyfile(TOP / name, folder / there)


if __name__ == "__main__":
    if len(sys.argv) != 2:
        sys.exit(__doc__)
    furnish(pathlib.Path(sys.argv[1]))
