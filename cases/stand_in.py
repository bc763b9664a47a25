"""A repository beside a toolchain that proves nothing, for the scripts that test ./exec_run, ./exec_upgrade, ./exec_serve, ./build,
./gate and release/.

It has the crates' list with a source of one word in each crate. What its toolchain links tells its words and the version of the
sources, and ends with the status 3; to a document it answers what the program answers to an empty one."""
import os
import pathlib
import shutil
import subprocess

TOP = pathlib.Path(__file__).resolve().parent.parent
# A list of few crates, of which one is of no program, and one of those alone that run documents.
FEW = (
    "exec_msg: itoa\nexec_io: exec_msg\nexec_tests: exec_io\nexec_round: exec_msg\nexec_run: exec_round exec_io exec_msg\n"
    "exec_upgrade: exec_io exec_msg\nexec_serve: exec_round exec_io exec_msg\n"
)
PROGRAMS = "exec_run", "exec_upgrade", "exec_serve"
COPIED = *PROGRAMS, "build", "gate", "VERSION", "THIRD_PARTY.md", "crates.txt", "HANDLES", "release/program.sh", "release/check"
# What stands for rt: it notes the crate that it is asked for, and refuses one whose libraries aren't there.
RT = """#!/bin/sh
link() {
  case $1 in
  exec_run) answer='end 0' ;;
  exec_upgrade) answer='{"order":"kind","version":2}' ;;
  exec_serve) answer=$(printf '\\006end 0') ;;
  *) return ;;
  esac
  cat >out/$1 <<END
#!/bin/sh
${BEGIN-}
case \\$(tr -d '\\\\000') in *version*) echo '$answer' && exit ;; esac
echo $(cat src/main.rt) "\\$@"
exit 3
END
  chmod +x out/$1
}
if [ "$1" = version ]; then
  echo "${KIT:-stand-in 1}"
elif [ "$1" = ci ]; then
  rm -rf crates/*/out
  for name in exec_run exec_upgrade exec_serve; do
    (cd crates/$name && mkdir -p out && { [ -e "$NOTES/refused" ] || link $name; }) || exit 1
  done
  [ ! -e "$NOTES/refused" ] || { echo '0 passed, 1 failed' && exit 1; }
  echo '1 passed, 0 failed'
else
  name=$(basename "$PWD")
  [ ! -e "$NOTES/refused" ] || exit 1
  for below in $(sed -n "s/^$name[ a-z_=A-Z]*: *//p" ../../crates.txt); do
    [ ! -d "$REPOSITORY/crates/$below" ] || [ -e "../$below/out/rlib/$below" ] || exit 1
  done
  echo "$name" >>"$NOTES/proved"
  mkdir -p out/rlib out/incremental && : >"out/rlib/$name"
  [ "$1" = run ] || exit 0
  mkdir "$NOTES/linking" || exit 1
  link "$name"
  sleep "${PAUSE-0}"
  rmdir "$NOTES/linking"
  [ -z "${MEDDLED-}" ] || echo meddled >"$REPOSITORY/crates/exec_msg/src/main.rt"
fi
"""
# What stands for a program that others call: it notes that it was called, and becomes the other.
NOTING = """#!/bin/sh
echo {name} >>"$NOTES/called"
exec {file} "$@"
"""


class Repository:
    """The repository, with these crates or its own, in a folder with what its toolchain notes."""

    def __init__(self, room, crates=FEW):
        self.room, self.top, self.notes = room, room / "repository", room / "notes"
        for name in ("notes", "temporary", "cache", "kit", "path"):
            (room / name).mkdir(parents=True)
        for name in COPIED:
            (self.top / name).parent.mkdir(parents=True, exist_ok=True)
            shutil.copy(TOP / name, self.top / name)
        if crates:
            (self.top / "crates.txt").write_text(crates)
        below = listed(self.top)
        self.every = len(needed(below))
        for name in below:
            for part in ("src", "specs", "proofs"):
                (self.top / "crates" / name / part).mkdir(parents=True)
            (self.top / "crates" / name / "src/main.rt").write_text("first")
        self.source = self.top / "crates/exec_run/src/main.rt"
        self.out = self.top / "crates/exec_run/out"
        self.has_kit, self.told = True, ""
        self.stand(room / "kit/rt", RT)

    def stand(self, file, text):
        file.write_text(text)
        file.chmod(0o755)

    def stand_for(self, name, text=NOTING):
        """Has a program of the machine note its calls, or do what a text says."""
        self.stand(self.room / "path" / name, text.format(name=name, file=shutil.which(name)))

    def around(self):
        """The environment: if the toolchain isn't here, no folder of the path has one."""
        folders = [it for it in os.environ["PATH"].split(":") if not os.path.exists(f"{it}/rt")]
        kit = [self.room / "kit"] * self.has_kit
        path = ":".join(map(str, [self.room / "path", *kit, *folders]))
        return {
            **os.environ,
            "PATH": path,
            "NOTES": str(self.notes),
            "REPOSITORY": str(self.top),
            "TMPDIR": str(self.room / "temporary"),
            "XDG_CACHE_HOME": str(self.room / "cache"),
        }

    def run(self, *words, file="./exec_run", folder="", limit=None, **around):
        """What a script answers, and how often a crate was proved for it; what it tells beside that is in `told`."""
        notes = [self.notes / name for name in ("proved", "called")]
        for it in notes:
            it.write_text("")
        ran = subprocess.run(
            [file, *words], cwd=self.top / folder, capture_output=True, env={**self.around(), **around}, stdin=subprocess.DEVNULL, preexec_fn=limit
        )
        self.told = ran.stderr.decode()
        proved, self.called = (it.read_text().split() for it in notes)
        return ran.returncode, ran.stdout, len(proved)

    def start(self, **around):
        return self.run("1", "2", **around)

    def upgrade(self, **around):
        return self.run(file="./exec_upgrade", **around)

    def serve(self, **around):
        return self.run("1", "2", file="./exec_serve", **around)

    def copy(self, room, *left_out):
        """Another repository with the same files, which are newer there, but for some."""
        other = Repository(room)
        shutil.rmtree(other.top)
        shutil.copytree(self.top, other.top, ignore=shutil.ignore_patterns(*left_out), copy_function=shutil.copy)
        return other


def listed(top):
    """The crates of a repository, each with the libraries on which it stands."""
    parts = (line.partition(":") for line in (top / "crates.txt").read_text().splitlines() if line)
    return {head.split()[0]: below.split() for head, _, below in parts}


def needed(below):
    """The crates on which the programs stand, themselves among them."""
    found, left = set(), [*PROGRAMS]
    while left:
        name = left.pop()
        if name in below and name not in found:
            found.add(name)
            left += below[name]
    return found


def judged(answers, folder):
    """Tells each answer that isn't the one that is wanted, and then how many are; the status is 1 if one isn't."""
    passed = failed = 0
    for part in answers:
        room = pathlib.Path(folder) / part.__name__
        room.mkdir()
        for name, found, should in part(room):
            if found == should:
                passed += 1
            else:
                failed += 1
                print(f"{name}: {found} in place of {should}")
    print(f"{passed} passed, {failed} failed")
    return 1 if failed or not passed else 0
