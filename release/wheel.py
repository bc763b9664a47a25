"""The hook of hatchling that adds to the wheel what the package's own folder doesn't have: the proved programs, the manual page and
the completions. The tag says on which machines the programs run."""
import pathlib
import subprocess
import sys
import tempfile

from hatchling.builders.hooks.plugin.interface import BuildHookInterface

COMPLETIONS = {"bash": "bash-completion/completions/virraupez", "zsh": "zsh/site-functions/_virraupez"}


class ProgramsHook(BuildHookInterface):
    def initialize(self, version, build_data):
        top = pathlib.Path(self.root)
        self.room = tempfile.TemporaryDirectory()
        room = pathlib.Path(self.room.name)
        included = build_data["force_include"]
        share = f"virraupez-{self.metadata.version}.data/data/share"
        # An editable package finds its files in the repository.
        if version != "editable":
            subprocess.run([sys.executable, top / "release/furnish.py", room / "shipped"], check=True)
            included[str(room / "shipped")] = "virraupez/shipped"
        for shell, name in COMPLETIONS.items():
            subprocess.run([sys.executable, "-B", top / "virraupez", "completion", shell, "-o", room / shell], check=True)
            included[str(room / shell)] = f"{share}/{name}"
        included[str(top / "docs/virraupez.1")] = f"{share}/man/man1/virraupez.1"
        build_data["tag"] = "py3-none-manylinux_2_34_x86_64"
        build_data["pure_python"] = False

    def finalize(self, version, build_data, artifact_path):
        self.room.cleanup()
