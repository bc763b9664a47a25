"""pyz.py WHEEL FILE: makes one file of a wheel, which Python runs. The same wheel gives the same bytes."""
import pathlib
import sys
import zipfile

BEGIN = """#!/usr/bin/env python3
"""
# What the file runs. It unpacks itself, since a program can't be started inside of a zip.
MAIN = pathlib.Path(__file__).resolve().parent / "unpacked.py"
YEAR = (1980, 1, 1, 0, 0, 0)


def packed(name, mode=0o644):
    made = zipfile.ZipInfo(name, YEAR)
    made.compress_type, made.external_attr = zipfile.ZIP_DEFLATED, mode << 16
    return made


def main(wheel, file):
    with open(file, "wb") as stream:
        stream.write(BEGIN.encode())
        with zipfile.ZipFile(wheel) as held, zipfile.ZipFile(stream, "w", compresslevel=9) as made:
            made.writestr(packed("__main__.py"), MAIN.read_bytes())
            for it in sorted(held.infolist(), key=lambda it: it.filename):
                if it.filename.startswith("virraupez/"):
                    made.writestr(packed(it.filename, it.external_attr >> 16 & 0o777), held.read(it))
    pathlib.Path(file).chmod(0o755)


if __name__ == "__main__":
    if len(sys.argv) != 3:
        sys.exit(__doc__)
    main(*sys.argv[1:])
