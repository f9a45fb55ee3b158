"""Makes the wheel of castgroup, for `pip install` and `pip wheel`: the package with libcastgroup.so in it, so that it needs nothing else.

usage: wheel_of_library.py FOLDER      leaves the wheel in the folder, and says its name

The library is that of the folder CASTGROUP_LIB, or else of `lib` at the top of the repository. `bindings/library` makes it.
"""
import base64
import hashlib
import os
import re
import sys
import sysconfig
import zipfile
from pathlib import Path

HERE = Path(__file__).resolve().parent
# A line of pyproject.toml, and its name in a wheel's metadata.
FIELD = re.compile(r'^([\w-]+) = "(.*)"$', re.MULTILINE)
NAMES = {"name": "Name", "version": "Version", "description": "Summary", "requires-python": "Requires-Python"}
# The same files make the same wheel.
EPOCH = (1980, 1, 1, 0, 0, 0)


def library():
    folder = Path(os.environ.get("CASTGROUP_LIB", HERE.parent.parent / "lib"))
    if not (folder / "libcastgroup.so").is_file():
        sys.exit(f"there is no {folder}/libcastgroup.so: name its folder as CASTGROUP_LIB, as bindings/library made it")
    return folder / "libcastgroup.so"


def build_wheel(wheel_directory, config_settings=None, metadata_directory=None):
    """Leaves the wheel in the folder, and returns its name."""
    project = dict(FIELD.findall((HERE / "pyproject.toml").read_text().partition("[project]")[2].partition("\n[")[0]))
    tag = f"py3-none-{re.sub('[-.]', '_', sysconfig.get_platform())}"
    known = f"castgroup-{project['version']}"
    files = {f"castgroup/{path.name}": path.read_bytes() for path in sorted((HERE / "castgroup").iterdir()) if path.is_file()}
    files["castgroup/libcastgroup.so"] = library().read_bytes()
    metadata = "".join(f"{name}: {project[field]}\n" for field, name in NAMES.items())
    files[f"{known}.dist-info/METADATA"] = f"Metadata-Version: 2.1\n{metadata}".encode()
    wheel = f"Wheel-Version: 1.0\nGenerator: castgroup\nRoot-Is-Purelib: false\nTag: {tag}\n"
    files[f"{known}.dist-info/WHEEL"] = wheel.encode()
    files[f"{known}.dist-info/RECORD"] = record(files, f"{known}.dist-info/RECORD")
    with zipfile.ZipFile(Path(wheel_directory) / f"{known}-{tag}.whl", "w", zipfile.ZIP_DEFLATED) as archive:
        for name, data in files.items():
            entry = zipfile.ZipInfo(name, EPOCH)
            entry.compress_type, entry.external_attr = zipfile.ZIP_DEFLATED, 0o644 << 16
            archive.writestr(entry, data)
    return f"{known}-{tag}.whl"


def record(files, own):
    """The list of files with their sums; it has no sum of itself."""
    lines = []
    for name, data in files.items():
        digest = base64.urlsafe_b64encode(hashlib.sha256(data).digest()).rstrip(b"=").decode()
        lines.append(f"{name},sha256={digest},{len(data)}\n")
    return "".join([*lines, f"{own},,\n"]).encode()


def build_sdist(sdist_directory, config_settings=None):
    raise NotImplementedError("the sources are those of the repository: build the wheel")


if __name__ == "__main__":
    if len(sys.argv) != 2:
        sys.exit(__doc__)
    print(build_wheel(sys.argv[1]))
