"""Builds the package for pip, which needs nothing but this file: the package `clfs`, and the modules beside it whose names begin with `clfs_`.

The fields that pyproject.toml has are read from there, the version and what the package says of itself from the package."""
import base64
import hashlib
import io
import pathlib
import re
import tarfile
import zipfile

HERE = pathlib.Path(__file__).resolve().parent
# What of a folder is no source.
LEFT_OUT = {"__pycache__"}


def installed():
    """The files of the package and of the modules beside it, by their names from here."""
    found = [path for top in sorted(HERE.glob("clfs*")) for path in (sorted(top.rglob("*")) if top.is_dir() else [top])]
    return {str(path.relative_to(HERE)): path.read_bytes() for path in found if path.is_file() and not LEFT_OUT & set(path.parts)}


def field(name):
    """The value of a line `name = "value"` in pyproject.toml."""
    return re.search(rf'^{name} = "(.*)"$', (HERE / "pyproject.toml").read_text(), re.MULTILINE)[1]


def described():
    """The name with the version, and the metadata."""
    package = (HERE / "clfs/__init__.py").read_text()
    version = re.search(r'^__version__ = "(.*)"$', package, re.MULTILINE)[1]
    lines = ["Metadata-Version: 2.1", f"Name: {field('name')}", f"Version: {version}", f"Summary: {field('description')}",
             f"Requires-Python: {field('requires-python')}", "Description-Content-Type: text/plain", "", package.split('"""')[1]]
    return f"{field('name')}-{version}", "\n".join(lines).encode()


def write_wheel(folder, files):
    """Writes a wheel of these files, and gives its name."""
    release, metadata = described()
    about = f"{release}.dist-info"
    kind = b"Wheel-Version: 1.0\nGenerator: clfs\nRoot-Is-Purelib: true\nTag: py3-none-any\n"
    files = {**files, f"{about}/METADATA": metadata, f"{about}/WHEEL": kind}
    if (HERE / "clfs_look.py").exists():
        files[f"{about}/entry_points.txt"] = b"[console_scripts]\nclfs-look = clfs_look:main\n"
    sums = {name: base64.urlsafe_b64encode(hashlib.sha256(data).digest()).rstrip(b"=").decode() for name, data in files.items()}
    record = "".join(f"{name},sha256={sums[name]},{len(data)}\n" for name, data in files.items()) + f"{about}/RECORD,,\n"
    wheel = f"{release}-py3-none-any.whl"
    with zipfile.ZipFile(pathlib.Path(folder) / wheel, "w", zipfile.ZIP_DEFLATED) as archive:
        for name, data in {**files, f"{about}/RECORD": record.encode()}.items():
            # Without the time of the file, so that the same sources give the same wheel.
            entry = zipfile.ZipInfo(name)
            entry.external_attr = 0o644 << 16
            archive.writestr(entry, data, zipfile.ZIP_DEFLATED)
    return wheel


def build_wheel(wheel_directory, config_settings=None, metadata_directory=None):
    return write_wheel(wheel_directory, installed())


def build_editable(wheel_directory, config_settings=None, metadata_directory=None):
    """One that leads to this folder."""
    return write_wheel(wheel_directory, {"clfs_here.pth": f"{HERE}\n".encode()})


def build_sdist(sdist_directory, config_settings=None):
    release, metadata = described()
    files = {**installed(), "PKG-INFO": metadata}
    files.update({name: (HERE / name).read_bytes() for name in ("pyproject.toml", "build_backend.py")})
    with tarfile.open(pathlib.Path(sdist_directory) / f"{release}.tar.gz", "w:gz") as archive:
        for name, data in files.items():
            entry = tarfile.TarInfo(f"{release}/{name}")
            entry.size, entry.mode = len(data), 0o644
            archive.addfile(entry, io.BytesIO(data))
    return f"{release}.tar.gz"
