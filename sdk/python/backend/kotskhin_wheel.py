"""Makes the wheel of kotskhin: the package, and the library beside it. It wants no other package (PEP 517).

The library is that of the setting `library`, of the variable KOTSKHIN_SO, or of sdk/out, where sdk/build makes it:

    pip install sdk/python
    pip wheel sdk/python --config-settings library=FOLDER/shared/libkotskhin.so.0
"""
import base64
import hashlib
import os
import pathlib
import re
import zipfile

HERE = pathlib.Path(__file__).resolve().parents[1]
PACKAGE, LIBRARY = HERE / "kotskhin", "libkotskhin.so.0"
# Libraries that every Linux of a glibc has, which a wheel need not carry.
SYSTEM = {"libc.so.6", "libpthread.so.0", "libm.so.6", "libdl.so.2", "librt.so.1", "ld-linux-x86-64.so.2"}
# A wheel of equal files is the same bytes.
DATE = (1980, 1, 1, 0, 0, 0)


def version():
    """The version, as the library's."""
    told = int(re.search(r"^VERSION = (\d+)$", (PACKAGE / "declared.py").read_text(encoding="utf-8"), re.M)[1])
    return ".".join(str(told >> shift & 255) for shift in (16, 8, 0))


def library(settings):
    """The path of the library."""
    told = (settings or {}).get("library") or os.environ.get("KOTSKHIN_SO")
    path = pathlib.Path(told) if told else HERE.parent / "out" / "shared" / LIBRARY
    if not path.is_file():
        raise FileNotFoundError(f"there is no {path}: sdk/build makes it; else set KOTSKHIN_SO to the path of {LIBRARY}")
    return path


def platform(made):
    """The platforms that a library runs on: those of the newest glibc whose symbols it wants."""
    wanted = [int(found) for found in re.findall(rb"\0GLIBC_2\.(\d+)(?:\.\d+)?(?=\0)", made)]
    found = re.findall(rb"\0(lib[\w.+-]+\.so(?:\.\d+)*|ld-[\w.+-]+\.so\.\d+)(?=\0)", made)
    others = {name.decode() for name in found} - SYSTEM - {LIBRARY}
    return "linux_x86_64" if others or not wanted else f"manylinux_2_{max(wanted)}_x86_64"


def metadata():
    told = (HERE / "pyproject.toml").read_text(encoding="utf-8")
    says, wants = (re.search(rf'^{word} = "(.*)"$', told, re.M)[1] for word in ("description", "requires-python"))
    return f"Metadata-Version: 2.1\nName: kotskhin\nVersion: {version()}\nSummary: {says}\nRequires-Python: {wants}\n"


def files(settings):
    """What the wheel has, by its place there: the tag last."""
    made = library(settings).read_bytes()
    for file in sorted(PACKAGE.rglob("*")):
        if file.suffix == ".py" or file.name == "py.typed":
            yield file.relative_to(HERE).as_posix(), file.read_bytes()
    yield f"kotskhin/{LIBRARY}", made
    info = f"kotskhin-{version()}.dist-info"
    yield f"{info}/METADATA", metadata().encode()
    tag = f"py3-none-{platform(made)}"
    yield f"{info}/WHEEL", f"Wheel-Version: 1.0\nGenerator: kotskhin_wheel\nRoot-Is-Purelib: false\nTag: {tag}\n".encode()


def build_wheel(wheel_directory, config_settings=None, metadata_directory=None):
    """Makes the wheel in a folder, and tells its name."""
    made = dict(files(config_settings))
    info = f"kotskhin-{version()}.dist-info"
    tag = re.search(r"^Tag: (.*)$", made[f"{info}/WHEEL"].decode(), re.M)[1]
    hashed = {name: base64.urlsafe_b64encode(hashlib.sha256(content).digest()).rstrip(b"=").decode() for name, content in made.items()}
    record = [f"{name},sha256={hashed[name]},{len(content)}\n" for name, content in made.items()]
    made[f"{info}/RECORD"] = "".join([*record, f"{info}/RECORD,,\n"]).encode()
    name = f"kotskhin-{version()}-{tag}.whl"
    with zipfile.ZipFile(pathlib.Path(wheel_directory) / name, "w", zipfile.ZIP_DEFLATED) as wheel:
        for place, content in made.items():
            one = zipfile.ZipInfo(place, DATE)
            one.external_attr, one.compress_type = 0o644 << 16, zipfile.ZIP_DEFLATED
            wheel.writestr(one, content)
    return name


def build_sdist(sdist_directory, config_settings=None):
    """A package of sources could not make its library, so there is none."""
    raise RuntimeError("kotskhin goes as wheels alone: its library is made by sdk/build")
