"""What a folder that is laid out as an installation has for C++ beside kotskhin.h; and whether its library was made with its proofs."""
import pathlib
import re
import shutil
import subprocess

CPP = pathlib.Path(__file__).resolve().parents[1] / "cpp"
# What kit_version tells more where nothing is proved, as KIT_NOT_PROVED of kotskhin.h; and what the archive then defines.
NOT_PROVED, MARK = 1 << 31, "kotskhin_not_proved"


def cpp(folder, version):
    """Copies them into a folder that is laid out as an installation."""
    headers, cmake = folder / "include" / "kotskhin", folder / "lib" / "cmake" / "kotskhin"
    shutil.rmtree(headers, ignore_errors=True)
    shutil.copy(CPP / "kotskhin.hpp", folder / "include")
    shutil.copytree(CPP / "kotskhin", headers)
    cmake.mkdir(parents=True, exist_ok=True)
    shutil.copy(CPP / "cmake" / "kotskhin-config.cmake", cmake)
    told = (CPP / "cmake" / "kotskhin-config-version.cmake.in").read_text(encoding="utf-8")
    (cmake / "kotskhin-config-version.cmake").write_text(told.replace("@VERSION@", version), encoding="utf-8")


def is_proved(archive):
    """Whether an archive is of a library that was made with its proofs."""
    told = subprocess.run(["nm", "--defined-only", str(archive)], capture_output=True, text=True, check=True).stdout
    return MARK not in told.split()


def mark(folder):
    """Has the header, and what pkg-config tells, say that nothing of the library is proved."""
    header, told = folder / "include" / "kotskhin.h", folder / "lib" / "pkgconfig" / "kotskhin.pc"
    text = re.sub(
        r"^#define KIT_VERSION (\d+) /\* ([\d.]+):",
        lambda it: f"#define KIT_VERSION {int(it[1]) | NOT_PROVED}u /* {it[2]}, not proved:",
        header.read_text(encoding="utf-8"),
        flags=re.M,
    )
    header.write_text(text, encoding="utf-8")
    text = re.sub(r"^Version: (\S+)$", r"Version: \1-not-proved", told.read_text(encoding="utf-8"), flags=re.M)
    told.write_text(text.replace("whose totals are proved", "which is not proved in this build"), encoding="utf-8")
