"""The version, which stands in VERSION at the top of the repository: header, wrappers, wheel and package take it from there.

Rattle and Cargo read no file for a number, so it stands once more in each of PLACES, and in kit_c, whose kit_version is proved to
tell it."""
import pathlib
import re

import exports

TOP = pathlib.Path(__file__).resolve().parents[1]
VERSION = (TOP / "VERSION").read_text(encoding="utf-8").strip()
PLACES = {
    "sdk/rust/Cargo.toml": r'^version = "([^"]*)"$',
    "sdk/rust/kotskhin/Cargo.toml": r'^kotskhin-sys = \{ version = "([^"]*)"',
    "crates/otm_kit/src/command_line.rt": r'^const VERSION: &str = "([^"]*)";$',
    "docs/use/SCRIPTS.md": r"^otm ([\d.]+)$",
}


def numbers():
    """Its three numbers."""
    major, minor, patch = map(int, VERSION.split("."))
    return major, minor, patch


def others():
    """What says another version."""
    told = {name: re.findall(pattern, (TOP / name).read_text(encoding="utf-8"), re.M) for name, pattern in PLACES.items()}
    told["crates/kit_c/src/version.rt"] = [".".join(map(str, exports.version()))]
    wrong = {name: found for name, found in told.items() if found != [VERSION]}
    return [f"{name}: {', '.join(found) or 'no version'} is not {VERSION}, as VERSION has it" for name, found in wrong.items()]
