"""The text of a page except its data, from the sources of `yhtml`."""
import json
import re

from checks.shared.places import CRATES

SOURCES = CRATES / "yhtml" / "src"


def constant(file, name):
    """A text of the sources."""
    source = (SOURCES / file).read_text()
    raw = re.search(rf'pub const {name}: &str = r##"(.*?)"##;', source, re.S)
    return raw[1] if raw else json.loads(re.search(rf"pub const {name}: &str = (.*);", source)[1])


def style():
    """The style of a page."""
    return constant("style.rt", "STYLE")


def scripts():
    """The script of a page, in its parts."""
    return {it: constant(f"{it}.rt", it.upper()) for it in ("script", "shown", "trees", "moves")}


def before():
    """What stands in front of the data."""
    front, body = constant("frame.rt", "FRONT"), constant("frame.rt", "BODY")
    return front + style() + "".join(scripts().values()) + body


def after():
    """What stands after the data."""
    return constant("frame.rt", "END")
