"""The styles and the scripts of the page of a call, by the kind of its vote."""

from debvote_tools.text.rendering import resources

PACKAGE = "debvote_tools.call"

# the styles of a page with a web box
OF_BOX = ["box.css"]


def style_of_form(*names: str) -> str:
    return resources(PACKAGE, "fields.css", "given.css", "ballot.css", *names)


def script_of_form(*names: str) -> str:
    return resources(PACKAGE, "names.js", "fold.js", "ballot.js", *names)


def tellers_script() -> str:
    """The script of a page that seals to tellers: one for all such votes."""
    return script_of_form("bytes.js", "sealing.js", "layers.js", "box.js")
