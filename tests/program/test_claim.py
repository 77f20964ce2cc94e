"""Which libraries the crates stand on, and what they use of descriptors: by these a call could write without a bound."""

import re

from tests.support.program import ROOT

# the kit's libraries that reach the system only by a bound, as std does; its libc and os reach it by the number of a descriptor
LIBRARIES = set("atomic_table clap indexmap itoa memchr strsim thiserror toml".split())

# what is said of std::os, and which types have the number of a descriptor
OF_DESCRIPTORS = {
    "debvote/src/lent.rt": ["os::fd::AsRawFd;"],
    "vote_files/src/standard.rt": ["os::fd::{AsRawFd, RawFd};", "AsRawFd for WriterSink<W> {"],
}


def test_crates_stand_on_these_libraries_alone():
    lines = (ROOT / "crates.txt").read_text().splitlines()
    rows = [line.partition(":") for line in lines if line and not line.startswith("#")]
    named = {name for _, _, names in rows for name in names.split()}
    assert named - {crate.split()[0] for crate, _, _ in rows} == LIBRARIES


def test_descriptors_are_used_in_two_files():
    found = {}
    for file in (ROOT / "crates").glob("*/src/**/*.rt"):
        code = re.sub(r"(?m)^\s*//.*", "", file.read_text())
        if said := re.findall(r"\bos\b.*|\w*Fd\s+for\b.*", code):
            found[str(file.relative_to(ROOT / "crates"))] = said
    assert found == OF_DESCRIPTORS
