"""What the programs and their tests need: the Rattle kit, and packages of Debian, which it installs if it can, or says what to type."""

import importlib.util
import os
import shutil
import subprocess
import sys

# what cannot be left out: the modules of /usr/bin/python3 and the programs, by their packages
MODULES = {
    "python3-jinja2": "jinja2",
    "python3-babel": "babel",
    "python3-pytest": "pytest",
    "python3-pytest-xdist": "xdist",
}
PROGRAMS = {"gpgv": "gpgv", "gpg": "gpg"}
# a web host behind a firewall, which `tests/all` needs, too
FIREWALL = {
    "php-cli": "/usr/bin/php",
    "apache2": "/usr/sbin/apache2",
    "libapache2-mod-security2": "/usr/lib/apache2/modules/mod_security2.so",
    "modsecurity-crs": "/usr/share/modsecurity-crs/owasp-crs.load",
}


def demand_kit():
    """Ends the program if the kit is missing."""
    if shutil.which("rt") is None:
        sys.exit("rt is not in PATH: it belongs to the Rattle kit, which README names")


def missing(programs=PROGRAMS):
    """The packages that are not installed."""
    modules = [
        package for package, module in MODULES.items() if importlib.util.find_spec(module) is None
    ]
    return modules + [
        package
        for package, program in programs.items()
        if not (shutil.which(program) or os.path.exists(program))
    ]


def demand(programs=PROGRAMS):
    """Installs what is missing, before anything is built; if it may not, it says what to type."""
    packages = missing(programs)
    if not packages:
        return
    install = ["apt-get", "install", "-y", *packages]
    if os.geteuid() == 0 and shutil.which("apt-get"):
        print(f"installing {', '.join(packages)}", flush=True)
        environment = {**os.environ, "DEBIAN_FRONTEND": "noninteractive"}
        if any(
            subprocess.run(words, env=environment).returncode
            for words in (["apt-get", "update"], install)
        ):
            sys.exit(f"{', '.join(packages)} could not be installed")
        return
    sys.exit(f"type this first: sudo {' '.join(install)}")
