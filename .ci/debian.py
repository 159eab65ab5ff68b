"""Debian's packages for the scripts: installs what a test needs, if it can."""
import functools
import shutil
import subprocess


@functools.cache
def apt(*words):
    """Whether apt succeeds. The time limit is a minute, except for the installation of downloaded packages."""
    bound = [] if "--no-download" in words else ["timeout", "60"]
    return bool(shutil.which("apt-get")) and not subprocess.run([*bound, "apt-get", "-q", "-y", *words], stdin=subprocess.DEVNULL, capture_output=True).returncode


def is_available(packages, is_installed, may_install=True):
    """Whether something is installed, which a function checks, or apt can install it by its packages."""
    install = ["install", "--no-install-recommends", *packages.split(" ")]
    return is_installed() or may_install and apt("update") and apt(*install, "--download-only") and apt(*install, "--no-download") and is_installed()
