"""Paths that hold in each folder, and what is named by an instance."""
import os

from . import places


def here():
    """The folder that this was called in, as the shell names it; None where it is gone."""
    named = os.environ.get("PWD", "")
    try:
        if named.startswith("/") and os.path.samefile(named, "."):
            return named
        return os.getcwd()
    except OSError:
        return None


def absolute(path):
    """A path that holds in each folder."""
    folder = None if path.startswith("/") else here()
    return path if folder is None else f"{folder}/{path}"


def configuration_of(instance):
    """The configuration of a service, by the name of its instance."""
    return f"{places.CONFIGURATIONS}/{instance or 'rad_proxy'}.toml"


def spool_of(instance):
    """The folder of the spool of a service, as the package has it."""
    return f"{places.SPOOL}/rad_proxy-{instance}" if instance else f"{places.SPOOL}/rad_proxy"
