"""Certificates that openssl makes for one run, and stunnel with a file that docs/RUN.md shows."""
import os
import shutil
import subprocess
from pathlib import Path

ROOT = Path(__file__).resolve().parents[2]
BEFORE_HUB, BESIDE_NODE = ROOT / "interop/tls/stunnel.conf", ROOT / "interop/tls/node.conf"


def stunnel():
    path = f"{os.environ.get('PATH', '')}:/usr/sbin"
    return shutil.which("stunnel4", path=path) or shutil.which("stunnel", path=path)


def lacks_tls():
    """What lacks for TLS, or None."""
    if not shutil.which("openssl"):
        return "openssl is not installed"
    return None if stunnel() else "stunnel is not installed"


class Certificates:
    """Those in a folder: NAME.crt, with NAME.key. `fail` is raised with what openssl said."""

    def __init__(self, folder, fail):
        self.folder, self.fail = folder, fail

    def openssl(self, *words):
        done = subprocess.run(["openssl", *map(str, words)], capture_output=True, text=True, cwd=self.folder)
        if done.returncode:
            raise self.fail(f"openssl made no certificates: {done.stderr}")

    def make_ca(self, name):
        self.openssl("req", "-x509", "-newkey", "ec", "-pkeyopt", "ec_paramgen_curve:P-256", "-nodes", "-days", 2, "-subj", f"/CN={name}",
                     "-keyout", f"{name}.key", "-out", f"{name}.crt")

    def make(self, name, names, ca="ca"):
        """A certificate of a CA, for these names."""
        (self.folder / f"{name}.names").write_text(f"subjectAltName={names}")
        self.openssl("req", "-new", "-newkey", "ec", "-pkeyopt", "ec_paramgen_curve:P-256", "-nodes", "-subj", f"/CN={name}",
                     "-keyout", f"{name}.key", "-out", f"{name}.csr")
        self.openssl("x509", "-req", "-in", f"{name}.csr", "-CA", f"{ca}.crt", "-CAkey", f"{ca}.key", "-CAcreateserial", "-days", 2,
                     "-extfile", f"{name}.names", "-out", f"{name}.crt")
