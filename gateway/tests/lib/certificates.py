"""Certificates for tests, as the program makes them, and what Python's ssl is told of them."""

import os
import ssl
import subprocess
from dataclasses import dataclass
from pathlib import Path

from started import gateway_program


def make(*words: str, **variables: str) -> subprocess.CompletedProcess:
    """hobbychair cluster certificates, with what is said in variables of the environment."""
    return subprocess.run([gateway_program(), "cluster", "certificates", *words], env={**os.environ, **variables}, capture_output=True,
                          text=True, timeout=30)


class Certificates:
    """An authority, and certificates that it has signed for a cluster."""

    def __init__(self, folder: Path, cluster: str, **variables: str) -> None:
        """`variables` are those of the environment in which they are made."""
        self.folder, self.cluster, self.variables = folder, cluster, variables
        self.make()

    def make(self, *words: str) -> None:
        made = make("--cluster", self.cluster, "--folder", str(self.folder), *words, **self.variables)
        assert made.returncode == 0, made.stderr

    def has(self, role: str, name: str, address: str = "127.0.0.1") -> str:
        """Makes a certificate of that name, if there is none, and tells the name."""
        if not self.file(f"{name}.pem").exists():
            self.make("--role", role, "--name", name, "--address", address)
        return name

    def file(self, name: str) -> Path:
        return self.folder / name

    def words(self, name: str) -> list[str]:
        """What a process is told that shows this certificate."""
        return ["--certificate", str(self.file(f"{name}.pem")), "--key", str(self.file(f"{name}.key")),
                "--authority", str(self.file("authority.pem"))]

    def words_of_etcd(self, address: str = "127.0.0.1") -> list[str]:
        """What a member is told that is found there."""
        name = self.has("etcd", f"etcd-{address}", address)
        return ["--cert-file", str(self.file(f"{name}.pem")), "--key-file", str(self.file(f"{name}.key")),
                "--trusted-ca-file", str(self.file("authority.pem")), "--client-cert-auth"]

    def client(self, name: str | None) -> ssl.SSLContext:
        """One who shows this certificate, or none, and looks at that of the server by the name that it asks for."""
        context = ssl.create_default_context(cafile=str(self.file("authority.pem")))
        if name is not None:
            context.load_cert_chain(self.file(f"{name}.pem"), self.file(f"{name}.key"))
        return context

    def server(self, name: str) -> ssl.SSLContext:
        """One who shows this certificate, and asks for none."""
        context = ssl.SSLContext(ssl.PROTOCOL_TLS_SERVER)
        context.load_cert_chain(self.file(f"{name}.pem"), self.file(f"{name}.key"))
        return context

    def name_of(self, role: str) -> str:
        """By which name a server of that role is known."""
        return f"{role}.{self.cluster}.hobbychair.internal"

    def make_by_dates(self, role: str, name: str, begins: str, ends: str) -> None:
        """A certificate of the same authority that is good between two moments, which the program doesn't make."""
        room = self.folder / f"{name}.room"
        room.mkdir()
        (room / "index").touch()
        (room / "settings").write_text(
            "[ca]\ndefault_ca = here\n[here]\ndatabase = index\nnew_certs_dir = .\ndefault_md = sha256\npolicy = names\n"
            "serial = serial\nrand_serial = yes\nunique_subject = no\n[names]\ncommonName = supplied\n"
            "[req]\nprompt = no\ndistinguished_name = subject\n[subject]\nCN = expired\n"
            f"[extensions]\nbasicConstraints = critical,CA:FALSE\nsubjectAltName = DNS:{self.name_of(role)}\n")
        for words in [
            ["req", "-new", "-config", "settings", "-newkey", "ec", "-pkeyopt", "ec_paramgen_curve:P-256", "-nodes",
             "-keyout", f"../{name}.key", "-out", "request"],
            ["ca", "-batch", "-notext", "-config", "settings", "-keyfile", "../authority.key", "-cert", "../authority.pem",
             "-startdate", begins, "-enddate", ends, "-extensions", "extensions", "-in", "request", "-out", f"../{name}.pem"],
        ]:
            subprocess.run(["openssl", *words], cwd=room, check=True, capture_output=True, env={"PATH": os.environ["PATH"]})


@dataclass
class Chain:
    """A certificate with its key, and those that come with it, of no authority that anybody believes."""

    certificates: Path
    key: Path

    def client(self, authority: Path) -> ssl.SSLContext:
        """One who shows it, and believes that authority."""
        context = ssl.create_default_context(cafile=str(authority))
        context.load_cert_chain(self.certificates, self.key)
        return context

    def server(self) -> ssl.SSLContext:
        context = ssl.SSLContext(ssl.PROTOCOL_TLS_SERVER)
        context.load_cert_chain(self.certificates, self.key)
        return context


def self_signed(folder: Path, name: str, subject: str, *extensions: str) -> str:
    """Makes a certificate and its key in the folder, which nobody else has signed, and tells its text."""
    words = [f"[req]\nprompt = no\ndistinguished_name = subject\nx509_extensions = extensions\n[subject]\n{subject}\n[extensions]\n"]
    (folder / f"{name}.settings").write_text("\n".join([*words, *extensions, ""]))
    subprocess.run(["openssl", "req", "-x509", "-config", f"{name}.settings", "-newkey", "ed25519", "-nodes", "-days", "2",
                    "-keyout", f"{name}.key", "-out", f"{name}.pem"], cwd=folder, check=True, capture_output=True)
    return (folder / f"{name}.pem").read_text()


def der(tag: int, content: bytes) -> bytes:
    """One value of DER."""
    length = len(content)
    digits = length.to_bytes((length.bit_length() + 7) // 8, "big")
    return bytes([tag, *([length] if length < 0x80 else [0x80 | len(digits), *digits])]) + content


def chain_of_one_name(folder: Path, others: int) -> Chain:
    """So many others come with it. All have one name, and each has a key of its own: so by their names each may have signed any
    other, and there are as many ways over them as they have orders."""
    folder.mkdir(exist_ok=True)
    own = self_signed(folder, "own", "CN = a", "basicConstraints = critical,CA:FALSE")
    authority = "basicConstraints = critical,CA:TRUE"
    shown = [own, *(self_signed(folder, f"other{number}", "CN = a", authority) for number in range(others))]
    (folder / "chain.pem").write_text("".join(shown))
    return Chain(folder / "chain.pem", folder / "own.key")


def chain_of_many_names(folder: Path, names: int, constraints: int) -> Chain:
    """A certificate of so many names that comes with two others, each of which excludes so many: whoever looks for a way over them
    compares each name with each of these, and that on each way."""
    folder.mkdir(exist_ok=True)
    alternative = der(0x30, b"".join(der(0x82, b"a") for _ in range(names)))
    # One sequence more than the standard has it: so webpki 0.22.0 reads it.
    excluded = der(0x30, der(0xa1, der(0x30, b"".join(der(0x30, der(0x82, b"b")) for _ in range(constraints)))))
    own = self_signed(folder, "own", "CN = a", f"subjectAltName = DER:{alternative.hex()}")
    authority = ["basicConstraints = critical,CA:TRUE", f"2.5.29.30 = critical,DER:{excluded.hex()}"]
    others = [self_signed(folder, f"other{number}", "CN = a", *authority) for number in range(2)]
    (folder / "chain.pem").write_text("".join([own, *others]))
    return Chain(folder / "chain.pem", folder / "own.key")
