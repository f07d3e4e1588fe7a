"""TLS of the ingress: a certificate, which is read again when its files change."""

from __future__ import annotations

import logging
import os
import ssl

log = logging.getLogger("palqytun")


class BadCertificate(ValueError):
    """The files are no certificate with its private key, and why."""


def _no_password() -> str:
    raise ValueError("the key is encrypted, and has to be in clear")


class Certificate:
    """A server's certificate with those above it, and its private key: two files in the form PEM. Clients speak TLS 1.2 or newer. Raises
    `BadCertificate`."""

    def __init__(self, chain: str, key: str):
        self._chain, self._key = chain, key
        self._stamp = self._stamped()
        self.context = ssl.SSLContext(ssl.PROTOCOL_TLS_SERVER)
        self.context.minimum_version = ssl.TLSVersion.TLSv1_2
        self._read()

    def _stamped(self) -> str:
        """What changes with the files."""
        try:
            return str([(it.st_mtime_ns, it.st_size) for it in map(os.stat, (self._chain, self._key))])
        except OSError as error:
            return str(error)

    def _read(self) -> None:
        """Takes the certificate of the files."""
        try:
            ssl.SSLContext(ssl.PROTOCOL_TLS_SERVER).load_cert_chain(self._chain, self._key, _no_password)  # a chain without its key changes nothing
            self.context.load_cert_chain(self._chain, self._key, _no_password)
        except (OSError, ValueError) as error:
            raise BadCertificate(f"the certificate {self._chain} with the key {self._key} can't be used: {error}") from error

    def renew(self) -> None:
        """Clients that connect from now on get the certificate of the files, if these have changed. If they can't be used any more, the log says so once,
        and the certificate stays."""
        stamp = self._stamped()
        if stamp == self._stamp:
            return
        self._stamp = stamp
        try:
            self._read()
        except BadCertificate as error:
            log.error("the certificate stays as it was: %s", error)
