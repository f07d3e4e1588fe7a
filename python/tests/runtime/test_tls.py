"""TLS of the ingress: what is spoken, a certificate that is renewed, and files that are none."""

import asyncio
import functools
import http.client
import json
import socket
import ssl
import subprocess
import unittest
import warnings

import support  # isort: skip
import needs

if lacks := needs.lacks_server() or needs.lacks_command("openssl"):
    raise unittest.SkipTest(lacks)
import runtime_app

from palqytun.runtime.serving import Settings
from palqytun.runtime.tls import BadCertificate, Certificate
from served import Served
from spoken import palqytun


def write(folder, name):
    """A certificate for localhost in `chain.pem`, with this organization, and its key in `key.pem`."""
    to = ["-keyout", str(folder / "key.pem"), "-out", str(folder / "chain.pem")]
    about = ["-subj", f"/CN=localhost/O={name}", "-addext", "subjectAltName=DNS:localhost"]
    words = ["openssl", "req", "-x509", "-newkey", "ec", "-pkeyopt", "ec_paramgen_curve:P-256", "-nodes", "-days", "2", *about, *to]
    subprocess.run(words, check=True, capture_output=True, timeout=support.LONG)


class Tls(support.InAFolder, unittest.TestCase):
    def setUp(self):
        super().setUp()
        self.url = str(self.folder / "db")
        self.files = [str(self.folder / it) for it in ("chain.pem", "key.pem")]
        write(self.folder, "first")

    def asked(self, port, context):
        """The reply of a handler, and the organization of the certificate."""
        connection = http.client.HTTPSConnection("localhost", port, timeout=support.LONG, context=context)
        try:
            connection.request("POST", "/S/echo", b'"x"')
            subject = dict(pair for [pair] in connection.sock.getpeercert()["subject"])
            return json.load(connection.getresponse()), subject["organizationName"]
        finally:
            connection.close()

    def trusting(self):
        return ssl.create_default_context(cafile=self.files[0])

    def served(self, test):
        async def go():
            async with Served(runtime_app.app, self.url, Settings(), certificate=Certificate(*self.files)) as served:
                self.assertTrue(served.address.startswith("https://127.0.0.1:"), served.address)
                await test(served, functools.partial(asyncio.to_thread, self.asked, served.port))

        asyncio.run(asyncio.wait_for(go(), support.LONG))

    def test_what_is_spoken(self):
        async def test(served, asked):
            self.assertEqual(await asked(self.trusting()), ("x", "first"))
            with self.assertRaises(ssl.SSLCertVerificationError):
                await asked(ssl.create_default_context())
            old = self.trusting()
            with warnings.catch_warnings(action="ignore", category=DeprecationWarning):
                old.minimum_version, old.maximum_version = ssl.TLSVersion.TLSv1_1, ssl.TLSVersion.TLSv1_1
            with self.assertRaises(ssl.SSLError):
                await asked(old)
            with self.assertRaises((ConnectionError, http.client.HTTPException)):
                await served.ask("/S/echo", "x")  # in clear
            self.assertEqual(await asked(self.trusting()), ("x", "first"))  # none of these has hurt it

        self.served(test)

    def test_a_certificate_that_is_renewed(self):
        async def test(served, asked):
            first = self.trusting()
            self.assertEqual(await asked(first), ("x", "first"))
            with self.assertLogs("palqytun", "ERROR") as logged:
                (self.folder / "key.pem").write_text("no key")
                self.assertEqual((await asked(first))[1], "first")
                self.assertEqual((await asked(first))[1], "first")
            self.assertEqual(len(logged.output), 1)
            self.assertRegex(logged.output[0], "the certificate stays as it was: the certificate .* can't be used: ")
            write(self.folder, "second")
            with self.assertRaises(ssl.SSLCertVerificationError):  # this connection tells the worker, or one before has
                for _ in range(2):
                    await asked(first)
            self.assertEqual(await asked(self.trusting()), ("x", "second"))

        self.served(test)

    def test_what_is_refused(self):
        missing = str(self.folder / "none.pem")
        subprocess.run(["openssl", "ec", "-in", self.files[1], "-aes256", "-passout", "pass:x", "-out", missing + "x"], check=True, capture_output=True)
        for key, said in ((missing, "No such file"), (self.files[0], "can't be used"), (missing + "x", "the key is encrypted, and has to be in clear")):
            with self.subTest(key), self.assertRaisesRegex(BadCertificate, said):
                Certificate(self.files[0], key)
        app = f"{runtime_app.__file__}:app"
        status, _, said = palqytun("run", app, "--db", self.url, "--tls-certificate", self.files[0])
        both = "palqytun: --tls-certificate and --tls-key belong together: a certificate in the form PEM, and its private key"
        self.assertEqual((status, said.splitlines()[-1]), (2, both))
        status, _, said = palqytun("run", app, "--db", self.url, "--port", "0", "--tls-certificate", self.files[0], "--tls-key", missing)
        self.assertEqual(status, 2)
        self.assertRegex(said.splitlines()[-1], r"^palqytun: the certificate .*chain.pem with the key .*none.pem can't be used: \[Errno 2\] No such file or directory")


if __name__ == "__main__":
    unittest.main()
