"""Prints all that a certificate has, a line for each thing."""
import pathlib
import sys

import x509_cert as x509

certificate = x509.load_der_x509_certificate(pathlib.Path(sys.argv[1]).read_bytes())
print(certificate.to_text(), end="")
