"""Packs the package for `pip install`, with nothing but Python's own library, so that it needs no network and no setuptools."""
import base64
import hashlib
import os
import zipfile

NAME, VERSION = "maroonclamp", "0.1.0"
HERE = os.path.dirname(os.path.abspath(__file__))
METADATA = f"""Metadata-Version: 2.1
Name: {NAME}
Version: {VERSION}
Summary: Stores of the workflow engine Maroonclamp, read in Python, as a page, and for exchange
License: MIT
Requires-Python: >=3.9
"""
WHEEL = "Wheel-Version: 1.0\nGenerator: wheel_of\nRoot-Is-Purelib: true\nTag: py3-none-any\n"


def build_wheel(wheel_directory, config_settings=None, metadata_directory=None):
    """Writes the wheel, and answers its name: the call that pip makes."""
    files = {f"{NAME}-{VERSION}.dist-info/METADATA": METADATA.encode(), f"{NAME}-{VERSION}.dist-info/WHEEL": WHEEL.encode()}
    for name in sorted(os.listdir(os.path.join(HERE, NAME))):
        if name.endswith((".py", ".html")):
            with open(os.path.join(HERE, NAME, name), "rb") as file:
                files[f"{NAME}/{name}"] = file.read()
    record, lines = f"{NAME}-{VERSION}.dist-info/RECORD", []
    for name, data in files.items():
        sum_ = base64.urlsafe_b64encode(hashlib.sha256(data).digest()).rstrip(b"=").decode()
        lines.append(f"{name},sha256={sum_},{len(data)}\n")
    files[record] = "".join([*lines, f"{record},,\n"]).encode()
    wheel = f"{NAME}-{VERSION}-py3-none-any.whl"
    with zipfile.ZipFile(os.path.join(wheel_directory, wheel), "w", zipfile.ZIP_DEFLATED) as packed:
        for name, data in files.items():
            packed.writestr(name, data)
    return wheel
