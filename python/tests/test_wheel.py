"""The wheel that pip installs."""

import os
import subprocess
import sys
import zipfile

import backend


def test_a_wheel_has_the_package_and_names_the_plugin(tmp_path, examples):
    name = backend.build_wheel(tmp_path)
    assert name == "latchsorrel-1.0-py3-none-any.whl"
    with zipfile.ZipFile(tmp_path / name) as wheel:
        assert wheel.testzip() is None and {"latchsorrel/plugin.py", "latchsorrel/session.py", "latchsorrel/py.typed", "latchsorrel-1.0.dist-info/RECORD"} <= set(wheel.namelist())
        assert wheel.read("latchsorrel-1.0.dist-info/entry_points.txt") == b"[pytest11]\nlatchsorrel = latchsorrel.plugin\n"
    words = [sys.executable, "-c", "import latchsorrel, sys; print(latchsorrel.check(sys.argv[1]).status, latchsorrel.__file__)", os.path.join(examples, "ring.f18")]
    ran = subprocess.run(words, env={**os.environ, "PYTHONPATH": str(tmp_path / name)}, capture_output=True, text=True, check=True)
    assert ran.stdout.split()[0] == "0" and name in ran.stdout
