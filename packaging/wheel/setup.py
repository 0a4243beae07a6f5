"""The tag of the wheel: what it holds is built for x86-64 Linux with glibc 2.34 or later, and any Python 3 runs it."""
from setuptools import Distribution, setup

try:
    from setuptools.command.bdist_wheel import bdist_wheel
except ImportError:
    from wheel.bdist_wheel import bdist_wheel


class Built(Distribution):
    def has_ext_modules(self):
        return True


class Wheel(bdist_wheel):
    def get_tag(self):
        return "py3", "none", "manylinux_2_34_x86_64"


setup(distclass=Built, cmdclass={"bdist_wheel": Wheel})
