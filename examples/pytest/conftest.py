"""A host for each test, over an image of its own. It is stopped at the end of the test, and what it did stays on file."""

import pytest

import bfqclient

SECTORS = 2048


@pytest.fixture
def image(tmp_path):
    """The image of the device, all zeros."""
    path = tmp_path / "disk.img"
    path.write_bytes(bytes(SECTORS * bfqclient.SECTOR))
    return path


@pytest.fixture
def options():
    """More words of `bfqhost serve`. A file of tests may have a fixture of this name that gives others."""
    return ["--history", "100000"]


@pytest.fixture
def host(image, options):
    """A host that serves. After a test that failed, `tools/step --record` opens the file beside the image."""
    with bfqclient.serve(image, options=options, record=image.with_name("run.rec")) as host:
        yield host
