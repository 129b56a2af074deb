"""For pytest: a test that takes `cluster` gets one of its own, of three masters with a replica each."""

import pytest

from rcluster import Cluster


@pytest.fixture
def cluster():
    with Cluster(replicas=1) as served:
        yield served
