"""A second head is given up for its gateway a minute behind the first one at the soonest, whoever is master."""

import time

from cluster_serving import end_gateway, ending, never_begins, unserved
from waiting import holds, until


def test_a_candidate_that_began_just_now_waits_no_shorter_than_others(tmp_path):
    """The log has a head that was given up for its gateway: whoever reads it doesn't know when that was."""
    with ending(tmp_path, size=5) as one:
        one.served.queue("q")
        until(lambda: all(one.ready().values()), 40, "not all stand ready")
        never_begins(one.cluster, 1)
        end_gateway(one.cluster, 1)
        until(lambda: one.cluster.chain()["members"][0] == 2, 60, "it isn't given up")
        lost = time.monotonic()
        until(one.sends(), 40, "nobody is answered")
        # Both candidates are others from now on.
        for place, master in enumerate(one.cluster.masters):
            master.kill()
            master.wait()
            one.cluster.start_master(place)
        never_begins(one.cluster, 2)
        end_gateway(one.cluster, 2)
        holds(lambda: one.cluster.chain()["members"][0] == 2, lost + 60 - time.monotonic(), "the second one goes too soon", 0.5)
        until(lambda: one.cluster.chain()["members"][0] == 3, 90, "the second one isn't given up")
        until(one.sends(), 40, "nobody is answered")
        assert unserved(one.cluster) == one.cluster.detected() == [1, 2]
