"""A pod failure policy, tested before it meets a cluster: exit code 42 is a bug and fails the Job at once, a drained node costs
nothing, and any other failure is tried again.

    python3 -m unittest examples/test_a_policy.py        also: pytest examples/test_a_policy.py

It needs the program: the environment's JOBCTL, or what ./jobctl builds. tools/cluster.py says what a test can do.
"""
import os
import sys
import unittest

sys.path.insert(0, os.path.join(os.path.dirname(os.path.abspath(__file__)), "..", "tools"))
from cluster import Cluster

POLICY = {
    "rules": [
        {"action": "Ignore", "onPodConditions": [{"type": "DisruptionTarget"}]},
        {"action": "FailJob", "onExitCodes": {"containerName": "main", "operator": "In", "values": [42]}},
    ]
}


def training():
    """Returns a cluster with a Job of two pods, which are there and have not ended."""
    return Cluster().job("train", completions=2, parallelism=2, backoffLimit=1, podFailurePolicy=POLICY).sync()


class APolicy(unittest.TestCase):
    def test_a_bug_fails_the_job_at_once(self):
        cluster = training()
        cluster.finish(cluster.pods("train")[0], 42).settle()
        self.assertEqual(cluster.ending("train"), ("Failed", "PodFailurePolicy"))
        self.assertEqual(cluster.open_pods("train"), [])

    def test_a_drained_node_costs_nothing(self):
        cluster = training()
        cluster.disrupt(cluster.pods("train")[0]).ends("train", 0).settle()
        self.assertEqual(cluster.ending("train"), ("Complete", "CompletionsReached"))
        self.assertNotIn("failed", cluster.status("train"))

    def test_another_failure_is_tried_again_after_a_while(self):
        cluster = training()
        cluster.finish(2, 1).sync()
        self.assertEqual([pod.uid for pod in cluster.open_pods("train")], [3])
        cluster.clock(10).sync()
        self.assertEqual(len(cluster.open_pods("train")), 2)

    def test_no_pod_counts_twice_where_the_answer_is_lost(self):
        cluster = training().ends("train", 0)
        cluster.finish(2, 1).fault("lose").sync().restart().settle()
        self.assertEqual(cluster.status("train")["failed"], 1)


if __name__ == "__main__":
    unittest.main()
