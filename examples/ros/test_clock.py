"""The node's timers where simulated time begins anew, without roscore."""

import threading
import time
import unittest
from unittest import mock

import octofix
import octofix_server
import rospy
from rospy import rostime

LONGEST = 30


class Clock(unittest.TestCase):
    def setUp(self):
        rostime.set_rostime_initialized(True)
        self.addCleanup(rostime.switch_to_wallclock)
        stand_ins = {name: mock.DEFAULT for name in ("Service", "Publisher", "Subscriber")}
        patches = (
            mock.patch.multiple(rospy, get_param=lambda _, otherwise: otherwise, **stand_ins),
            mock.patch.multiple(octofix_server, Frames=mock.DEFAULT),
            mock.patch.object(octofix_server.Server, "publish"),
        )
        for it in patches:
            it.start()
            self.addCleanup(it.stop)

    def goes_on(self, calls, start):
        """Whether each of these is called while time goes on from a second."""
        for it in calls:
            it.clear()
        end, now = time.monotonic() + LONGEST, start
        while not all(it.is_set() for it in calls) and time.monotonic() < end:
            rostime._set_rostime(rospy.Time.from_sec(now))
            time.sleep(0.002)
            now += 0.01
        return all(it.is_set() for it in calls)

    def test_time_that_begins_anew(self):
        rostime._set_rostime(rospy.Time(1000))
        timers = []
        start = threading.Thread.start
        with octofix.Map(0.1) as world, mock.patch.object(
            rospy.Timer, "start", lambda it: (timers.append(it), start(it))
        ):  # fmt: skip
            server = octofix_server.Server(world)
            published, worked = threading.Event(), threading.Event()
            server.publish.side_effect = lambda _: published.set()
            server.mapper.work = worked.set
            for it in timers:
                self.addCleanup(it.shutdown)
            self.assertTrue(self.goes_on([published, worked], 1000))
            self.assertTrue(self.goes_on([published, worked], 5))


if __name__ == "__main__":
    unittest.main()
