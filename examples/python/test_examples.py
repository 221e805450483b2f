"""Runs the examples and compares their output."""

import os
import subprocess
import sys
import unittest

HERE = os.path.dirname(os.path.abspath(__file__))

PRINTED = {
    "first.py": "1 ann\n",
    "build.py": "2 photo.jpg\n",
    "counter.py": "200 100 100\n",
    "newest.py": """\
20 letters, Letter 98 to Letter 60, and more
20 letters, Letter 58 to Letter 20, and more
20 letters, Letter 100 to Letter 62, and more
""",
    "jobs.py": "200 200\n",
    "follow.py": """\
unread: came [] went []
1 by 0: MakeIndex(name='MAIL:status', kind=bestore.STRING)
2 by 0: NewNode(node=1) NewNode(node=2)
unread: came [1, 2] went []
3 by 0: SetAttribute(node=1, name='MAIL:status', value='New', kind=bestore.STRING) \
SetAttribute(node=2, name='MAIL:status', value='New', kind=bestore.STRING)
unread: came [] went [1]
""",
}


class Examples(unittest.TestCase):
    def test_what_they_print(self) -> None:
        for name, printed in PRINTED.items():
            words = [sys.executable, "-W", "error", os.path.join(HERE, name)]
            run = subprocess.run(words, stdout=subprocess.PIPE, timeout=60, check=True)
            self.assertEqual(run.stdout.decode(), printed)


if __name__ == "__main__":
    unittest.main()
