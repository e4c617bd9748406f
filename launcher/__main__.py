"""Starts the launcher: taskenv's path, and then the words. Whatever fails in it is status 125 or 130, and never a verdict."""
import os
import sys


def fail(why):
    """Says in one line why nothing was run, and ends."""
    try:
        os.write(2, ("taskenv: " + " ".join(why.split()) + "\n").encode("utf-8", "backslashreplace"))
    finally:
        os._exit(125)


# Older ones are told so in words that they understand.
if sys.version_info < (3, 8):
    fail("python3 is version %d.%d; put one on the path that is 3.8 or later" % sys.version_info[:2])
try:
    import flow

    status = flow.main(sys.argv[1], sys.argv[2:], os.path.dirname(os.path.dirname(os.path.realpath(__file__))))
except KeyboardInterrupt:
    status = 130
except BaseException as error:
    fail("the launcher itself failed, and the program said nothing: %s: %s" % (type(error).__name__, error))
# All was written at once, so nothing is left to be flushed.
os._exit(status)
