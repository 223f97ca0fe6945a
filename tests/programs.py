"""The programs that a runner is given."""
import os


def found(paths, parser):
    """The whole paths of these programs. A program that can't be run ends the runner, which then has failed: it has no last line."""
    for path in paths:
        if not (os.path.isfile(path) and os.access(path, os.X_OK)):
            parser.error('there is no program %s' % path)
    return [os.path.abspath(path) for path in paths]
