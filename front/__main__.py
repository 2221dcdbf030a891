"""The front door of Himarelou, as `bin/himarelou` starts it. This file stays readable for every Python 3."""
import sys

if sys.version_info < (3, 11):
    sys.stderr.write("himarelou: this is Python {}.{}, and 3.11 or later is wanted\n".format(*sys.version_info[:2]))
    sys.exit(3)

try:
    from himarelou.commands import main

    status = main(sys.argv[1:])
except KeyboardInterrupt:
    status = 130
sys.exit(status)
