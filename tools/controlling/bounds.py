"""How long, how much and how many at most; and the statuses, within and of the whole."""

# How long the lock is waited for, how long the answer is, how long all of it may take, and how long its pipe is read.
LOCK_SECONDS = 10
ANSWER_SECONDS = 5
ALL_SECONDS = 20
READ_SECONDS = 30

# The most octets of an answer, the most lines, the most octets of a line, and the most home servers.
MOST_OCTETS = 4_194_304
MOST_LINES = 50_000
LONGEST_LINE = 1000
MOST_LANES = 64

# How long counters that are written anew are waited for.
COUNTER_SECONDS = 4

# How the processes within end.
NO_SERVICE = 69
HAS_ENDED = 70
IS_BUSY = 75
NO_COUNTERS = 76
OLD_COUNTERS = 77
NO_ANSWER = 79
WAS_READ = 80
NO_PROXY = 81
IS_TRACED = 82

# How the whole ends: where it was called wrong; where it fails. 1 of `probe` says that nothing answers. How `restart` ends where the
# configuration is wrong, where something was left when the time was over, and where it refuses. How `check --strict` ends at a warning.
MISUSED = 1
PROBE_MISUSED = 2
MISCONFIGURED = 2
LEFT_OVER = 3
DOUBTFUL = 3
FAILED = 4
REFUSED = 5

# How long an answer to a probe is waited for; how long a drained lane is, how long the rate is looked at, and how long a new proxy is.
PROBE_SECONDS = 3
DRAIN_SECONDS = 10
RATE_SECONDS = 10
START_SECONDS = 30

# How long something is traced, how long what prints the log may take to begin, and how long the log is read on after that: the proxy
# looks for the file once a second.
TRACE_SECONDS = 60
FOLLOW_SECONDS = 0.3
LAST_SECONDS = 2

# How much longer than it is meant to a file stands at most whose maker is suspended.
GRACE_SECONDS = 60
