"""examples/gerrit/follow with another `ssh` in place of the real one. A case takes some tries of `ssh`, with a pause of 0.1 seconds between
two of them."""
import os
import signal
import time
from pathlib import Path

from live.cases import case, same
from live.peers import PROGRAM, awaited

from .shared import GERRIT, SECONDS, asks, faults, has, run, serve, start, waits, write

SSH = """#!/bin/sh
printf '%s\\n' "$*" >>words
lines=$(wc -l <words)
[ "$lines" -le 2 ] || exec sleep 60
sed -n "$((lines * 2 - 1)),$((lines * 2))p" stream
[ "$lines" -ne 1 ] || printf '{"type":"pat'
exit 255
"""


@case
def what_was_followed_and_kept_gives_the_same_report_later():
    write({"bin/ssh": SSH, "stream": (GERRIT / "stream").read_text()})
    os.chmod("bin/ssh", 0o755)
    os.mkfifo("fifo")
    command = f"{GERRIT}/follow -p 29418 ada@host | tee gerrit.log >fifo"
    settings = {"PATH": f"{os.getcwd()}/bin:{os.environ['PATH']}", "PAUSE": "0.1"}
    feed = start("sh", "-c", command, env={**os.environ, **settings}, start_new_session=True)
    try:
        process = serve("gerrit=file:fifo")
        waits("check +[12] ")
        awaited(lambda: Path("words").read_text().count("\n"), lambda count: count >= 3, time.monotonic() + SECONDS)
    finally:
        os.killpg(feed.pid, signal.SIGTERM)
    asks(b"stop", b"ok\n")
    report = process.communicate(timeout=SECONDS)[0].decode()
    same(report.splitlines()[0].split()[:4], ["connection", '"gerrit"', "accepted", "5"])
    later = run(PROGRAM, "serve", GERRIT / "config.json", "none", "gerrit=file:gerrit.log")[1]
    same(later.replace(" ended", " stopped"), report.replace(" ended", " stopped"))
    same(set(Path("words").read_text().splitlines()), {"-n -o BatchMode=yes -o ServerAliveInterval=30 -p 29418 ada@host gerrit stream-events"})


@case
def following_ends_when_nobody_reads():
    write({"bin/ssh": "#!/bin/sh\nexit 255\n"})
    os.chmod("bin/ssh", 0o755)
    path = f"{os.getcwd()}/bin:{os.environ['PATH']}"
    follow = start(GERRIT / "follow", "host", env={**os.environ, "PATH": path, "PAUSE": "0.1"})
    follow.stdout.close()
    same(follow.wait(SECONDS) != 0, True)
    faults(run(GERRIT / "follow"), 2, "there are no words for ssh")
    has(run(GERRIT / "follow", "--help")[1], "usage: follow WORDS..")
