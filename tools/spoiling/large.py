"""Large inputs: nesting, long texts and numbers, patterns of parentheses, many members. Each is a run of its own, which reads a few MB."""
import re

from .configurations import is_printed
from .inputs import CONFIG, EVENT, PROJECT, document
from .records import MAX_LINE, records_in_scripts, records_in_streams
from .scripts import PLAYED


def event_with(member):
    return b'{"type":"patchset-created","change":{"project":"%s"},%s}' % (PROJECT.encode(), member)


def large_records():
    for depth in (98, 99, 100, 125, 126, 127, 128, 999, 99_999):
        yield event_with(b'"x":' + b"[" * depth + b"]" * depth)
        yield event_with(b'"x":' + b'{"a":' * depth + b"1" + b"}" * depth)
        yield event_with(b'"x":' + b"[" * depth)
        yield event_with(b'"x":' + b"]" * depth)
    escapes = [b"\\u0041" * 170_000, b"\\\\" * 500_000, b'\\"' * 500_000, b"\\ud83d\\ude00" * 80_000]
    for text in (b"x" * 1_000_000, "é".encode() * 500_000, *escapes):
        yield event_with(b'"comment":"%s"' % text)
        yield event_with(b'"comment":"%s' % text)
    digits = b"9" * 100_000
    long = [b"9" * 300, b"9" * 400, digits, b"-" + digits, b"0." + digits, b"1e" + digits, b"1e-" + digits]
    for text in (b"1e400", b"-1e400", b"1e-400", b"1e308", *long):
        yield event_with(b'"x":%s' % text)
        yield event_with(b'"change":{"project":"p","number":%s}' % text)
    yield event_with(b'"patchSet":{"number":"%s"}' % digits)
    yield event_with(b",".join(b'"key%d":%d' % (n, n) for n in range(50_000)))
    yield event_with(b",".join(b'"type":"other"' for _ in range(50_000)))
    yield event_with(b",".join(b'"type":"patchset-created"' for _ in range(30_000)))
    yield event_with(b'"approvals":[%s]' % b",".join(b'{"type":"Code-Review","value":"1"}' for _ in range(20_000)))
    yield event_with(b'"change":%s' % b",".join(b'{"project":"p"},"change":1' for _ in range(20_000)))
    yield b"\0" * 1_000_000
    yield b"\xef\xbb\xbf" + EVENT
    yield b" " * 1_000_000 + EVENT


def large_configurations():
    """Configurations, each with its fault, which is empty where there is none. Some have two, of which either may come: only the crate
    `regex` knows which patterns it refuses."""
    place = b"config.main[0].pipeline.trigger.gerrit[0]"
    for depth in (99, 126, 127, 999, 99_999):
        nested = b'{"x":' + b"[" * depth + b"]" * depth + b"," + CONFIG[1:]
        yield nested, [b"not-json" if depth > 126 else b""]
        yield b"[" * depth, [b"not-json"]
    for pattern in ("(" * 100_000, ")" * 100_000, "[" * 100_000, "(" * 50_000 + ")" * 50_000, "a{1000}{1000}{1000}", "*", "\\"):
        yield document([{"event": pattern}]), [b"pattern " + place + b".event"]
        yield document([{"event": ["x", pattern]}]), [b"pattern " + place + b".event[1]"]
    for pattern in ("()" * 50_000, "a|" * 50_000, "a" * 100_000, "[a-z]" * 20_000, ".*" * 20_000):
        yield document([{"event": pattern}]), [b"", b"pattern " + place + b".event"]
    yield document([{"event": {"regex": "(" * 100_000, "negate": True}}]), [b"pattern " + place + b".event.regex"]
    yield document([{"event": {"regex": "x"} | {f"key{n}": n for n in range(50_000)}}]), [b"shape " + place + b".event.key0"]
    yield document([{"event": [{"regex": "x", "negate": True}] * 50_000}]), [b"limit " + place + b".event"]
    yield document([{"event": "x", "a" * 1_000_000: 1}]), [b"attribute " + place + b"." + b"a" * 1_000_000]
    yield document([{"event": "x"}], {f"key{n}": n for n in range(50_000)}), [b""]
    yield document([{"event": "x"} | {f"key{n}": n for n in range(50_000)}]), [b"attribute " + place + b".key0"]
    yield b'{' + b'"tenants":3,' * 50_000 + CONFIG[1:], [b""]
    yield CONFIG[:-1] + b',"tenants":3' * 50_000 + b"}", [b"shape tenants"]
    yield document([{"event": "x"}] * 65), [b"limit config.main[0].pipeline.trigger.gerrit"]
    yield document([{"event": "x"}] * 50_000), [b"limit config.main[0].pipeline.trigger.gerrit"]
    yield document([{"event": ["x"] * 50_000}]), [b"limit " + place + b".event"]
    yield document([{"event": "x", "approval": {f"c{n}": "no" for n in range(50_000)}}]), [b"shape " + place + b".approval"]
    yield document([{"event": "x"}], {"tenants": [{"name": f"t{n}"} for n in range(50_000)]}), [b"limit tenants"]
    yield document([{"event": "x"}], {"tenants": [{} for n in range(50_000)]}), [b""]
    yield document([{"event": "x"}], {"x": 0}).replace(b'"x": 0', b'"x": 1' + b"0" * 100_000), [b"not-json"]
    empty = [b"", b"\0" * 1_000_000, b"\n" * 1_000_000]
    for text in (*empty, b"\xef\xbb\xbf" + CONFIG, b'"' + b"x" * 1_000_000, CONFIG + b"x", CONFIG + b"\0"):
        yield text, [b"not-json"]
    yield b" " * 1_000_000 + CONFIG + b"\n" * 1_000_000, [b""]
    yield b'"' + b"x" * 1_000_000 + b'"', [b"shape "]


def large_scripts():
    """Scripts, each with its fault, which is empty where there is none."""
    yield b"\n" * 1_000_000, b""
    yield b"\r\n" * 1_000_000, b""
    yield b"\n" * 1_000_000 + b"x", b"script 1000001"
    yield b"#" * 5_000_000, b""
    yield b"x" * 5_000_000, b"script 1"
    yield b"\0" * 1_000_000, b"script 1"
    yield b"\r", b"script 1"
    yield b"take " + b"0" * 1_000_000, b""
    yield b"take " + b"9" * 1_000_000, b"script 1"
    yield b"fetch 0 4294967295\nfetch 0 4294967296", b"script 2"
    yield b"result 0 0 18446744073709551616 success x", b"script 1"
    yield b"result 0 0 0 success " + b"x" * 1_000_000, b""
    yield b"dequeue 0 0 change 0 9223372036854775808", b"script 1"
    yield b"turn 4294967295 4294967295\n" * 100_000, b""
    yield b"offer 0 " + b"[" * 3_000_000, b""


def large(judge):
    records = list(large_records())
    records_in_scripts(judge, records)
    records_in_streams(judge, [*records, b"x" * MAX_LINE, b"x" * (MAX_LINE + 1), EVENT[:-1] + b" " * MAX_LINE + b"}", EVENT])
    for text, faults in large_configurations():
        status, stdout, stderr = found = judge.run(["check", "config"], config=text)
        is_read = b"" in faults and status == 0 and not stderr and is_printed(text, stdout)
        is_named = status == 3 and not stdout and stderr in [b"fault: " + fault + b"\n" for fault in faults if fault]
        judge.judge(is_read or is_named, f"a configuration of {len(text)} bytes, {text[:40]}, wanted {faults}", found)
    for text, fault in large_scripts():
        status, stdout, stderr = found = judge.run(["replay", "config", "script"], config=CONFIG, script=text)
        is_read = not fault and status == 0 and not stderr and re.fullmatch(PLAYED, stdout)
        is_named = fault and (status, stdout, stderr) == (3, b"", b"fault: " + fault + b"\n")
        judge.judge(is_read or is_named, f"a script of {len(text)} bytes, {text[:40]}, wanted {fault}", found)
