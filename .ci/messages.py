"""Wrong input of an editor's session with what has to come of it, requests at their bounds, and refused growths of memory."""
import json
import os
import re
import subprocess
import sys

sys.dont_write_bytecode = True
ROOT = os.path.dirname(os.path.dirname(os.path.abspath(__file__)))
sys.path.insert(0, f"{ROOT}/model")
from client import demand, framed, text_of  # noqa: E402

# The most bytes of a message, as the crate has them.
with open(f"{ROOT}/crates/ga_dap_protocol/src/framing.rt", encoding="utf-8") as file:
    LONGEST = int(re.search(r"CONTENT_LIMIT: usize = ([0-9_]+);", file.read())[1])
# Long values that take much memory: what begins one, what it repeats, and what ends it.
LONG = {"letters": (b'"', b"a", b'"'), "numbers": (b"[", b"1,", b"1]"), "texts": (b"[", b'"a",', b"1]"), "lists": (b"[", b"[1],", b"1]"), "maps": (b"[", b'{"":1},', b"1]"), "deep lists": (b"[", b"[[[[1]]]],", b"1]")}
# What is refused within a run.
STANDING = ("continue", "next", "stepIn", "stepOut", "stepBack", "reverseContinue", "evaluate")
# Requests at their bounds, over examples/fault.f18; a number past 2^64 is none.
PROGRAM, LINES = "examples/fault.f18", {"source": {"path": "examples/fault.f18"}}
AT_BOUNDS = [
    ("initialize", {"adapterID": "ga144", "linesStartAt1": False}), ("initialize", {"adapterID": "ga144", "columnsStartAt1": False}), ("initialize", {"adapterID": "ga144", "pathFormat": "uri"}), ("initialize", {"adapterID": "ga144"}),
    ("threads", None), ("launch", {"program": PROGRAM, "limit": 100000001}), *(("launch", {"program": PROGRAM, "order": "random", "seed": it}) for it in (2**32, 2**70, -1)), ("launch", {"program": PROGRAM, "limit": 100000000}), ("launch", {"program": PROGRAM}),
    ("setInstructionBreakpoints", {"breakpoints": [{"instructionReference": it, "offset": by} for it, by in (("0x001002", -1), ("0x000000", -1), ("0x001002", 4096), ("0x00000000001", 2**40), ("0x0", 0), ("0x717fff", 0), ("0xg", 0), ("0x701080", -3))]}),
    ("setInstructionBreakpoints", {"breakpoints": []}),
    ("setFunctionBreakpoints", {"breakpoints": [{"name": it} for it in ("main", "001 main", "001:main", "0012main", "099 main", "001", "001 ", "")]}),
    *(("setFunctionBreakpoints", {"breakpoints": [{"name": "main"} | {kind: it} for it in some]}) for kind, some in (
        ("condition", ("t = 0x3ffff", "t = 0x40000", "t != 262144", "step < 262144", "[05] < 4294967295", "t == 5", "t = 0x150", "d9 >= 262143", "r8 != -131072", "[bF] == -0x20000", "step < 4294967295", "slot = 00", "d1 = 1", "r9 = 1", "d2 = -131073", "io <= 0x100000000", "carry > 4294967296", "t", "t =", "t  = 1", "t = 1 ", "t=1", "state = 0", "[5] = 1", "[0g] = 1", "T = 1", "t = 0x", "t = -", "t => 1", "")),
        ("hitCondition", ("1", "4294967295", "4294967296", ">= 1", "% 1", "0", "% 0", "01", ">=1", "> 1", "% ", "", "x")),
    )),
    ("setFunctionBreakpoints", {"breakpoints": [{"name": "main", "condition": "t", "hitCondition": "x"}] + [{"name": "main"}] * 63 + [{"name": "main", "hitCondition": "2"}] * 2 + [{"name": "main", "condition": "t = 1"}]}),
    ("setFunctionBreakpoints", {"breakpoints": []}),
    ("setBreakpoints", LINES | {"breakpoints": [{"line": 0}, {"line": 2**32}, {"line": 3, "column": 5}]}), ("setBreakpoints", LINES), ("setBreakpoints", {"source": {"name": "fault.f18"}, "breakpoints": [{"line": 3}]}),
    ("setExceptionBreakpoints", {"filters": ["stop", "stop"]}), ("setExceptionBreakpoints", {"filters": ["stop", "stuck"]}),
    *((it, {"threadId": 1000}) for it in ("continue", "next", "stepIn", "stepOut", "pause")),
    ("configurationDone", None), ("continue", {"threadId": 2}),
    *(("disassemble", {"memoryReference": it, "instructionCount": count} | more) for it, count, more in (
        ("0x001002", 3, {"offset": -1}), ("0x001002", 4096, {}), ("0x001002", 4097, {}), ("0x001002", 2**40, {}), ("0x001002", 2, {"offset": -9000, "instructionOffset": 5}), ("0x0010bf", 3, {}), ("0x001040", 0, {}), ("0X001040", 1, {}), ("001040", 1, {}), ("0x001fff", 1, {}), ("0x018000", 1, {}))),
    ("stackTrace", {"threadId": 1000, "startFrame": 5, "levels": 3}), ("stackTrace", {"threadId": 1000, "levels": 2**70}), ("stackTrace", {"threadId": 2**70}),
    ("scopes", {"frameId": 2304}), ("scopes", {"frameId": 2305}), ("scopes", {"frameId": 0}), ("variables", {"variablesReference": 1150}), ("variables", {"variablesReference": 1151}), ("variables", {"variablesReference": 0}),
    ("variables", {"variablesReference": 5, "start": 60, "count": 10}), ("variables", {"variablesReference": 6, "start": 64}), *(("variables", {"variablesReference": it, "filter": kind, "start": 2, "count": 2}) for it in range(1, 7) for kind in ("named", "indexed")),
    *(("dataBreakpointInfo", {"variablesReference": it, "name": name}) for it, name in ((13, "[0A]"), (13, "[7f]"), (13, "[8A]"), (14, "[8a]"), (9, "t"), (0, "[00]"))), ("dataBreakpointInfo", {"name": "t"}),
    ("setDataBreakpoints", {"breakpoints": [{"dataId": it, "accessType": "write"} for it in ("0x001043", "0x00107f", "0x001080", "x")]}),
    *(("evaluate", {"expression": it, "context": "repl", "frameId": 17}) for it in ("\tt\n", "", "[0 5]", "[7F]", "[bf]", "[ff]", "dump\nquit", "\u00fcn\u00ef", "x" * 300, " quit", "T")),
    ("evaluate", {"expression": "count", "context": "watch", "frameId": 17}), ("evaluate", {"expression": "p", "context": "hover", "frameId": 99999}),
    ("next", {"threadId": 1001}), ("stepBack", {"threadId": 999}), ("reverseContinue", {"threadId": 1018}), ("pause", {"threadId": 5}), ("terminate", None),
]


def brief(message):
    """A message in a few words."""
    if message["type"] == "event":
        return f"{message['event']} {message.get('body', {}).get('output', '').strip()}".strip()
    told = [it["message"] for it in message.get("body", {}).get("breakpoints", []) if "message" in it]
    return f"{message['command']}: {message['message']}" if not message["success"] else " ".join([message["command"], *told])


def request(seq, command, **arguments):
    return framed(json.dumps({"seq": seq, "type": "request", "command": command} | ({"arguments": arguments} if arguments else {})))


def wrong_inputs(room):
    """Wrong input by its name: the bytes, the status, and in a few words the messages in answer; if the status isn't 0, the last is the line on
    standard error."""
    start, end = request(1, "initialize", adapterID="ga144"), request(9, "disconnect")
    stands = start + request(2, "launch", program=f"{ROOT}/examples/fault.f18") + request(3, "configurationDone")
    begun = ["initialize", "launch", "initialized", "configurationDone", "thread", "thread", "thread", "stopped"]
    field, header_end = "the header does not begin with `Content-Length: `", "the header does not end behind `Content-Length`"
    no_number, long, cut = "`Content-Length` is no number", f"`Content-Length` is more than {LONGEST}", "the input ends within a message"
    no_json, no_request = "output ga144: a message is no JSON", "output ga144: a message is no request"
    no_seq, filler = "output ga144: a request has no `seq`", b'{"seq":1,"type":"request","command":"initialize","x":%s}'
    # frames that are none: nothing more is read
    broken = {
        "no header": (b"hello\r\n\r\n", field),
        "lower case": (start.replace(b"Content-Length", b"content-length"), field),
        "two fields": (start.replace(b"\r\n\r\n", b"\r\nContent-Type: x\r\n\r\n", 1), header_end),
        "line feeds alone": (start.replace(b"\r\n\r\n", b"\n\n", 1), header_end),
        "no number": (b"Content-Length: x\r\n\r\n{}", no_number),
        "a negative length": (b"Content-Length: -1\r\n\r\n{}", no_number),
        "one byte too long": (b"Content-Length: %d\r\n\r\n{}" % (LONGEST + 1), long),
        "eight digits of a small number": (b"Content-Length: 00000002\r\n\r\n{}", "`Content-Length` has more than seven digits"),
        "cut in the content": (start[:-5], cut),
        "cut in the header": (start[:12], cut),
        "cut behind a request": (start + end[:40], "initialize", cut),
        "no frame behind a request": (start + b"\n" + end, "initialize", field),
    }
    # content that is no request: the session continues
    content = {
        "length 0": ("", no_json),
        "no JSON": ("{", no_json),
        "two values": ("{}{}", no_json),
        "not UTF-8": (b'{"seq":1,"type":"request","command":"\xff"}', no_json),
        "200 deep": ("[" * 200 + "]" * 200, no_json),
        "an array": ("[1]", no_request),
        "a response": ('{"seq":1,"type":"response","request_seq":1,"success":true,"command":"x"}', no_request),
        "no seq": ('{"type":"request","command":"initialize"}', no_seq),
        "seq is text": ('{"seq":"1","type":"request","command":"initialize"}', no_seq),
        "seq is negative": ('{"seq":-1,"type":"request","command":"initialize"}', no_seq),
        "no command": ('{"seq":1,"type":"request"}', "output ga144: a request has no `command`"),
        "arguments are null": ('{"seq":1,"type":"request","command":"initialize","arguments":null}', "initialize"),
        "blanks": (b" " * (LONGEST - 1) + b"1", no_request),
        **{f"as long as may be, of {name}": (filler % (begin + of * ((LONGEST - len(filler % begin) - len(end_of)) // len(of)) + end_of), "initialize") for name, (begin, of, end_of) in LONG.items()},
    }
    # what is launched
    order = "the order is rounds, greedy, or random with a seed of 0 to 4294967295"
    launch = {
        "no program": ({"noDebug": True}, "there is no program"),
        "no file": ({"program": "/nonexistent"}, "/nonexistent: no such file"),
        "a folder": ({"program": room}, f"{room}: a folder"),
        "no end": ({"program": "/dev/zero"}, "/dev/zero: more than 16777216 bytes"),
        "a fault of source": ({"program": "bad.f18"}, "bad.f18: line 2: what is foo"),
        "faults of source": (
            {"program": "worse.f18"},
            "worse.f18: line 2: what is foo\nline 3: number out of range: 999999 (-131072 to 262143)\nline 3: what is bar",
        ),
        "a fault of an image": ({"program": "bad.image"}, "bad.image: no 13 node line 3"),
        "limit 0": ({"program": "bad.f18", "limit": 0}, "the limit is 1 to 100000000"),
        "an order that is none": ({"program": "bad.f18", "order": "backwards"}, order),
        "a seed that is none": ({"program": "bad.f18", "order": "random", "seed": 2**32}, order),
    }
    # requests that are refused by name, and change nothing
    refused = {
        "frobnicate": ({}, "no such request"),
        "launch": ({"program": "bad.f18"}, "launch: a program is launched already"),
        "configurationDone": ({}, "configurationDone: it is done"),
        "stackTrace": ({"threadId": 5}, "stackTrace: no such thread"),
        "next": ({"threadId": 1018}, "next: no such thread"),
        "scopes": ({"frameId": 2305}, "scopes: no such frame"),
        "variables": ({"variablesReference": "1"}, "variables: no such reference"),
        "stepOut": ({"threadId": 1000}, "stepOut: the node is in no call that is kept"),
        "disassemble": ({"memoryReference": "0x018000", "instructionCount": 1}, "disassemble: no such memory"),
        "setExceptionBreakpoints": ({"filters": ["uncaught"]}, "setExceptionBreakpoints: the filters are stop, stuck and broken"),
    }
    # conditions that are no text; null is none
    others = [5, True, ["1"], {}, None]
    kinds = {"condition": ["condition: a register or [HH], then = != < <= > or >=, then a number, port or label"] * 4, "hitCondition": ["hitCondition: N, >= N or % N, from 1 on"] * 4}
    runs = stands + request(4, "continue", threadId=1000)
    found = {
        "nothing": (b"", 0, []),
        "nothing is launched": (request(1, "threads") + end, 0, ["threads: nothing is launched", "disconnect"]),
        "behind the end": (start + end + request(10, "threads"), 0, ["initialize", "disconnect"]),
        "leading zeros": (start.replace(b"Content-Length: ", b"Content-Length: 00") + end, 0, ["initialize", "disconnect"]),
        "seq 0, and the greatest twice": (b"".join(request(it, "initialize", adapterID="x") for it in (0, 2**64 - 1, 2**64 - 1)), 0, ["initialize"] * 3),
        **{f"{it} within a run": (runs + request(5, it, threadId=1000, expression="t") + end, 0, [*begun, "continue", f"{it}: the chip runs", "disconnect"]) for it in STANDING},
        **{f"a {it} that is no text": (stands + request(4, "setFunctionBreakpoints", breakpoints=[{"name": "main", it: other} for other in others]) + end, 0, [*begun, " ".join(["setFunctionBreakpoints", *told]), "disconnect"]) for it, told in kinds.items()},
        "a run is ended": (runs + request(5, "terminate") + request(6, "stepBack", threadId=1000) + end, 0, [*begun, "continue", "terminate", "terminated", "stepBack", "output rewind 000 1: removed 0 kept 0", "stopped", "disconnect"]),
        "a run is paused": (runs + request(5, "pause", threadId=1001) + end, 0, [*begun, "continue", "pause", "stopped", "disconnect"]),
        "a run has no end": (runs + end, 0, [*begun, "continue", "disconnect"]),
    }
    found |= {name: (data, 2, list(wanted)) for name, (data, *wanted) in broken.items()}
    found |= {name: (framed(data) + end, 0, [wanted, "disconnect"]) for name, (data, wanted) in content.items()}
    found |= {f"launch of {name}": (start + request(2, "launch", **given) + end, 0, ["initialize", f"launch: launch: {why}", "disconnect"]) for name, (given, why) in launch.items()}
    return found | {name: (stands + request(4, name, **given) + end, 0, [*begun, f"{name}: {why}", "disconnect"]) for name, (given, why) in refused.items()}


# ---- allocation failures

# A session in which each allocation fails in turn, with a message that is no request; and its requests after which the chip no longer runs.
REFUSED = [
    ("initialize", {"adapterID": "ga144"}), (None, {}), ("launch", {"program": PROGRAM, "limit": 3000}), ("setBreakpoints", LINES | {"breakpoints": [{"line": 6}, {"line": 4}]}),
    ("setDataBreakpoints", {"breakpoints": [{"dataId": "0x001005"}]}), ("configurationDone", {}), ("threads", {}), ("continue", {"threadId": 1000}), ("stackTrace", {"threadId": 1000}),
    ("scopes", {"frameId": 1}), ("variables", {"variablesReference": 1}), ("disassemble", {"memoryReference": "0x000000", "instructionCount": 3}), ("exceptionInfo", {"threadId": 1001}),
    ("next", {"threadId": 1200}), ("stepBack", {"threadId": 1000}), ("reverseContinue", {"threadId": 1200}), ("evaluate", {"expression": "whence 000 last", "context": "repl"}),
    ("evaluate", {"expression": "back", "context": "repl"}), ("evaluate", {"expression": "t", "context": "hover"}), ("evaluate", {"expression": "count", "context": "repl"}),
]
MOVES = ("configurationDone", "continue", "next", "stepBack", "reverseContinue")
NO_ANSWER, NO_EVENT = '"result":"no 4 memory', "memory was refused to the next event"


class Growths:
    """The messages of a session in which an allocation fails: the same messages; or those of the session without one request, with the refusal of
    this request, also if the next allocation fails too, since the refusal was built before. Or one message reports it: an answer of `explore`, and
    all others are the same, or the end of a run, and each later request is answered. Before the first message the program may end with status 1,
    and the command line may be refused. No session ends by it."""

    def __init__(self, words, library):
        self.words, self.library = words, library
        self.asked = [(number, command, given) for number, (command, given) in enumerate(REFUSED, 1)]
        self.whole = self.run(self.asked, 0)[2]
        self.without = [self.refused(place) for place, (command, _) in enumerate(REFUSED) if command]

    def run(self, asked, growth, told="", many=1):
        """The status of a session, what standard error says, and the messages without their numbers, which have to be in order."""
        env = {**os.environ, "LD_PRELOAD": self.library, "REFUSED": str(growth), "REFUSED_MANY": str(many)} | ({"REFUSED_TOLD": told} if told else {})
        server = subprocess.Popen(self.words, stdin=subprocess.PIPE, stdout=subprocess.PIPE, stderr=subprocess.PIPE, env=env, cwd=ROOT)
        came = []
        try:
            for number, command, given in asked:
                server.stdin.write(request(number, command, **given))
                server.stdin.flush()
                while (message := self.message(server.stdout, len(came) + 1)) is not None:
                    came.append(text_of(message))
                    if not command or message.get("event") == "stopped" or message.get("request_seq") == number and not (message["success"] and command in MOVES):
                        break
            server.stdin.close()
        except BrokenPipeError:
            pass
        came += [text_of(it) for it in iter(lambda: self.message(server.stdout, len(came) + 1), None)]
        with server.stdout, server.stderr:
            return server.wait(20), server.stderr.read(), came

    @staticmethod
    def message(out, number):
        """The next message, without its number."""
        head = out.readline()
        if not head:
            return None
        content = out.read(int(head[len("Content-Length: ") :]) + 2)[2:]
        message = json.loads(content)
        demand(text_of(message).encode() == content and message.pop("seq") == number, f"{content!r}")
        return message

    def refused(self, place):
        """The messages where the request at a place is refused."""
        before = self.run(self.asked[:place], 0)[2]
        left = self.run(self.asked[:place] + self.asked[place + 1 :], 0)[2]
        why, command = "out of memory", REFUSED[place][0]
        body = {"body": {"error": {"format": why, "id": 1}}, "command": command, "message": why, "request_seq": place + 1, "success": False, "type": "response"}
        return [*before, text_of(body), *left[len(before) :]]

    def says_so(self, came):
        """Whether one message says that memory was refused, and the others are as they have to be."""
        at = next((at for at, it in enumerate(came) if NO_ANSWER in it or NO_EVENT in it), len(came))
        rest = came[at + 1 :] == self.whole[at + 1 :] if at < len(came) and NO_ANSWER in came[at] else at < len(came)
        answered = [json.loads(it).get("request_seq") for it in came]
        return came[:at] == self.whole[:at] and rest and [it for it in answered if it is not None] == [number for number, command, _ in self.asked if command]

    def fault(self, growth, room):
        """What is wrong where a growth is refused; None where there is none so late."""
        mark = f"{room}/refused-{growth}"
        status, said, came = self.run(self.asked, growth, mark)
        if not os.path.exists(mark):
            return None
        if came in self.without:
            status, said, came = self.run(self.asked, growth, mark, 2)
        # (where a file's bytes have no room, the file is named)
        came = [it.replace(f"launch: {PROGRAM}: out of memory", "out of memory") for it in came]
        is_well = {
            (0, b""): came == self.whole or came in self.without or self.says_so(came),
            (1, b"ga144: out of memory\n"): not came,
        }.get((status, said), status == 3 and not came and said.startswith(b"ga144: command line refused\n"))
        parts = next((at for at, it in enumerate(came) if it not in self.whole[at : at + 1]), len(came))
        return "" if is_well else f"dap: growth {growth} refused: status {status}, {said!r}, message {parts + 1}: {came[parts : parts + 1]}"
