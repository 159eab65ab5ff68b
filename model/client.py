"""A client of the Debug Adapter Protocol that checks each message in both directions: the framing byte for byte, the number, the text (the
shortest one, with sorted members), and the protocol's schema.

The schema is that of Debian's python3-pydevd, which is generated from the protocol's own: a class for each message and each type, with the
schema of its members in `__props__`, and the required members as parameters of its constructor. If the package isn't installed, the schema
is not checked. An unknown message or member is a fault, except the members in `LATER` and the arguments of `launch`, which differ between
servers.
"""

import inspect
import json
import queue
import re
import subprocess
import sys
import threading

sys.path.append("/usr/lib/python3/dist-packages")
try:
    from _pydevd_bundle._debug_adapter import pydevd_base_schema as base
    from _pydevd_bundle._debug_adapter import pydevd_schema  # noqa: F401  (its classes are in the tables of the other)
except ImportError:
    base = None

# Members of the protocol that are newer than this schema, which is of 2021.
LATER = {"response disassemble.body.instructions.presentationHint"}
FREE = "request launch.arguments"
HEADER = b"Content-Length: "
KINDS = {
    "integer": lambda it: isinstance(it, int) and not isinstance(it, bool),
    "number": lambda it: isinstance(it, (int, float)) and not isinstance(it, bool),
    "string": lambda it: isinstance(it, str),
    "boolean": lambda it: isinstance(it, bool),
    "object": lambda it: isinstance(it, dict),
    "array": lambda it: isinstance(it, list),
    "null": lambda it: it is None,
}


class Wrong(Exception):
    """A message with a fault."""


def demand(holds, text):
    if not holds:
        raise Wrong(text)


def text_of(message):
    """The required text of a message."""
    return json.dumps(message, sort_keys=True, separators=(",", ":"), ensure_ascii=False)


def framed(text):
    content = text if isinstance(text, bytes) else text.encode()
    return HEADER + b"%d\r\n\r\n" % len(content) + content


def parted(data):
    """The contents of the messages in some bytes. Raises Wrong if one is incomplete."""
    contents = []
    while data:
        head, end, rest = data.partition(b"\r\n\r\n")
        demand(end and head.startswith(HEADER) and head[len(HEADER) :].isdigit(), f"a header {head[:80]!r}")
        size = int(head[len(HEADER) :])
        demand(head == HEADER + b"%d" % size and len(rest) >= size, f"a header {head!r} before {len(rest)} bytes")
        contents.append(rest[:size])
        data = rest[size:]
    return contents


class Schema:
    """The protocol's schema: its methods raise Wrong for a message that doesn't agree with it."""

    is_there = base is not None

    def message(self, message):
        if not self.is_there:
            return
        kind = message.get("type")
        demand(kind in ("request", "response", "event"), f"type {kind!r}")
        table = {"request": base._requests_to_types, "response": base._responses_to_types, "event": base._event_to_types}[kind]
        name = message.get("event" if kind == "event" else "command")
        of = base._all_messages["ErrorResponse"] if message.get("success") is False else table.get(name)
        demand(of is not None, f"there is no {kind} {name}")
        needs = [it for it in self.needed(of) if it != "body" or kind != "response" or self.has_needed_body(of)]
        for it in [*needs, "seq"]:
            demand(it in message, f"{kind} {name} lacks {it}")
        self.members(of.__props__, message, f"{kind} {name}")

    @staticmethod
    def needed(of):
        """The required members of a class."""
        given = list(inspect.signature(of.__init__).parameters.items())[1:]
        return [it for it, how in given if it in of.__props__ and how.default is how.empty and how.kind is how.POSITIONAL_OR_KEYWORD]

    @staticmethod
    def has_needed_body(of):
        body = of.__props__.get("body", {})
        return bool(body.get("required")) or body.get("type") in base._all_messages

    def members(self, props, value, at):
        for name, it in value.items():
            if name in props:
                self.value(props[name], it, f"{at}.{name}")
            else:
                demand(at == FREE or re.sub(r"\[[0-9]+\]", "", f"{at}.{name}") in LATER, f"{at} has no member {name}")

    def value(self, schema, value, at):
        kind = schema.get("type")
        name = schema["$ref"].split("/")[-1] if "$ref" in schema else kind
        if isinstance(name, str) and name in base._all_messages:
            self.typed(base._all_messages[name], value, at)
            return
        kinds = kind if isinstance(kind, list) else [kind] if kind else []
        demand(not kinds or any(KINDS[it](value) for it in kinds), f"{at}: {value!r} is no {kind}")
        demand(value in schema.get("enum", [value]), f"{at}: {value!r} is none of {schema.get('enum')}")
        if isinstance(value, dict) and "properties" in schema:
            demand(all(it in value for it in schema.get("required", [])), f"{at} lacks one of {schema.get('required')}")
            self.members(schema["properties"], value, at)
        if isinstance(value, list) and "items" in schema:
            for place, it in enumerate(value):
                self.value(schema["items"], it, f"{at}[{place}]")

    def typed(self, of, value, at):
        if hasattr(of, "VALID_VALUES"):
            demand(value in of.VALID_VALUES, f"{at}: {value!r} is none of {sorted(of.VALID_VALUES)}")
            return
        demand(isinstance(value, dict), f"{at}: {value!r} is no {of.__name__}")
        lacks = [it for it in self.needed(of) if it not in value] if of.__props__ else []
        demand(not lacks, f"{at} lacks {lacks}")
        if of.__props__ or of.__name__.endswith("Arguments"):
            self.members(of.__props__, value, at)


class Client:
    """A server as a process. A thread reads its messages, so that a client can always send a request."""

    def __init__(self, words, cwd=None, seconds=20):
        self.server = subprocess.Popen(words, stdin=subprocess.PIPE, stdout=subprocess.PIPE, cwd=cwd)
        self.schema, self.seconds, self.sent, self.came = Schema(), seconds, 0, 0
        self.ready = queue.Queue()
        self.reader = threading.Thread(target=self.read, daemon=True)
        self.reader.start()

    def read(self):
        try:
            for content in iter(self.content, None):
                self.ready.put(self.checked(content))
        except (Wrong, ValueError) as why:
            self.ready.put(Wrong(f"{why}"))
        self.ready.put(None)

    def content(self):
        """The content of the next message, or None at the end."""
        out, head = self.server.stdout, b""
        while not head.endswith(b"\r\n\r\n"):
            one = out.read(1)
            demand(one or not head, f"an end within the header {head!r}")
            if not one:
                return None
            head += one
        digits = head[len(HEADER) : -4]
        demand(head.startswith(HEADER) and digits.isdigit() and digits == b"%d" % int(digits), f"a header {head!r}")
        content = out.read(int(digits))
        demand(len(content) == int(digits), "an end within a message")
        return content

    def checked(self, content):
        """The message of the server with this content, after checks."""
        message = json.loads(content.decode())
        demand(text_of(message).encode() == content, f"not the shortest text with members in order: {content[:300]!r}")
        self.came += 1
        demand(message.get("seq") == self.came, f"seq {message.get('seq')} instead of {self.came}")
        self.schema.message(message)
        return message

    def raw(self, data):
        self.server.stdin.write(data)
        self.server.stdin.flush()

    def frame(self, command, arguments=None):
        """A request with the next number."""
        self.sent += 1
        request = {"command": command, "seq": self.sent, "type": "request"}
        if arguments is not None:
            request["arguments"] = arguments
        self.schema.message(request)
        return framed(text_of(request))

    def send(self, command, arguments=None):
        """Sends a request, and returns its number."""
        data = self.frame(command, arguments)
        # in two parts, cut at another place each time
        cut = 37 * self.sent % len(data)
        self.raw(data[:cut])
        self.raw(data[cut:])
        return self.sent

    def next(self, seconds=None):
        """The next message, or None at the end of the server's output."""
        try:
            message = self.ready.get(timeout=seconds or self.seconds)
        except queue.Empty:
            raise Wrong("no message in time") from None
        if isinstance(message, Wrong):
            raise message
        return message

    def ask(self, command, arguments=None, refused=False):
        """The response to a request, and the events before it. The request must succeed, or fail if `refused`."""
        number, events = self.send(command, arguments), []
        while (message := self.next()) is not None:
            if message["type"] != "response":
                events.append(message)
                continue
            demand(message["request_seq"] == number and message["command"] == command, f"a response to {message['request_seq']} {message['command']}")
            demand(message["success"] is not refused, f"{command} {arguments}: {text_of(message)[:300]}")
            return message, events
        raise Wrong(f"an end before a response to {command}")

    def event(self, name):
        """The next event with a name, and the events up to it."""
        events = []
        while (message := self.next()) is not None:
            demand(message["type"] == "event", f"a response instead of an event {name}")
            events.append(message)
            if message["event"] == name:
                return message, events
        raise Wrong(f"an end before the event {name}")

    def end(self):
        """Sends `disconnect`, and checks that the server ends then, with status 0."""
        self.ask("disconnect")
        message = self.next()
        demand(message is None, f"{message} after disconnect")
        # it must end while its input is open
        try:
            status = self.server.wait(self.seconds)
        except subprocess.TimeoutExpired:
            raise Wrong("no end after disconnect") from None
        demand(status == 0, f"status {status} after disconnect")

    def stop(self):
        """Kills the server."""
        self.server.kill()
        self.server.wait()
        self.reader.join()
        self.server.stdin.close()
        self.server.stdout.close()
