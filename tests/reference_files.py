"""The files: job, configuration and data, read by the grammar of docs/FORMATS.md. A file that isn't accepted raises Fault."""
import datetime
import re
import sys
import tomllib

sys.set_int_max_str_digits(0)


class Fault(Exception):
    """A fault line; `where` is what follows the word `fault`."""

    def __init__(self, *where):
        self.where = where

    def line(self):
        return "fault " + " ".join(map(str, self.where))


# ---- numbers

DECIMAL = re.compile(rb"([+-]?)(\d*)(?:\.(\d*))?(?:[Ee]([+-]?\d{1,3}))?")
WHOLE = re.compile(rb"[+-]?\d+")


def decimal(text):
    """The value times 10^24, or "syntax" or "range"."""
    match = DECIMAL.fullmatch(text)
    if not match or not (match[2] or match[3]):
        return "syntax"
    fraction = match[3] or b""
    digits = (match[2] + fraction).lstrip(b"0")
    if not digits:
        return 0
    exponent = int(match[4] or 0) - len(fraction)
    stripped = digits.rstrip(b"0")
    exponent += len(digits) - len(stripped)
    if len(stripped) > 18 or exponent < -24 or len(stripped) + exponent > 13:
        return "range"
    value = int(stripped) * 10 ** (exponent + 24)
    if value > 10 ** 36:
        return "range"
    return -value if match[1] == b"-" else value


def decimal_text(value):
    whole, fraction = divmod(abs(value), 10 ** 24)
    text = "%d" % whole
    if fraction:
        text += "." + ("%024d" % fraction).rstrip("0")
    return "-" + text if value < 0 else text


# ---- configuration

class Configuration:
    """What the commands need of an accepted configuration: analog is a list of (unit, a, b)."""


class Line:
    """One line of the configuration; its fields are judged from the left."""

    def __init__(self, number, text):
        self.number = number
        self.fields = [part.strip(b" ") for part in text.split(b",")]

    def fault(self, field, kind):
        raise Fault("configuration", self.number, field, kind)

    def count(self, n):
        if len(self.fields) != n:
            self.fault(0, 2)

    def text(self, i):
        text = self.fields[i - 1]
        if len(text) > 64:
            self.fault(i, 8)
        if b"\r" in text or b"\x1a" in text:
            self.fault(i, 5)
        return text

    def whole(self, i, least, greatest, text=None, beyond=4):
        text = self.fields[i - 1] if text is None else text
        if not WHOLE.fullmatch(text):
            self.fault(i, 3)
        value = int(text)
        if not least <= value <= greatest:
            self.fault(i, beyond)
        return value

    def decimal(self, i):
        value = decimal(self.fields[i - 1])
        if value == "syntax":
            self.fault(i, 3)
        if value == "range":
            self.fault(i, 4)
        return value

    def letter_count(self, i, letter, least):
        text = self.fields[i - 1]
        if text[-1:].upper() != letter:
            self.fault(i, 5)
        return self.whole(i, least, 256, text[:-1])

    def stamp(self):
        self.count(2)
        match = re.fullmatch(rb"(\d{1,2})/(\d{1,2})/(\d{4})", self.fields[0])
        if not match:
            self.fault(1, 3)
        try:
            datetime.date(int(match[3]), int(match[2]), int(match[1]))
        except ValueError:
            self.fault(1, 4)
        match = re.fullmatch(rb"(\d{1,2}):(\d{2}):(\d{2})(?:\.\d{1,9})?", self.fields[1])
        if not match:
            self.fault(2, 3)
        if int(match[1]) > 23 or int(match[2]) > 59 or int(match[3]) > 59:
            self.fault(2, 4)


class ConfigurationLines:
    """Takes the lines one after the other."""

    def __init__(self, data):
        self.data, self.at, self.number = data, 0, 0

    def take(self, last=False):
        self.number += 1
        if self.at >= len(self.data):
            raise Fault("configuration", self.number, 0, 1)
        text, self.at = line_at(self.data, self.at, last)
        return Line(self.number, text)

    def end(self):
        if not is_tail(self.data[self.at:]):
            raise Fault("configuration", self.number + 1, 0, 8)


def line_at(data, at, last):
    """The line that begins there, and where the next one begins. The last line may end before a byte 1A."""
    end = data.find(b"\n", at)
    after = end + 1
    if end < 0:
        end = after = len(data)
    if last:
        marker = data.find(b"\x1a", at, end)
        if marker >= 0:
            end = after = marker
    text = data[at:end]
    return (text[:-1] if text.endswith(b"\r") else text), after


def is_tail(data):
    return not data.strip(b"\r\n \x1a") and data.count(b"\x1a") <= 1


def read_configuration(data):
    if len(data) > 1_048_576:
        raise Fault("configuration", 0, 0, 8)
    lines, c = ConfigurationLines(data), Configuration()
    line = lines.take()
    if len(line.fields) == 2:
        line.fault(3, 6)
    line.count(3)
    line.text(1)
    line.text(2)
    if line.fields[2] != b"1999":
        line.fault(3, 6)
    line = lines.take()
    line.count(3)
    total = line.whole(1, 1, 512)
    analog, c.digital = line.letter_count(2, b"A", 1), line.letter_count(3, b"D", 0)
    if total != analog + c.digital:
        line.fault(1, 4)
    c.analog = [read_analog(lines.take(), i) for i in range(1, analog + 1)]
    for i in range(1, c.digital + 1):
        read_digital(lines.take(), i)
    read_times(lines, c)
    lines.end()
    return c


def read_analog(line, position):
    line.count(13)
    line.whole(1, position, position)
    texts = [line.text(i) for i in (2, 3, 4, 5)]
    numbers = [0 if i == 8 and not line.fields[7] else line.decimal(i) for i in range(6, 13)]
    if line.fields[12] not in (b"P", b"p", b"S", b"s"):
        line.fault(13, 5)
    return texts[3], numbers[0], numbers[1]


def read_digital(line, position):
    line.count(5)
    line.whole(1, position, position)
    for i in (2, 3, 4):
        line.text(i)
    line.whole(5, 0, 1)


def read_times(lines, c):
    line = lines.take()
    line.count(1)
    c.lf = line.decimal(1)
    if c.lf <= 0:
        line.fault(1, 4)
    line = lines.take()
    line.count(1)
    line.whole(1, 1, 1, beyond=7)
    line = lines.take()
    line.count(2)
    rate = decimal(line.fields[0])
    if rate == "syntax":
        line.fault(1, 3)
    if rate not in (2400 * 10 ** 24, 4800 * 10 ** 24):
        line.fault(1, 7)
    c.rate = rate // 10 ** 24
    c.records = line.whole(2, 1, 4294967295)
    lines.take().stamp()
    lines.take().stamp()
    line = lines.take()
    line.count(1)
    c.form = line.fields[0].upper().decode("latin-1")
    if c.form not in ("ASCII", "BINARY"):
        line.fault(1, 5)
    line = lines.take(last=True)
    line.count(1)
    line.decimal(1)


# ---- data

class Data:
    """The samples of the asked channels up to the first fault. `columns` has one list a channel."""

    def __init__(self, channels):
        self.columns = {channel: [] for channel in channels}
        self.first, self.fault = None, None


def read_data(content, c, channels):
    """Reads all records. `fault` is the first fault or None; the records before it are in the columns."""
    data = Data(channels)
    try:
        (read_ascii if c.form == "ASCII" else read_binary)(content, c, data)
    except Fault as fault:
        data.fault = fault
    return data


MOST_LINE = 16384


def read_ascii(content, c, data):
    fields = 2 + len(c.analog) + c.digital
    number = rb" *[+-]?[0-9]+ *"
    plain = re.compile(number + rb",(?: *|" + number + rb")(?:," + number + rb"){%d}" % (fields - 2))
    columns = [(1 + channel, column) for channel, column in data.columns.items()]
    at, before, digital_from = 0, None, 2 + len(c.analog)
    for record in range(1, c.records + 1):
        rest = content[at:at + MOST_LINE + 1]
        if len(rest) <= MOST_LINE and not rest.strip(b" "):
            raise Fault("data", record, 0, 5)
        line, at = line_at(content, at, record == c.records)
        if len(line) > MOST_LINE:
            raise Fault("data", record, 0, 8)
        values = None
        if plain.fullmatch(line):
            values = [int(part) if part.strip(b" ") else 0 for part in line.split(b",")]
            analog, digital = values[2:digital_from], values[digital_from:]
            if (not 0 <= values[0] <= 4294967295 or not 0 <= values[1] <= 9999999999
                    or min(analog) < -99999 or max(analog) > 99999
                    or (digital and (min(digital) < 0 or max(digital) > 1))
                    or (before is not None and values[0] != before + 1)
                    or any(values[i] == 99999 for i, _ in columns)):
                values = None
        if values is None:
            ascii_fault(line, record, before, c, data)
        before = values[0]
        data.first = before if data.first is None else data.first
        for i, column in columns:
            column.append(values[i])
    if len(content) - at > 65536 or not is_tail(content[at:]):
        raise Fault("data", c.records + 1, 0, 6)


def ascii_fault(line, record, before, c, data):
    """Names the first fault of a line, from the left."""
    fields = [part.strip(b" ") for part in line.split(b",")]
    if len(fields) != 2 + len(c.analog) + c.digital:
        raise Fault("data", record, 0, 1)
    for i, text in enumerate(fields, 1):
        channel = i - 2
        if i == 1:
            least, greatest = 0, 4294967295
        elif i == 2:
            if not text:
                continue
            least, greatest = 0, 9999999999
        else:
            least, greatest = (-99999, 99999) if channel <= len(c.analog) else (0, 1)
        if not WHOLE.fullmatch(text):
            raise Fault("data", record, i, 2)
        value = int(text)
        if not least <= value <= greatest:
            raise Fault("data", record, i, 3)
        if i == 1 and before is not None and value != before + 1:
            raise Fault("data", record, 1, 4)
        if channel in data.columns and value == 99999:
            raise Fault("data", record, i, 7)
    raise AssertionError("a line without a fault")


def read_binary(content, c, data):
    size = 8 + 2 * len(c.analog) + 2 * ((c.digital + 15) // 16)
    before = None
    for record in range(1, c.records + 1):
        at = (record - 1) * size
        if at + size > len(content):
            raise Fault("data", record, 0, 5)
        number = int.from_bytes(content[at:at + 4], "little")
        if before is not None and number != before + 1:
            raise Fault("data", record, 1, 4)
        values = []
        for channel in sorted(data.columns):
            place = at + 6 + 2 * channel
            value = int.from_bytes(content[place:place + 2], "little", signed=True)
            if value == -32768:
                raise Fault("data", record, 2 + channel, 7)
            values.append((channel, value))
        for channel, value in values:
            data.columns[channel].append(value)
        before = number
        data.first = number if data.first is None else data.first
    if len(content) > c.records * size:
        raise Fault("data", c.records + 1, 0, 6)


# ---- job

KEYS = ["lamp", "nominal_mv", "uncertainty_uv", "channels", "dmax", "run_in_s", "interval_s"]


def is_whole(value):
    return isinstance(value, int) and not isinstance(value, bool)


def too_wide(value):
    """Whether an integer outside 64 bits is anywhere."""
    if isinstance(value, dict):
        return any(map(too_wide, value.values()))
    if isinstance(value, list):
        return any(map(too_wide, value))
    return is_whole(value) and not -2 ** 63 <= value < 2 ** 63


def read_job(content):
    if len(content) > 65536:
        raise Fault("job", 0, 6)
    try:
        job = tomllib.loads(content.decode("utf-8"))
    except (ValueError, RecursionError):
        raise Fault("job", 0, 1) from None
    if too_wide(job):
        raise Fault("job", 0, 1)
    if any(key not in KEYS for key in job):
        raise Fault("job", 0, 2)
    sets = {"nominal_mv": range(1000, 1000001), "dmax": (4, 6, 7), "run_in_s": range(61), "interval_s": range(1, 601)}
    defaults = {"run_in_s": 60, "interval_s": 600}
    for number, key in enumerate(KEYS, 1):
        if key not in job and key not in defaults:
            raise Fault("job", number, 3)
        value = job.setdefault(key, defaults.get(key))
        if key == "lamp":
            right, within = isinstance(value, str), value in ("230/50", "120/60")
        elif key == "channels":
            right = isinstance(value, list) and all(map(is_whole, value))
            within = right and 1 <= len(value) <= 6 and len(set(value)) == len(value) and all(1 <= v <= 256 for v in value)
        elif key == "uncertainty_uv":
            right = is_whole(value)
            within = right and 0 <= value <= 10 * job["nominal_mv"]
        else:
            right = is_whole(value)
            within = right and value in sets[key]
        if not right:
            raise Fault("job", number, 4)
        if not within:
            raise Fault("job", number, 5)
    return job
