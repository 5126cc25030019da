#!/usr/bin/env python3
"""Makes tests/cases/ again from formulas and changes: `python3 tests/make_cases.py`.

A case is one change of a recording or of a job that is accepted, and its answer comes from tests/reference.py, which is no part of the
program. tests/cases.py runs them."""
import os
import shutil
import sys

sys.dont_write_bytecode = True
HERE = os.path.dirname(os.path.abspath(__file__))
sys.path[:0] = [os.path.join(os.path.dirname(HERE), "examples"), HERE]
import reference  # noqa: E402
from make import ascii_data, binary_data, configuration, job, samples, square, wave  # noqa: E402

CASES = os.path.join(HERE, "cases")
THREE = "1,,23000\n2,,23000\n3,,-23000\n"
GOOD = configuration([("U", "A", "V", "0.01", "0")], 3)
TWO = GOOD.replace("1,1A,0D", "3,2A,1D").replace("50\n", "2,V,,,kV,0.01,0,0,-32767,32767,1,1,S\n1,D,,,0\n50\n", 1)
JOB = job("230/50", 230000, 1000, [1], 4, (0, 1))


class Group:
    """A folder of cases. The files of several cases stand in its folder `common`."""

    def __init__(self, name):
        self.folder, self.count = os.path.join(CASES, name), 0

    def case(self, name, note, words, **files):
        """A case; a file is named as its keyword, with a point for the last underline."""
        folder = os.path.join(self.folder, name)
        os.makedirs(folder)
        self.count += 1
        for keyword, content in files.items():
            write(os.path.join(folder, ".".join(keyword.rsplit("_", 1))), content)
        given = set(os.listdir(folder))
        os.chdir(folder)
        text, status = reference.answer(words.split(" "))
        os.chdir(CASES)
        for made in sorted(set(os.listdir(folder)) - given):
            os.makedirs(os.path.join(folder, "expect.files"), exist_ok=True)
            os.rename(os.path.join(folder, made), os.path.join(folder, "expect.files", made))
        for kind, content in (("args", words.replace(" ", "\n") + "\n"), ("expect.out", text), ("expect.status", "%d\n" % status),
                              ("note", note + "\n")):
            write(os.path.join(folder, kind), content)


def write(path, content):
    with open(path, "wb") as file:
        file.write(content if isinstance(content, bytes) else content.encode())


def line(text, number, content):
    """The text with another line of this number."""
    lines = text.split("\n")
    lines[number - 1] = content
    return "\n".join(lines)


# faulty configurations: a name, what is wrong, and the text
CONFIGURATION_FAULTS = (
    ("end", "the file ends before line 5", GOOD[:GOOD.index("50\n") + 3]),
    ("nothing", "no byte at all", ""),
    ("fields", "line 4 has two fields", line(GOOD, 4, "50,60")),
    ("number", "a frequency that isn't a number", line(GOOD, 4, "50 Hz")),
    ("sum", "the counts don't add up", line(GOOD, 2, "2,1A,0D")),
    ("digits", "19 digits", GOOD.replace("0.01", "1.234567890123456789")),
    ("day", "29 February 2023", GOOD.replace("12/03/2021", "29/02/2023", 1)),
    ("trigger", "hour 24 of the trigger", line(GOOD, 8, "12/03/2021,24:00:00")),
    ("date_form", "points in a date", line(GOOD, 7, "12.03.2021,09:15:00")),
    ("form", "an unknown form", GOOD.replace("ASCII", "BINARY16")),
    ("letter", "a count without its letter", line(GOOD, 2, "1,1,0D")),
    ("side", "PS is another letter", GOOD.replace(",P\n", ",Q\n")),
    ("revision", "the revision of 1991", GOOD.replace("1999", "1991")),
    ("old_title", "a first line of two fields", line(GOOD, 1, "LAB,DAQ")),
    ("rates", "two sampling rates", line(GOOD, 5, "2")),
    ("rate", "1200 samples a second", GOOD.replace("2400,", "1200,")),
    ("records", "no record", GOOD.replace("2400,3", "2400,0")),
    ("long_text", "a text of 65 bytes", GOOD.replace(",U,", "," + "U" * 65 + ",")),
    ("no_tail", "a line behind the last one", GOOD + "0\n"),
    ("position", "the channel's number isn't its position", line(GOOD, 3, "2" + GOOD.split("\n")[2][1:])),
)

# faulty ASCII data
DATA_FAULTS = (
    ("fields", "a record of two fields", line(THREE, 2, "2,23000")),
    ("number", "a value with a point", line(THREE, 2, "2,,23.0")),
    ("stamp", "a time stamp that isn't a number", line(THREE, 2, "2,x,23000")),
    ("range", "a value of six digits", line(THREE, 2, "2,,100000")),
    ("sample_number", "a sample number above its set", line(THREE, 1, "4294967296,,23000")),
    ("order", "a sample number is left out", line(THREE, 3, "4,,-23000")),
    ("short", "a record less", "1,,23000\n2,,23000\n"),
    ("long", "a record more", THREE + "4,,0\n"),
    ("blank", "a blank line between records", "1,,0\n\n2,,0\n3,,0\n"),
    ("marker", "a byte 1A before the last record", "1,,0\n2,,0\n\x1a3,,0\n"),
    ("second_marker", "two bytes 1A at the end", THREE + "\x1a\x1a"),
)

# faulty jobs
JOB_FAULTS = (
    ("toml", "no TOML document", "lamp = "),
    ("twice", "a key twice", JOB + "dmax = 4\n"),
    ("unknown", "an unknown key", JOB + "limit = 1\n"),
    ("absent", "no nominal voltage", JOB.replace("nominal_mv = 230000\n", "")),
    ("type", "a channel that is a string", JOB.replace("[1]", '[1, "2"]')),
    ("float", "a fraction for an integer", JOB.replace("230000", "230000.0")),
    ("uncertainty", "more than a hundredth of nominal", JOB.replace("1000", "2300001")),
    ("same_channel", "a channel twice", JOB.replace("[1]", "[1, 1]")),
    ("no_channels", "no channel", JOB.replace("[1]", "[]")),
    ("dmax", "a limit of 5 percent", JOB.replace("dmax = 4", "dmax = 5")),
    ("lamp", "another lamp", JOB.replace("230/50", "100/50")),
)

# jobs that the configuration doesn't match
MATCH_FAULTS = (
    ("channel", "a channel that isn't there", JOB.replace("[1]", "[7]")),
    ("lamp", "the lamp of the other frequency", JOB.replace("230/50", "120/60")),
    ("short", "too few records for the run-in and an interval", JOB.replace("interval_s = 1", "interval_s = 3")),
)

# words that no command has
USAGE = (
    ("unknown", "reports"),
    ("capital", "Check c.cfg d.dat"),
    ("check_short", "check c.cfg"),
    ("check_long", "check c.cfg d.dat 1"),
    ("same_names", "check c.cfg c.cfg"),
    ("channel_0", "levels c.cfg d.dat 0 230000 0"),
    ("channel_257", "levels c.cfg d.dat 257 230000 0"),
    ("nominal", "levels c.cfg d.dat 1 999 0"),
    ("uncertainty", "levels c.cfg d.dat 1 1000 10001"),
    ("sign", "levels c.cfg d.dat +1 230000 0"),
    ("eleven_digits", "levels c.cfg d.dat 1 00000230000 0"),
    ("no_workers", "report j.toml c.cfg d.dat"),
    ("workers_0", "report j.toml c.cfg d.dat 0"),
    ("workers_17", "report j.toml c.cfg d.dat 17"),
    ("job_and_data", "report a c.cfg a 1"),
)


def checks():
    group = Group("check")
    words = "check c.cfg d.dat"

    def accepted(name, note, c=GOOD, d=THREE):
        group.case(name, note, words, c_cfg=c, d_dat=d)

    accepted("ascii", "three records in ASCII")
    accepted("binary", "three records in BINARY", GOOD.replace("ASCII", "BINARY"), binary_data([23000, 23000, -23000]))
    accepted("cr_lf", "CR before each LF, in both files", GOOD.replace("\n", "\r\n"), THREE.replace("\n", "\r\n"))
    accepted("no_last_line_end", "neither file has a last line end", GOOD[:-1], THREE[:-1])
    accepted("tails", "line ends, spaces and one byte 1A behind the last line", GOOD + "\r\n \x1a", THREE + "\x1a\r\n")
    accepted("spaces", "spaces at both ends of fields", GOOD.replace(",", " , "), THREE.replace(",", " ,  "))
    accepted("lower_case", "letters of the counts, the form and PS in lower case",
             GOOD.replace("1A,0D", "1a,0d").replace("ASCII", "ascii").replace(",P", ",p"))
    accepted("empty_skew", "an empty skew is 0", line(GOOD, 3, "1,U,A,,V,0.01,0,,-32767,32767,1,1,P"))
    accepted("exponents", "decimals with exponents", line(GOOD, 3, "1,U,A,,V,1E-2,.0e5,0.,-3.2767e4,+32767,1,1.0,P"))
    accepted("two_rates_of_time", "4800 samples a second, one digit for day and hour",
             GOOD.replace("2400,", "4.8E3,").replace("12/03/2021,09", "1/3/2021,9"))
    accepted("leap_day", "29 February 2024, and nine digits of a second", GOOD.replace("12/03/2021,09:15:00.000000", "29/02/2024,23:59:59.123456789"))
    accepted("channels", "two analog channels and a digital one", TWO, "1,,1,2,0\n2,,3,4,1\n3,,5,6,0\n")
    accepted("digital_words", "17 digital channels take two words", GOOD.replace("1,1A,0D", "18,1A,17D").replace("50\n", "".join(
        "%d,D,,,0\n" % i for i in range(1, 18)) + "50\n", 1).replace("ASCII", "BINARY"), b"".join(
            bytes([n, 0, 0, 0, 9, 9, 9, 9, 5, 0, 255, 255, 1, 254]) for n in range(3)))
    accepted("first_number", "the first sample number is free, the last one is the greatest", d="4294967293,,0\n4294967294,,0\n4294967295,,0\n")
    accepted("stamps", "time stamps have no further meaning", d="1,9999999999,0\n2,0,0\n3,,0\n")
    accepted("missing_value", "a missing value is no fault where no channel is measured", d="1,,99999\n2,,0\n3,,0\n")
    for name, note, change in CONFIGURATION_FAULTS:
        accepted("cfg_" + name, "configuration: " + note, change)
    for name, note, change in DATA_FAULTS:
        accepted("dat_" + name, "data: " + note, d=change)
    binary, rows = GOOD.replace("ASCII", "BINARY"), binary_data([23000, 23000, -23000])
    accepted("dat_binary_short", "data: a byte less in BINARY", binary, rows[:-1])
    accepted("dat_binary_long", "data: a byte 1A more in BINARY", binary, rows + b"\x1a")
    accepted("dat_binary_order", "data: a sample number comes twice in BINARY", binary, rows[:10] * 3)
    return group.count


def levels():
    group = Group("levels")
    words = "levels c.cfg d.dat 1 230000 1000"
    row = samples(square(24), [230] * 6)
    plain = configuration([("U", "A", "V", "1", "0")], len(row))

    def measured(name, note, c=plain, d=None, words=words):
        group.case(name, note, words, c_cfg=c, d_dat=ascii_data(row) if d is None else d)

    measured("square", "a square wave of nominal voltage")
    measured("no_uncertainty", "the same, known exactly", words=words[:-4] + "0")
    measured("most_uncertainty", "the same within a hundredth of nominal", words=words[:-4] + "2300000")
    measured("leading_zeros", "numbers with leading zeros", words="levels c.cfg d.dat 001 0000230000 0000001000")
    measured("other_nominal", "the same over 120 V", words="levels c.cfg d.dat 1 120000 1000")
    measured("sine", "a sine", d=ascii_data(samples(wave(24), [325] * 6)))
    measured("swell", "one half-period is greater", d=ascii_data(samples(square(24), [230, 230, 253, 230, 230, 230])))
    measured("no_half_period", "too few records for a half-period", configuration([("U", "A", "V", "1", "0")], 11), ascii_data(row[:11]))
    measured("no_sign_change", "a voltage that never changes its sign is cut at twice half a period", d=ascii_data([230] * len(row)))
    measured("zeros", "no voltage at all", d=ascii_data([0] * len(row)))
    measured("short_half_periods", "a sign change within less than half of half a period is no cut",
             d=ascii_data(samples(square(10), [230] * 14) + [230] * 4))
    measured("kilovolts", "a channel in kV with an offset", configuration([("U", "A", "kV", "0.001", "0.01")], len(row)))
    measured("negative_scale", "a negative scale", configuration([("U", "A", "v", "-1", "0")], len(row)))
    measured("sixty_hertz", "60 Hz at 4800 samples a second", configuration([("U", "A", "V", "1", "0")], 240, 60, 4800),
             ascii_data(samples(square(40), [120] * 6)), "levels c.cfg d.dat 1 120000 50")
    measured("second_channel", "the second of two channels", configuration([("U", "A", "A", "1", "0"), ("V", "B", "V", "0.5", "0")], len(row)),
             ascii_data(row, [2 * value for value in row]), words.replace(" 1 ", " 2 "))
    measured("binary", "in BINARY", configuration([("U", "A", "V", "1", "0")], len(row), form="BINARY"), binary_data(row))
    measured("missing", "a missing value of the channel", d=ascii_data(row[:5] + [99999] + row[6:]))
    measured("missing_binary", "a missing value in BINARY", configuration([("U", "A", "V", "1", "0")], len(row), form="BINARY"),
             binary_data(row[:5] + [-32768] + row[6:]))
    measured("missing_elsewhere", "a missing value of another channel is no fault",
             configuration([("U", "A", "V", "1", "0"), ("V", "B", "V", "1", "0")], len(row)),
             ascii_data(row, [99999] * len(row)))
    measured("limit_of_range", "exactly four times nominal is in range", d=ascii_data(row[:7] + [920] + row[8:]))
    measured("over_range", "one step above four times nominal", d=ascii_data(row[:7] + [-921] + row[8:]))
    measured("range_before_fault", "over range in a lesser record than a fault", d=ascii_data(row[:7] + [921] + row[8:100]))
    measured("fault_before_range", "a fault in a lesser record than over range", d=ascii_data(row[:7] + [100000, 921] + row[9:]))
    measured("no_channel", "a channel that isn't there", words=words.replace(" 1 ", " 2 "))
    measured("unit", "a channel in amperes", configuration([("I", "A", "A", "1", "0")], len(row)))
    measured("scale", "a scale above 10000", configuration([("U", "A", "V", "10000.5", "0")], len(row)))
    measured("frequency", "59.94 Hz is neither 50 nor 60", plain.replace("\n50\n", "\n59.94\n"))
    return group.count


def reports():
    group = Group("report")
    os.makedirs(os.path.join(group.folder, "common"))
    shapes = {"calm": [3253] * 220, "dip": [3253] * 140 + [3090] * 8 + [3253] * 72, "step": [3253] * 100 + [3090] * 120,
              "deep": [3253] * 100 + [2900] * 60 + [3253] * 60, "flicker": [3253 if n // 6 % 2 else 3245 for n in range(220)],
              "doubt": [3253] * 99 + [3260] + [3253] * 97 + [3247] + [3253] * 22}
    for name, shape in shapes.items():
        write(os.path.join(group.folder, "common", name + ".dat"), binary_data(samples(wave(24), shape)))
    recording = configuration([("U", "A", "V", "0.1", "0")], 5280, form="BINARY")
    write(os.path.join(group.folder, "common", "voltage.cfg"), recording)

    def report(name, note, data="calm", j=JOB, cfg="../common/voltage.cfg", workers="1", **files):
        words = "report j.toml %s %s %s" % (cfg, data if "." in data else "../common/%s.dat" % data, workers)
        group.case(name, note, words, j_toml=j, **files)

    report("pass", "a calm supply")
    report("dip", "a dip of 5 percent for 80 ms fails by dmax and Pst", "dip")
    report("dip_at_6", "dmax of the same dip passes with a limit of 6 percent", "dip", JOB.replace("dmax = 4", "dmax = 6"))
    report("step", "a step of 5 percent to a new steady level fails by dc, dmax and Pst", "step")
    report("deep", "a dip of 11 percent for 0.6 seconds fails by dmax, t and Pst", "deep", JOB.replace("dmax = 4", "dmax = 7"))
    report("flicker", "a small change every 60 ms: undecided by Pst", "flicker", JOB.replace("1000", "20000"))
    report("flicker_known", "the same known exactly passes", "flicker", JOB.replace("uncertainty_uv = 1000", "uncertainty_uv = 0"))
    report("doubt", "windows of which the uncertainty leaves open whether they are steady", "doubt", JOB.replace("1000", "30000"))
    report("much_doubt", "more than six such windows", "doubt", JOB.replace("1000", "300000"))
    report("run_in", "the first second isn't judged", "flicker", JOB.replace("run_in_s = 0", "run_in_s = 1"))
    report("two_seconds", "one interval of two seconds", "step", JOB.replace("interval_s = 1", "interval_s = 2"))
    report("sixteen_workers", "16 workers on one channel", "dip", workers="16")
    report("twelve", "twelve intervals, and so the long-term severity", "d.dat", cfg="c.cfg", c_cfg=recording.replace("2400,5280", "2400,28800"),
           d_dat=binary_data(samples(wave(24), [3253 if n // 6 % 2 else 3249 for n in range(1200)])))
    three = configuration([("UA", "A", "V", "0.1", "0"), ("I", "", "A", "0.1", "0"), ("UB", "B", "V", "0.1", "0")], 2400, form="BINARY")
    calm, other = samples(wave(24), [3253] * 100), samples(wave(24), [3253] * 60 + [2900] * 40)
    report("order", "two channels in the job's order", "d.dat", JOB.replace("[1]", "[3, 1]"), "c.cfg", "2",
           c_cfg=three, d_dat=binary_data(calm, calm, other))
    report("first_of_the_job", "of two channels over range in one record the job's first is named", "d.dat", JOB.replace("[1]", "[3, 1]"), "c.cfg",
           c_cfg=three, d_dat=binary_data(calm[:9] + [9999] + calm[10:], calm, other[:9] + [9999] + other[10:]))
    report("spaces", "a job with a comment and an integer in base 16", j=JOB.replace("dmax = 4", "dmax = 0x4 # percent"))
    for name, note, change in JOB_FAULTS:
        report("job_" + name, "job: " + note, j=change)
    for name, note, change in MATCH_FAULTS:
        report("match_" + name, "match: " + note, j=change)
    report("match_long", "match: above 20,000,000 records; the data aren't read",
           cfg="c.cfg", data="absent.dat", c_cfg=recording.replace("2400,5280", "2400,20000001"))
    report("configuration_first", "the configuration is refused before the data are looked at",
           cfg="c.cfg", data="absent.dat", c_cfg=recording.replace("1999", "1991"))
    report("no_data", "the data aren't there", data="absent.dat")
    return group.count


def others():
    group = Group("tables")
    for lamp in ("230/50", "120/60"):
        for rate in ("", " 2400", " 4800"):
            group.case((lamp.replace("/", "_") + rate).replace(" ", "_at_"), "the filter of a lamp", "tables " + lamp + rate)
    for name, words in (("no_lamp", "tables"), ("other_lamp", "tables 230/60"), ("other_rate", "tables 230/50 9600"),
                        ("long", "tables 230/50 2400 1")):
        group.case(name, "words that no command has", words)
    generated = Group("gen")
    generated.case("second", "one second of seed 1", "gen 1 1 c.cfg d.dat")
    for name, note, words in (("no_second", "no second at all", "gen 1 0 c.cfg d.dat"), ("long", "8001 seconds", "gen 1 8001 c.cfg d.dat"),
                              ("great_seed", "a seed of 2^32", "gen 4294967296 1 c.cfg d.dat"), ("same_names", "one name twice", "gen 1 1 c c")):
        generated.case(name, note, words)
    usage = Group("usage")
    for name, words in USAGE:
        usage.case(name, "words that no command has", words)
    return group.count + generated.count + usage.count


def main():
    shutil.rmtree(CASES, ignore_errors=True)
    os.makedirs(CASES)
    print("%d cases" % (checks() + levels() + reports() + others()))


if __name__ == "__main__":
    main()
