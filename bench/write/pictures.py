"""Writes the pictures that `run` times into a folder: slices of test pictures that ffmpeg codes, 720x576, behind ten
bytes of their head."""
import os
import re
import subprocess
import sys

# name, whether interlaced, whether of I pictures alone, the quantiser scale, which type of picture
PICTURES = [("I2", False, True, 2, 1), ("I4", False, True, 4, 1), ("I8", False, True, 8, 1)]
PICTURES += [("P", False, False, 4, 2), ("B", False, False, 4, 3)]
PICTURES += [("Pfield", True, False, 4, 2), ("Bfield", True, False, 4, 3)]


def stream(interlaced, intra, scale):
    source = "testsrc2=size=720x576:rate=%d,noise=alls=6:all_seed=7" % (50 if interlaced else 25)
    if interlaced:
        source += ",interlace=scan=tff:lowpass=off"
    words = ["ffmpeg", "-v", "error", "-f", "lavfi", "-i", source, "-frames:v", "12", "-pix_fmt", "yuv420p"]
    words += ["-c:v", "mpeg2video", *(["-g", "1", "-bf", "0"] if intra else ["-g", "12", "-bf", "2"])]
    words += ["-flags", "+ildct+ilme"] if interlaced else []
    words += ["-qscale:v", str(scale), "-f", "mpeg2video", "-"]
    return subprocess.run(words, check=True, stdout=subprocess.PIPE).stdout


def pictures(data):
    """The type, the coding extension and the slices of each picture."""
    starts = [m.start() for m in re.finditer(b"\0\0\1", data)] + [len(data)]
    for begin, end in zip(starts, starts[1:]):
        code, body = data[begin + 3], data[begin + 4:end]
        if code == 0:
            kind, extension, slices = (body[1] >> 3) & 7, None, b""
        elif code == 0xB5 and body[0] >> 4 == 8:
            extension = body
        elif 1 <= code <= 0xAF:
            slices += data[begin:end]
            if code == 36:
                yield kind, extension, slices


def fields(kind, extension):
    bits = "".join("%08d" % int(bin(b)[2:]) for b in extension)
    f_codes = [int(bits[at:at + 4], 2) for at in (4, 8, 12, 16)]
    frame_only, non_linear, table_15, alternate = (int(bits[at]) for at in (25, 27, 28, 29))
    return bytes([kind, *f_codes, int(bits[20:22], 2), frame_only, non_linear, table_15, alternate])


for name, interlaced, intra, scale, wanted in PICTURES:
    found = [p for p in pictures(stream(interlaced, intra, scale)) if p[0] == wanted]
    kind, extension, slices = found[-1]
    with open(os.path.join(sys.argv[1], name), "wb") as file:
        file.write(fields(kind, extension) + slices)
