"""What is looked at in an answer: in its lines, or in the file of a loading."""
import struct

from inputs import left, mono

RATE = "InconsistentSampleRate"


# ---- What is looked at in the lines of an answer

def joined(lines):
    """The lines with one blank between words."""
    return " / ".join(" ".join(line.split()) for line in lines)


def whole(program, lines):
    return joined(lines)


def first(program, lines):
    return joined(lines[:1])


def last(program, lines):
    return joined(lines[-1:])


def reads(program, lines):
    return joined(line for line in lines if line.startswith("READ"))


def heard(program, lines):
    """What the decoder gave, position by position; or the panic."""
    return joined(line for line in lines if line.startswith(("PCM", "PANIC")))


def ending(program, lines):
    """How a loading ended."""
    return lines[0].split()[0]


def ending_in_mono(program, lines):
    """The same where a push has one rate: the Rust's one error for two numbers is 22 then."""
    return ending(program, lines).replace(RATE, "22")


def ending_in_two(program, lines):
    """The same where its sides have different rates: it is 15 then."""
    return ending(program, lines).replace(RATE, "15")


def loaded(look):
    """How a loading ended, and what `look` finds in its file."""

    def view(program, lines):
        end, digits = lines[0].split()
        return end if end == "PANIC" else f"{end}, {look(program, bytes.fromhex(digits.strip('-')))}"

    return view


# ---- What is looked at in a file

def word(file, at):
    return f"{struct.unpack_from('>I', file, at)[0]:08x}"


def size(program, file):
    return f"{len(file):,} bytes"


def end_address(program, file):
    return f"end address {word(file, 24)}"


def end_address_and_size(program, file):
    return f"{end_address(program, file)}, {size(program, file)}"


def like_a_file(program, file):
    alike = program.ask("load", mono(left(2))) == [f"OK {file.hex()}"]
    return "the file of [2]" if alike else "another file"


def end_addresses(program, file):
    return f"end address {word(file, 24)}, in the block {word(file, 132)}, {listing(program, file)}"


def first_channel(program, file):
    coefficient, gain = struct.unpack_from(">h30xH", file, 32)
    return f"{end_address(program, file)}, coefficient {coefficient}, gain {gain}"


def listing(program, file):
    return joined(program.ask("raw", file))


def exact_listing(program, file):
    return "\n".join(program.ask("key", file))


def count_byte(program, file):
    return f"count byte {file[156]}, {joined(program.ask('raw', file)[:3])}"


def second_channel(program, file):
    found = [line for line in program.ask("read", file) if line.startswith("READ 1")]
    return f"channel 1 has {found[0].split()[-1]}"


def opening(program, file):
    return f"{len(file)} bytes, opens to {joined(program.ask('raw', file)[:1])}"
