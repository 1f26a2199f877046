"""What a fault of a program's file means (docs/ABI.md, A program's file): the likely cause and what to do."""

KINDS = {
    "TooShort": "the file has fewer than 64 bytes, so it is no ELF file",
    "Magic": "the file doesn't begin with 7f 45 4c 46, so it is no ELF file",
    "Class": "the file isn't ELF of 64 bits, little-endian, of version 1, and for OSABI 0 or 17",
    "Machine": "the file is for another machine than RISC-V",
    "Kind": "the file is neither a program (ET_EXEC) nor one that can be placed (ET_DYN): it is an object file",
    "Header": "its program headers are of another size than 56, none, over 64, or past its end",
    "Interp": "the file is linked dynamically: it has a PT_INTERP",
    "Compressed": "the file may have compressed instructions",
    "FloatAbi": "the file passes floating-point registers",
    "Segment": "a segment of it has more bytes than memory or than the file has, may be written and executed, lies outside of 0x10000 to "
               "0x2000000000, or comes to over 32,768 pages",
    "Overlap": "a segment of it has a page in common with an earlier one",
    "Entry": "its entry isn't a multiple of 4 in an executable segment",
}

WHAT_TO_DO = {
    "Kind": "link it: guest/cc without -c",
    "Header": "link it by guest/cc; if it was copied, it may be cut off",
    "Interp": "link it with -static, as guest/cc does",
    "Compressed": "compile and link it with -march=rv64im, as guest/cc does",
    "FloatAbi": "compile and link it with -mabi=lp64, as guest/cc does",
    "Segment": "link it with guest/guest.ld, as guest/cc does",
    "Overlap": "link it with guest/guest.ld, as guest/cc does",
    "Entry": "link it with guest/start.c, as guest/cc does",
}

MACHINES = {3: "x86 of 32 bits", 8: "MIPS", 20: "PowerPC", 21: "PowerPC of 64 bits", 22: "S390", 40: "Arm of 32 bits", 62: "x86 of 64 bits",
            183: "Arm of 64 bits", 258: "LoongArch"}


def explain(fault, number, program):
    """The lines that say what the fault is; `program` has the file's first bytes, or is None."""
    if fault not in KINDS:
        return ["the program's file is refused"]
    header = f", program header {number}" if number is not None else ""
    lines = [f"the program's file{header}: {KINDS[fault]}"]
    found = what_it_is(fault, program) if program is not None else None
    lines += [found] if found else []
    lines.append(WHAT_TO_DO.get(fault, "compile it by guest/cc; `file NAME` says what it is"))
    return [*lines, "see docs/ABI.md, A program's file, and docs/PROGRAMS.md"]


def what_it_is(fault, program):
    """What the file looks like by its first bytes, or None."""
    if not program:
        return "it is empty"
    if fault == "Machine":
        machine = int.from_bytes(program[18:20], "little")
        return f"it is for {MACHINES.get(machine, f'machine {machine}')}: a compiler for this computer made it"
    if fault == "Class":
        return "it is of 32 bits: -march=rv64im -mabi=lp64" if program[4] == 1 else None
    if fault in ("Magic", "TooShort"):
        return kind_of(program)
    return None


def kind_of(program):
    if program.startswith(b"#!"):
        return "it is a script: an interpreter has to be compiled for the sandbox, and the script is a file of its tree"
    if program.startswith(b"!<arch>"):
        return "it is a library of object files"
    if program.startswith(b"MZ"):
        return "it is a program for Windows"
    if is_words(program):
        return "it is a text, such as a source or a launch file; the launch file is standard input: `< FILE`"
    return None


def is_words(data):
    return all(byte >= 0x20 or byte in b"\t\n\r" for byte in data[:4096])
