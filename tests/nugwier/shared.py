"""What the scripts of this folder share: their words, and files of the machine."""
import argparse
import os

TOP = os.path.dirname(os.path.dirname(os.path.dirname(os.path.realpath(__file__))))


def program_and_files(doc):
    """What the words of a script name: the program, which is that of the repository if none is named, and files."""
    parser = argparse.ArgumentParser(description=doc, formatter_class=argparse.RawDescriptionHelpFormatter)
    parser.add_argument("--program", default=os.path.join(TOP, "nugwier"))
    parser.add_argument("files", nargs="*")
    words = parser.parse_args()
    return words.program, words.files


def elf_files(folder, most, count):
    """Up to the count of the ELF files below a folder that have at most that many bytes, spread over the sizes."""
    found = []
    for path, _, names in os.walk(folder):
        for name in names:
            file = os.path.join(path, name)
            if os.path.islink(file) or not os.path.isfile(file) or os.path.getsize(file) > most:
                continue
            with open(file, "rb") as source:
                if source.read(4) == b"\x7fELF":
                    found.append(file)
    found.sort(key=lambda file: (os.path.getsize(file), file))
    return found[:: max(1, len(found) // count)][:count]
