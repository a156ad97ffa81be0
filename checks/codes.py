#!/usr/bin/env python3
"""codes.py [PROGRAM [NUMBER [SEED]]]: decodes each byte in each code table, and in each national set, and so many
random texts, 2,000 where none is said, in UTF-8 and UTF-16, half of them broken; and compares what vp_read_codes says
with Python's codecs, and in UTF-8 with the maximal subparts of ill-formed bytes, found by another way. PROGRAM is
vp_read_codes as the gate builds it."""
import random
import shutil
import subprocess
import sys
from pathlib import Path
from typing import Dict, List, Optional, Tuple

TOP = Path(__file__).resolve().parent.parent
BUILT = TOP / "crates/tests/vp_read_codes/out/vp_read_codes"
# a code point, none for bytes that are no character, and how many bytes it has
Unit = Tuple[Optional[int], int]
# the code tables in the program's order, by Python's codecs; two of them Python hasn't
TABLES = ["cp437", "cp720", "cp737", "cp775", "cp850", "", "cp852", "cp855", "cp857", "cp858", "cp860", "cp861",
          "cp862", "cp863", "cp864", "cp865", "cp866", "cp869", "cp1125", "cp874", "cp1250", "cp1251", "cp1252",
          "cp1253", "cp1254", "cp1255", "cp1256", "cp1257", "cp1258", "kz1048", "iso8859_1", "iso8859_2", "iso8859_3",
          "iso8859_4", "iso8859_5", "iso8859_6", "iso8859_7", "iso8859_8", "iso8859_9", "iso8859_10", "iso8859_11",
          "iso8859_13", "iso8859_14", "iso8859_15", "iso8859_16", "tis_620", ""]
CP851, KATAKANA = 5, 46
# ESC t
RECEIPTS = {0: "cp437", 2: "cp850", 3: "cp860", 4: "cp863", 5: "cp865", 13: "cp857", 14: "cp737", 15: "iso8859_7",
            16: "cp1252", 17: "cp866", 18: "cp852", 19: "cp858", 21: "tis_620", 26: "cp874", 32: "cp720", 33: "cp775",
            34: "cp855", 35: "cp861", 36: "cp862", 37: "cp864", 38: "cp869", 39: "iso8859_2", 40: "iso8859_15",
            44: "cp1125", 45: "cp1250", 46: "cp1251", 47: "cp1253", 48: "cp1254", 49: "cp1255", 50: "cp1256",
            51: "cp1257", 52: "cp1258", 53: "kz1048"}
# ^CI
LABELS = {27: "cp1252", 31: "cp1250", 33: "cp1251", 34: "cp1253", 35: "cp1254", 36: "cp1255"}
UNICODE = {17: "utf_16_be", 28: "utf_8", 29: "utf_16_be", 30: "utf_16_le"}
# the twelve bytes that national sets change, and what each set has there
CHANGED = b"#$@[\\]^`{|}~"
COUNTRIES = ["#$@[\\]^`{|}~", "#$à°ç§^`éùè¨", "#$§ÄÖÜ^`äöüß", "£$@[\\]^`{|}~", "#$@ÆØÅ^`æøå~", "#¤ÉÄÖÅÜéäöåü",
             "#$@°\\é^ùàòèì", "₧$@¡Ñ¿^`¨ñ}~", "#$@[¥]^`{|}~", "#¤ÉÆØÅÜéæøåü", "#$ÉÆØÅÜéæøåü", "#$á¡Ñ¿é`íñóú",
             "#$á¡Ñ¿éüíñóú", "#$@[₩]^`{|}~", "#$ŽŠĐĆČžšđćč", "#¥@[\\]^`{|}~", "#₫@[\\]^`{|}~", "#$@[\\]^`{|}~"]
SETS = ["#$@[¢]^`{|}~", "#$@⅓¢⅔^`¼½¾~", "£$@[¢]^`{|}~", "ƒ$§[Ĳ]^`{ĳ}~", "#$@ÆØÅ^`æøå~", "Ü$ÉÄÖÅÜéäöåü", "#$§ÄÖÜ^`äöüß",
        "£$à[ç]^`éùè¨", "#$àâçêîôéùèû", "£$§[çé^ùàòèì", "#$§¡Ñ¿^`{ñç~", "£$ÉÄÖÜ^äëïöü", "#$@[¥]^`{|}~", "#$@[\\]^`{|}~"]
# half-width katakana, and what receipt printers have around them
AROUND = "▁▂▃▄▅▆▇█▏▎▍▌▋▊▉┼┴┬┤├▔─│▕┌┐└┘╭╮╰╯", "═╞╪╡◢◣◥◤♠♥♦♣●○╱╲╳円年月日時分秒〒市区町村人▒"


def table_of(codec: str) -> List[Optional[int]]:
    """Returns what a codec has for the bytes from 80 on."""
    said: List[Optional[int]] = []
    for byte in range(128, 256):
        try:
            said.append(ord(bytes([byte]).decode(codec)))
        except UnicodeDecodeError:
            said.append(None)
    return said


def katakana() -> List[Optional[int]]:
    """Returns the table of half-width katakana, by Shift JIS."""
    kana: List[Optional[int]] = [ord(bytes([byte]).decode("shift_jis")) for byte in range(0xa1, 0xe0)]
    return [*map(ord, AROUND[0]), None, *kana, *map(ord, AROUND[1]), None]


def cp851() -> Optional[List[Optional[int]]]:
    """Returns code page 851 by ICU, if it is there."""
    if not shutil.which("uconv"):
        return None
    said: List[Optional[int]] = []
    for byte in range(128, 256):
        run = subprocess.run(["uconv", "-f", "ibm-851", "-t", "UTF-8"], input=bytes([byte]), stdout=subprocess.PIPE,
                             stderr=subprocess.DEVNULL, check=False)
        said.append(ord(run.stdout.decode()) if run.returncode == 0 and run.stdout else None)
    return said


def units_of(low: Dict[int, str], high: List[Optional[int]]) -> List[Unit]:
    """Returns the units of all bytes, where some below 80 are changed."""
    below: List[Unit] = [(ord(low.get(byte, chr(byte))), 1) for byte in range(128)]
    return below + [(code, 1) for code in high]


def changed(row: str) -> Dict[int, str]:
    """Returns which bytes a national set changes."""
    return dict(zip(CHANGED, row))


def front(text: bytes) -> Unit:
    """Returns the first unit of a text in UTF-8: Python's own, tried at every length."""
    for n in range(1, 5):
        try:
            return ord(text[:n].decode()), n
        except (UnicodeDecodeError, TypeError):
            pass
    # bytes that more of a text may complete
    for n in range(min(3, len(text)), 1, -1):
        if any(completed(text[:n] + bytes([byte]), 4 - n - 1) for byte in (0x80, 0x8f, 0x90, 0x9f, 0xa0, 0xbf)):
            return None, n
    return None, 1


def completed(text: bytes, more: int) -> bool:
    """Returns whether a text is a character, or may be with so many bytes more."""
    for n in range(more + 1):
        try:
            if len((text + b"\x80" * n).decode()) == 1:
                return True
        except UnicodeDecodeError:
            pass
    return False


def utf_8(text: bytes) -> List[Unit]:
    """Returns the units of a text in UTF-8."""
    units: List[Unit] = []
    while text:
        units.append(front(text))
        text = text[units[-1][1]:]
    return units


def utf_16(text: bytes, order: str) -> List[Unit]:
    """Returns the units of a text in UTF-16."""
    units: List[Unit] = []
    while text:
        for n in (2, 4):
            try:
                units.append((ord(text[:n].decode(order)), n))
                break
            except (UnicodeDecodeError, TypeError):
                pass
        else:
            units.append((None, min(2, len(text))))
        text = text[units[-1][1]:]
    return units


def random_text(codec: str) -> bytes:
    """Returns a text of characters of all lengths, which may be broken."""
    tops = [0x7f, 0x7ff, 0xd7ff, 0xffff, 0x10ffff]
    codes = [random.randrange(random.choice(tops) + 1) for _ in range(random.randrange(12))]
    text = bytearray("".join(chr(code) for code in codes if not 0xd800 <= code < 0xe000).encode(codec))
    for _ in range(random.choice([0, 0, 1, 2, 5])):
        at = random.randrange(len(text) + 1)
        kind = random.randrange(3)
        if kind == 0:
            del text[at:at + random.randrange(1, 4)]
        elif kind == 1:
            text.insert(at, random.randrange(256))
        else:
            text[at:at] = random.choice([b"\xe0", b"\xed\xa0", b"\xf0\x9f", b"\xf4\x8f\xbf", b"\xd8\x00", b"\x00\xdc"])
    return bytes(text)


def cases(number: int) -> List[Tuple[bytes, bytes, Optional[List[Unit]]]]:
    """Returns letters and numbers, texts, and their units, none where a number means nothing."""
    every = bytes(range(256))
    rows: List[Tuple[bytes, bytes, Optional[List[Unit]]]] = []
    tables = [table_of(codec) if codec else None for codec in TABLES]
    tables[CP851], tables[KATAKANA] = cp851(), katakana()
    for n, high in enumerate(tables):
        if high:
            rows.append((b"P" + bytes([n]), every, units_of({}, high)))
        else:
            print("codes.py: code page 851 isn't compared, since uconv isn't there", file=sys.stderr)
    for n in range(256):
        high = katakana() if n == 1 else table_of(RECEIPTS[n]) if n in RECEIPTS else tables[CP851] if n == 11 else None
        if high or n != 11:
            rows.append((b"T" + bytes([n]), every, units_of({}, high) if high else None))
        row = COUNTRIES[n] if n < len(COUNTRIES) else None
        rows.append((b"R" + bytes([n]), every, units_of(changed(row), table_of("cp437")) if row else None))
        label = SETS[n] if n < len(SETS) else SETS[13] if n in (14, 24, 26) else None
        if label:
            rows.append((b"C" + bytes([n]), every, units_of({**changed(label), 0x15: "€"}, table_of("cp850"))))
        elif n in LABELS:
            rows.append((b"C" + bytes([n]), every, units_of({}, table_of(LABELS[n]))))
        elif n not in UNICODE:
            rows.append((b"C" + bytes([n]), every, None))
    for n, codec in UNICODE.items():
        for _ in range(number):
            text = random_text(codec)
            rows.append((b"C" + bytes([n]), text, utf_8(text) if codec == "utf_8" else utf_16(text, codec)))
    return rows


def main() -> int:
    """Compares, and says how many agree."""
    program = sys.argv[1] if len(sys.argv) > 1 else str(BUILT)
    random.seed(int(sys.argv[3]) if len(sys.argv) > 3 else 10646)
    rows = cases(int(sys.argv[2]) if len(sys.argv) > 2 else 2000)
    given = b"".join(which + len(text).to_bytes(3, "big") + text for which, text, _ in rows)
    said = subprocess.run([program], input=given, stdout=subprocess.PIPE, check=True).stdout.decode().split(".\n")
    if len(said) != len(rows) + 1:
        print(f"codes.py: {len(said) - 1} texts are told of {len(rows)}", file=sys.stderr)
        return 1
    for (which, text, units), told in zip(rows, said):
        want = ["?"] if units is None else [f"{'-' if code is None else code} {n}" for code, n in units]
        if told.split() != " ".join(want).split():
            print(f"codes.py: of {which!r} {text!r}\nsaid {told.splitlines()}\nwant {want}", file=sys.stderr)
            return 1
    print(f"{len(rows)} texts agree")
    return 0


if __name__ == "__main__":
    sys.exit(main())
