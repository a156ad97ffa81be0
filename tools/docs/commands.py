#!/usr/bin/env python3
"""commands.py: writes what the commands beside vp say of themselves, by --help, into the completions
(completions/vp-tools.* and _vp-tools) and into their manual page (docs/vp-tools.1). commands.py --check says which
commands and options these lack, or have though no command has them; then the status is 1."""
import os
import re
import subprocess
import sys

ROOT = os.path.dirname(os.path.dirname(os.path.dirname(os.path.realpath(__file__))))
BASH, ZSH, FISH = (f"completions/{it}" for it in ("vp-tools.bash", "_vp-tools", "vp-tools.fish"))
PAGE = "docs/vp-tools.1"
NOTE = "written by tools/docs/commands.py"
# Values that name a file or a folder; of others nothing is offered.
FILES = re.compile(r"FILE|SHEET|FOLDER|MAP|KNOWN|REPORT")
OPTION = re.compile(r"  (?:(-\w)(?:, | \S+, ))?(--[\w-]+)(?:[ =](\S(?:\S| (?! ))*))?(?:  +(.*))?$")
IN_USAGE = re.compile(r"(--[\w-]+)(?: ([A-Z][A-Z,.]*|\w+(?:\|\w+)+))?")
WIDTH, HELP = 76, "tells of the command"


class Option:
    """An option: its name, a letter, what its value is called, which values it can have, and what is said of it."""

    def __init__(self, name: str, letter: str = "", value: str = "", words: str = "") -> None:
        self.name, self.letter, self.value, self.words = name, letter, value, words
        choices = re.fullmatch(r"\{(.*)\}|(\w+(?:\|\w+)+)", value)
        self.choices = re.split(r"[,|]", choices[1] or choices[2]) if choices else []
        self.takes_file = bool(value and not choices and FILES.match(value))


class Command:
    """A command: how it is called, what it says of itself, its options, and what its first word can be."""

    def __init__(self, place: str) -> None:
        self.name = f"vp-{os.path.basename(place)}"
        ran = subprocess.run(
            [f"{ROOT}/recipes/{place}", "--help"],
            env={**os.environ, "COLUMNS": str(WIDTH), "PYTHONDONTWRITEBYTECODE": "1", "LC_ALL": "C.UTF-8"},
            stdout=subprocess.PIPE,
            stderr=subprocess.STDOUT,
            check=False,
        )
        self.text = ran.stdout.decode().strip("\n").split("\n")
        found = re.search(r"(?m)^  \{([\w,]+)\}", "\n".join(self.text))
        self.first_words = found[1].split(",") if found else []
        self.options = self.listed() or self.in_usage()

    def listed(self) -> "list[Option]":
        """Returns the options that stand in a list of their own."""
        found: "list[Option]" = []
        for line in self.text:
            at = OPTION.match(line)
            if at:
                found.append(Option(at[2], at[1] or "", at[3] or "", at[4] or ""))
            elif found and re.match(r" {8,}\S", line):
                found[-1].words = f"{found[-1].words} {line.strip()}".strip()
        for option in found:
            option.words = HELP if option.name == "--help" else option.words
        return found

    def in_usage(self) -> "list[Option]":
        """Returns the options that the usage names, and --help, which each command has."""
        found = {it[1]: Option(it[1], "", it[2] or "") for line in self.text for it in IN_USAGE.finditer(line)}
        return [*found.values(), *([] if "--help" in found else [Option("--help", words=HELP)])]

    def parts(self) -> "tuple[list[str], list[str]]":
        """Returns the lines of its usage, and of what is said behind that, but for lists of words and options."""
        lists = re.compile(r"(positional|optional) arguments:|options:")
        lines = self.text[: next((n for n, it in enumerate(self.text) if lists.match(it)), None)]
        gap = lines.index("") if "" in lines else len(lines)
        return (lines[:gap], lines[gap + 1:]) if "usage:" in lines[0] else ([], lines)


def commands() -> "list[Command]":
    """Returns the commands, as ./install puts them on the path."""
    folder = f"{ROOT}/recipes"
    files = sorted(it for it in os.listdir(folder) if os.path.isfile(f"{folder}/{it}"))
    own = [it for it in files if os.access(f"{folder}/{it}", os.X_OK)]
    return [Command(it) for it in sorted([*own, "viewer/viewer", "device/device"], key=os.path.basename)]


def in_bash(them: "list[Command]") -> str:
    """Returns the completions for bash."""
    values, options = [], []
    for it in them:
        by_value = {it.name: it for it in it.options if it.value and not it.takes_file}
        for name, option in by_value.items():
            values.append(f"    {it.name}:{name}) options='{' '.join(option.choices)}' only=yes ;;\n")
        if it.first_words:
            words = " ".join([*it.first_words, "--help"])
            values.append(f"    {it.name}:{it.name} | {it.name}:*/{it.name}) options='{words}' only=yes ;;\n")
        options.append(f"        {it.name}:-*) options='{' '.join(it.name for it in it.options)}' ;;\n")
    return f"""# Completes the words of the commands beside vp in bash; {NOTE}.
_vp_tools() {{
    local word=${{COMP_WORDS[COMP_CWORD]}} before=${{COMP_WORDS[COMP_CWORD - 1]}} tool=${{COMP_WORDS[0]##*/}}
    local options='' only='' it
    case $tool:$before in
{"".join(values)}    *)
        # a file, unless an option is begun
        case $tool:$word in
{"".join(options)}        esac
        ;;
    esac
    COMPREPLY=()
    if [ -n "$options$only" ]; then
        while IFS= read -r it; do COMPREPLY+=("$it"); done < <(compgen -W "$options" -- "$word")
    else
        compopt -o filenames 2>/dev/null
        while IFS= read -r it; do COMPREPLY+=("$it"); done < <(compgen -f -- "$word")
    fi
}}
complete -F _vp_tools {" ".join(it.name for it in them)}
"""


def zsh_word(option: Option) -> str:
    words = re.sub(r"([\[\]:\\])", r"\\\1", option.words).replace("'", "'\\''")
    if option.name == "--help":
        return f"'(- *)'{{-h,--help}}'[{HELP}]'" if option.letter else f"'(- *)--help[{HELP}]'"
    kind = f"({' '.join(option.choices)})" if option.choices else "_files" if option.takes_file else ""
    value = f":{'value' if option.choices else option.value.lower()}:{kind}" if option.value else ""
    return f"'*{option.name}{f'[{words}]' if words else ''}{value}'"


def in_zsh(them: "list[Command]") -> str:
    """Returns the completions for zsh."""
    cases = []
    for it in them:
        first = [f"'1:what:({' '.join(it.first_words)})'"] if it.first_words else []
        words = " \\\n        ".join([*map(zsh_word, it.options), *first, "'*:file:_files'"])
        cases.append(f"{it.name})\n    _arguments {words}\n    ;;")
    names = " ".join(it.name for it in them)
    head = [f"#compdef {names}", f"# Completes the words of the commands beside vp in zsh; {NOTE}.", "case $service in"]
    return "\n".join([*head, *cases, "esac"]) + "\n"


def in_fish(them: "list[Command]") -> str:
    """Returns the completions for fish."""
    lines = [f"# Completes the words of the commands beside vp in fish; {NOTE}."]
    for it in them:
        if it.first_words:
            words = " ".join(it.first_words)
            lines.append(f"complete -c {it.name} -n 'not __fish_seen_subcommand_from {words}' -f -a '{words}'")
        for option in it.options:
            letter = f" -s {option.letter[1]}" if option.letter else ""
            value = f" -x -a '{' '.join(option.choices)}'" if option.choices else " -x" if option.value else ""
            value = " -r -F" if option.takes_file else value
            words = option.words.replace("\\", "\\\\").replace("'", "\\'")
            said = f" -d '{words}'" if words else ""
            lines.append(f"complete -c {it.name}{letter} -l {option.name[2:]}{value}{said}")
    return "\n".join(lines) + "\n"


def escaped(text: str) -> str:
    """Returns text as a line of a page has it."""
    text = text.replace("\\", "\\e").replace("-", "\\-")
    return f"\\&{text}" if text[:1] in (".", "'") else text


def paragraphs(lines: "list[str]") -> "list[str]":
    """Returns lines of a page, of lines of text with paragraphs; those that begin with blanks stand as they are."""
    made: "list[str]" = []
    is_shown = False
    for line in [*lines, ""]:
        if line.startswith("  ") != is_shown:
            is_shown = not is_shown
            made += [".Bd -literal -offset 2n"] if is_shown else [".Ed", ".Pp"]
        if line:
            made += [escaped(line)] if is_shown else [escaped(it) for it in wrapped(line)]
        elif made:
            made.append(".Pp")
    # (none stands twice, or before what is shown, or last)
    pairs = zip(made, [*made[1:], ".Pp"])
    return [it for it, after in pairs if it != ".Pp" or not after.startswith((".Pp", ".Bd"))]


def wrapped(text: str) -> "list[str]":
    """Returns text as lines, of which each sentence begins one."""
    lines = []
    for sentence in re.split(r"(?<=[\w)]\.) +", text):
        line = ""
        for word in sentence.split():
            if line and len(line) + len(word) >= WIDTH:
                lines.append(line)
                line = ""
            line = f"{line} {word}".strip()
        lines.append(line)
    return lines


def installed(command: Command, lines: "list[str]") -> "list[str]":
    """Returns lines in which a command has the name that it is installed under."""
    name = command.name[len("vp-"):]
    return [re.sub(rf"(^|[:;] |^  )(usage: )?{name} ", rf"\1\2{command.name} ", line) for line in lines]


def as_page(them: "list[Command]") -> str:
    """Returns the manual page."""
    lines = [f'.\\" {NOTE[0].upper()}{NOTE[1:]}, of what the commands say of themselves.']
    lines += [".Dd November 29, 2026", ".Dt VP-TOOLS 1", ".Os", ".Sh NAME"]
    lines += [f".Nm {it.name}{' ,' if it is not them[-1] else ''}" for it in them]
    lines += [".Nd what is done with the streams and images of vp", ".Sh DESCRIPTION"]
    lines += ["Each of these commands prints by", ".Xr vp 1 ,", "and tells its words by", ".Fl \\-help ."]
    for it in them:
        usage, said = it.parts()
        lines += [f".Ss {it.name}"]
        if usage:
            usage[0] = re.sub(r"^(\w+): usage: ", r"usage: \1 ", usage[0])
            lines += [".Bd -literal", *map(escaped, installed(it, usage)), ".Ed"]
        text = paragraphs(installed(it, said))
        lines += [*([".Pp"] if usage and text else []), *text]
        told = [option for option in it.options if option.words]
        if told:
            lines += [".Bl -tag -width Ds"]
            for option in told:
                letter = f"Fl {option.letter[1]} , " if option.letter else ""
                value = f" Ar {option.value.strip('{}').replace(',', '|')}" if option.value else ""
                lines += [f".It {letter}Fl {escaped(option.name[1:])}{value}", *map(escaped, wrapped(option.words))]
            lines += [".El"]
    lines += [".Sh FILES", ".Bl -tag -width Ds"]
    lines += [".It Pa /usr/local/lib/vp", "the commands, and a page on some of them"]
    lines += [".It Pa /usr/local/share/vp", "the sheets that they print with where none is named", ".El"]
    return "\n".join([*lines, ".Sh SEE ALSO", ".Xr vp 1"]) + "\n"


WRITERS = {BASH: in_bash, ZSH: in_zsh, FISH: in_fish, PAGE: as_page}


def lacking(them: "list[Command]") -> "list[str]":
    """Returns what files lack of the commands and their options, or have beside these."""
    faults = []
    for file in WRITERS:
        with open(f"{ROOT}/{file}", encoding="utf-8") as it:
            text = it.read()
        faults += [f"{file} lacks {it.name}" for it in them if not re.search(rf"(?<![\w-]){it.name}(?![\w-])", text)]
    with open(f"{ROOT}/{BASH}", encoding="utf-8") as it:
        offered = dict(re.findall(r"(?m)^        (vp-\w+):-\*\) options='(.*)' ;;$", it.read()))
    for command in them:
        has, wanted = set(offered.get(command.name, "").split()), {it.name for it in command.options}
        faults += [f"{BASH} has another option of {command.name}: {it}" for it in sorted(has ^ wanted)]
    return faults


def main() -> int:
    them = commands()
    if sys.argv[1:] == ["--check"]:
        for fault in lacking(them):
            print(f"commands.py: {fault}: tools/docs/commands.py writes them anew", file=sys.stderr)
        return int(bool(lacking(them)))
    if sys.argv[1:]:
        print("usage: commands.py [--check]", file=sys.stderr)
        return 2
    for file, writer in WRITERS.items():
        with open(f"{ROOT}/{file}", "w", encoding="utf-8") as it:
            it.write(writer(them))
    return 0


if __name__ == "__main__":
    sys.exit(main())
