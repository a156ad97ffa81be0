"""One script of several modules of JavaScript, as ESM, as CommonJS or as a worker's: each keeps names of its own, and
none imports itself in a circle, as modules of the page do (together.py)."""
import re
from pathlib import Path
from typing import Dict, List, Set, Tuple

IMPORT = re.compile(r"^import (\{[^}]*\}) from '([^']+)';\n", re.MULTILINE)
EXPORT = re.compile(r'^export (?:(?:async )?function\*? ?|class |(?:const|let) )(\w+)', re.MULTILINE)
EXPORTED = re.compile(r'^export (\{[^}]*\});\n', re.MULTILINE)


class Bundle:
    """What an entry and all that it imports come to. Modules in `given` are texts in place of files, by their names;
    those in `outer` aren't taken in, and are imported by the names there."""

    def __init__(self, given: Dict[str, str], outer: Dict[str, str]) -> None:
        self.given, self.outer = given, outer
        self.parts: List[str] = []
        self.imports: List[Tuple[str, str]] = []
        self.names: Dict[str, str] = {}
        self.open: Set[str] = set()

    def add(self, file: Path) -> str:
        """Takes a module in, behind all that it imports, and returns its name."""
        key = file.name if file.name in self.given else str(file.resolve())
        if key in self.open:
            raise ValueError(f'{file.name} imports itself in a circle')
        if key in self.names:
            return self.names[key]
        self.open.add(key)
        text = self.given.get(file.name) or file.read_text(encoding='utf-8')
        text = IMPORT.sub(lambda found: self.imported(file, *found.groups()), text)
        lists = ' '.join(EXPORTED.findall(text))
        exports = [*EXPORT.findall(text), *re.findall(r'\w+', lists)]
        text = re.sub(r'^export ', '', EXPORTED.sub('', text), flags=re.MULTILINE)
        if re.search(r'^(?:import|export)\b(?!\.)', text, re.MULTILINE):
            raise ValueError(f'{file.name}: an import or export is of another form')
        self.open.remove(key)
        name = f'{re.sub(r"[^a-z]", "_", file.stem)}_{len(self.names)}'
        self.names[key] = name
        self.exports = exports
        self.parts.append(f'const {name} = (() => {{\n{text.strip()}\nreturn {{ {", ".join(exports)} }};\n}})();\n')
        return name

    def known(self, file: Path) -> None:
        """Takes a module in whose names all others know without an import."""
        name = self.add(file)
        self.parts.append(f'const {{ {", ".join(self.exports)} }} = {name};\n')

    def imported(self, file: Path, names: str, source: str) -> str:
        if not source.startswith('.') or source in self.outer:
            self.imports.append((names, self.outer.get(source, source)))
            return ''
        return f'const {names.replace(" as ", ": ")} = {self.add(file.parent / source)};\n'

    def text(self, entry: Path, form: str) -> str:
        """The script, in the form esm, cjs or worker."""
        last = self.add(entry)
        found: Dict[str, List[str]] = {}
        for names, source in self.imports:
            own = found.setdefault(source, [])
            own += [it for it in names.strip('{ }').split(', ') if it not in own]
        exported = f'{{ {", ".join(self.exports)} }}'
        if form == 'esm':
            above = ''.join(f"import {{ {', '.join(names)} }} from '{source}';\n" for source, names in found.items())
            below = f'export const {exported} = {last};\n'
        else:
            above = "'use strict';\n" + ''.join(
                f"const {{ {', '.join(names).replace(' as ', ': ')} }} = require('{source}');\n"
                for source, names in found.items())
            below = f'const {exported} = {last};\nmodule.exports = {exported};\n' if form == 'cjs' else ''
        return above + '\n'.join(self.parts) + (below if self.exports else '')
