"""One script of several modules: a page may have one that is named by its hash, and a file loads no other."""
import re
from pathlib import Path
from typing import Dict, List

IMPORT = re.compile(r"^import (?:\{[^}]*\} from )?'\./([\w.]+)';\n", re.MULTILINE)
NAMES = re.compile(r'^(?:export )?(?:(?:async )?function\*? |class |(?:const|let) )(\w+|\[[^\]]*\]|\{[^}]*\})',
                   re.MULTILINE)


def ordered(files: Dict[str, Path], first: str) -> List[str]:
    """The modules that a first one imports, and what these import, each behind those that it needs."""
    found: List[str] = []
    seen = {first}

    def walk(name: str) -> None:
        for other in IMPORT.findall(files[name].read_text(encoding='utf-8')):
            if other not in seen:
                seen.add(other)
                walk(other)
        found.append(name)

    walk(first)
    return found


def together(files: Dict[str, Path], first: str) -> str:
    """The modules as one, in the order in which a browser would run them. They share one scope, so that no two have a
    name of their own in common (ValueError)."""
    parts = []
    owners: Dict[str, str] = {}
    for name in ordered(files, first):
        text = files[name].read_text(encoding='utf-8')
        for names in NAMES.findall(text):
            for it in re.findall(r'\w+', names):
                if owners.setdefault(it, name) != name:
                    raise ValueError(f'{name} and {owners[it]} both have the name {it}')
        plain = re.sub(r'^export ', '', IMPORT.sub('', text), flags=re.MULTILINE)
        if re.search(r'^(?:import|export)\b', plain, re.MULTILINE):
            raise ValueError(f'{name}: an import or export is of another form')
        parts.append(plain)
    return '\n'.join(parts)
