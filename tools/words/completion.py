"""Completion for bash: of `sketch` and of `pertxogai`."""
from .options import commands, flags
from .table import COMMANDS, KEYS, Key

SKETCH = """# bash completion for sketch; made by tools/pages
_sketch() {{
    local cur prev words cword
    _init_completion -n = || return
    local command=${{words[1]}}
    if [ "$cword" = 1 ]; then
        COMPREPLY=($(compgen -W "{commands}" -- "$cur"))
        return
    fi
    local choices=
    case $command in
{cases}
    esac
    COMPREPLY=($(compgen -W "$choices" -- "$cur"))
    [[ ${{COMPREPLY-}} == *= ]] && compopt -o nospace
    [[ $cur == *=* ]] && COMPREPLY=("${{COMPREPLY[@]#*=}}")
    return 0
}}
complete -o default -F _sketch sketch
"""
PERTXOGAI = """# bash completion for pertxogai; made by tools/pages
_pertxogai() {{
    local cur prev words cword
    _init_completion || return
    if [ "$cword" = 1 ]; then
        COMPREPLY=($(compgen -W "{commands} --help --version" -- "$cur"))
        return
    fi
    [[ $cur == -* ]] || {{ _filedir '@(sketch|drawing|FCStd|slvs|dxf|svg)'; return; }}
    case ${{words[1]}} in
{cases}
    esac
}}
complete -F _pertxogai pertxogai
"""


def _words_of_key(key: Key) -> list[str]:
    return [f"{key.word}={choice}" for choice in key.choices] or [f"{key.word}="]


def sketch() -> str:
    """The completion of `sketch`: a command, then the keys that it takes with their values."""
    cases = []
    for command in COMMANDS:
        words = [word for key in KEYS if key.word in command.keys for word in _words_of_key(key)]
        if words:
            cases.append(f"        {command.word}) choices=\"{' '.join(words)}\" ;;")
    return SKETCH.format(commands=" ".join(it.word for it in COMMANDS), cases="\n".join(cases))


def pertxogai() -> str:
    """The completion of `pertxogai`: a command, then its options and files that it reads."""
    found = commands()
    cases = [f"        {name}) COMPREPLY=($(compgen -W \"{' '.join(flags(parser))}\" -- \"$cur\")) ;;"
             for name, _, parser in found]
    return PERTXOGAI.format(commands=" ".join(name for name, _, _ in found), cases="\n".join(cases))
