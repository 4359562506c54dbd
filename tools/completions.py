"""Completions of words for bash, zsh and fish."""

# The values of options that are files; the others are numbers, but for SITE=FOLDER.
FILES = ("FILE", "SVG")
FOLDER = "SITE=FOLDER"


def bash(program, verbs, general=()):
    """A function for bash: the verbs and the program's own options, then a verb's options, their values and file names."""
    names = " ".join(it.name for it in [*verbs, *general])
    options = {it.name: " ".join(name for option in [*it.options, *it.general] for name in option.names()) for it in verbs}
    cases = "".join(f'    {name}) words="{words}" ;;\n' for name, words in options.items() if words)
    valued = [option for verb in verbs for option in verb.options if option.value]
    # (bash takes 2=FOLDER for three words)
    files = "|".join(sorted({it.name for it in valued if it.value in FILES} | {"=" for it in valued if it.value == FOLDER}))
    numbers = "|".join(sorted({name for it in valued if it.value not in FILES for name in it.names()}))
    before = f'    {files}) words= ;;\n' if files else ""
    return f"""# Completions of {program} for bash. Written by tools/write-reference.
_{program}() {{
    local word=${{COMP_WORDS[COMP_CWORD]#=}} words=
    if [ "$COMP_CWORD" -eq 1 ]; then
        mapfile -t COMPREPLY < <(compgen -W "{names}" -- "$word")
        return
    fi
    case ${{COMP_WORDS[1]}} in
{cases}    esac
    case ${{COMP_WORDS[COMP_CWORD-1]}} in
    {numbers}) return ;;
{before}    esac
    mapfile -t COMPREPLY < <(compgen -W "$words" -- "$word"; compgen -f -- "$word")
}}
complete -o filenames -F _{program} {program}
"""


def quoted(text):
    """A text for a description of _arguments, in single quotes."""
    return text.replace("'", "'\\''").replace("[", "(").replace("]", ")").replace(":", "\\:")


def zsh_options(verb):
    for option in [*verb.options, *verb.general]:
        takes = ":_files" if option.value in FILES else ':{compset -P "*=" && _files -/}' if option.value == FOLDER else ": "
        value = f":{option.value}{takes}" if option.value else ""
        for name in option.names():
            # (--to may be given again)
            name = f"*{name}" if option.value == FOLDER else name
            yield f"'{name}[{quoted(option.text)}]{value}'" if option.text else f"'{name}{value}'"


def zsh_function(program, verbs, general=()):
    # (the commands of cs_cli say nothing of themselves)
    names = [it.name if it.about == it.name else f"{it.name}:{quoted(it.about)}" for it in verbs]
    names += (f"{it.name}:{quoted(it.text)}" for it in general)
    listed = "".join(f"        '{it}'\n" for it in names)
    # (any word that is no option may be a file)
    cases = "".join(f"    {it.name}) _arguments {' '.join([*zsh_options(it), chr(39) + '*:file:_files' + chr(39)])} ;;\n" for it in verbs)
    return f"""_{program}() {{
    local -a verbs=(
{listed}    )
    if (( CURRENT == 2 )); then
        _describe verb verbs
        return
    fi
    local verb=$words[2]
    shift words
    (( CURRENT-- ))
    case $verb in
{cases}    esac
}}
"""


def zsh(programs):
    """The functions of all programs, for zsh: of each its verbs and its own options."""
    functions = "\n".join(zsh_function(program, *words) for program, words in programs.items())
    head = f"#compdef {' '.join(programs)}\n# Completions for zsh. Written by tools/write-reference.\n"
    return f'{head}{functions}\n_$service "$@"\n'


def described(text):
    """The description of a line for fish, or nothing."""
    escaped = text.replace("\\", "\\\\").replace("'", "\\'")
    return f" -d '{escaped}'" if text else ""


def fish(program, verbs, general=()):
    """Lines for fish: the verbs and the program's own options, then a verb's options and their values."""
    lines = [f"# Completions of {program} for fish. Written by tools/write-reference."]
    for it in verbs:
        lines.append(f"complete -c {program} -n __fish_use_subcommand -f -a {it.name}{described(it.about if it.about != it.name else '')}")
    lines += [f"complete -c {program} -n __fish_use_subcommand -f -l {it.name[2:]}{described(it.text)}" for it in general]
    for verb in verbs:
        for it in [*verb.options, *verb.general]:
            takes = " -r -F" if it.value in (*FILES, FOLDER) else " -x" if it.value else ""
            names = f"-s {it.short[1:]} -l {it.name[2:]}" if it.short else f"-l {it.name[2:]}"
            lines.append(f"complete -c {program} -n '__fish_seen_subcommand_from {verb.name}' {names}{takes}{described(it.text)}")
    return "\n".join(lines) + "\n"
