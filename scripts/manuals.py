"""Man pages and completions for shells, made of the command lines of the programs."""
import itertools
import re


def man_page(line, version):
    """The man page of a program or a subcommand."""
    title = line.name.replace(' ', '-')
    parts = [f'.TH {title.upper()} 1 "" "segyolant {version}"', '.SH NAME', f'{plain(title)} \\- {plain(line.about)}', '.SH SYNOPSIS', plain(line.usage)]
    if line.subcommands:
        parts.append('.SH COMMANDS')
        for each in line.subcommands:
            parts += ['.TP', f'.BR {plain(each.name.replace(" ", "-"))} (1)', plain(each.about)]
    for head, rows in (('ARGUMENTS', line.arguments), ('OPTIONS', line.options)):
        if rows:
            parts.append(f'.SH {head}')
        for row in rows:
            parts += ['.TP', f'.B {plain(row.word)}', plain(row.meaning)]
    if line.after:
        parts.append('.SH NOTES')
        parts += [each for block in line.after for each in notes(block)]
    parts += ['.SH SEE ALSO', 'The documents below share/doc/segyolant.']
    return '\n'.join(parts) + '\n'


def notes(block):
    """The lines of a block of notes. Those that are indented keep their breaks and spaces."""
    made = ['.PP']
    for is_code, lines in itertools.groupby(block, lambda line: line.startswith(' ')):
        text = list(map(plain, lines))
        made += ['.nf', *text, '.fi'] if is_code else text
    return made


def plain(text):
    """A text of which troff takes no sign for its own."""
    text = text.replace('\\', '\\e').replace('-', '\\-')
    return '\\&' + text if text[:1] in ('.', "'") else text


def man_pages(line, version):
    """The man pages of a program and of its subcommands, by their files."""
    return {f'{each.name.replace(" ", "-")}.1': man_page(each, version) for each in [line, *line.subcommands]}


def options_of(line):
    """The options of a command line, those of its usage where its help has no list of them."""
    return [name for row in line.options for name in row.names()] or re.findall(r'--[a-z-]+', line.usage)


def rows_with_values(line):
    """The options that take a value, of a program and of its subcommands, each once."""
    rows = {name: row for each in [line, *line.subcommands] for row in each.options if row.takes_value() for name in row.names()}
    return sorted(rows.items())


def bash(line):
    """A completion for bash: subcommands, options where a word begins with -, listed values, and files."""
    name = line.name
    values = []
    for option, row in rows_with_values(line):
        words = ' '.join(row.values())
        other = 'return' if row.takes_file() else 'compopt +o default; return'
        values.append(f'        {option}) ' + (f'COMPREPLY=($(compgen -W "{words}" -- "$word")); return ;;' if words else f'{other} ;;'))
    names = [row.word for row in line.commands]
    cases = [f'        {each.name.split()[1]}) words="{" ".join(options_of(each))}" ;;' for each in line.subcommands]
    return '\n'.join([
        f'_{name}() {{',
        f'    local word="${{COMP_WORDS[COMP_CWORD]}}" words="{" ".join(options_of(line))}"',
        '    COMPREPLY=()',
        *(['    case "${COMP_WORDS[COMP_CWORD-1]}" in', *values, '    esac'] if values else []),
        *([f'    if [ "$COMP_CWORD" -eq 1 ]; then words="$words {" ".join(names)}"; fi', '    if [ "$COMP_CWORD" -gt 1 ]; then case "${COMP_WORDS[1]}" in',
           *cases, f'        help) words="{" ".join(names)}" ;;', '    esac; fi',
           '    if [[ $word == -* || $COMP_CWORD -eq 1 || ${COMP_WORDS[1]} == help ]]; then'] if names else ['    if [[ $word == -* ]]; then']),
        '        COMPREPLY=($(compgen -W "$words" -- "$word"))',
        '    fi',
        '}',
        f'complete -o default -F _{name} {name}',
    ]) + '\n'


def fish(line):
    """A completion for fish."""
    name = line.name
    lines = [f"complete -c {name} -n __fish_use_subcommand -a {row.word} -d {quoted(row.meaning)}" for row in line.commands]
    for each in [line, *line.subcommands]:
        word = each.name.split()[1:]
        when = f" -n '__fish_seen_subcommand_from {word[0]}'" if word else ' -n __fish_use_subcommand' if line.commands else ''
        for row in each.options:
            names = ''.join(f' -l {it[2:]}' if it.startswith('--') else f' -s {it[1:]}' for it in row.names())
            given = f" -x -a '{' '.join(row.values())}'" if row.values() else ' -r' if row.takes_file() else ' -x' if row.takes_value() else ''
            lines.append(f'complete -c {name}{when}{names}{given} -d {quoted(row.meaning)}')
    return '\n'.join(lines) + '\n'


def quoted(text):
    return "'" + text.replace('\\', '\\\\').replace("'", "\\'") + "'"


def zsh(line):
    """A completion for zsh."""
    if not line.subcommands:
        return f'#compdef {line.name}\n_arguments \\\n' + ' \\\n'.join([*map(zsh_option, line.options), "  '*:file:_files'"]) + '\n'
    commands = ' '.join(quoted_zsh(f'{row.word}:{row.meaning}') for row in line.commands)
    cases = [f'    {each.name.split()[1]})\n    _arguments \\\n' + ' \\\n'.join(['    ' + zsh_option(row) for row in each.options] + ["      '*:file:_files'"])
             + '\n    ;;' for each in line.subcommands]
    return '\n'.join([f'#compdef {line.name}', f'local -a commands=({commands})', "if (( CURRENT == 2 )); then", '  _describe command commands', 'else',
                      '  shift words; (( CURRENT-- ))', '  case $words[1] in', *cases, '  esac', 'fi']) + '\n'


def zsh_option(row):
    meaning = re.sub(r'([\[\]:])', r'\\\1', row.meaning)
    given = f':value:({" ".join(row.values())})' if row.values() else ':value:_files' if row.takes_file() else ':value: ' if row.takes_value() else ''
    return '  ' + ' '.join(quoted_zsh(f'{name}[{meaning}]{given}') for name in row.names())


def quoted_zsh(text):
    return "'" + text.replace("'", "'\\''") + "'"


def completions(line):
    """The completions of a program, by their files below share/."""
    return {
        f'bash-completion/completions/{line.name}': bash(line),
        f'fish/vendor_completions.d/{line.name}.fish': fish(line),
        f'zsh/site-functions/_{line.name}': zsh(line),
    }
