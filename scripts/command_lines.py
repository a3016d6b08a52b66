"""The command lines of the programs, read from their own help.

Pages, man pages and completions are made of this, so none of them can say something else than the program.
"""
import re
import subprocess
from dataclasses import dataclass, field

SECTIONS = ('Commands:', 'Arguments:', 'Options:')


@dataclass
class Row:
    """A word of a command line, such as `--names <FILE>`, and its meaning."""

    word: str
    meaning: str

    def names(self):
        """The names of an option: `-h` and `--help`. None of an argument."""
        return re.findall(r'(?<![\w-])--?[\w-]+', self.word.split('<')[0])

    def takes_value(self):
        return '<' in self.word

    def takes_file(self):
        """Whether its value is a path."""
        return bool(re.search(r'<(FILE|PATH|FOLDER|LOG)>', self.word))

    def values(self):
        """The possible values of an option, if they are listed."""
        found = re.search(r'\[possible values: ([^\]]*)\]', self.meaning)
        return found.group(1).split(', ') if found else []


@dataclass
class CommandLine:
    """A program or a subcommand: what it does, its usage, its words, and the text behind them in blocks of lines."""

    name: str
    about: str
    usage: str = ''
    commands: list = field(default_factory=list)
    arguments: list = field(default_factory=list)
    options: list = field(default_factory=list)
    after: list = field(default_factory=list)
    subcommands: list = field(default_factory=list)


def of_help(name, text):
    """The command line of which this is the help."""
    lines = text.splitlines()
    found = CommandLine(name, lines[0])
    rows = {'Commands:': found.commands, 'Arguments:': found.arguments, 'Options:': found.options}
    section, blocks = None, [[]]
    for line in lines[1:]:
        if line.startswith('Usage: '):
            found.usage = line[len('Usage: '):]
        elif line in SECTIONS:
            section = rows[line]
        elif not line:
            section = None
            blocks.append([])
        elif section is not None:
            word, meaning = re.fullmatch(r' +(\S.*?)  +(\S.*)', line).groups()
            section.append(Row(word, meaning))
        else:
            blocks[-1].append(line)
    found.after = [block for block in blocks if block]
    return found


def of_program(path, name):
    """The command line of a program, with those of its subcommands."""
    found = of_help(name, help_of(path))
    found.subcommands = [of_help(f'{name} {row.word}', help_of(path, row.word)) for row in found.commands if row.word != 'help']
    return found


def help_of(path, *words):
    return subprocess.run([path, *words, '--help'], check=True, capture_output=True, text=True).stdout
