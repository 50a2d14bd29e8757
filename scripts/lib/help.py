"""What the help texts of the program say: its commands, their options and arguments, and the text below these."""

import re
import subprocess

COMMAND = re.compile(r"  (\S+) {2,}(\S.*)")
OPTION = re.compile(r"  (?:(-\w), |    )(--[\w-]+)(?: <([A-Z]+)>)? {2,}(\S.*)")
ARGUMENT = re.compile(r"  ([<\[])(\w+)[>\]](\.\.\.)? {2,}(\S.*)")
VALUES = re.compile(r" \[possible values: ([^\]]+)\]$")


class Option:
    """An option: `-l`, or None; `--long`; the name of its value, or None; its help; and the values, if it lists
    them."""

    def __init__(self, short, long, value, told):
        listed = VALUES.search(told)
        self.short, self.long, self.value = short, long, value
        self.values = listed[1].split(", ") if listed else []
        self.told = VALUES.sub("", told)


class Argument:
    def __init__(self, bracket, name, more, told):
        self.name, self.told = name, told
        self.shown = {"<": "<{}>", "[": "[{}]"}[bracket].format(name) + (more or "")


class Help:
    """The help of the program, or of one of its commands."""

    def __init__(self, name, text):
        self.name, self.text = name, text
        self.commands, self.arguments, self.options = [], [], []
        about, _, rest = text.partition("\n\nUsage: ")
        usage, _, rest = rest.partition("\n")
        if not usage:
            raise ValueError(f"the help of {name} has no line of usage: {text!r}")
        self.about, self.usage = about, usage
        self.body = self.take_lists(rest.strip("\n").split("\n"))

    def take_lists(self, lines):
        """Takes the lists of commands, arguments and options, and answers the lines below them."""
        takers = {"Commands:": self.take_command, "Arguments:": self.take_argument, "Options:": self.take_option}
        while lines and lines[0] in takers:
            end = lines.index("") if "" in lines else len(lines)
            for line in lines[1:end]:
                takers[lines[0]](line)
            lines = lines[end + 1 :]
        return lines

    def take_command(self, line):
        name, told = self.match(COMMAND, line)
        if name != "help":
            self.commands.append((name, told))

    def take_argument(self, line):
        self.arguments.append(Argument(*self.match(ARGUMENT, line)))

    def take_option(self, line):
        self.options.append(Option(*self.match(OPTION, line)))

    def match(self, pattern, line):
        found = pattern.fullmatch(line)
        if not found:
            raise ValueError(f"the help of {self.name} has a line of another form: {line!r}")
        return found.groups()


def told_by(program, *words):
    """What the program prints for these words."""
    ran = subprocess.run([program, *words], stdin=subprocess.DEVNULL, stdout=subprocess.PIPE, check=True, text=True)
    return ran.stdout


def helps_of(program):
    """The help of the program, and that of each of its commands."""
    whole = Help("rme", told_by(program, "--help"))
    return whole, [Help(name, told_by(program, name, "--help")) for name, _ in whole.commands]


def explained(program):
    """What `rme explain` lists: refusals and statuses, each as its number, its name and when it comes."""
    lines = told_by(program, "explain").splitlines()
    refusals = [re.fullmatch(r"(\d+) (\w+): (.*)", line) for line in lines]
    statuses = [re.fullmatch(r"status (\d+) (\w+): (.*)", line) for line in lines]
    return [found.groups() for found in refusals if found], [found.groups() for found in statuses if found]
