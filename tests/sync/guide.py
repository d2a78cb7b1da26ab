"""The commands of docs/guide.md, run as they stand there: each section in an empty folder."""
import os
import shlex
import tempfile

from both import TOOLS, TOP, run

PAGE = os.path.join(TOP, 'docs', 'guide.md')
TWO_WAYS = 'Mirroring two ways'
TITLES = ['Moving a repository', TWO_WAYS, 'Publishing one side', 'A team with both tools', 'Checking a mirror']


def check(report):
    with open(PAGE, encoding='utf-8') as file:
        sections = file.read().split('\n## ')[1:]
    commands = {title: lines for title, lines in map(commands_of, sections) if lines}
    report.check('the guide\'s sections with commands', list(commands), TITLES)
    for title, lines in commands.items():
        check_section(report, title, lines)


def commands_of(section):
    """The title of a section, and what stands in its blocks of code."""
    title, *lines = section.split('\n')
    return title, [line[4:] for line in lines if line.startswith('    ')]


def check_section(report, title, commands):
    with tempfile.TemporaryDirectory() as folder, tempfile.TemporaryDirectory() as programs:
        with open(os.path.join(programs, 'hggit'), 'w') as file:
            file.write(f'#!/bin/sh\nexec {shlex.quote(os.environ["HGGIT"])} "$@"\n')
        os.chmod(file.name, 0o755)
        path = os.pathsep.join([programs, TOOLS, os.environ['PATH']])
        script = 'set -e -o pipefail\n' + '\n'.join(commands) + '\n'
        answer = run(['bash', '-c', script], folder, PATH=path)
        report.check(f'the guide\'s {len(commands)} commands under "{title}"', (answer.status, answer.errors[-600:] if answer.status else ''), (0, ''))
        if title == TWO_WAYS:
            report.verdict('the run behind another has nothing new', '\nnothing new\n' in answer.output, answer.output[-600:])
