"""Manual pages, completion, and what `make install` puts where."""
import os
import shutil
import tempfile

from both import TOP, run

TOOLS = ['git-load', 'git-remote-hggit', 'hggit', 'hggit-graph', 'hggit-sync']


def check(report):
    pages = sorted(os.listdir(os.path.join(TOP, 'man')))
    report.check('a page for the program and each tool', pages, sorted(name + '.1' for name in TOOLS))
    if shutil.which('groff'):
        said = [(page, run(['groff', '-man', '-Tutf8', '-ww', page], os.path.join(TOP, 'man')).errors) for page in pages]
        report.check('groff has nothing to say', [row for row in said if row[1]], [])
    else:
        report.skipped('groff', 'it is not installed')
    check_completion(report)
    check_install(report)


def completed(words):
    function = '_hggit' if words[0] == 'hggit' else '_hggit_tool'
    line = f'COMP_WORDS=({" ".join(words)}); COMP_CWORD={len(words) - 1}; {function}'
    script = f'. {TOP}/tools/completion/hggit; {line}; echo "${{COMPREPLY[@]}}"'
    return run(['bash', '-c', script]).output.split()


def check_completion(report):
    report.check('commands are completed', completed(['hggit', 'pull']), ['pull-hg', 'pull-git'])
    report.check('and options', completed(['hggit-sync', '--to']), ['--to-git', '--to-hg'])


def check_install(report):
    with tempfile.TemporaryDirectory() as folder:
        words = ['make', '-s', '-C', TOP, 'install', f'PREFIX={folder}/usr', f'PROGRAM={os.environ["HGGIT"]}']
        answer = run(words)
        report.check('make install', (answer.status, answer.errors), (0, ''))
        bin_folder = os.path.join(folder, 'usr', 'bin')
        report.check('the program and the tools are there', sorted(os.listdir(bin_folder)), TOOLS)
        report.check('and the pages', sorted(os.listdir(os.path.join(folder, 'usr', 'share', 'man', 'man1'))), sorted(name + '.1' for name in TOOLS))
        for tool in ('hggit-sync', 'hggit-graph', 'git-load'):
            answer = run([os.path.join(bin_folder, tool), '--help'], PATH=os.environ['PATH'])
            report.check(f'{tool} --help from there', (answer.status, answer.output.startswith(f'usage: {tool}')), (0, True))
