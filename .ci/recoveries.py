"""Recoveries by the built program, for the checks of the repository."""
import os
import subprocess

# of a recovery whose three files can be written, while there is memory (docs/TEXTS.md, "Statuses")
STATUSES = {0, 4, 5, 6, 12}


def recover(program, path, output, script, *options):
    for made in (output, script):
        if os.path.exists(made):
            os.remove(made)
    return subprocess.run([program, 'recover', path, output, script, *options], capture_output=True, timeout=120)


def again(program, output, folder):
    """What is wrong with the recovery of a new database, or nothing."""
    second, script = folder + '/second', folder + '/second_script'
    done = recover(program, output, second, script)
    if done.returncode != 0:
        return 'the second recovery ends with status %d' % done.returncode
    if open(second, 'rb').read() != open(output, 'rb').read():
        return 'the second recovery gives another database'
    if open(script, 'rb').read():
        return 'the second recovery has a script'
    lines = done.stdout.decode().splitlines()
    for line in lines:
        if line.split()[0] not in ('geometry', 'table', 'result') and line != 'orphans 0 0':
            return 'the second report has %s' % line
    return ''
