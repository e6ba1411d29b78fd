"""The words with which the kit's compiler checks or builds a crate over the libraries in crates/*/out/rlib, as rt hands them to it; and the crates of crates.txt."""
import os
import re
import subprocess


def crates(root):
    """Of each crate of crates.txt what it uses, in the order of the file."""
    with open(f'{root}/crates.txt', encoding='utf-8') as lines:
        listed = re.findall(r'^(\w+)[^:#\n]*:([^#\n]*)', lines.read(), re.M)
    return {name: used.split() for name, used in listed}


def is_static(root, name):
    with open(f'{root}/crates.txt', encoding='utf-8') as lines:
        return re.search(rf'^{name}\s+staticlib\b[^:#\n]*:', lines.read(), re.M) is not None


def below(name, used):
    """The repository's libraries under a crate, each after those that it uses."""
    found = []
    for crate in used[name]:
        if crate in used:
            found += [other for other in [*below(crate, used), crate] if other not in found]
    return found


def kit():
    """The kit's folder."""
    return os.path.dirname(subprocess.run(['rt', 'doc'], capture_output=True, text=True, check=True).stdout.strip())


def words(root, name, jobs):
    """For `rattle check` or `rattle build`, in the crate's folder."""
    used, at = crates(root), kit()
    found = ['--crate-name', name, 'src/main.rt' if os.path.isfile(f'{root}/crates/{name}/src/main.rt') else 'src/lib.rt']
    for library in ['std', *(library for library in used[name] if library not in used)]:
        found += ['--extern', f'{library}={at}/rlibs/{library}.rlib']
    found += ['-L', f'dependency={at}/rlibs']
    for crate in used[name]:
        if crate in used:
            found += ['--extern', f'{crate}={root}/crates/{crate}/out/rlib/{crate}.rlib']
    for crate in below(name, used):
        found += ['-L', f'dependency={root}/crates/{crate}/out/rlib']
    found += ['--antt-project', f'{at}/rattle/logic/antt-project.json', '--logic-built', f'{at}/logic_built', '--jobs', str(jobs), '--links', f'{name}=']
    return found + (['--crate-type', 'staticlib'] if is_static(root, name) else [])
