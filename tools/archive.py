#!/usr/bin/env python3
"""Makes crates/unit_c/out/libunit_c.a over the libraries that `rt ci` has left in crates/*/out/rlib, so that unit_c alone is proved once more; `rt lib`
would prove all that it stands on where nothing else is kept. .ci/run calls it where nothing was built before rt ci: elsewhere these libraries may be of
another text, and `rt lib` in crates/unit_c makes the archive. The status is the compiler's."""
import os
import subprocess
import sys

sys.dont_write_bytecode = True
import compiler

ROOT = os.path.dirname(os.path.dirname(os.path.abspath(__file__)))
CRATE = 'unit_c'


def main():
    folder, at = f'{ROOT}/crates/{CRATE}', compiler.kit()
    os.makedirs(f'{folder}/out', exist_ok=True)
    words = [*compiler.words(ROOT, CRATE, 2), '--toolchain', f'{at}/toolchain', '--backend', 'llvm', '-o', f'out/lib{CRATE}.a']
    return subprocess.run([f'{at}/bin/rattle', 'build', *words], cwd=folder, stdin=subprocess.DEVNULL).returncode


if __name__ == '__main__':
    sys.exit(main())
