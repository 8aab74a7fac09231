"""Tests the merge gate, .ci/run, with a stand-in for rt and for tools/check: that it fails where something cannot be run."""
import os
import shutil
import subprocess
import tempfile
import unittest

TOP = os.path.dirname(os.path.dirname(os.path.dirname(os.path.abspath(__file__))))
PROGRAM = 'crates/doomview/out/doomview'
LEAVE = 'mkdir -p out; : >out/doomview; chmod +x out/doomview'
RT = (f'#!/bin/sh\ncase "$1" in\n'
      f'ci) [ "$LEAVES" != ci ] || {{ mkdir -p crates/doomview; cd crates/doomview; {LEAVE}; }};;\n'
      f'run) [ "$LEAVES" != run ] || {{ {LEAVE}; }};;\n*) exit 9;;\nesac\n')
CHECK = '#!/bin/sh\necho "check $*"\nexit "$CHECKED"\n'


class Gate(unittest.TestCase):
    def setUp(self):
        folder = tempfile.TemporaryDirectory()
        self.addCleanup(folder.cleanup)
        self.top, self.bin = folder.name, os.path.join(folder.name, 'bin')
        for name in ('.ci', 'tools', 'bin', 'crates/doomview'):
            os.makedirs(os.path.join(self.top, name))
        shutil.copy(os.path.join(TOP, '.ci', 'run'), os.path.join(self.top, '.ci'))
        for name in ('bash', 'sh', 'env', 'dirname', 'mkdir', 'chmod', 'python3'):
            os.symlink(shutil.which(name), os.path.join(self.bin, name))
        self.put('tools/check', CHECK)

    def put(self, name, text):
        path = os.path.join(self.top, name)
        with open(path, 'w') as file:
            file.write(text)
        os.chmod(path, 0o755)

    def run_gate(self, proved=0, leaves='ci', checked=0):
        self.put('bin/rt', f'{RT}exit {proved}\n')
        env = {'PATH': self.bin, 'LEAVES': leaves, 'CHECKED': str(checked)}
        done = subprocess.run([os.path.join(self.top, '.ci', 'run')], env=env, cwd='/', capture_output=True, text=True)
        return done.returncode, done.stdout, done.stderr

    def test_it_checks_the_program_that_was_proved(self):
        self.assertEqual(self.run_gate(), (0, f'check {PROGRAM}\n', ''))
        self.assertEqual(self.run_gate(checked=1), (1, f'check {PROGRAM}\n', ''))

    def test_a_proof_that_fails_ends_it(self):
        self.assertEqual(self.run_gate(proved=1), (1, '', ''))

    def test_it_fails_without_python(self):
        os.remove(os.path.join(self.bin, 'python3'))
        status, out, said = self.run_gate()
        self.assertEqual((status, out), (1, ''))
        self.assertIn('python3 is missing', said)

    def test_it_fails_where_no_program_was_left(self):
        status, out, said = self.run_gate(leaves='')
        self.assertEqual((status, out), (1, ''))
        self.assertIn('neither rt ci nor rt run left the program', said)

    def test_it_runs_the_program_where_the_proof_left_none(self):
        self.assertEqual(self.run_gate(leaves='run'), (0, f'check {PROGRAM}\n', ''))


if __name__ == '__main__':
    unittest.main()
