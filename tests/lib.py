"""What the tests in Python share: a test runs at the repository's top, and its last line, which .ci/run reads, counts what it judged"""
import json, os, subprocess, sys

os.chdir(os.path.dirname(os.path.dirname(os.path.abspath(__file__))))
passed = failed = 0

def tell(line):
    print(f'{os.path.basename(sys.argv[0])}: {line}')

def judge(holds, *lines):
    """Counts one thing; the lines say what is wrong where it does not hold."""
    global passed, failed
    passed, failed = passed + bool(holds), failed + (not holds)
    for line in () if holds else lines:
        tell(line)

def refusals():
    """The refusals of docs/refusals.txt, the reasons for which a record is not good, and those of several cores, as `scripts/refusals` says them."""
    return json.loads(subprocess.run(['scripts/refusals', 'json'], capture_output=True, text=True, check=True).stdout)

def finish(held=0, wrong=()):
    """The last line and the status. A test that judges no single things says here how many held, and has a line for each that is wrong."""
    for line in wrong:
        tell(line)
    print(f'{passed + held} passed, {failed + len(wrong)} failed')
    sys.exit(1 if failed or wrong or not passed + held else 0)
