#!/usr/bin/env python3
"""page/join.py WASM: prints the page as one file

The modules of src/ become two scripts, in this order and without their imports and exports: what answers, which a worker runs too, and the page over
it. Before them stand the words of docs/refusals.txt and the WebAssembly. As all of it is one scope, a name that stands at the top of two modules is
refused, and so is one that is imported from where it is not.
"""
import base64, json, os, re, subprocess, sys

ANSWERS = ['library', 'text', 'words', 'plan', 'helps', 'sheets', 'answers']
PAGE = ['dom', 'clerk', 'example', 'bench', 'range', 'mover', 'table', 'strip', 'loads', 'cores', 'help_panel', 'check_panel', 'picture', 'pasted',
        'show', 'files_in', 'files_out', 'main']
IMPORT = re.compile(r"^import \{ ([^}]*) \} from '\./(\w+)\.js';\n", re.M)
TOP = re.compile(r'^(?:export )?(?:async )?(?:const|let|class|function\*?) +(\w+)', re.M)
EXPORT = re.compile(r'^export (?=(?:async )?(?:const|let|class|function\*?) )', re.M)

here = os.path.dirname(os.path.abspath(__file__))

def read(*parts):
    return open(os.path.join(here, *parts), encoding='utf-8').read()

def built(wasm):
    """What is put in: the sentences and the reasons by their numbers, and the library."""
    listed, reasons, cores = json.loads(subprocess.run([os.path.join(here, '../scripts/refusals'), 'json'], capture_output=True, check=True).stdout)
    words = {'SENTENCES': listed, 'REASONS_SAID': reasons, 'WIDE_REASONS_SAID': cores}
    said = ''.join(f'export const {name} = {json.dumps({each[0]: each[-1] for each in those}, indent=1)};\n' for name, those in words.items())
    return f'{said}export const WASM = "{base64.b64encode(wasm).decode()}";\n'

def stop_unless(holds, why):
    if not holds:
        sys.exit(f'join: {why}')

def check(modules):
    """One scope: no name at the top of two modules, and each import is exported."""
    owners = {}
    for name, text in modules.items():
        for top in TOP.findall(text):
            stop_unless(top not in owners, f'{top} stands in {owners.get(top)} and in {name}')
            owners[top] = name
        for names, other in IMPORT.findall(text):
            exported = {top for top in TOP.findall('\n'.join(line for line in modules[other].splitlines() if line.startswith('export ')))}
            for each in names.split(', '):
                stop_unless(each in exported, f'{name} imports {each}, which {other} does not export')

def script(modules, names):
    joined = '\n'.join(f'// ---- {name}.js ----\n\n{EXPORT.sub("", IMPORT.sub("", modules[name]))}' for name in names)
    stop_unless(not re.search(r'^\s*(import|export)\b|</script', joined, re.M), 'an import or export that is not understood')
    return f"'use strict';\n{joined}"

modules = {name: read('src', f'{name}.js') for name in ANSWERS + PAGE}
modules['built'] = built(open(sys.argv[1], 'rb').read())
check(modules)
page = read('page.html')
for mark, text in ('STYLE', read('page.css')), ('ANSWERS', script(modules, ['built'] + ANSWERS)), ('PAGE', script(modules, PAGE)):
    stop_unless(page.count(f'/*{mark}*/\n') == 1, f'page.html has no place for {mark}')
    page = page.replace(f'/*{mark}*/\n', text)
sys.stdout.write(page)
