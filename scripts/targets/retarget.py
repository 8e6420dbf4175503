#!/usr/bin/env python3
"""scripts/targets/retarget.py [BYTES] < MODULE.ll > PROVED.ll: the LLVM module of the proved code, for any target whose pointers have BYTES bytes (8)

Every function stays as it is. Where pointers are shorter, one that stands in memory is kept there as a number of 64 bits, as it was laid out and as
other instructions read it. What is of x86-64 goes: its triple, its data layout, its processor, and its rules for structs by value, by which each
exported function eelbasket_NAME is called. That one becomes the module's own, and proved_NAME is exported in its place, which takes numbers and
pointers alone: first a pointer to where the answer goes, then the parameters, a pointer for a struct that is passed in memory. What it does not know
ends it with a sentence.
"""
import itertools, re, sys

OF_X86 = re.compile(r'^target datalayout = .*\n|^target triple = "x86_64.*\n| "probe-stack"="inline-asm"| "stack-probe-size"="\d+"'
                    r'| "target-cpu"="x86-64(?:-v\d)?"', re.M)
EXPORTED = re.compile(r'^define (?!internal )(.*?) @(\w+)\((.*)\) #0 \{$', re.M)
PARAMETER = re.compile(r'(i\d+|ptr)(?: noundef)?( byval\(\[\d+ x i8\]\) align \d+)? %a\d+')
# what is left of x86-64 or exported, and what means something else where a pointer has 32 bits: a struct's layout, and a pointer as a number
UNKNOWN = re.compile(r'^target .*|.*\bptrtoaddr (?!ptr %\w+ to i64$).*|^define (?!internal ).*|.*(?:x86|"target-|ptrtoint|inttoptr).*'
                     r'|.*\b(?:alloca|getelementptr) (?!(?:inbounds |nuw )*(?:i\d+|ptr|\[\d+ x i\d+\]),).*', re.M)
# the address of a pointer, as a number of 64 bits; other instructions of that kind are not known
ADDRESS = re.compile(r'^(  %\w+ = )ptrtoaddr( ptr %\w+ to i64)$', re.M)
# the answer goes where the first parameter points, or comes back in two registers, or is a number
IN_MEMORY, IN_REGISTERS, NUMBER = 'noundef ptr', '{ i64, i64 }', 'noundef i32'

def stop(why):
    sys.exit(f'retarget: {why}')

def proved(result, name, given):
    """The function proved_NAME, which calls eelbasket_NAME."""
    parameters = [PARAMETER.fullmatch(one) for one in given.split(', ')]
    if not name.startswith('eelbasket_') or result not in (IN_MEMORY, IN_REGISTERS, NUMBER) or not all(parameters):
        stop(f'it is not known how {name} is called: {result} ({given})')
    taken = [f'{one[1]} %a{i}' for i, one in enumerate(parameters)]
    passed = ', '.join(f'{one[1]}{one[2] or ""} %a{i}' for i, one in enumerate(parameters))
    if result == IN_MEMORY:
        body = f'  %answer = call ptr @{name}({passed})\n'
    else:
        taken.insert(0, 'ptr %out')
        came = result.removeprefix('noundef ')
        body = f'  %answer = call {came} @{name}({passed})\n  store {came} %answer, ptr %out, align {4 if result == NUMBER else 8}\n'
    return f'\ndefine void @{name.replace("eelbasket", "proved", 1)}({", ".join(taken)}) nounwind {{\n{body}  ret void\n}}\n'

def extracted(of):
    """A part of what is handed back in registers, a pointer out of its number."""
    value, kind, whole, i = of.groups()
    if kind.strip('{ }').split(', ')[int(i)] != 'ptr':
        return of[0]
    return f'  {value}.number = extractvalue {kind.replace("ptr", "i64")} {whole}, {i}\n  {value} = inttoptr i64 {value}.number to ptr'

def widened(text):
    """The module with each pointer in memory as a number of 64 bits."""
    count = itertools.count()
    text = re.sub(r'^(  %\w+ = alloca )ptr,', r'\1i64,', text, flags=re.M)
    text = re.sub(r'^  (%\w+) = load ptr, (ptr %\w+, align \d+).*$', r'  \1.number = load i64, \2\n  \1 = inttoptr i64 \1.number to ptr', text, flags=re.M)
    text = re.sub(r'^  store (ptr \S+), (ptr %\w+, align \d+)$',
                  lambda store: f'  %stored.{(n := next(count))} = ptrtoint {store[1]} to i64\n  store i64 %stored.{n}, {store[2]}', text, flags=re.M)
    # what is handed back in registers, of which some are pointers
    text = re.sub(r'^  (%\w+) = extractvalue (\{[^{}]*\}) (%\w+), (\d+)$', extracted, text, flags=re.M)
    text = re.sub(r'\{ [^{}"\n]*\bptr\b[^{}"\n]* \}', lambda kind: re.sub(r'\bptr\b', 'i64', kind[0]), text)
    left = re.search(r'^.*(?:alloca|load|store) ptr\b.*$|^.*insertvalue.*\bptr\b.*$', text, re.M)
    if left:
        stop(f'it is not known how this pointer stands in memory: {left[0]}')
    return text

def retarget(text):
    text = OF_X86.sub('', text)
    calls = EXPORTED.findall(text)
    if not calls:
        stop('this is no module that exports a call')
    text = EXPORTED.sub(lambda call: call[0].replace('define ', 'define internal ', 1), text)
    unknown = UNKNOWN.search(text)
    if unknown:
        stop(f'it is not known what becomes of this: {unknown[0]}')
    # whether two parts of memory overlap is asked of their addresses: one of 32 bits is widened
    text = ADDRESS.sub(r'\1ptrtoint\2', text)
    if len(sys.argv) > 1 and sys.argv[1] != '8':
        text = widened(text)
    return text + ''.join(proved(*call) for call in calls)

sys.stdout.write(retarget(sys.stdin.read()))
