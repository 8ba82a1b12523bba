#!/usr/bin/env python3
"""Writes stdin and stdout: texts, and the words that GNU as gives for them (riscv64-unknown-elf-as, -march=rv32im_zifencei).

The first case has every instruction and every name of a register. What `print` is to write of it is written here, and given to GNU as
once more, which must give the same words. The second has the lines of encodings.txt, words as GNU as writes them and objdump reads them, which
make_vectors.py of mv_test_rv32 drew. The other cases are short texts whose answers the format's
rules give.
"""
import os, re, subprocess, tempfile
HERE = os.path.dirname(os.path.realpath(__file__))
ABI = 'zero ra sp gp tp t0 t1 t2 s0 s1'.split() + [f'a{i}' for i in range(8)] + [f's{i}' for i in range(2, 12)] + [f't{i}' for i in range(3, 7)]
NUMBERED = [f'x{i}' for i in range(32)]
REGISTER = 'add sub sll slt sltu xor srl sra or and mul mulh mulhsu mulhu div divu rem remu'.split()
IMMEDIATE = 'addi slti sltiu xori ori andi'.split()
SHIFT = 'slli srli srai'.split()
LOAD = 'lb lh lw lbu lhu jalr'.split()
STORE = 'sb sh sw'.split()
BRANCH = 'beq bne blt bge bltu bgeu'.split()

def assembled(lines):
    """The words that GNU as gives."""
    with tempfile.TemporaryDirectory() as folder:
        source, object_file, binary = (os.path.join(folder, n) for n in ('a.s', 'a.o', 'a.bin'))
        with open(source, 'w') as f:
            f.write('.option norvc\n.option norelax\n' + '\n'.join(lines) + '\n')
        subprocess.run(['riscv64-unknown-elf-as', '-march=rv32im_zifencei', '-mabi=ilp32', source, '-o', object_file], check=True)
        subprocess.run(['riscv64-unknown-elf-objcopy', '-O', 'binary', '-j', '.text', object_file, binary], check=True)
        with open(binary, 'rb') as f:
            data = f.read()
    return [int.from_bytes(data[i:i + 4], 'little') for i in range(0, len(data), 4)]

def instructions():
    """Each as its name, its operands with register numbers, and the form of the operands."""
    turn = 0
    def register():
        nonlocal turn
        turn += 1
        return (turn * 7) % 64
    for name in REGISTER:
        for _ in range(5):
            yield name, [register(), register(), register()], 'rrr'
    for name in IMMEDIATE:
        for number in (0, 1, -1, 2047, -2048):
            yield name, [register(), register(), number], 'rrn'
    for name in SHIFT:
        for number in (0, 1, 31):
            yield name, [register(), register(), number], 'rrn'
    for name in LOAD:
        for number in (0, 4, -4, 2047, -2048):
            yield name, [register(), number, register()], 'rm'
    for name in STORE:
        for number in (0, 4, -4, 2047, -2048):
            yield name, [register(), number, register()], 'rm'
    for name in BRANCH:
        for number in (-4, 8, 4094, -4096):
            yield name, [register(), register(), number], 'rrt'
    for number in (8, -4, 1048574, -1048576):
        yield 'jal', [register(), number], 'rt'
    for name in ('lui', 'auipc'):
        for number in (0, 1, 1048575):
            yield name, [register(), number], 'rn'
    for name in ('fence', 'fence.i', 'ecall', 'ebreak'):
        yield name, [], ''

def spelled(name, operands, form, names, gnu):
    def number(n):
        return f'. + {n}' if gnu and form.endswith('t') else str(n)
    if form == '':
        return name
    if form == 'rm':
        return f'{name} {names[operands[0]]}, {operands[1]}({names[operands[2]]})'
    words = [names[o] if kind == 'r' else number(o) for kind, o in zip(form, operands)]
    return f'{name} ' + ', '.join(words)

def main():
    every = list(instructions())
    spelling = ABI + NUMBERED
    canonical = ABI + ABI
    mine = [spelled(*i, spelling, False) for i in every]
    printed = [spelled(*i, canonical, False) for i in every]
    words = assembled([spelled(*i, spelling, True) for i in every])
    again = assembled([spelled(*i, canonical, True) for i in every])
    assert len(mine) >= 200 and words == again and len(words) == len(mine)
    used = {n for line in mine for n in line.replace('(', ' ').replace(')', ' ').replace(',', ' ').split()[1:]}
    assert set(spelling) <= used, set(spelling) - used
    cases, answers = [], []
    def case(text, answer):
        cases.append(text)
        answers.append(answer)
    def code(entry, text, globals_, lines):
        shown = [f'entry {entry:08x}', 'text' + ''.join(f' {w:08x}' for w in text), 'data' + ''.join(f' {w:08x}' for w in globals_)]
        return '\n'.join(shown + [f'.entry 0x{entry:08x}'] + lines) + '\n'
    case('\n'.join(mine) + '\n', code(0x1000, words, [], printed))
    with open(os.path.join(HERE, 'encodings.txt')) as f:
        rows = [line.split(' ', 1) for line in f.read().splitlines()]
    named = [re.sub(r'\bx(\d+)\b', lambda it: ABI[int(it[1])], line) for _, line in rows]
    case('\n'.join(line for _, line in rows) + '\n', code(0x1000, [int(word, 16) for word, _ in rows], [], named))
    loop = ['.entry 0x00001000', 'start: addi a0, zero, 1 # one', '  addi a0, a0, 1', '  bne a0, a1, start', '.word 0xffffffff']
    loop_words = assembled([l for l in loop[1:4]]) + [0xffffffff]
    assert loop_words == [0x00100513, 0x00150513, 0xFEB51CE3, 0xFFFFFFFF]
    case('\n'.join(loop) + '\n', code(0x1000, loop_words, [], ['addi a0, zero, 1', 'addi a0, a0, 1', 'bne a0, a1, -8', '.word 0xffffffff']))
    case('.entry main\necall\nmain:ebreak\n.data\nx: .word 7\n.word 0xABCDEF01\n',
         code(0x1004, [0x73, 0x100073], [7, 0xabcdef01], ['ecall', 'ebreak', '.data', '.word 0x00000007', '.word 0xabcdef01']))
    def refused(text, number, line=1):
        case(text, f'line {line} is refused with {number}\n')
    refused('addi a0, zero, 2048\n', 18)
    refused('beq x0, x0, c\n', 19)
    refused('addi a0\n', 17)
    refused('', 17)
    refused('# nothing\n\n', 17)
    refused('ecall\nbeq x0, x0, 3\n', 18, 2)
    refused('a: ecall\na: addi a0, zero, 2048\n', 18, 2)
    refused('a: ecall\na: ecall\n', 19, 2)
    refused('.word 4294967296\n', 18)
    refused('ecall\n.entry 0x1000\n', 17, 2)
    refused('.entry 0x1004\necall\n', 18)
    refused('.entry x\necall\n.data\nx:\n', 18)
    refused('.data\necall\n', 17, 2)
    refused('addi a0, zero, 01\n', 17)
    refused('addi a0, zero, -0\n', 17)
    refused('ecall\naddi a0 zero, 1\n', 17, 2)
    with open(os.path.join(HERE, 'stdin'), 'w') as f:
        f.write('====\n'.join(cases))
    with open(os.path.join(HERE, 'stdout'), 'w') as f:
        f.write('----\n'.join(answers))

main()
