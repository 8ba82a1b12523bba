#!/usr/bin/env python3
"""Vectors for RV32IM from outside tools: GNU as and objdump, and qemu-riscv32.

make_vectors.py SEED encodings COUNT   for mv_test_asmtext/encodings.txt: lines 'WORD NAME OPERANDS', as objdump -M no-aliases,numeric prints them
make_vectors.py SEED steps COUNT       lines 'name word t0 t1 cell t2 cell pc', all but the name in hexadecimal: the word of an instruction, as
                               GNU as writes it, at 0x1000; t0, t1 and the word at 0x100000 before it, where t2 is 0; and t2, that
                               word and the program counter after it. t1 of an operation on a register and an immediate is the
                               immediate, and that of a load the byte of the cell at which it loads.
                               There are COUNT of each name, and of 'undefined', which are words that QEMU refuses; and one of
                               EBREAK and some of each load and store outside memory. Where the program counter stays, QEMU
                               ends with the signal SIGILL, SIGTRAP or SIGSEGV, and nothing else changes either.
QEMU runs each word in the middle of 2 MiB of words that all lead back, so that each jump and branch shows where it goes; what it gives
is moved from there to 0x1000. It has neither the faults of misaligned addresses nor stale fetches, so none is here.
Needs binutils-riscv64-unknown-elf and qemu-user (Debian).
"""
import os, random, re, signal, struct, subprocess, sys, tempfile

R = 'add sub sll slt sltu xor srl sra or and mul mulh mulhsu mulhu div divu rem remu'.split()
I = 'addi slti sltiu xori ori andi'.split()
SH = 'slli srli srai'.split()
B = 'beq bne blt bge bltu bgeu'.split()
L = 'lb lh lw lbu lhu'.split()
S = 'sb sh sw'.split()
X = [0, 1, 2, 3, 31, 32, 33, 127, 128, 255, 256, 32767, 32768, 65535, 65536, 0x7fffffff, 0x80000000, 0x80000001, 0xfffffffe, 0xffffffff]

TEXT, CELL, SLOT = 0x1000, 0x100000, 0x400000
CPU = 'rv32,a=off,f=off,d=off,c=off,zba=off,zbb=off,zbc=off,zbs=off'

def tool(*a, **k): return subprocess.run(a, check=True, capture_output=True, **k)

def assemble(text, d, link=False):
    s, o = os.path.join(d, 'a.s'), os.path.join(d, 'a.o')
    open(s, 'w').write(text)
    tool('riscv64-unknown-elf-as', '-march=rv32im_zifencei', '-mabi=ilp32', '-o', o, s)
    if link:
        e = os.path.join(d, 'a')
        tool('riscv64-unknown-elf-ld', '-m', 'elf32lriscv', f'-Tdata={CELL:#x}', f'--section-start=around={SLOT - (1 << 20):#x}', '-o', e, o)
        return e
    return o

def encodings(r, count):
    reg = lambda: f'x{r.choice([0, 1, 2, 5, 10, 15, 16, 30, 31, r.randrange(32)])}'
    imm = lambda: r.choice([0, 1, -1, 2047, -2048, 1024, -1024, r.randint(-2048, 2047)])
    out = []
    for k in range(count):
        for n in R: out.append(f'{n} {reg()}, {reg()}, {reg()}')
        for n in I: out.append(f'{n} {reg()}, {reg()}, {imm()}')
        for n in SH: out.append(f'{n} {reg()}, {reg()}, {r.choice([0, 1, 15, 16, 31, r.randrange(32)])}')
        for n in L: out.append(f'{n} {reg()}, {imm()}({reg()})')
        for n in S: out.append(f'{n} {reg()}, {imm()}({reg()})')
        for n in B: out.append(f'{n} {reg()}, {reg()}, . + {r.choice([4094, -4096, 2, -2, 2048, -2048, 2 * r.randint(-2048, 2047)])}')
        for n in ('lui', 'auipc'): out.append(f'{n} {reg()}, {r.choice([0, 1, 0xfffff, 0x80000, 0x7ffff, r.randrange(1 << 20)])}')
        out.append(f'jal {reg()}, . + {r.choice([1048574, -1048576, 2, -2, 2048, 4096, 2 * r.randint(-524288, 524287)])}')
        out.append(f'jalr {reg()}, {imm()}({reg()})')
    out += ['fence', 'fence.i', 'ecall', 'ebreak']
    with tempfile.TemporaryDirectory() as d:
        # each branch and jump is assembled by its offset: '.' is the instruction's own address
        o = assemble('.option norvc\n.option norelax\n.text\n' + '\n'.join(out) + '\n', d)
        dump = tool('riscv64-unknown-elf-objdump', '-d', '-M', 'no-aliases,numeric', o, text=True).stdout
    rows = re.findall(r'^\s*[0-9a-f]+:\s+([0-9a-f]{8})\s+(\S+)', dump, re.M)
    assert len(rows) == len(out), (len(rows), len(out))
    for (word, name), asked in zip(rows, out):
        ask = asked.replace('. + ', '')
        assert name == ask.split()[0], (name, ask)
        print(word, ask)

# The words that GNU as writes, one a line.
def assembled(lines):
    with tempfile.TemporaryDirectory() as d:
        o, b = assemble('.option norvc\n.option norelax\n.text\n' + '\n'.join(lines) + '\n', d), os.path.join(d, 'b')
        tool('riscv64-unknown-elf-objcopy', '-O', 'binary', '-j', '.text', o, b)
        words = open(b, 'rb').read()
    assert len(words) == 4 * len(lines), (len(words), len(lines))
    return struct.unpack(f'<{len(lines)}I', words)

# Stores each word into the slot, goes there with its registers and its cell, and writes t2, the cell and where it came out. All words
# around the slot are 'jalr t4, 0(s3)'. Each that comes out calls getpid.
DRIVER = """.option norvc
.option norelax
.globl _start
.section around, "awx"
.fill 0x40000, 4, 0x00098ee7
slot: .fill 0x40000, 4, 0x00098ee7
_start: la s1, rows; la s2, cell; la s3, land; la s4, buffer; la s5, buffer; la s6, slot
next: beq s1, s5, done
lw t3, 0(s1); sw t3, 0(s6); lw t0, 4(s1); lw t1, 8(s1); lw t3, 12(s1); sw t3, 0(s2); li t2, 0; fence.i; jr s6
land: li a7, 172; ecall; addi t4, t4, -4; sw t2, 0(s4); lw t3, 0(s2); sw t3, 4(s4); sw t4, 8(s4); addi s1, s1, 16; addi s4, s4, 12; j next
done: li a0, 1; la a1, buffer; sub a2, s4, a1; li a7, 64; ecall; li a0, 0; li a7, 93; ecall
.data
cell: .space 8
rows: .word """

# How QEMU ends with these rows, what it wrote, and the calls and signals that it saw.
def run(rows):
    given = [x for (n, word, t0, t1, cell) in rows for x in (word, t0 - TEXT + SLOT if n == 'jalr' else t0, t1, cell)]
    with tempfile.TemporaryDirectory() as d:
        text = DRIVER + ', '.join(f'{x & 0xffffffff:#x}' for x in given) + f'\nbuffer: .space {12 * len(rows)}\n'
        try: done = subprocess.run(['qemu-riscv32', '-strace', '-cpu', CPU, assemble(text, d, True)], cwd=d, capture_output=True, timeout=5)
        except subprocess.TimeoutExpired: return None, b'', ''
    return done.returncode, done.stdout, done.stderr.decode()

# The rows of the instructions with these lines, which go on.
def going(asked):
    words = assembled([line for (_, line, *_) in asked])
    rows = [(n, word, t0, t1, cell) for (n, _, t0, t1, cell), word in zip(asked, words)]
    status, out, _ = run(rows)
    assert status == 0 and len(out) == 12 * len(rows), (status, len(out))
    for row, (t2, cell, pc) in zip(rows, struct.iter_unpack('<3I', out)):
        yield *row, t2 - SLOT + TEXT if row[0] in ('auipc', 'jal', 'jalr') else t2, cell, pc - SLOT + TEXT

# The row of one that QEMU ends with a signal for this address. Nothing comes before the signal: a word that is carried out may
# change the driver's registers, and the driver go wrong later.
def ending(row, sent, address):
    status, _, seen = run([row])
    given = re.match(rf'--- {sent.name} .* si_addr=(\w+)}} ---\n', seen)
    held = status == -sent and given and int(given[1].replace('NULL', '0'), 0) == address
    return [(*row, 0, row[4], TEXT)] if held else []

def steps(r, count):
    val = lambda: r.choice(X + [r.randrange(1 << 32)] * 8)
    imm = lambda: r.choice([0, 1, -1, 2047, -2048, r.randint(-2048, 2047)])
    far = lambda words: 4 * r.choice([1, -1, 2, words - 1, -words] + [r.randrange(1, words), r.randrange(-words, 0)] * 5)
    place = lambda n: r.randrange(4) if 'b' in n else r.choice([0, 2]) if 'h' in n else 0
    v = []
    for k in range(count):
        for n in R: v.append((n, f'{n} t2, t0, t1', val(), val(), val()))
        for n in I:
            i = imm(); v.append((n, f'{n} t2, t0, {i}', val(), i, val()))
        for n in SH:
            i = r.choice([0, 1, 31, r.randrange(32)]); v.append((n, f'{n} t2, t0, {i}', val(), i, val()))
        for n in B:
            a = val(); v.append((n, f'{n} t0, t1, . + {far(1024)}', a, r.choice([a, val()]), val()))
        for n in L:
            i, at = imm(), place(n); v.append((n, f'{n} t2, {i}(t0)', CELL + at - i, at, val()))
        for n in S:
            i = imm(); v.append((n, f'{n} t1, {i}(t0)', CELL + place(n) - i, val(), val()))
        for n in ('lui', 'auipc'): v.append((n, f'{n} t2, {r.choice([0, 1, 0xfffff, 0x80000, 0x7ffff, r.randrange(1 << 20)])}', val(), val(), val()))
        v.append(('jal', f'jal t2, . + {far(1 << 18)}', val(), val(), val()))
        i = imm(); v.append(('jalr', f'jalr t2, {i}(t0)', TEXT + far(1 << 18) + r.randrange(2) - i, val(), val()))
        for n in ('fence', 'fence.i'): v.append((n, n, val(), val(), val()))
    rows = list(going(v))
    refused = []
    while len(refused) < count:
        word = r.randrange(1 << 25) << 7 | r.choice([0x37, 0x17, 0x6f, 0x67, 0x63, 0x03, 0x23, 0x13, 0x33, 0x0f, 0x73, r.randrange(128)])
        refused += ending(('undefined', word, val(), val(), val()), signal.SIGILL, SLOT)
    rows += refused + ending(('ebreak', 0x00100073, val(), val(), val()), signal.SIGTRAP, SLOT)
    outside = [(n, f'{n} t2, 0(t0)' if n in L else f'{n} t1, 0(t0)', a, val(), val()) for n in L + S for a in (0, 0xffc, 0x08000000, 0xfffffffc)]
    for (n, _, *before), word in zip(outside, assembled([line for (_, line, *_) in outside])):
        rows += ending((n, word, *before), signal.SIGSEGV, before[0])
    assert len(rows) == len(v) + count + 1 + len(outside), len(rows)
    for name, *words in rows: print(name, *(f'{x & 0xffffffff:08x}' for x in words))

if __name__ == '__main__':
    seed, what, count = sys.argv[1:]
    {'encodings': encodings, 'steps': steps}[what](random.Random(int(seed)), int(count))
