#!/usr/bin/env python3
"""Writes the sample folders: policy.bin, routine.bin, start.bin and expected (the lines that the two programs print).

Run it in this folder. The expected lines are given here by hand, from documents 01 and 02; compare.sh runs the programs and compares.
"""
import os
import struct

# ---- expressions, atoms


def const(n):
    return bytes([0]) + struct.pack('<I', n)


def var(v):
    return bytes([1]) + struct.pack('<H', v)


def add(a, b):
    return bytes([2]) + a + b


def sub(a, b):
    return bytes([3]) + a + b


def shifted(count, a):
    return bytes([5, count]) + a


def equal(a, b):
    return bytes([0]) + a + b


def unequal(a, b):
    return bytes([1]) + a + b


def at_most(a, b):
    return bytes([3]) + a + b


# ---- policy and package


def policy(memory, limit, regions, pre=(), post=()):
    """regions: (base, length, rights), rights 1 read, 2 write, 3 both"""
    head = bytes([len(regions), len(pre), len(post), 0]) + struct.pack('<II', memory, limit)
    bases = b''.join(struct.pack('<I', base) for base, _, _ in regions)
    extents = b''.join(struct.pack('<I', 4 * length + rights) for _, length, rights in regions)
    return head + bases + extents + b''.join(pre) + b''.join(post)


def instruction(op, d=0, a=0, b=0, i=0):
    return bytes([op, d, a, b]), struct.pack('<I', i)


def annotation(index, credit, *atoms):
    return struct.pack('<HB', index, len(atoms)) + credit + b''.join(atoms)


def package(code, annotations, proof):
    section = b''.join(annotations)
    header = struct.pack('<HHII', len(code), len(annotations), len(section), len(proof))
    return header + b''.join(op for op, _ in code) + b''.join(i for _, i in code) + section + proof


def start(budget, registers, memory):
    words = [budget] + registers + memory
    return b''.join(struct.pack('<I', w) for w in words)


# ---- derivations: a rule byte, its argument, the derivations of its premises


def assume(index):
    return bytes([0]) + struct.pack('<H', index)


SAME = bytes([1])
REFLEXIVE = bytes([2])
EVALUATE = bytes([3])
LINEAR = bytes([12])
ZERO = bytes([13])
MASKED_AT_MOST = bytes([25])
SHIFTED_AT_MOST = bytes([27])
UNEQUAL_CONSTANTS = bytes([28])


def rule(number, *premises, m=b''):
    return bytes([number]) + m + b''.join(premises)


def write(name, policy_bytes, package_bytes, start_bytes, check_line, run_line):
    os.makedirs(name, exist_ok=True)
    for file, data in (('policy.bin', policy_bytes), ('routine.bin', package_bytes), ('start.bin', start_bytes)):
        with open(os.path.join(name, file), 'wb') as out:
            out.write(data)
    with open(os.path.join(name, 'expected'), 'w') as out:
        out.write(check_line + '\n' + run_line + '\n')


# ---- sample S of document 01

write('return', policy(1, 1, [(0, 1, 3)]), package([instruction(9)], [], REFLEXIVE), start(1, [0] * 16, [0]),
      'verdict=0 place=0 goals=1', 'run=0 place=0 steps=1')

# ---- a loop over a table: adds up 16 words and stores the sum behind them
#
#  0  r0 := 0                     index
#  1  r1 := 0                     sum
#  2  r2 := 16                    length of the table
#  3  jump to 8 if r0 = r2        annotated: r0 <= 16, r2 = 16; credit 84 - 5 r0
#  4  r3 := Mem[r0 + 0]
#  5  r1 := r1 + r3
#  6  r0 := r0 + 1
#  7  jump to 3
#  8  r4 := 0                     annotated: r0 = 16; credit 3
#  9  Mem[r4 + 16] := r1
# 10  return                      postcondition: r0 = 16

CODE = [
    instruction(0, d=0, i=0), instruction(0, d=1, i=0), instruction(0, d=2, i=16), instruction(8, a=0, b=2, i=8),
    instruction(4, d=3, a=0, i=0), instruction(1, d=1, a=1, b=3), instruction(2, d=0, a=0, i=1), instruction(6, i=3),
    instruction(0, d=4, i=0), instruction(5, d=1, a=4, i=16), instruction(9),
]


def five(t):
    return add(t, add(t, add(t, add(t, t))))


def credit(t):
    """84 - 5 t: five steps for each word to come, and four to the return"""
    return sub(const(84), five(t))


# v0 <= bound, by the derivation given, makes 5 v0 <= 5 bound
def five_at_most(bound, each):
    summed = rule(14, each, each, EVALUATE)
    for _ in range(3):
        summed = rule(14, each, summed, EVALUATE)
    return rule(6, summed, EVALUATE, m=five(const(bound)))


# 84 - 5 bound <= 84 - 5 v0
def credit_at_least(bound, each):
    return rule(15, REFLEXIVE, five_at_most(bound, each), EVALUATE)


# a closed k <= 84 - 5 v0
def enough(bound, each):
    return rule(6, EVALUATE, credit_at_least(bound, each), m=sub(const(84), const(5 * bound)))


INDEX_AT_MOST_16 = assume(0)
LENGTH_IS_16 = assume(1)
# after the branch: v0 <= v2 by way of 16, v0 is not v2, so v0 < v2 <= 16
BELOW_LENGTH = rule(19, rule(6, INDEX_AT_MOST_16, rule(10, rule(4, LENGTH_IS_16)), m=const(16)), assume(2))
BELOW_16 = rule(7, BELOW_LENGTH, rule(10, LENGTH_IS_16), m=var(2))
# v0 < 16 <= 15 + 1
AT_MOST_15 = rule(17, rule(7, BELOW_16, EVALUATE, m=const(16)))

PROOF = b''.join([
    # the block at 0 arrives at 3: 0 <= 16, 16 = 16, 3 <= 87, 84 - 5*0 <= 87 - 3
    EVALUATE, SAME, EVALUATE, EVALUATE,
    # the block at 3, taken edge to 8 with v0 = v2 assumed: v0 = 16; 1 <= credit; 3 <= credit - 1
    rule(5, assume(2), LENGTH_IS_16, m=var(2)),
    enough(16, INDEX_AT_MOST_16),
    rule(6, EVALUATE, rule(15, credit_at_least(16, INDEX_AT_MOST_16), REFLEXIVE, EVALUATE), m=sub(sub(const(84), const(80)), const(1))),
    # the other edge: the load is in region 0
    bytes([22, 0]) + ZERO + rule(8, rule(10, LINEAR), BELOW_16, m=var(0)),
    # arriving at 3 again: v0 + 1 <= 16; v2 = 16; 5 <= credit; the lower credit
    rule(16, BELOW_16), LENGTH_IS_16, enough(15, AT_MOST_15), rule(10, LINEAR),
    # the block at 8: the store is in region 1; the postcondition; 3 <= 3
    bytes([23, 1]) + EVALUATE + EVALUATE, assume(0), REFLEXIVE,
])

TABLE = [(7 * k + 3) % 61 for k in range(16)]
TABLE_POLICY = [(0, 16, 1), (16, 1, 3)]
TABLE_PACKAGE = package(CODE, [
    annotation(3, credit(var(0)), at_most(var(0), const(16)), equal(var(2), const(16))),
    annotation(8, const(3), equal(var(0), const(16))),
], PROOF)
TABLE_START = start(1000, [9] * 16, TABLE + [0] * 16)
POST = [equal(var(0), const(16))]
write('table_sum', policy(32, 87, TABLE_POLICY, post=POST), TABLE_PACKAGE, TABLE_START,
      'verdict=0 place=0 goals=15', 'run=0 place=10 steps=87')

# ---- the same routine under a limit of 86 steps: it might still run when its time is up

PROOF_AT = len(TABLE_PACKAGE) - len(PROOF)
write('step_limit', policy(32, 86, TABLE_POLICY, post=POST), TABLE_PACKAGE, TABLE_START,
      f'verdict=16 place={PROOF_AT + 3} goals=3', 'run=0 place=10 steps=87')

# ---- a region that ends past the memory

write('region_past_memory', policy(32, 87, [(0, 16, 1), (31, 2, 3)], post=POST), TABLE_PACKAGE, TABLE_START,
      'verdict=5 place=1 goals=0', 'run=5 place=1 steps=0')

# ---- an address of 8 - 12: below zero over whole numbers, 4,294,967,292 for the machine

WRAPPED = [instruction(0, d=1, i=8), instruction(0, d=2, i=12), instruction(3, d=3, a=1, b=2), instruction(4, d=0, a=3, i=0), instruction(9)]
WRAPPED_PROOF = bytes([22, 0]) + EVALUATE + EVALUATE + EVALUATE
write('wrapped_address', policy(32, 5, [(0, 9, 1)]), package(WRAPPED, [], WRAPPED_PROOF), start(5, [0] * 16, [0] * 32),
      f'verdict=16 place={12 + 8 * 5 + 3} goals=0', 'run=21 place=3 steps=3')

# ---- packed fields: an egg's word has its weight in the low 12 bits and its shell colour in the high 4; adds the weight to the colour's total
#
#  0  r1 := 0
#  1  r2 := Mem[r1 + 16]          the egg's word
#  2  r3 := r2 masked with 4095   weight
#  3  r4 := r2 shifted by 28      colour
#  4  r5 := Mem[r4 + 0]           the total of the colour
#  5  r5 := r5 + r3
#  6  Mem[r4 + 0] := r5
#  7  return                      postcondition: r3 <= 4095, r4 <= 15

PACKED = [
    instruction(0, d=1, i=0), instruction(4, d=2, a=1, i=16), instruction(10, d=3, a=2, i=4095), instruction(11, d=4, a=2, i=28),
    instruction(4, d=5, a=4, i=0), instruction(1, d=5, a=5, b=3), instruction(5, d=5, a=4, i=0), instruction(9),
]
COLOUR = shifted(28, var(16))
# colour + 0 < 16: it is the colour, which rule 12 takes as a variable; the colour <= 15 < 16
BELOW_TABLE_END = rule(8, rule(10, LINEAR), rule(8, SHIFTED_AT_MOST, EVALUATE, m=const(15)), m=COLOUR)
FIRST_ACCESS = bytes([22, 1]) + EVALUATE + EVALUATE
PACKED_PROOF = b''.join([
    FIRST_ACCESS,
    bytes([22, 0]) + ZERO + BELOW_TABLE_END,
    bytes([23, 0]) + ZERO + BELOW_TABLE_END,
    MASKED_AT_MOST, SHIFTED_AT_MOST, REFLEXIVE,
])
PACKED_PACKAGE = package(PACKED, [], PACKED_PROOF)
PACKED_START = start(8, [9] * 16, [100 * k for k in range(16)] + [5 << 28 | 77 << 12 | 623])
PACKED_POST = [at_most(var(3), const(4095)), at_most(var(4), const(15))]
write('packed_fields', policy(17, 8, [(0, 16, 3), (16, 1, 1)], post=PACKED_POST), PACKED_PACKAGE, PACKED_START,
      'verdict=0 place=0 goals=6', 'run=0 place=7 steps=8')

# ---- the same routine over a table of 15 words: colour 15 would be past it; this egg has another

TABLE_END = 12 + 8 * len(PACKED) + len(FIRST_ACCESS) + 3 + len(BELOW_TABLE_END)
write('field_past_table', policy(17, 8, [(0, 15, 3), (16, 1, 1)], post=PACKED_POST), PACKED_PACKAGE, PACKED_START,
      f'verdict=16 place={TABLE_END - 1} goals=1', 'run=0 place=7 steps=8')

# ---- farm codes inside a table that is posted to: two neighbouring sheds of four words each, farm code, eggs, weight, cracked
#
# r1 is the code that the egg bears, r2 its weight; the egg is posted to the shed that has its code, or to none.
#
#  0  r3 := 0
#  1  r4 := Mem[r3 + 0]           the first shed's code
#  2  jump to 6 if r1 = r4
#  3  r4 := Mem[r3 + 4]           the second shed's code
#  4  jump to 14 if r1 = r4
#  5  return
#  6  r3 := 0                     annotated, credit 8: the first shed; at 14 the second, with r3 := 4
#  7  r5 := Mem[r3 + 1]
#  8  r5 := r5 + 1
#  9  Mem[r3 + 1] := r5           one more egg
# 10  r5 := Mem[r3 + 2]
# 11  r5 := r5 + r2
# 12  Mem[r3 + 2] := r5           its weight
# 13  return

FIRST_ROW, SECOND_ROW = 0, 4


def counting(row, count=1, total=2):
    """counts one egg for the shed whose row starts at that word"""
    return [
        instruction(0, d=3, i=row), instruction(4, d=5, a=3, i=count), instruction(2, d=5, a=5, i=1), instruction(5, d=5, a=3, i=count),
        instruction(4, d=5, a=3, i=total), instruction(1, d=5, a=5, b=2), instruction(5, d=5, a=3, i=total), instruction(9),
    ]


ROW_BY_CODE = [
    instruction(0, d=3, i=0), instruction(4, d=4, a=3, i=0), instruction(8, a=1, b=4, i=6),
    instruction(4, d=4, a=3, i=4), instruction(8, a=1, b=4, i=14), instruction(9),
]
ROW_ANNOTATIONS = [annotation(6, const(8)), annotation(14, const(8))]


def reads(region):
    return bytes([22, region]) + EVALUATE + EVALUATE


def writes(region):
    return bytes([23, region]) + EVALUATE + EVALUATE


def rows_proof(first_code, second_code, first_rest, second_rest):
    """by the regions that the codes and the words posted to lie in"""
    found = EVALUATE + EVALUATE
    by_code = [reads(first_code), found, reads(second_code), found, EVALUATE]
    rests = [(reads(region) + writes(region)) * 2 + REFLEXIVE for region in (first_rest, second_rest)]
    return b''.join(by_code + rests)


ROWS = [17, 240, 14400, 3, 18, 250, 15500, 4]
ROWS_START = start(13, [0, 18, 61] + [0] * 13, ROWS)

# the table drawn in parts: the first code, the words posted to, the second code, the words posted to

PARTS = [(0, 1, 1), (1, 3, 3), (4, 1, 1), (5, 3, 3)]
BESIDE_THE_CODES = ROW_BY_CODE + counting(FIRST_ROW) + counting(SECOND_ROW)
write('farm_codes', policy(8, 13, PARTS), package(BESIDE_THE_CODES, ROW_ANNOTATIONS, rows_proof(0, 2, 1, 3)), ROWS_START,
      'verdict=0 place=0 goals=17', 'run=0 place=21 steps=13')

# ---- the table drawn as one writable region, with the codes over it: the codes are safe, and no store to that region can be derived

DRAWN_AS_ONE = [(0, 8, 3), (0, 1, 1), (4, 1, 1)]
DRAWN_PACKAGE = package(BESIDE_THE_CODES, ROW_ANNOTATIONS, rows_proof(1, 2, 0, 0))
ROWS_PROOF_AT = len(DRAWN_PACKAGE) - len(rows_proof(1, 2, 0, 0))
# the codes are read, 4 bytes each, and 5 goals of one byte; then the first shed's eggs are read, and the store is next
FIRST_STORE = ROWS_PROOF_AT + 4 + 2 + 4 + 2 + 1 + 4
write('farm_codes_one_region', policy(8, 13, DRAWN_AS_ONE), DRAWN_PACKAGE, ROWS_START,
      f'verdict=16 place={FIRST_STORE} goals=8', 'run=0 place=21 steps=13')

# ---- a routine under that drawing that posts one word too low: it would count eggs in the farm code

TOO_LOW = ROW_BY_CODE + counting(FIRST_ROW, 0, 1) + counting(SECOND_ROW, 0, 1)
write('farm_code_written', policy(8, 13, DRAWN_AS_ONE), package(TOO_LOW, ROW_ANNOTATIONS, rows_proof(1, 2, 0, 0)), ROWS_START,
      f'verdict=16 place={FIRST_STORE} goals=8', 'run=21 place=17 steps=8')

# ---- 12 past a base differs from 8 past it: by bounds of the base, which took a base of at most 3, and by the constants, of any base


def past(base, n):
    return add(base, const(n))


# base <= 3, so base + 8 <= 3 + 8 <= 11
AT_MOST_11 = rule(6, rule(14, assume(0), REFLEXIVE, EVALUATE), EVALUATE, m=add(const(3), const(8)))
# 12 <= 0 + 12 <= base + 12, since base <= base + 12: base <= 3 <= 4294967295 - 12
NO_WRAP = rule(18, rule(6, assume(0), EVALUATE, m=const(3)))
AT_LEAST_12 = rule(6, EVALUATE, rule(14, ZERO, REFLEXIVE, NO_WRAP), m=add(const(0), const(12)))
# base + 8 <= 11 < 12 <= base + 12, so base + 8 differs from base + 12, and base + 12 from base + 8
BY_BOUNDS = rule(21, rule(20, rule(8, AT_MOST_11, rule(7, EVALUATE, AT_LEAST_12, m=const(12)), m=const(11))))

APART = [unequal(past(var(1), 12), past(var(1), 8))] * 2 + [unequal(past(var(2), 12), past(var(2), 8))]
write('past_a_base', policy(1, 1, [(0, 1, 1)], pre=[at_most(var(1), const(3))], post=APART),
      package([instruction(9)], [], BY_BOUNDS + UNEQUAL_CONSTANTS + UNEQUAL_CONSTANTS + REFLEXIVE), start(1, [0, 3, 4294967285] + [0] * 13, [0]),
      'verdict=0 place=0 goals=4', 'run=0 place=0 steps=1')

# ---- a plain decision: the smaller of two words, in register 0 and in memory; both ways join at 3
#
#  0  r0 := r1 + 0
#  1  jump to 3 if r1 < r2
#  2  r0 := r2 + 0
#  3  r3 := 0
#  4  Mem[r3 + 0] := r0
#  5  return                      postcondition: r0 <= r1, r0 <= r2
#
# Without an annotation at 3 the package has 93 bytes, 33 of them proof: what follows the join is derived twice, on the taken edge first.
# With one, as it had to be before S-5, it has 120: 22 of annotation, 38 of proof.

DECISION = [
    instruction(2, d=0, a=1, i=0), instruction(7, a=1, b=2, i=3), instruction(2, d=0, a=2, i=0),
    instruction(0, d=3, i=0), instruction(5, d=0, a=3, i=0), instruction(9),
]
SMALLER = [at_most(var(0), var(1)), at_most(var(0), var(2))]
ITSELF = rule(10, LINEAR)
# v1 + 0 <= v1 < v2 by the condition; v2 + 0 <= v2 <= v1 by its opposite, which has the same number
FIRST_IS_SMALLER = rule(6, ITSELF, rule(9, assume(0)), m=var(1))
SECOND_IS_SMALLER = rule(6, ITSELF, assume(0), m=var(2))

TWICE = b''.join([
    # the taken edge: the store; v1 + 0 <= v1, v1 + 0 <= v2; 5 <= 6
    writes(0), ITSELF, FIRST_IS_SMALLER, EVALUATE,
    # the other edge: the store; v2 + 0 <= v1, v2 + 0 <= v2; 6 <= 6
    writes(0), SECOND_IS_SMALLER, ITSELF, REFLEXIVE,
])
DECISION_POLICY = policy(1, 6, [(0, 1, 3)], post=SMALLER)
DECISION_PACKAGE = package(DECISION, [], TWICE)
FIRST_SMALLER = start(6, [9, 48, 61] + [9] * 13, [0])
SECOND_SMALLER = start(6, [9, 61, 48] + [9] * 13, [0])
write('smaller_of_two', DECISION_POLICY, DECISION_PACKAGE, FIRST_SMALLER, 'verdict=0 place=0 goals=8', 'run=0 place=5 steps=5')
write('smaller_of_two_other_way', DECISION_POLICY, DECISION_PACKAGE, SECOND_SMALLER, 'verdict=0 place=0 goals=8', 'run=0 place=5 steps=6')

# ---- the same routine with the join annotated

ONCE = b''.join([
    # the taken edge arrives at 3: both atoms, 2 <= 6, 3 <= 6 - 2; the other edge: both atoms, 3 <= 6, 3 <= 6 - 3
    ITSELF, FIRST_IS_SMALLER, EVALUATE, EVALUATE,
    SECOND_IS_SMALLER, ITSELF, EVALUATE, EVALUATE,
    # the block at 3: the store; both atoms; 3 <= 3
    writes(0), assume(0), assume(1), REFLEXIVE,
])
JOIN = annotation(3, const(3), *SMALLER)
ANNOTATED_PACKAGE = package(DECISION, [JOIN], ONCE)
write('smaller_of_two_annotated', DECISION_POLICY, ANNOTATED_PACKAGE, SECOND_SMALLER, 'verdict=0 place=0 goals=12', 'run=0 place=5 steps=6')

assert [len(DECISION_PACKAGE), len(TWICE), len(ANNOTATED_PACKAGE), len(JOIN), len(ONCE)] == [93, 33, 120, 22, 38]
