# Sums the greatest common divisors of all pairs of numbers up to 1500, and quotients by them.
    lui x5, 32              # the region
    addi x20, x0, 1500
    addi x6, x0, 1
rows:
    addi x7, x0, 1
pairs:
    addi x8, x6, 0
    addi x9, x7, 0
divide:
    remu x10, x8, x9
    addi x8, x9, 0
    addi x9, x10, 0
    bne x9, x0, divide
    add x12, x12, x8
    div x11, x6, x8
    add x13, x13, x11
    addi x7, x7, 1
    bge x20, x7, pairs
    addi x6, x6, 1
    bge x20, x6, rows
    add x12, x12, x13
    sd x12, 0(x5)
    addi x17, x0, 64        # sends the sum
    addi x10, x0, 1
    addi x11, x5, 0
    addi x12, x0, 8
    ecall
    addi x17, x0, 93        # exits with 7
    addi x10, x0, 7
    ecall
