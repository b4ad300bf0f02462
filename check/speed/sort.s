# Sixty times: makes 1000 words of 4 bytes by a rule, sorts them by insertion, and sums over them in a procedure.
    addi x20, x0, 60
    lui x21, 3
    addi x21, x21, 57       # 12345
    lui x22, 269413
    addi x22, x22, -403     # 1103515245
    lui x23, 3
    addi x23, x23, 57
    addi x24, x0, 1000
    addi x30, x0, 0
again:
    lui x5, 32              # the region
    addi x6, x0, 0
    addi x7, x5, 0
make:
    mulw x21, x21, x22
    addw x21, x21, x23
    srliw x8, x21, 8
    sw x8, 0(x7)
    addi x7, x7, 4
    addi x6, x6, 1
    blt x6, x24, make
    addi x6, x0, 1
    addi x7, x5, 4
each:
    lw x8, 0(x7)
    addi x9, x7, -4
move:
    bltu x9, x5, place
    lw x10, 0(x9)
    bge x8, x10, place
    sw x10, 4(x9)
    addi x9, x9, -4
    jal x0, move
place:
    sw x8, 4(x9)
    addi x7, x7, 4
    addi x6, x6, 1
    bne x6, x24, each
    jal x1, sum
    addi x20, x20, -1
    bne x20, x0, again
    sd x30, 0(x5)
    addi x17, x0, 64        # sends the sum
    addi x10, x0, 1
    addi x11, x5, 0
    addi x12, x0, 8
    ecall
    addi x17, x0, 93        # exits with 7
    addi x10, x0, 7
    ecall
sum:
    addi x6, x0, 0
add:
    slli x11, x6, 2
    add x11, x11, x5
    lwu x10, 0(x11)
    lhu x12, 0(x11)
    lb x13, 1(x11)
    addi x14, x6, 7
    divu x15, x10, x14
    rem x16, x13, x14
    xor x30, x30, x15
    sub x30, x30, x16
    sltu x18, x30, x12
    add x30, x30, x18
    srai x19, x30, 3
    add x30, x30, x19
    addi x6, x6, 1
    bgeu x24, x6, next
next:
    bne x6, x24, add
    jalr x0, 0(x1)
