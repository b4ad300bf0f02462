# Ten instructions, ten million times: sums, a product, a load and a store of 8 bytes and of 1 byte, a branch.
    lui x5, 32              # the region
    lui x13, 2441
    addi x13, x13, 1664     # 10000000
loop:
    addi x6, x6, 1
    mul x7, x6, x6
    sd x7, 8(x5)
    ld x8, 8(x5)
    xor x9, x9, x8
    lbu x10, 9(x5)
    sb x10, 16(x5)
    slli x11, x9, 3
    add x12, x12, x11
    bne x6, x13, loop
    sd x12, 0(x5)
    addi x17, x0, 64        # sends the sum
    addi x10, x0, 1
    addi x11, x5, 0
    addi x12, x0, 8
    ecall
    addi x17, x0, 93        # exits with 7
    addi x10, x0, 7
    ecall
