# Fifty thousand times: moves 2048 bytes of the region up by 2048, by 8, 4, 2 and 1 bytes in turn.
    lui x5, 32              # the region
    lui x20, 12
    addi x20, x20, 848      # 50000
again:
    addi x6, x5, 0
    addi x7, x5, 2047
    addi x7, x7, 1
    addi x8, x7, 0
move:
    ld x10, 0(x6)
    addi x10, x10, 3
    sd x10, 0(x7)
    lwu x11, 8(x6)
    sw x11, 8(x7)
    lhu x12, 12(x6)
    sh x12, 12(x7)
    lbu x13, 14(x6)
    sb x13, 14(x7)
    lb x14, 15(x6)
    sb x14, 15(x7)
    addi x6, x6, 16
    addi x7, x7, 16
    bltu x6, x8, move
    ld x15, 0(x8)
    sd x15, 0(x5)
    addi x20, x20, -1
    bne x20, x0, again
    addi x17, x0, 64        # sends the first word
    addi x10, x0, 1
    addi x11, x5, 0
    addi x12, x0, 8
    ecall
    addi x17, x0, 93        # exits with 7
    addi x10, x0, 7
    ecall
