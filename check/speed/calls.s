# The Fibonacci number of 31 by a recursive procedure, with its frames in the region.
    lui x2, 33              # the end of the region
    addi x10, x0, 31
    jal x1, fib
    lui x5, 32              # the region
    sd x10, 0(x5)
    addi x17, x0, 64        # sends the number
    addi x10, x0, 1
    addi x11, x5, 0
    addi x12, x0, 8
    ecall
    addi x17, x0, 93        # exits with 7
    addi x10, x0, 7
    ecall
fib:
    sltiu x6, x10, 2
    bne x6, x0, small
    addi x2, x2, -24
    sd x1, 0(x2)
    sd x10, 8(x2)
    addi x10, x10, -1
    jal x1, fib
    sd x10, 16(x2)
    ld x10, 8(x2)
    addi x10, x10, -2
    jal x1, fib
    ld x6, 16(x2)
    add x10, x10, x6
    ld x1, 0(x2)
    addi x2, x2, 24
small:
    jalr x0, 0(x1)
