/* selftest/vectors.bin, inside the program; `selftest/pack` writes it and says what its form is. */
    .section .rodata
    .globl selftest_vectors
    .globl selftest_vectors_end
    .balign 8
selftest_vectors:
    .incbin "vectors.bin"
selftest_vectors_end:
    .byte 0
    .section .note.GNU-stack,"",@progbits
