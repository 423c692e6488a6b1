/* A cache line and PAD bytes more, so that what is linked next begins PAD bytes into a line. */
    .text
    .p2align 6
    .skip LINE + PAD, 0xCC
    .section .note.GNU-stack, "", @progbits
