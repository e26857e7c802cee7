/* Room that moves the code linked behind it by SHIFT bytes. How fast a loop runs depends on where its jumps lie within
   32 bytes, and functions start at any multiple of 16. */
    .text
    .balign 64
    .skip 64 + SHIFT
    .section .note.GNU-stack, "", @progbits
