; A reading each turn, without end: a number that goes round in a byte, written as it is.
        const r15 1
again:  add r0 r0 r15
        store r0 r1
        write r15 r1
        jump again
