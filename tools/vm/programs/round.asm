; Reads 300 bytes to address 200 and writes 300 from there; then a byte stored at 256 and loaded from 0.
        const r0 300
        const r1 200
        read r0 r1 r2
        const r3 300
        write r3 r1
        const r4 'x'
        const r5 256
        store r4 r5
        const r6 0
        load r7 r6
        store r7 r1
        const r8 1
        write r8 r1
        end r0                  ; 300: cannot be
