; Counts from 1 to the digit that is read, and prints each.
        const r15 1
        const r0 1
        read r0 r1 r2
        load r3 r1              ; the last digit
        const r4 '0'
        const r6 255
        const r7 10
        store r7 r6             ; a new line at 255
        const r5 254
next:   compare r4 r3
        jump_equal done
        add r4 r4 r15
        store r4 r5
        const r8 2
        write r8 r5
        jump next
done:   const r0 0
        end r0
