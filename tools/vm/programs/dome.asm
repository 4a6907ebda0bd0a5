; A small dialogue, a byte a word: 'o' opens, 'c' closes, 's' tells 'o' or 'c'; anything else is answered by '?'.
        const r15 1
        const r14 'o'
        const r13 'c'
        const r12 's'
        const r11 '?'
        move r10 r13            ; r10: how it stands; closed at first
next:   const r0 1
        read r0 r1 r2
        compare r2 r15
        jump_equal done
        load r3 r1
        compare r3 r14
        jump_equal turn
        compare r3 r13
        jump_equal turn
        compare r3 r12
        jump_equal tell
        store r11 r1
        write r15 r1
        jump next
turn:   move r10 r3
tell:   store r10 r1
        write r15 r1
        jump next
done:   const r0 0
        end r0
