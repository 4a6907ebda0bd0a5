; How many bytes and lines were read: two numbers, each with a new line behind it.
        const r15 1             ; 1, 10 and 0 - 10
        const r14 10
        const r13 -10
more:   const r0 200
        read r0 r1 r2
        compare r2 r15
        jump_equal shown        ; no more
        add r10 r10 r0          ; r10: bytes
        const r3 0              ; r3: a place in what came
scan:   compare r3 r0
        jump_equal more
        load r4 r3
        add r3 r3 r15
        compare r4 r14
        jump_equal line
        jump scan
line:   add r11 r11 r15         ; r11: lines
        jump scan
shown:  move r5 r10
        const r9 0              ; r9: how many numbers were written
number: const r6 255            ; digits go from address 255 down
        store r14 r6
digit:  const r7 0              ; r5 = 10 * r7 + r5
tens:   compare r5 r14
        jump_less last
        add r5 r5 r13
        add r7 r7 r15
        jump tens
last:   const r8 '0'
        add r8 r8 r5
        const r12 -1
        add r6 r6 r12
        store r8 r6
        move r5 r7
        const r12 0
        compare r5 r12
        jump_equal out
        jump digit
out:    move r8 r6              ; from r6 to 255: 256 - r6 bytes
        const r7 0
        const r12 256
long:   compare r8 r12
        jump_equal put
        add r8 r8 r15
        add r7 r7 r15
        jump long
put:    write r7 r6
        compare r9 r15
        jump_equal done
        move r9 r15
        move r5 r11
        jump number
done:   const r0 0
        end r0
