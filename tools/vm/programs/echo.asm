; What is read is written, until no more will come.
        const r4 256
again:  move r0 r4
        read r0 r1 r2           ; up to 256 bytes to address 0; r0: how many came, r2: no more
        compare r2 r3           ; r3 stays 0
        jump_equal some
        end r3
some:   write r0 r1
        jump again
