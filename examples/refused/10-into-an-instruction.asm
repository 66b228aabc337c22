; Refused 10 at 2: the jump is one byte short and lands on the operand of CP.
; limits 0000-00FF 03FE-03FF
; version 1

        .area   CODE
_main::
        ld      a, 0x10
        jreq    end-1
        cp      a, 0x12
end:    ret
