; Refused 8 at 2: HALT would stop the controller too.
; limits 0000-00FF 03FE-03FF
; version 1

        .area   CODE
_main::
        ld      a, 0x10
        halt
        ret
