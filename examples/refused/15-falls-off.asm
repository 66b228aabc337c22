; Refused 15 at 2: RET is missing.
; limits 0000-00FF 03FE-03FF
; version 1

        .area   CODE
_main::
        ld      a, 0x10
        ld      0x13, a
