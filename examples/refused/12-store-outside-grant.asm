; Refused 12 at 2: 0100 lies one past the grant.
; limits 0000-00FF 03FE-03FF
; version 1

        .area   CODE
_main::
        ld      a, 0x10
        ld      0x0100, a
        ret
