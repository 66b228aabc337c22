; Refused 1 at 0: eight bytes, where the limits are twelve: the second grant is not told, and no image comes after them.
; limits 0000-00FF 03FE-03FF
; version 1
; cut 8

        .area   CODE
_main::
        ld      a, 0x10
        ld      0x13, a
        ret
