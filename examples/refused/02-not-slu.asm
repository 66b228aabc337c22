; Refused 2 at 0: the three letters, with which the image begins, stand in lower case.
; limits 0000-00FF 03FE-03FF
; version 1
; change 0 73 6C 75

        .area   CODE
_main::
        ld      a, 0x10
        ld      0x13, a
        ret
