; Refused 4 at 0: the length list, at offset 8 of the image, says 4 bytes, and RET stands after them.
; limits 0000-00FF 03FE-03FF
; version 1
; change 8 00 04

        .area   CODE
_main::
        ld      a, 0x10
        ld      0x13, a
        ret
