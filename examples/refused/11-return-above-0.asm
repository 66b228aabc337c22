; Refused 11 at 3: RET would take the pushed byte for half of its return address.
; limits 0000-00FF 03FD-03FF
; version 1

        .area   CODE
_main::
        push    a
        ld      a, 0x10
        ret
