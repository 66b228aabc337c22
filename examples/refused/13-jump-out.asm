; Refused 13 at 2: the jump goes to 8083, far past the routine's end.
; limits 0000-00FF 03FE-03FF
; version 1

        .area   CODE
_main::
        ld      a, 0x10
        jreq    _main+0x83
        ret
