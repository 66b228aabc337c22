; Refused 7 at 3, where main begins: its POP is reached at depth 1 by falling and at depth 0 by the jump over the PUSH.
; limits 0000-00FF 03FC-03FF
; version 1

        .area   CODE
_level::
        ld      a, 0x10
        ret
_main::
        call    _level
        jreq    none
        push    a
none:   pop     a
        ret
