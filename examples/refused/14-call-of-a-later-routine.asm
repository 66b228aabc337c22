; Refused 14 at 0: a call goes to a routine earlier in the table, so that no routine comes to call itself.
; limits 0000-00FF 03FC-03FF
; version 1

        .area   CODE
_early::
        call    _main
        ret
_main::
        ld      a, 0x10
        ld      0x13, a
        ret
