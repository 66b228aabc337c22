; Flap gate: moves each of three flaps one notch towards the position asked for, and none past its stops. It has no loop, and so a turn:
; firmware that calls it each pass has control back after 64 steps at most.
; The stack has room for three return addresses.
; limits 0000-00FF 03FA-03FF
; version 2

lowest  = 0x30          ; the stops
highest = 0x31
asked   = 0x32          ; positions asked for, one for each flap
flaps   = 0x35          ; positions of the flaps

        .area   CODE

; A, or the stop that A is past
_within::
        cp      a, lowest
        jrnc    above
        ld      a, lowest
above:  cp      a, highest
        jrule   inside
        ld      a, highest
inside: ret

; the position of the flap that X points at, one notch nearer to the position in A
_toward::
        call    _within
        cp      a, (x)
        jreq    there
        jrc     lower
        ld      a, (x)
        inc     a
        ret
lower:  ld      a, (x)
        dec     a
there:  ret

; main
_flap_gate::
        ldw     x, #flaps
        ld      a, asked
        call    _toward
        ld      flaps, a
        incw    x
        ld      a, asked+1
        call    _toward
        ld      flaps+1, a
        incw    x
        ld      a, asked+2
        call    _toward
        ld      flaps+2, a
        ret
